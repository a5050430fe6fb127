"""Which points lie in which zones of GeoJSON, by fractions."""

from fractions import Fraction


def parts_of(zone):
    """The polygons of a zone, as lists of rings."""
    shape = zone and (zone["geometry"] if zone["type"] == "Feature" else zone)
    if not shape:
        return []
    if shape["type"] == "GeometryCollection":
        return [part for each in shape["geometries"] for part in parts_of(each)]
    return {"Polygon": lambda it: [it] if it else [], "MultiPolygon": list}.get(shape["type"], lambda it: [])(
        shape["coordinates"])


def exact_pairs(zones, x, y, borders):
    """Each pair of a point and a zone, exactly: each polygon counts by itself, and of it how often the way to the south
    from the point crosses an edge, on all turns. A point on an edge is in the polygon if `borders` says so."""
    found = []
    for point, (longitude, latitude) in enumerate(zip(x, y)):
        for number, zone in enumerate(zones):
            if any(has_exactly(rings, longitude, latitude, borders) for rings in parts_of(zone)):
                found.append((point, number))
    return found


def has_exactly(rings, longitude, latitude, borders):
    count, is_on = 0, False
    for here in (longitude + 360.0 * turn for turn in range(-3, 4)):
        for ring in rings:
            for (a, b), (c, d) in zip(ring, ring[1:]):
                west, east = min(a, c), max(a, c)
                if not west <= here <= east or min(b, d) > latitude:
                    continue
                if west == east:
                    is_on |= latitude <= max(b, d)
                    continue
                part = (Fraction(here) - Fraction(a)) / (Fraction(c) - Fraction(a))
                height = Fraction(b) + part * (Fraction(d) - Fraction(b))
                is_on |= height == latitude
                count += west < here and height < latitude
    return borders if is_on else count % 2 == 1
