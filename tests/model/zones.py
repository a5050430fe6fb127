"""Zones on the map and points around them, and which points lie in which, by plain loops over edges."""

import numpy


def box(west, south, east, north):
    return [[west, south], [east, south], [east, north], [west, north], [west, south]]


def polygon(*rings):
    return {"type": "Polygon", "coordinates": list(rings)}


def star(random, x, y, size, count):
    """A ring around a place, whose corners are at random distances."""
    turns = numpy.linspace(0, 2 * numpy.pi, count, endpoint=False)
    corners = [[x + far * numpy.cos(turn), y + far * numpy.sin(turn)]
               for turn, far in ((turn, size * random.uniform(0.3, 1)) for turn in turns.tolist())]
    return [*corners, corners[0]]


def some_zones(random):
    """Zones that overlap, that have holes and several parts, that come twice, that lie in another, and some across the
    date line and at a pole."""
    zones = [polygon(star(random, random.uniform(-30, 30), random.uniform(-30, 30), random.uniform(1, 15),
                          random.randrange(3, 40))) for _ in range(20)]
    zones += zones[:3]
    zones.append(polygon(box(-40, -40, 40, 40), box(-20, -20, 20, 20)))
    zones.append({"type": "MultiPolygon", "coordinates": [[box(0, 0, 5, 5)], [box(6, 0, 9, 5), box(7, 1, 8, 4)]]})
    zones += [polygon(box(175, -10, 185, 10)), polygon(box(-190, -5, -179, 5)), polygon(box(-180, 80, 180, 90))]
    zones.append({"type": "Feature", "geometry": None, "properties": {}})
    return zones


def some_points(random, count):
    """Points around all zones, and beside the date line and a pole."""
    x = [random.uniform(-45, 45) for _ in range(count)] + [random.uniform(170, 190) for _ in range(count // 8)]
    y = [random.uniform(-45, 45) for _ in range(count)] + [random.uniform(-12, 12) for _ in range(count // 8)]
    few = range(count // 8)
    x += [random.uniform(-190, -170) for _ in few] + [random.uniform(-180, 180) for _ in few]
    y += [random.uniform(-12, 12) for _ in few] + [random.uniform(75, 90) for _ in few]
    return numpy.array(x), numpy.array(y)


def plain_pairs(zones, x, y):
    """Each pair of a point and a zone, by the edges to the north of the point, whatever turn it is given at."""
    found = set()
    for number, zone in enumerate(zones):
        shape = zone["geometry"] if zone["type"] == "Feature" else zone
        parts = [] if shape is None else shape["coordinates"]
        inside = numpy.zeros(len(x), bool)
        for rings in parts if shape and shape["type"] == "MultiPolygon" else [parts]:
            for turn in (-360, 0, 360):
                odd = numpy.zeros(len(x), bool)
                for ring in rings:
                    for (a, b), (c, d) in zip(ring, ring[1:]):
                        if a != c:
                            crosses = (min(a, c) <= x + turn) & (x + turn < max(a, c))
                            odd ^= crosses & (b + (x + turn - a) / (c - a) * (d - b) > y)
                inside |= odd
        found |= {(point, number) for point in numpy.flatnonzero(inside).tolist()}
    return found
