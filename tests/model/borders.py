"""Triangles whose long edge goes along both axes of the map, and places along their edges, of which whole numbers say
whether they lie in the triangle. They are asked of Python and JavaScript, and by tests/geo of PostGIS and GeoPandas.
Run as a program it writes them as JSON."""
import json

PARTS = 2**30  # of a degree: a place lies at whole numbers of these, which floats have exactly
NEAR = (0, 1e-9, 1e-7, 1e-5, 1e-3, 0.03)  # how far from an edge to the middle, and away from it

# West, south, width and height in degrees of the long edge, which goes to the north and east.
EDGES = [(0, 0, 0.25, 0.25), (20.125, 30, 0.25, 0.25), (0, 48, 0.25, 0.25), (0, 60, 0.25, 0.25), (0, 70, 1, 1),
         (140, 80, 0.5, 0.25), (10, 89.5, 0.25, 0.25), (10, 89.65, 0.25, 0.25), (0, 60, 2**-12, 2**-12),
         (-77, 89.9, 2**-7, 2**-12), (-60, -60.25, 0.25, 0.25), (30, -89.75, 0.25, 0.25)]
MORE_EDGES = [(0, 10, 0.25, 0.25), (0, 52, 0.25, 0.25), (0, 66, 10, 10), (170, 75, 20, 4), (5, 85, 0.1, 0.25),
              (0, 89, 30, 0.9), (0, 40, 2, 0.01), (0, 40, 0.01, 2), (0, 89.875, 2**-14, 2**-14)]


def triangles(edges=EDGES):
    """Of each edge two triangles, one to its north and one to its south: three corners each, in parts of a degree."""
    for edge in edges:
        west, south, width, height = (round(degrees * PARTS) for degrees in edge)
        start, end = (west, south), (west + width, south + height)
        yield [start, end, (west, south + height)]
        yield [start, (west + width, south), end]


def ring_of(corners):
    """A triangle in degrees, as a ring of GeoJSON."""
    return [[x / PARTS, y / PARTS] for x, y in [*corners, corners[0]]]


def side_of(place, start, end):
    """More than 0 to the left of a way, less to the right, and 0 on its line."""
    return (end[0] - start[0]) * (place[1] - start[1]) - (end[1] - start[1]) * (place[0] - start[0])


def places_of(corners, count):
    """Places along the edges of a triangle, `count` along each at each distance: longitudes and latitudes in degrees,
    and whether each lies in the triangle (1), on its border (0) or outside (-1). The corners go counterclockwise."""
    middle = [sum(axis) // 3 for axis in zip(*corners)]
    edges = list(zip(corners, corners[1:] + corners[:1]))
    found = []
    for start, end in edges:
        for k in range(1, count):
            on = [a + (b - a) * k // count for a, b in zip(start, end)]
            for near in NEAR:
                for way in (1, -1):
                    place = [a + way * round((b - a) * near) for a, b in zip(on, middle)]
                    sides = [side_of(place, *edge) for edge in edges]
                    found.append((place[0] / PARTS, place[1] / PARTS, (min(sides) > 0) - (min(sides) < 0)))
    return [list(axis) for axis in zip(*found)]


if __name__ == "__main__":
    print(json.dumps([[ring_of(corners), list(zip(*places_of(corners, 40)))] for corners in triangles()]))
