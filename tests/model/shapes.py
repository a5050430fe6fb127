#!/usr/bin/env python3
"""Prints shapes in degrees with the coverings that the module for Python makes of them, for other bindings.

A line is a call, its arguments and its answers, with tabs between them. Bytes and cells are in hexadecimal, and numbers
that may have a fraction are the bytes of doubles, the highest first. A shape of rings has blanks between them: each is
the number of its polygon, or '-' for a line or a point, a colon, and its positions. Options are the most cells, the
least and the deepest level, edges, a margin, and how many meters coverings may go beyond a shape, 0 for any number. The
answers of 'rings', 'wkb', 'circle' and 'box' are the cells of the outer and the inner covering, or '!' and the name of
an error, with the ring and the position or the byte if it has a place. 'holds' has no answer: the first places lie in
the shape, and the others outside. 'zones' has zones with '|' between them, each a shape, 'wkb:' and bytes, or 'box:'
and four numbers; then 1 if places on borders are in them, and longitudes and latitudes of places. Its answer is each
pair of a place and a zone that has it, of model/pairs.py, or the error of the last zone or of the places. An outline
has its polygons as a shape, and a boundary its lines. 'neighbors',
'edge_neighbors', 'vertex_neighbors' and 'expanded' take cells, and all but the second a level; 'bounds' answers four
numbers, or 'none', and 'area' one.
"""

import contextlib
import io
import math
import struct
from random import Random

from s2union import CellUnion, OutOfRangeError, TooManyCellsError, _library
from s2union_geo import area, bounds, edge_neighbors, expanded, neighbors, vertex_neighbors

from model.pairs import exact_pairs
from model.places import MIDDLES, POINTS

LINE = 2**64 - 1
MAP, GEODESIC, LEFT = range(3)
ERRORS = {-6: "many", -101: "number", -102: "few", -103: "open", -104: "pieces", -105: "outside", -106: "opposite",
          -108: "wkb", -109: "type", -110: "srid", -111: "deep"}
WITHOUT_PLACE = "many", "pieces", "outside"
random = Random(20261129)
in_wkb = []  # each shape that was asked for


def say(call, *words):
    print(call, *words, sep="\t")


def doubles(*numbers):
    return struct.pack(f">{len(numbers)}d", *numbers).hex()


def options(most=200, least=0, deepest=30, edges=MAP, margin=0.0, within=0.0):
    return most, least, deepest, edges, margin, within


def of_library(given):
    """The options as the library takes them."""
    most, least, deepest, edges, margin, within = given
    if within:
        deepest = max(least, min(deepest, _library.level_within(within)))
    return most, least, deepest, edges, margin


def in_words(given):
    *numbers, margin, within = given
    return " ".join([*map(str, numbers), doubles(margin), doubles(within)])


def cells(data):
    return " ".join(f"{cell:x}" for cell in struct.unpack(f"={len(data) // 8}Q", data))


def answers(found):
    if len(found) == 2:
        return [cells(data) for data in found]
    status, ring, position, _ = found
    name = ERRORS[status]
    return [f"!{name}" if name in WITHOUT_PLACE else f"!{name} {position}" if status <= -108 else
            f"!{name} {ring} {position}"]


# ---- shapes: rings with the number of their polygon


def of_polygons(*polygons):
    return [(number, ring) for number, rings in enumerate(polygons) for ring in rings]


def of_lines(*lines):
    return [(LINE, line) for line in lines]


def shape_in_words(shape):
    return " ".join(f"{'-' if polygon == LINE else polygon}:{doubles(*sum(ring, ()))}" for polygon, ring in shape)


def flat(shape):
    positions = [number for _, ring in shape for place in ring for number in place]
    ends, count = [], 0
    for polygon, ring in shape:
        count += len(ring)
        ends += count, polygon
    return struct.pack(f"={len(positions)}d", *positions), struct.pack(f"={len(ends)}Q", *ends)


def wkb_of(shape, order="<"):
    """The collection of polygons with their rings, lines and points."""
    polygons = {}
    for polygon, ring in shape:
        if polygon != LINE:
            polygons.setdefault(polygon, []).append(ring)

    def head(kind, *counts):
        return bytes([order == "<"]) + struct.pack(f"{order}I{len(counts)}I", kind, *counts)

    def line(places):
        return struct.pack(f"{order}{2 * len(places)}d", *sum(places, ()))

    parts = [head(3, len(rings)) + b"".join(struct.pack(f"{order}I", len(ring)) + line(ring) for ring in rings)
             for rings in polygons.values()]
    parts += [head(1) + line(ring) if len(ring) == 1 else head(2, len(ring)) + line(ring)
              for polygon, ring in shape if polygon == LINE]
    return parts[0] if len(parts) == 1 else head(7, len(parts)) + b"".join(parts)


def cover(shape, *more, **named):
    given = options(*more, **named)
    in_wkb.append(wkb_of(shape))
    found = answers(_library.coverings(*flat(shape), of_library(given), 3))
    say("rings", shape_in_words(shape), in_words(given), *found)


def cover_wkb(data, *more, **named):
    given = options(*more, **named)
    in_wkb.append(data)
    say("wkb", data.hex(), in_words(given), *answers(_library.coverings_of_wkb(data, of_library(given), 3)))


def closed(ring):
    return [*ring, ring[0]]


def box(west, south, east, north):
    return closed([(west, south), (east, south), (east, north), (west, north)])


def star(x, y, size, count):
    turns = [2 * math.pi * k / count for k in range(count)]
    far = [size * random.uniform(0.3, 1) for _ in turns]
    return closed([(x + r * math.cos(turn), y + r * math.sin(turn)) for r, turn in zip(far, turns)])


# ---- what is covered


def triangles():
    """Triangles up to the poles, and places along their borders, to 1e-9 of their size."""
    for k in range(24):
        south = (random.uniform(0, 89.5), random.uniform(88, 89.9), random.uniform(45, 85))[k % 3]
        size = 0.25 * 10 ** random.uniform(-3 if k % 5 else -6, 0)
        south = -south - size if k % 4 > 1 else south
        west, north = random.uniform(-180, 180), max(-90, min(90, south + size))
        south = max(-90, south)
        side = north - south
        corners = [(west, south), (west + side, north if k % 2 else south), (west, north)]
        shape, given = of_polygons([closed(corners)]), options((8, 50, 200, 2000)[k % 4])
        cover(shape, given[0])
        middle = [sum(numbers) / 3 for numbers in zip(*corners)]
        inside, outside = [], []
        for n in range(100):
            a, b = corners[n % 3], corners[(n + 1) % 3]
            part, near = random.random(), 1e-9 if n % 2 else 10 ** random.uniform(-9, -1)
            at = [p + part * (q - p) for p, q in zip(a, b)]
            inside += (p + near * (m - p) for p, m in zip(at, middle))
            x, y = (p - near * (m - p) for p, m in zip(at, middle))
            outside += (x, y) if abs(y) <= 90 else ()
        say("holds", shape_in_words(shape), in_words(given), doubles(*inside), doubles(*outside))


def zones():
    """Small zones, and each option."""
    for count in (8, 15, 40):
        for k in range(10):
            zone = star(random.uniform(-179, 179), random.uniform(-80, 80), 10 ** random.uniform(-2, 0.5), count)
            cover(of_polygons([zone]), random.choice((1, 8, 50, 200)), edges=k % 3)
    zone = of_polygons([star(2, 48, 1, 12)])
    for given in (options(50, 8), options(50, 0, 9), options(50, 6, 6), options(500, margin=5000.0),
                  options(1000000, within=2000.0), options(200, 12, within=90000.0), options(30, within=1e-3),
                  options(400, 3, 12, GEODESIC, 100.0, 5000.0)):
        cover(zone, *given)
        cover_wkb(wkb_of(zone), *given)


def date_line_and_poles():
    cover(of_polygons([box(170, -5, 190, 5)]), 500)
    cover(of_polygons([box(170, -5, 180, 5)], [box(-180, -5, -170, 5)]), 500)
    cover(of_polygons([box(-190, -5, -179, 5)]))
    for south, north in ((-90, -60), (80, 90), (-90, 90), (-90, 89.999)):
        cover(of_polygons([box(-180, south, 180, north)]))
    cover(of_polygons([box(-180, -90, 180, 90), box(20, 10, 30, 20)]), 1000)
    coast = [(-180, -90), (-180, -80), (-90, -60), (0, -70), (90, -65), (180, -80), (180, -90), (50, -90)]
    cover(of_polygons([closed(coast)]))
    cover(of_polygons([closed([(45, 90), (85, 89.9999985), (205, 89.9999985), (345, 89.9999985)])]))
    cover(of_polygons([box(-10, -10, 365, 10)]), 500)


def holes_and_crossings():
    cover(of_polygons([box(-40, -40, 40, 40), box(-20, -20, 20, 20)]), 500)
    cover(of_polygons([box(0, 0, 5, 5)], [box(6, 0, 9, 5), box(7, 1, 8, 4)]), 500)
    cover(of_polygons([closed([(0, 0), (10, 10), (10, 0), (0, 10)])]), 500)
    for parts in ([box(0, 0, 10, 10), box(5, 5, 15, 15)], [box(0, 0, 10, 10)] * 2):
        cover(of_polygons(parts), 500)
        cover(of_polygons(*([part] for part in parts)), 500)
    islands = [[star(random.uniform(-20, 20), random.uniform(-20, 20), random.uniform(0.5, 5), 9)] for _ in range(25)]
    cover(of_polygons(*islands), 700)


def lines_and_points():
    line, points = [(0, 0), (10, 5), (20, 0)], [[(50, 50)], [(100, -20)]]
    for shape in (of_lines(line), of_lines(*points), of_lines(line, *points),
                  of_polygons([box(1, 1, 2, 2)]) + of_lines(line, points[0]), []):
        cover(shape)
        cover(shape, 100, margin=10000.0)
    cover(of_lines(line), 1, edges=GEODESIC)


def of_wkb():
    shapes = [of_polygons([box(2, 48, 3, 49)]), of_polygons([box(0, 0, 9, 9), box(2, 2, 4, 4)], [box(20, 0, 21, 1)]),
              of_lines([(0, 0), (10, 5)]), of_lines([(7, 7)]), of_polygons([box(1, 1, 2, 2)]) + of_lines([(5, 5)])]
    for shape in shapes:
        for order in "<>":
            cover_wkb(wkb_of(shape, order), 60)
    cover_wkb(bytes.fromhex("010700000000000000"))
    cover_wkb(struct.pack("<BIIddd", 1, 0x20000001 | 0x80000000, 4326, 7, 7, 1))  # with an SRID and a height


def circles_and_boxes():
    for k in range(24):
        y = random.uniform(-80, 80) if k % 3 else 90 - 10 ** random.uniform(-6, 1)
        given = options(random.choice((1, 20, 300)), margin=0.0 if k % 5 else 1000.0)
        place = random.uniform(-180, 180), y, 10 ** random.uniform(-1, 7.3)
        say("circle", doubles(*place), in_words(given),
            *answers(_library.coverings_of_circle(*place, of_library(given), 3)))
    for west, south, east, north in ((2, 48, 3, 49), (170, -5, -170, 5), (-180, -90, 180, 90), (0, 0, 0, 0)):
        for edges in MAP, GEODESIC:
            given, far = options(100, edges=edges), east + 360 if east < west else east
            shape = of_polygons([box(west, south, far, north)])
            say("box", doubles(west, south, east, north), in_words(given),
                *answers(_library.coverings(*flat(shape), of_library(given), 3)))


# ---- what is refused


def refusals():
    good = box(2, 48, 3, 49)
    for wrong in (math.nan, math.inf, -math.inf, 540.1, 1e300):
        for k in range(2):
            ring = list(good)
            ring[2] = (wrong, 49) if k == 0 else (3, wrong)
            cover(of_polygons([good], [good, ring]))
            cover(of_lines(good, ring))
    cover(of_polygons([good, good[:-1]]))
    for count in range(4):
        cover(of_polygons([good], [good[:count]]))
    cover(of_lines([]))
    for edges in GEODESIC, LEFT:
        cover(of_lines([(1, 0), (2, 0), (-178, 0)]), edges=edges)
    cover(of_polygons([good]), 200, 26)
    whole = wkb_of(of_polygons([good, good], [good]) + of_lines([(0, 0), (1, 1)], [(5, 5)]))
    for size in range(0, len(whole), 7):
        cover_wkb(whole[:size])
    cover_wkb(whole + b"\0")
    for data in ("02", "0108000000", "01ee030000", "0109000000", "0101000010", "010300000001000000ffffffff",
                 "0107000000ffffffff", "0101000020110f0000" + 16 * "00", 40 * "010700000001000000",
                 "0104000000010000000102000000"):
        cover_wkb(bytes.fromhex(data))
    cover_wkb(wkb_of(of_polygons([good[:-1]])))
    cover_wkb(wkb_of(of_lines([(0, math.nan), (1, 1)])))
    for given in (options(1000001), options(200, 5, 4), options(200, 31, 31), options(200, 0, 31), options(edges=3),
                  options(margin=-1.0), options(margin=300001.0), options(margin=math.nan), options(within=-1.0),
                  options(within=math.nan)):
        say("rings", shape_in_words(of_polygons([good])), in_words(given), "!option")
        say("box", doubles(2, 48, 3, 49), in_words(given), "!option")
    for place in ((541, 0, 1), (0, 91, 1), (math.nan, 0, 1)):
        say("circle", doubles(*place), in_words(options()), "!number 0 0")
    for radius in (-1.0, 20000001.0, math.nan, math.inf):
        say("circle", doubles(0, 0, radius), in_words(options()), "!option")
    say("box", doubles(0, 0, 1, math.nan), in_words(options()), "!number 0 2")
    say("box", doubles(0, 91, 1, 0), in_words(options()), "!number 0 0")
    for west, south, east, north in ((2, 49, 3, 48), (180, 90, -180, -90)):
        say("box", doubles(west, south, east, north), in_words(options()), "!argument")
    for x, y in ((541, 0), (0, 90.1), (math.nan, 0), (0, -math.inf)):
        say("leaf", doubles(x, y), "!number")


# ---- which zones have which places


def joined(zones, borders, places, answer=None):
    """Zones are shapes, bytes of WKB, or boxes; the answer is that of the polygons in them, or what is said."""
    words = [f"wkb:{zone.hex()}" if isinstance(zone, bytes) else f"box:{doubles(*zone)}" if isinstance(zone, tuple) else
             shape_in_words(zone) for zone, _ in zones]
    x, y = zip(*places) if places else ((), ())
    if answer is None:
        pairs = exact_pairs([{"type": "MultiPolygon", "coordinates": parts} for _, parts in zones], x, y, borders == 1)
        answer = " ".join(f"{place}:{zone}" for place, zone in pairs)
    say("zones", "|".join(words), borders, doubles(*x), doubles(*y), answer)


def as_zone(kind, *polygons):
    """The same polygons as rings, or as WKB."""
    shape = of_polygons(*polygons)
    return (wkb_of(shape, "<>"[kind % 2]) if kind % 3 else shape), polygons


def some_zones(kind):
    """Zones that overlap, with holes and several parts, that come twice, and across the date line and at a pole."""
    near = [as_zone(k + kind, [star(random.uniform(-9, 9), random.uniform(-9, 9), random.uniform(1, 6), 3 + k)])
            for k in range(12)]
    whole = [as_zone(kind, [box(-8, -8, 8, 8), box(-4, -4, 4, 4)]), as_zone(kind, [box(0, 0, 5, 5)], [box(2, 2, 9, 9)]),
             as_zone(kind, [box(175, -9, 185, 9)]), as_zone(kind, [box(-190, -5, -179, 5), box(-540, -1, -530, 1)]),
             as_zone(kind, [box(-180, 80, 180, 90)]), as_zone(kind, [[(0, 0), (6, 6), (6, 0), (0, 6), (0, 0)]])]
    boxes = [((170.0, -2.0, -175.0, 3.0), [[box(170, -2, 185, 3)]]), ((1.0, 1.0, 2.0, 3.0), [[box(1, 1, 2, 3)]])]
    return near + near[:2] + whole + boxes + [([], [])]


def joins():
    for kind in range(6):
        zones = some_zones(kind)
        corners = [place for _, polygons in zones for rings in polygons for ring in rings for place in ring]
        places = [random.choice(corners) for _ in range(20)]
        places += [((a + c) / 2, (b + d) / 2) for (a, b), (c, d) in zip(corners, corners[1:])][::5]
        places += [(random.uniform(-12, 12), random.uniform(-10, 10)) for _ in range(60)]
        places += [(x + 360 if x < 0 else x - 360, y) for x, y in places[::3]]
        places += [(random.uniform(165, 195), random.uniform(-12, 12)) for _ in range(20)]
        places += [(0, 90), (540, -90), (0, -0.0)]
        joined(zones, kind % 2, places)
    joined([], 1, [(1, 2)])
    joined([as_zone(0, [box(0, 0, 1, 1)])], 1, [])
    line = of_lines([(0, 0), (4, 4)], [(7, 7)])
    for borders, answer in enumerate(("", "0:0 0:1 2:0 2:1")):
        joined([(line, []), (wkb_of(line), [])], borders, [(2, 2), (2, 2.5), (7, 7)], answer)
    good, wrong = as_zone(0, [box(0, 0, 1, 1)]), of_polygons([box(0, 0, 1, 1)], [box(0, 0, 1, 1)[:4]])
    joined([good, (wrong, [])], 1, [(0, 0)], "!open 1 3")
    joined([good, (wkb_of(wrong), [])], 1, [(0, 0)], "!open 1 4")
    joined([good, (b"\1\3\0\0\0", [])], 1, [(0, 0)], "!wkb 5")
    joined([good, (of_lines([(0, 0), (541, 0)]), [])], 1, [(0, 0)], "!number 0 1")
    joined([good, ((0.0, 1.0, 1.0, 0.0), [])], 1, [(0, 0)], "!argument")
    for place in ((541, 0), (0, 90.5), (math.nan, 0), (0, math.inf)):
        joined([good], 0, [(0, 0), place], "!number 1")


# ---- places, and back to the map


def whole(token):
    return token.ljust(16, "0").lstrip("0")


def places():
    for longitude, latitude, token in POINTS:
        say("leaf", doubles(longitude, latitude), whole(token))
    for token, *_ in MIDDLES:
        middle = _library.middles(struct.pack("=Q", int(whole(token), 16)))
        say("middle", whole(token), doubles(*struct.unpack("=2d", middle)))


def outlines():
    unions = [b"", struct.pack("=Q", 1 << 60), struct.pack("=2Q", 3 << 60, 5 << 60)]
    for shape in (of_polygons([star(10, 10, 5, 9)]), of_polygons([box(-40, -40, 40, 40), box(-20, -20, 20, 20)]),
                  of_polygons([box(170, -5, 190, 5)]), of_polygons([box(-180, 80, 180, 90)])):
        unions.append(_library.coverings(*flat(shape), of_library(options(40)), 1)[0])
    for union in unions:
        for call in "outline", "boundary":
            positions, ring_ends, polygon_ends = getattr(_library, call)(union)
            numbers = struct.unpack(f"={len(positions) // 8}d", positions)
            ends = [0, *struct.unpack(f"={len(ring_ends) // 8}Q", ring_ends)]
            polygons = struct.unpack(f"={len(polygon_ends) // 8}Q", polygon_ends)
            shape = [(sum(end <= ring for end in polygons) if polygons else LINE,
                      list(zip(numbers[2 * begin:2 * end:2], numbers[2 * begin + 1:2 * end:2])))
                     for ring, (begin, end) in enumerate(zip(ends, ends[1:]))]
            say(call, cells(union), shape_in_words(shape))


# ---- what is around


def around():
    """Cells at corners and edges of faces, at poles and elsewhere, of each kind of level; and unions of them."""
    ends = [face << 61 | place for face in range(6) for place in (1, (1 << 61) - 1, 1 << 60, 0x0955555555555555)]
    cells_of_levels = [(leaf & -(1 << bit)) | 1 << bit for leaf in ends for bit in (0, 2, 20, 40, 58, 60)]
    for cell in dict.fromkeys(cells_of_levels):
        own = _library.level(cell)
        say("edge_neighbors", f"{cell:x}", in_hex(edge_neighbors(cell)))
        for level in {own - 1, own, own + 2, 31, 0} - {-1}:
            say("neighbors", f"{cell:x}", level, answered(neighbors, cell, level))
            say("vertex_neighbors", f"{cell:x}", level, answered(vertex_neighbors, cell, level))
    say("neighbors", f"{1 << 60:x}", 18, answered(neighbors, 1 << 60, 18))
    unions = [CellUnion([1 << 60]).complement(), CellUnion([cell for cell in cells_of_levels if cell >> 61 == 3])]
    unions += [CellUnion(random.sample(cells_of_levels, count)) for count in (0, 1, 1, 2, 3, 5, 9) * 4]
    for union in unions:
        say("bounds", in_hex(union), doubles(*bounds(union)) if union else "none")
        say("area", in_hex(union), doubles(area(union)))
        for level in (0, random.randint(1, 9), 30 if len(union) < 3 else 10, 31):
            say("expanded", in_hex(union), level, answered(expanded, union, level))


def in_hex(ids):
    return " ".join(f"{cell:x}" for cell in ids)


def answered(call, *words):
    """The cells that a call answers, or the name of its error."""
    try:
        return in_hex(call(*words))
    except OutOfRangeError:
        return "!argument"
    except TooManyCellsError:
        return "!many"


def say_all():
    for part in (places, triangles, zones, date_line_and_poles, holes_and_crossings, lines_and_points, of_wkb,
                 circles_and_boxes, refusals, joins, outlines, around):
        part()


def shapes_in_wkb():
    """Each shape once, and the bytes that are none, without what is said of them: for databases."""
    with contextlib.redirect_stdout(io.StringIO()):
        say_all()
    return list(dict.fromkeys(in_wkb))


if __name__ == "__main__":
    say_all()
