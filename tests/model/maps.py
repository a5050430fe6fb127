#!/usr/bin/env python3
"""Prints texts of GeoJSON and bytes of WKB with the coverings that the library makes of them, for the tests of all
languages. With --compared, as the part `c` has it, each is first compared with a plain reader, and with plain places
here, or with those of model.geodesics; the lines are the same.

A line is the name of a call, such as 'map_geojson', 'map_wkb_up_to' or 'geodesic_wkb', the bytes in hexadecimal, a
level, and a bound of work or of cells, with tabs between them, and then the cells of the outer and of the inner
covering, in hexadecimal; or an error: '!argument', '!many', or '!' and the name of a fault with its byte, part, ring
and position.
`python3 -m model.maps FILE` also compares each country of a file of GeoJSON. The library is the libs2union.so.1 that
the system finds.
"""
import ctypes
import functools
import json
import math
import os
import re
import struct
import sys
from fractions import Fraction
from pathlib import Path
from random import Random
from typing import NamedTuple

from model import geodesics
from model.calculator import leaf_at

CRATES = Path(__file__).resolve().parents[2] / "crates"
TABLE = CRATES / "test_library" / "stdin"
HEADER = CRATES / "s2union_c" / "include" / "s2union.h"
NAMES = ("truncated trailing order type uncovered srid member deep count few open not_finite utf8 json twice no_type "
         "missing position range no_inside no_map long_edge spread").split()
KINDS = "point", "line", "polygon"
STATUSES = {-5: "!argument", -6: "!many"}
WORK = 1 << 28
CELLS = 20_000
MOST_FEW = 10_000  # more cells count as that many
TURN, QUARTER = 360 * 10**15, 90 * 10**15
random, places = Random(20261201), Random(20261203)  # of what is asked, and of where it is compared

# ---- a plain reader


class Wrong(Exception):
    """The first fault: its name, and how many bytes, parts, rings and positions come before it."""


class Read:
    """What was read: parts with their kinds and rings. Of bytes `at` says how many come before what is next."""

    def __init__(self, data=b""):
        self.data, self.at = data, 0
        self.parts, self.rings, self.ring = [], [], []
        self.ended = 0  # rings of parts that have ended

    def fault(self, name):
        return Wrong(name, self.at, len(self.parts), self.ended + len(self.rings), len(self.ring))

    def add(self, longitude, latitude):
        if not abs(longitude) <= 540 or not abs(latitude) <= 90:
            raise self.fault("range")
        self.ring.append((longitude, latitude))

    def end_ring(self, is_closed=False):
        if is_closed and 0 < len(self.ring) < 4:
            raise self.fault("few")
        if is_closed and self.ring and self.ring[0] != self.ring[-1]:
            raise self.fault("open")
        self.rings += [self.ring] if self.ring else []
        self.ring = []

    def end_part(self, kind):
        self.parts.append((kind, self.rings))
        self.ended += len(self.rings)
        self.rings = []

    # ---- bytes

    def number(self, order, form, past=0):
        return struct.unpack_from(order + form, self.data, self.at + past)[0]

    @property
    def left(self):
        return len(self.data) - self.at

    def head(self):
        """The order of bytes, the number of the geometry, how many bytes a position has, and where the head ends."""
        if self.left == 0:
            raise self.fault("truncated")
        if self.data[self.at] > 1:
            raise self.fault("order")
        if self.left < 5:
            raise self.fault("truncated")
        order = "><"[self.data[self.at]]
        kind = self.number(order, "I", 1)
        flags, thousands, plain = kind >> 28, kind % 2**28 // 1000, kind % 2**28 % 1000
        if flags & 1 or thousands > 3 or plain == 0 or plain > 17:
            raise self.fault("type")
        if plain > 7:
            raise self.fault("uncovered")
        if flags & 2 and self.left < 9:
            raise self.fault("truncated")
        if flags & 2 and self.number(order, "I", 5) not in (0, 4326):
            raise self.fault("srid")
        dimensions = 2 + bool(flags & 8 or thousands in (1, 3)) + bool(flags & 4 or thousands in (2, 3))
        return order, plain, 8 * dimensions, self.at + (9 if flags & 2 else 5)

    def count(self, order, least):
        if self.left < 4:
            raise self.fault("truncated")
        count = self.number(order, "I")
        if count * least > self.left - 4:
            raise self.fault("count")
        self.at += 4
        return range(count)

    def position(self, order, size, may_be_empty=False):
        if self.left < size:
            raise self.fault("truncated")
        longitude, latitude = self.number(order, "d"), self.number(order, "d", 8)
        if not (may_be_empty and math.isnan(longitude) and math.isnan(latitude)):
            if not math.isfinite(longitude) or not math.isfinite(latitude):
                raise self.fault("not_finite")
            self.add(longitude, latitude)
        self.at += size

    def positions(self, order, size):
        for _ in self.count(order, size):
            self.position(order, size)

    def geometry(self, depth=0, only=None):
        order, plain, size, end = self.head()
        if only and plain != only:
            raise self.fault("member")
        if depth > 32:
            raise self.fault("deep")
        self.at = end
        if plain > 3:
            for _ in self.count(order, 9):
                self.geometry(depth + 1, plain - 3 if plain < 7 else None)
            return
        if plain == 1:
            self.position(order, size, True)
            self.end_ring()
        elif plain == 2:
            self.positions(order, size)
            self.end_ring()
        else:
            for _ in self.count(order, 4):
                self.positions(order, size)
                self.end_ring(True)
        self.end_part(KINDS[plain - 1])

    # ---- values of JSON

    def place(self, value):
        pair = value[:2] if isinstance(value, list) else []
        if len(pair) < 2 or not all(isinstance(number, float) for number in pair):
            raise self.fault("position")
        self.add(*pair)

    def each(self, value, step):
        if not isinstance(value, list):
            raise self.fault("missing")
        for item in value:
            step(item)

    def line(self, value, is_closed=False):
        self.each(value, self.place)
        self.end_ring(is_closed)

    def one(self, kind, value):
        if kind == "polygon":
            self.each(value, lambda ring: self.line(ring, True))
        elif kind == "line":
            self.line(value)
        elif value != []:
            self.each(value, lambda _: None)  # a list
            self.place(value)
            self.end_ring()
        self.end_part(kind)

    def object(self, value, depth=0):
        name = value.get("type") if isinstance(value, dict) else None
        if not isinstance(name, str):
            raise self.fault("no_type")
        kinds = dict(zip(("Point", "LineString", "Polygon"), KINDS))
        members = {"GeometryCollection": "geometries", "FeatureCollection": "features"}
        many = name.removeprefix("Multi") if name.startswith("Multi") else None
        if not (name in kinds or name in members or name == "Feature" or many in kinds):
            raise self.fault("uncovered")
        if depth > 32:
            raise self.fault("deep")
        if name == "Feature":
            if value.get("geometry") is not None:
                self.object(value["geometry"], depth + 1)
        elif name in members:
            self.each(value.get(members[name]), lambda member: self.object(member, depth + 1))
        elif many in kinds:
            self.each(value.get("coordinates"), lambda own: self.one(kinds[many], own))
        elif "coordinates" not in value:
            raise self.fault("missing")
        else:
            self.one(kinds[name], value["coordinates"])


def members_of(pairs):
    if len(dict(pairs)) < len(pairs):
        raise LookupError
    return dict(pairs)


def deepest(text):
    """How many lists and objects of a text of JSON lie in each other."""
    depth = most = 0
    for mark in re.findall(r'"(?:[^"\\]|\\.)*"|[][{}]', text):
        depth += (mark in "[{") - (mark in "]}")
        most = max(most, depth)
    return most


def value_of(text):
    """The value of a text of JSON, in which all numbers are doubles and no object has a member twice."""
    def refuse(_):
        raise ValueError

    return of_text(json.loads(text, parse_int=float, parse_constant=refuse, object_pairs_hook=members_of))


def of_text(value):
    """The same value, if its texts can be written in UTF-8; half of a pair of surrogates, which can't, is an error."""
    json.dumps(value, ensure_ascii=False).encode()
    return value


def read_geojson(data):
    read = Read()
    try:
        text = data.decode("utf-8")
    except UnicodeDecodeError:
        raise read.fault("utf8") from None
    try:
        if deepest(text) > 128 or text.startswith("\ufeff"):
            raise ValueError
        value = value_of(text)
    except LookupError:
        raise read.fault("twice" if is_json(text) else "json") from None
    except ValueError:
        raise read.fault("json") from None
    read.object(value)
    return read.parts


def is_json(text):
    try:
        of_text(json.loads(text))
    except ValueError:
        return False
    return True


def read_wkb(data):
    read = Read(data)
    read.geometry()
    if read.left:
        raise read.fault("trailing")
    return read.parts


def polygons_of(call, data):
    """The polygons that the bytes stand for, each with its rings, or their fault."""
    parts = (read_wkb if "wkb" in call else read_geojson)(data)
    for number, (kind, _) in enumerate(parts):
        if kind != "polygon":
            raise Wrong("no_inside", 0, number, 0, 0)
    return [rings for _, rings in parts]


# ---- plain places


def femtodegrees(degrees):
    """The whole number that is nearest, half away from zero."""
    exact = abs(Fraction(degrees)) * 10**15
    return int(math.copysign(1, degrees)) * math.floor(exact + Fraction(1, 2))


def edges_of(rings):
    places = [[tuple(map(femtodegrees, place)) for place in ring] for ring in rings]
    return [(a, b) for ring in places for a, b in zip(ring, ring[1:])]


def passes_north(place, a, b):
    (x, y), wide = place, b[0] - a[0]
    if (a[0] <= x) == (b[0] <= x):
        return False
    north = (a[1] - y) * wide + (x - a[0]) * (b[1] - a[1])  # of the place where the edge passes, times its width
    return north * wide > 0


def is_inside(polygons, place):
    """Whether an odd number of some polygon's edges pass north of a place, counted on all turns."""
    def passes(a, b):
        return sum(passes_north((place[0] - turn * TURN, place[1]), a, b) for turn in range(-3, 4))

    return any(sum(passes(a, b) for a, b in edges) % 2 for edges in polygons)


def leaf_of(longitude, latitude):
    """The leaf at a place in degrees. Of a place on a border of leaves it may be another one beside it."""
    x, y = math.radians(longitude), math.radians(latitude)
    point = math.cos(x) * math.cos(y), math.sin(x) * math.cos(y), math.sin(y)
    axis = max(range(3), key=lambda k: abs(point[k]))
    face = axis + 3 * (point[axis] < 0)
    x, y, z = point
    u, v = ((y / x, z / x), (-x / y, z / y), (-x / z, -y / z), (z / x, y / x), (z / y, -x / y), (-y / z, -x / z))[face]

    def along(w):
        far = (math.sqrt(1 + 3 * abs(w)) / 2) * 2**30
        return min(2**30 - 1, int(far if w >= 0 else 2**30 - far))

    return 2 * leaf_at(face, along(u), along(v))[1] + 1


def some_places(polygons):
    """Places at the corners and edges, a little beside them, and anywhere."""
    edges = [edge for own in polygons for edge in own]
    for _ in range(200 if edges else 0):
        a, b = places.choice(edges)
        part, near = Fraction(places.randrange(101), 100), 10 ** places.randrange(9, 17)
        yield tuple(int(p + part * (q - p)) + places.randrange(-near, near + 1) for p, q in zip(a, b))
    for _ in range(100):
        yield places.randrange(-TURN, TURN), places.randrange(-QUARTER, QUARTER)


def has(cells, leaf):
    return any(abs(leaf - cell) <= (cell & -cell) - 1 for cell in cells)


def is_near(polygons, place, level):
    """Whether a place is as near to an edge as cells of a level that meet one are wide, and somewhat more."""
    if abs(place[1]) > 75 * 10**15 or level < 4:
        return True
    wide = 280 * 10**15 / 2**level
    scale = math.cos(math.radians(place[1] / 10**15))

    def is_by(a, b, turn):
        (x0, y0), (x1, y1) = (((end[0] + turn * TURN - place[0]) * scale, end[1] - place[1]) for end in (a, b))
        long = (x1 - x0) ** 2 + (y1 - y0) ** 2
        part = max(0, min(1, -(x0 * (x1 - x0) + y0 * (y1 - y0)) / long)) if long else 0
        return math.hypot(x0 + part * (x1 - x0), y0 + part * (y1 - y0)) <= wide

    return any(is_by(a, b, turn) for edges in polygons for a, b in edges for turn in range(-3, 4))


def level_of(cell):
    """The level of a cell."""
    return 30 - ((cell & -cell).bit_length() - 1) // 2


def compare_few(rings_of_each, deepest, most, outer, inner):
    """What is wrong with two coverings by few cells. Where there may be many, they are as those of one level."""
    counted = min(most, MOST_FEW)
    if len(outer) > max(counted, 6) or len(inner) > counted:
        yield f"{len(outer)} cells, and {len(inner)}"
    if any(level_of(cell) > deepest for cell in outer + inner):
        yield "a cell is deeper"
    yield from compare(rings_of_each, deepest if most > MOST_FEW else 0, outer, inner)


def compare(rings_of_each, level, outer, inner):
    """What is wrong with two coverings, place by place."""
    polygons = [edges_of(rings) for rings in rings_of_each]
    for place in some_places(polygons):
        if abs(place[1]) >= QUARTER:
            continue
        leaf = leaf_of(place[0] / 10**15, place[1] / 10**15)
        inside, in_outer, in_inner = is_inside(polygons, place), has(outer, leaf), has(inner, leaf)
        is_right = (in_outer or not inside) and (inside or not in_inner) and (in_outer or not in_inner)
        if not is_right or (in_outer and not in_inner and not is_near(polygons, place, level)):
            yield f"place {place}: inside {inside}, outer {in_outer}, inner {in_inner}"


# ---- the library


class Fault(ctypes.Structure):
    _fields_ = [(name, ctypes.c_size_t) for name in ("name", "byte", "part", "ring", "position")]


def answer_of(library, call, data, level, most, room=1 << 16):
    """The status, the cells of both coverings, and the fault."""
    out = (ctypes.c_uint64 * room)()
    count, outer, fault = ctypes.c_size_t(), ctypes.c_size_t(), Fault()
    status = getattr(library, f"s2u_{call}")(
        data, ctypes.c_size_t(len(data)), ctypes.c_uint32(level), ctypes.c_uint64(most), out, ctypes.c_size_t(room),
        ctypes.byref(count), ctypes.byref(outer), ctypes.byref(fault))
    if status == -1:
        return answer_of(library, call, data, level, most, count.value)
    return status, list(out[:outer.value]), list(out[outer.value:count.value]), fault


def is_wanted(call, told, wanted, polygons):
    """Whether a fault, or none, is that of a shape: the first of its text, or else one of its geodesic edges."""
    if wanted or told is None or not call.startswith("geodesic"):
        return told == wanted and (wanted or not call.startswith("geodesic") or geodesics.first_fault(polygons, None))
    name, byte, part, ring, position = told
    return (byte, ring, position) == (0, 0, 0) and geodesics.first_fault(polygons, (name, part))


def differences(call, data, level, most, told, outer, inner):
    """What is wrong with a fault, or with two coverings if there is none, by the plain reader and plain places."""
    try:
        polygons, wanted = polygons_of(call, data), None
    except Wrong as wrong:
        polygons, wanted = [], wrong.args
    if call.endswith("up_to"):
        judged = compare_few([] if told else polygons, level, most, outer, inner)
    else:
        judge = geodesics.compare if call.startswith("geodesic") else compare
        judged = judge([] if told else polygons, level, outer, inner)
    if call.startswith("geodesic") and max(len(outer), len(inner)) > most:
        judged = [*judged, f"{len(outer)} and {len(inner)} cells, where {most} are allowed"]
    wrong = [] if is_wanted(call, told, wanted, polygons) else [f"{told}, not {wanted}"]
    return [*wrong, *judged]


def found(library, is_compared, call, data, level, most):
    """The words of the answer; if it is compared, once it is right."""
    status, outer, inner, fault = answer_of(library, call, data, level, most)
    if status in STATUSES:
        return [STATUSES[status]]
    told = (NAMES[fault.name - 1], fault.byte, fault.part, fault.ring, fault.position) if status == -16 else None
    wrong = differences(call, data, level, most, told, outer, inner) if is_compared else []
    if wrong or status not in (0, -16):
        sys.exit(f"{call} {data[:400]} at level {level}: status {status}, {wrong[:3]}")
    return ["!" + " ".join(map(str, told))] if told else [" ".join(f"{cell:x}" for cell in own)
                                                          for own in (outer, inner)]


def say_one(answer, call, data, level, most):
    print(call, data.hex(), level, most, *answer(call, data, level, most), sep="\t")


def say(answer, form, data, level, work=WORK, cells=CELLS, few=8):
    for call, most in ((f"map_{form}", work), (f"geodesic_{form}", cells), (f"map_{form}_up_to", few)):
        say_one(answer, call, data, level, most)


# ---- what is asked


def known():
    """The texts and the bytes of the worked rows that say what is read of them."""
    for form, words in re.findall(r"^\? (wkb|geojson|geojson-bytes)(?: (.*))?$", TABLE.read_text("utf-8"), re.M):
        yield form.partition("-")[0], words.encode() if form == "geojson" else bytes.fromhex(words)


def closed(ring):
    return [*ring, ring[0]]


def box(west, south, east, north):
    return closed([(west, south), (east, south), (east, north), (west, north)])


def star(x, y, size, count):
    turns = [2 * math.pi * k / count for k in range(count)]
    far = [size * random.uniform(0.3, 1) for _ in turns]
    return closed([(x + r * math.cos(turn), y + r * math.sin(turn)) for r, turn in zip(far, turns)])


def shapes():
    """Polygons, each a list of rings: stars and boxes, holes, bow ties, over the date line, at the poles, and tiny."""
    for k in range(24):
        yield [[star(random.uniform(-530, 530), random.uniform(-80, 80), 10 ** random.uniform(-4, 1), 3 + k)]]
    yield []
    yield [[]]
    yield [[[]]]
    yield [[box(0, 0, 20, 20)]]
    yield [[box(-40, -40, 40, 40), box(-20, -20, 20, 20)[::-1], box(-1, -1, 1, 1)]]
    yield [[closed([(0, 0), (10, 10), (10, 0), (0, 10)])], [box(5, 5, 9, 30), box(6, 6, 8, 8)]]
    yield [[box(0, 0, 10, 10), box(5, 5, 15, 15)], [box(0, 0, 10, 10)], [box(0, 0, 10, 10)]]
    yield [[box(170, -5, 190, 5)], [box(-190, -9, -179, 0)], [box(170, 20, 180, 25)], [box(-180, 20, -170, 25)]]
    yield [[box(-180, -90, 180, 90), box(20, 10, 30, 20)]]
    yield [[box(-180, 80, 180, 90)], [box(-180, -90, 180, -60)]]
    yield [[box(-540, -10, 540, 10)]]
    yield [[closed([(-180, -90), (-180, -80), (-90, -60), (0, -70), (90, -65), (180, -80), (180, -90), (50, -90)])]]
    yield [[closed([(45, 90), (85, 89.9999985), (205, 89.9999985), (345, 89.9999985)])]]
    yield [[closed([(2, 48), (2.000000000000004, 48), (2, 48.00000000000001)])]]


def wkb_of(polygons, order="<"):
    """The collection of polygons, each with its rings."""
    def head(kind, count):
        return bytes([order == "<"]) + struct.pack(f"{order}II", kind, count)

    parts = [head(3, len(rings)) + b"".join(
        struct.pack(f"{order}I{2 * len(ring)}d", len(ring), *sum(ring, ())) for ring in rings) for rings in polygons]
    return parts[0] if len(parts) == 1 else head(6, len(parts)) + b"".join(parts)


def geojson_of(polygons):
    geometry = {"type": "MultiPolygon", "coordinates": polygons}
    if len(polygons) == 1:
        geometry = {"type": "Polygon", "coordinates": polygons[0]}
    return json.dumps(random.choice([geometry, {"type": "Feature", "properties": {"a": None}, "geometry": geometry}]))


def mutated(data):
    """The same bytes with one or two of them changed, cut out or twice."""
    own = bytearray(data)
    for _ in range(random.randrange(1, 3)):
        at = random.randrange(len(own) + 1)
        own[at:at + random.randrange(3)] = random.choice([b"", own[at:at + 4], random.choice(
            [b",", b"[", b"]", b"}", b"9", b"-", b"e", b'"', b"\xff", b"\0", b"\1", b"\7"])])
    return bytes(own)


def rows(answer):
    for k, (call, data) in enumerate(known()):
        say(answer, call, data, k % 7)
    own = list(shapes())
    for k, polygons in enumerate(own):
        for call, data in (("wkb", wkb_of(polygons, "<>"[k % 2])), ("geojson", geojson_of(polygons).encode())):
            say(answer, call, data, (0, 3, 5, 6, 7)[k % 5])
            say(answer, call, data, 5, 10 ** (k % 7), 3 ** (k % 7), 10**6)
            say(answer, call, data, 31)
            say_one(answer, f"map_{call}_up_to", data, 30, (0, 1, 6, 20, 100, 1000)[k % 6])
    say(answer, "geojson", geojson_of([[star(2, 48, 0.001, 12)]]).encode(), 18)
    for _ in range(400):
        polygons = random.choice([each for each in own if each and each[0]])
        data = random.choice([wkb_of(polygons), geojson_of(polygons).encode()])
        say(answer, "wkb" if data[0] < 2 else "geojson", mutated(data), random.randrange(5))
    for ring in ([(-80, 1), (80, 1), (0, 50)], [(0, 0), (120, 0), (-120, 0)], [(-60, 9), (60, 9), (0, 80)]):
        say(answer, "geojson", geojson_of([[box(0, 0, 9, 9)], [closed(ring)]]).encode(), 4)


# ---- what databases are asked, whose bounds are always the usual ones

USUAL = {"map": WORK, "geodesic": 10**6}


class Asked(NamedTuple):
    """What edges are, "map" or "geodesic", a text or bytes, a level and maybe a number of few cells, and the cells of
    both coverings, or what an error says after the database's name."""

    edges: str
    form: str
    data: bytes
    numbers: tuple
    outer: list
    inner: list
    error: str


def asked():
    """What the file asks that S2UNION_MAPS names, without what takes more than a bound that is less than the usual."""
    texts = dict(re.findall(r'case S2U_FAULT_(\w+):\s+return "(.*?)";', HEADER.read_text("utf-8")))
    for line in Path(os.environ["S2UNION_MAPS"]).read_text("utf-8").splitlines():
        call, data, level, most, *answer = line.split("\t")
        edges, form, *few = call.split("_", 2)
        if not few and int(most) < USUAL[edges] and answer == ["!many"]:
            continue
        numbers = (int(level), int(most)) if few else (int(level),)
        cells, error = [[int(cell, 16) for cell in words.split()] for words in answer if words[:1] != "!"], ""
        if answer[0] == "!argument":
            error = "argument out of range"
        elif answer[0][:1] == "!":
            name, *places = answer[0][1:].split()
            error = f"{texts[name.upper()]}: byte {places[0]}, part {places[1]}, ring {places[2]}, position {places[3]}"
        yield Asked(edges, form, bytes.fromhex(data), numbers, *(cells or [[], []]), error)


def main(*files):
    library = ctypes.CDLL("libs2union.so.1")
    if files in ((), ("--compared",)):
        return rows(functools.partial(found, library, bool(files)))
    for file in files:
        features = json.loads(Path(file).read_text("utf-8"))["features"]
        for feature in features:
            for call, data in (("geojson", json.dumps(feature).encode()),
                               ("wkb", wkb_of(polygons_of("geojson", json.dumps(feature).encode())))):
                found(library, True, f"map_{call}", data, 8, WORK)
                found(library, True, f"geodesic_{call}", data, 8, CELLS)
        print(f"{4 * len(features)} passed, 0 failed")


if __name__ == "__main__":
    main(*sys.argv[1:])
