#!/usr/bin/env python3
"""Prints texts of GeoJSON and bytes of WKB with the shape that each stands for, or its first fault, for the tests of
all languages. First it compares each answer of the library with that of a plain reader.

A line is 'geojson' or 'wkb', the bytes in hexadecimal, and the rings, lines and points with tabs between them: the
number of its polygon or '-', a colon, and longitudes and latitudes with commas between them. Or an error: '!' and the
name of a fault with its byte, part, ring and position. The library is the libs2union.so.1 that the system finds.
"""
import ctypes
import struct
import sys

from model import maps
from model.maps import NAMES, Fault, Wrong, random

NO_POLYGON = 2**64 - 1

# ---- what is read


class Place(ctypes.Structure):
    _fields_ = [("longitude", ctypes.c_double), ("latitude", ctypes.c_double)]


class Ring(ctypes.Structure):
    _fields_ = [("end", ctypes.c_uint64), ("polygon", ctypes.c_uint64)]


def plainly(form, data):
    """The rings of a shape, each with its polygon and its positions; or its fault."""
    try:
        parts = (maps.read_wkb if form == "wkb" else maps.read_geojson)(data)
    except Wrong as wrong:
        return "!" + " ".join(map(str, wrong.args))
    return [(number if kind == "polygon" else NO_POLYGON, ring) for number, (kind, rings) in enumerate(parts)
            for ring in rings]


def by_library(library, form, data):
    room = len(data) // (16 if form == "wkb" else 5)  # S2U_MOST_SHAPE_..
    places, rings, fault = (Place * room)(), (Ring * room)(), Fault()
    count, ends = ctypes.c_size_t(), ctypes.c_size_t()
    status = getattr(library, f"s2u_shape_{form}")(
        data, ctypes.c_size_t(len(data)), places, ctypes.c_size_t(room), ctypes.byref(count), rings,
        ctypes.c_size_t(room), ctypes.byref(ends), ctypes.byref(fault))
    if status == -16:
        return f"!{NAMES[fault.name - 1]} {fault.byte} {fault.part} {fault.ring} {fault.position}"
    if status != 0:
        return f"status {status}"
    begins = [0, *(ring.end for ring in rings[:ends.value])]
    return [(ring.polygon, [(at.longitude, at.latitude) for at in places[begin:ring.end]])
            for begin, ring in zip(begins, rings[:ends.value])]


def words_of(answer):
    """The words of an answer, in which a number is as Python writes it, so that no bit of it is lost."""
    if isinstance(answer, str):
        return [answer]
    return [f"{'-' if polygon == NO_POLYGON else polygon}:" + ",".join(repr(number) for at in ring for number in at)
            for polygon, ring in answer]


def say(library, form, data):
    wanted, found = words_of(plainly(form, data)), words_of(by_library(library, form, data))
    if wanted != found:
        sys.exit(f"{form} {data[:400]}: {found[:3]}, not {wanted[:3]}")
    print(form, data.hex(), *wanted, sep="\t")


# ---- what is asked

RING = "[[0,0],[9,0],[0,9],[0,0]]"


def oddities():
    """Texts that readers have read in different ways, or not at all, or not soon."""
    for coordinates in ("[]", "[1,2]", "[1,2,3]", '[1,2,"up"]', "[1,2,null,[]]", "[1]", '["1","2"]', "[null,2]", "null",
                        "{}", "7", "[[1,2]]", "[1e400,0]", "[-1e400,0]", "[540,90]", "[540.0000000000001,90]",
                        "[-540,-90.00000000000001]", "[-0.0,-0]", "[1E2,1e-2]", "[12345678901234567890e-18,0.1]",
                        "[0.1,0.30000000000000004]", "[1e-400,2.2250738585072011e-308]", "[01,2]", "[+1,2]", "[.5,2]",
                        "[1.,2]", "[NaN,0]", "[Infinity,0]", "[1,2,NaN]", "[1,2,]", "[1 2]"):
        yield f'{{"type":"Point","coordinates":{coordinates}}}'
    for coordinates in ("[]", "[[]]", "[[1,2]]", "[[1,2],[3,4]]", "[[1,2],[3]]", "[[1,2],null]", "[1,2]", "null"):
        yield f'{{"type":"LineString","coordinates":{coordinates}}}'
        yield f'{{"type":"MultiPoint","coordinates":{coordinates}}}'
        yield f'{{"type":"MultiLineString","coordinates":[{coordinates},[[5,6],[7,8]]]}}'
    for rings in ("", "[]", f"[],{RING}", f"{RING},[]", f"{RING},{RING}", "[[0,0],[9,0],[0,0]]",
                  "[[0,0],[9,0],[0,9],[0,1e-300]]", "[[0,0],[9,0],[0,9],[-0.0,0]]", "null",
                  "[[0,0,1],[9,0,2],[0,9],[0,0]]"):
        yield f'{{"type":"Polygon","coordinates":[{rings}]}}'
        yield f'{{"type":"MultiPolygon","coordinates":[[{RING}],[{rings}],[],[{RING}]]}}'
    point, square = '{"type":"Point","coordinates":[1,2]}', f'{{"type":"Polygon","coordinates":[{RING}]}}'
    feature = f'{{"type":"Feature","properties":null,"geometry":{square}}}'
    for name, others in (("geometries", "GeometryCollection"), ("features", "FeatureCollection")):
        for own in ("", point, f"{point},{square},{point},{square}", feature, f"{feature},{point}", "null", "[]", "7"):
            yield f'{{"type":"{others}","{name}":[{own}]}}'
        yield f'{{"type":"{others}"}}'
        yield f'{{"type":"{others}","{name}":null}}'
        yield f'{{"type":"{others}","{name}":{point}}}'
    yield from ('{"type":"Feature","geometry":null}', '{"type":"Feature"}', '{"type":"Feature","geometry":7}',
                f'{{"type":"Feature","geometry":{feature}}}', f'{{"type":"Feature","geometry":[{point}]}}')
    for text in ("", " ", "null", "7", '"Point"', "[]", f"[{point}]", "{}", "{", point + "}", point + point,
                 f"\ufeff{point}", f" \t\r\n{point}\n", '{"type":null}', '{"type":7}',
                 '{"type":"point","coordinates":[1,2]}',
                 '{"type":"CircularString","coordinates":[]}', '{"type":"Point"}', '{"type":"MultiPolygon"}',
                 '{"coordinates":[1,2]}', '{"\\u0074ype":"Poin\\u0074","coordinates":[1,2]}',
                 '{"Type":"Point","type":"LineString","coordinates":[[1,2],[3,4]]}',
                 '{"type":"Point","type":"Point","coordinates":[1,2]}',
                 '{"type":"Point","coordinates":[1,2],"coordinates":[3,4]}',
                 '{"type":"Point","coordinates":[1,2],"a":{"b":1,"b":2}}',
                 '{"type":"Point","coordinates":[1,2],"a":1,"\\u0061":2}',
                 '{"type":"Point","coordinates":[1,2],"bbox":[[[]]],"crs":{"type":"name"},"é":"\\ud83d\\ude00"}',
                 '{"type":"Point","coordinates":[1,2],"a":"\\ud800"}', '{"type":"Point","coordinates":[1,2],"a":"\t"}',
                 "POLYGON((0 0,1 0,0 1,0 0))", '{"type":"Point","coordinates":[1,2],}', "{'type':'Point'}",
                 '{"type":"Point","coordinates":[1,2]} // a comment'):
        yield text
    for depth in (31, 32, 33, 34):
        yield '{"type":"GeometryCollection","geometries":[' * depth + point + "]}" * depth
        yield '{"type":"Feature","geometry":' * depth + point + "}" * depth
    for depth in (126, 127, 128, 5000):
        yield f'{{"type":"Point","coordinates":[1,2],"a":{"[" * depth}{"]" * depth}}}'


def bytes_of_texts():
    """Texts of which some are no UTF-8."""
    point = b'{"type":"Point","coordinates":[1,2],"name":"%s"}'
    for name in (b"\xc3\xa9", b"\xe9", b"\xc0\x80", b"\xed\xa0\x80", b"\xf0\x9f\x98\x80", b"\xf4\x90\x80\x80", b"\xff"):
        yield point % name
    yield b"\xff\xfe" + '{"type":"Point","coordinates":[1,2]}'.encode("utf-16-le")


def head(kind, *counts):
    return b"\1" + struct.pack(f"<{1 + len(counts)}I", kind, *counts)


def wkbs():
    """Bytes of shapes whose parts differ, of empty ones, of numbers that are none, and of counts that are too great."""
    point, none = head(1) + struct.pack("<2d", 1, 2), head(1) + struct.pack("<2d", float("nan"), float("nan"))
    ring = struct.pack("<I8d", 4, 0, 0, 9, 0, 0, 9, -0.0, 0)
    square, line = head(3, 1) + ring, head(2, 2) + struct.pack("<4d", 1, 2, 3, 4)
    yield head(7, 6) + point + square + line + none + square + head(3, 0)
    yield head(3, 3) + struct.pack("<I", 0) + ring + ring
    yield head(4, 3) + point + none + point
    yield head(5, 2) + head(2, 0) + line
    yield head(2, 1) + struct.pack("<2d", 5, 6)
    yield head(1) + struct.pack("<2d", 1, float("nan"))
    yield head(1) + struct.pack("<2d", float("-inf"), 1)
    yield head(1001) + struct.pack("<3d", 1, 2, float("nan"))
    for kind in range(1, 8):
        yield head(kind, 0)
        yield head(kind, 2**32 - 1)
        yield head(kind, 2**32 - 1) + bytes(64)
    for size in range(len(square) + 2):
        yield (square + b"\0")[:size]


def rows(library):
    for form, data in maps.known():
        say(library, form, data)
    for text in oddities():
        say(library, "geojson", text.encode())
    for data in bytes_of_texts():
        say(library, "geojson", data)
    for data in wkbs():
        say(library, "wkb", data)
    own = list(maps.shapes())
    for k, polygons in enumerate(own):
        say(library, "wkb", maps.wkb_of(polygons, "<>"[k % 2]))
        say(library, "geojson", maps.geojson_of(polygons).encode())
    for _ in range(400):
        polygons = random.choice([each for each in own if each and each[0]])
        data = random.choice([maps.wkb_of(polygons), maps.geojson_of(polygons).encode()])
        say(library, "wkb" if data[0] < 2 else "geojson", maps.mutated(data))
    for _ in range(200):
        text = random.choice([*oddities()])
        say(library, "geojson", maps.mutated(text.encode()))


if __name__ == "__main__":
    rows(ctypes.CDLL("libs2union.so.1"))
