"""Boxes of polygons on the map."""

from __future__ import annotations

import struct
from typing import Any

import numpy


def box_of(wkb: bytes) -> tuple[float, float, float, float]:
    """The least longitude and latitude of polygons in well-known binary, little-endian, and the greatest; 0 of none."""
    found: list[Any] = []
    at, waiting = 0, 1
    while waiting:
        kind, count = struct.unpack_from("<II", wkb, at + 1)
        at += 9
        waiting += count - 1 if kind & 7 == 6 else -1
        numbers = 2 + (kind >> 31) + (kind >> 30 & 1)  # of a position, which may have a height and a measure
        for _ in range(0 if kind & 7 == 6 else count):
            corners, = struct.unpack_from("<I", wkb, at)
            found.append(numpy.frombuffer(wkb, "<f8", numbers * corners, at + 4).reshape(-1, numbers)[:, :2])
            at += 4 + 8 * numbers * corners
    if not found:
        return 0, 0, 0, 0
    places = numpy.concatenate(found)
    (west, south), (east, north) = places.min(0).tolist(), places.max(0).tolist()
    return west, south, east, north
