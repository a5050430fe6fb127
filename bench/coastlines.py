"""Whole polygons from GMT's binned coastlines: coastlines.py FILE.nc OUT LEVEL COUNT writes the COUNT largest closed
polygons of a level (1 land, 2 lakes): their number in 4 bytes, then for each the number of its points in 4 bytes, and
longitude and latitude of each point as doubles, in degrees."""

import struct
import sys

import netCDF4
import numpy

UNITS = 65535  # a bin's side in units of its points
CLOSED = 4  # a segment's side if it begins or ends in the bin itself


def segments_of(data, level):
    """The segments of each polygon of the level: x and y in units, and whether the segment is a whole polygon."""
    read = lambda name: data.variables[name][:].astype(numpy.int64)
    across = int(data.variables["N_bins_in_360_longitude_range"][0])
    down = 180 * across // 360
    info = read("Embedded_npts_levels_exit_entry_for_a_segment")
    start = read("Id_of_first_point_in_a_segment")
    polygon = read("Id_of_GSHHS_ID")
    dx = read("Relative_longitude_from_SW_corner_of_bin") & 0xFFFF
    dy = read("Relative_latitude_from_SW_corner_of_bin") & 0xFFFF
    segments = {}
    firsts, counts = read("Id_of_first_segment_in_a_bin"), read("N_segments_in_a_bin")
    for at, (first, count) in enumerate(zip(firsts, counts)):
        west, south = at % across * UNITS, (down - 1 - at // across) * UNITS
        for s in range(first, first + count):
            if info[s] >> 6 & 7 == level:
                points = slice(start[s], start[s] + (info[s] >> 9))
                whole = CLOSED in (info[s] & 7, info[s] >> 3 & 7)
                segments.setdefault(polygon[s], []).append((west + dx[points], south + dy[points], whole))
    return segments, across * UNITS


def rings_of(segments, around):
    """The closed rings that the segments make, end to beginning."""
    place = lambda s, k: (int(s[0][k]) % around, int(s[1][k]))
    begins = {}
    for k, segment in enumerate(segments):
        begins.setdefault(place(segment, 0), []).append(k)
    left = dict.fromkeys(range(len(segments)))
    while left:
        k = next(iter(left))
        begin = place(segments[k], 0)
        ring = []
        while k is not None:
            del left[k]
            ring.append(k)
            end = place(segments[k], -1)
            if end == begin:
                yield [numpy.concatenate([segments[r][side][:-1] for r in ring]) for side in (0, 1)]
                break
            k = next((next_one for next_one in begins.get(end, []) if next_one in left), None)


def polygon_of(segments, around):
    """The polygon's longest ring, if it has nearly all of the polygon's points."""
    if all(whole for _, _, whole in segments):
        return segments[0][:2]
    longest = max(rings_of(segments, around), key=lambda ring: len(ring[0]), default=None)
    points = sum(len(x) - 1 for x, _, _ in segments)
    return None if longest is None or points > 1.2 * len(longest[0]) else longest


def in_degrees(ring, around):
    """Longitude and latitude of the ring's points, none of them twice in a row."""
    x, y = numpy.asarray(ring[0]) % around, numpy.asarray(ring[1])
    differs = (x != numpy.roll(x, 1)) | (y != numpy.roll(y, 1))
    return numpy.stack([x[differs] * 360 / around, y[differs] * 360 / around - 90], 1)


def main(name, out, level, count):
    data = netCDF4.Dataset(name)
    data.set_auto_mask(False)
    area = data.variables["The_km_squared_area_of_polygons"]
    segments, around = segments_of(data, int(level))
    polygons = []
    for polygon in sorted(segments, key=lambda p: (-area[p], p)):
        ring = polygon_of(segments[polygon], around)
        points = () if ring is None else in_degrees(ring, around)
        if len(points) >= 3:
            polygons.append(points)
        if len(polygons) == int(count):
            break
    with open(out, "wb") as file:
        file.write(struct.pack("<I", len(polygons)))
        for points in polygons:
            file.write(struct.pack("<I", len(points)) + points.astype("<f8").tobytes())
    print(f"{out}: {len(polygons)} polygons, {sum(map(len, polygons))} points")


main(*sys.argv[1:])
