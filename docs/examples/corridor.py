"""The corridor of a flight: corridor.py LONGITUDE LATITUDE LONGITUDE LATITUDE KILOMETERS FILE

Its points are at most this number of kilometers from the shortest way between two points. FILE.outer has all of them,
FILE.inner no others.
"""
import sys

from s2union_geo import coverings


def corridor(start, end, kilometers):
    """The outer and the inner covering."""
    way = {"type": "LineString", "coordinates": [start, end]}
    return coverings(way, max_cells=1000, edges="geodesic", margin=1000 * kilometers)


if __name__ == "__main__":
    *numbers, file = sys.argv[1:]
    west, south, east, north, kilometers = map(float, numbers)
    for kind, union in zip(("outer", "inner"), corridor((west, south), (east, north), kilometers)):
        with open(f"{file}.{kind}", "wb") as it:
            it.write(union.to_bytes())
        print(f"{kind}: {len(union)} cells")
