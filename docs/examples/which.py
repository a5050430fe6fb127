"""The country of each point: which.py FILE.geojson FOLDER < POINTS

A point is a line of a longitude and a latitude, in degrees. FOLDER has the inner and the outer covering of each
feature. Where they don't decide, the polygon is asked; the last line says for how many points that was.
"""
import json
import sys
from pathlib import Path

import numpy
from s2union_geo import leaves
from s2union import CellUnion
from shapely.geometry import Point, shape
from shapely.prepared import prep


def features_of(file):
    return json.loads(Path(file).read_text())["features"]


def covering(folder, feature, kind):
    return CellUnion.from_bytes(Path(folder, f"{feature['properties']['file']}.{kind}").read_bytes())


def which(features, folder, longitude, latitude):
    """The name of each point's feature, or '-', and which points had to be tested by a polygon."""
    cells = leaves(longitude, latitude)
    answers, tested = numpy.full(len(cells), "-", object), numpy.zeros(len(cells), bool)
    for feature in features:
        inside = covering(folder, feature, "inner").contains_cells(cells)
        between = covering(folder, feature, "outer").contains_cells(cells) & ~inside
        polygon = prep(shape(feature["geometry"]))
        for k in numpy.flatnonzero(between):
            inside[k] = polygon.contains(Point(longitude[k], latitude[k]))
        answers[inside] = feature["properties"]["name"]
        tested |= between
    return answers, tested


if __name__ == "__main__":
    points = numpy.loadtxt(sys.stdin, usecols=(0, 1), ndmin=2)
    answers, tested = which(features_of(sys.argv[1]), sys.argv[2], points[:, 0], points[:, 1])
    print(*answers, sep="\n")
    found, tested = numpy.count_nonzero(answers != "-"), numpy.count_nonzero(tested)
    print(f"{len(answers)} points, {found} in a country, {tested} tested by a polygon")
