"""The countries that tests/geo/countries.sh has covered, points of the sphere, and all pairs of them: for the tests of
joins, which have to find the same pairs."""
import random
from pathlib import Path

import numpy
from s2union_geo import leaves

POINTS = 100000


def points_of_the_sphere(count):
    """Random points, as longitudes and latitudes in degrees."""
    normal = random.Random(20261126).gauss
    points = numpy.array([[normal(0, 1) for _ in range(3)] for _ in range(count)]).T
    return numpy.degrees(numpy.arctan2(points[1], points[0])), \
        numpy.degrees(numpy.arctan2(points[2], numpy.hypot(points[0], points[1])))


def points():
    """The leaves of random points, in no order."""
    return leaves(*points_of_the_sphere(POINTS))


def coverings(folder):
    """The cells of each country, by its name, from the bytes of its file."""
    return {file.stem: numpy.frombuffer(file.read_bytes()[9:], "<u8").tolist() for file in Path(folder).glob("*.outer")}


def all_pairs(points, regions):
    """Each pair of a point, by its place among the points, and a region that has it. It looks at each point for each
    cell, by their numbers alone."""
    found = set()
    for name, cells in regions.items():
        inside = numpy.zeros(len(points), bool)
        for cell in cells:
            half = (cell & -cell) - 1
            inside |= (points >= cell - half) & (points <= cell + half)
        found |= {(place, name) for place in numpy.flatnonzero(inside).tolist()}
    return found
