"""The land of the world as a union file, the sample of the page: land.py FILE

The cells of level 8 whose middle lies in a country of Natural Earth (1 : 110,000,000, in the public domain), from
Debian's python3-geopandas. It needs the module for Python of this library too.
"""
import sys

import geopandas
import numpy
import shapely.vectorized
from s2union import Union, from_points, parents

LEVEL = 8
SIDE = 2**30


def main(file):
    country = geopandas.read_file(geopandas.datasets.get_path("naturalearth_lowres")).unary_union
    middles = (numpy.arange(2**LEVEL) + 0.5) / 2**LEVEL
    s, t = (grid.ravel() for grid in numpy.meshgrid(middles, middles))
    u, v = (numpy.where(x >= 0.5, 4 * x * x - 1, 1 - 4 * (1 - x) ** 2) / 3 for x in (s, t))
    one = numpy.ones_like(u)
    found = []
    for face, (x, y, z) in enumerate([(one, u, v), (-u, one, v), (-u, -v, one), (-one, -v, -u), (v, -one, -u),
                                      (v, u, -one)]):
        longitude, latitude = numpy.degrees(numpy.arctan2(y, x)), numpy.degrees(numpy.arctan2(z, numpy.hypot(x, y)))
        is_land = shapely.vectorized.contains(country, longitude, latitude)
        i, j = ((grid[is_land] * SIDE).astype(int).tolist() for grid in (s, t))
        found += parents(from_points([face] * len(i), i, j), LEVEL)
    with open(file, "wb") as it:
        it.write(Union(found).to_bytes())


if __name__ == "__main__":
    main(sys.argv[1])
