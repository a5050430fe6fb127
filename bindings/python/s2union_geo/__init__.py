"""Points, polygons, lines and circles, in degrees, for unions of S2 cells.

Coverings are made by the calls of the library, which are proved for corners that are rounded to whole numbers. The
rest, from degrees to these numbers and back, is tested beside S2. Arrays of points and maps need numpy.

`leaves` takes longitudes and latitudes to S2's leaves and `points` goes back; `covering` and `interior` make unions of
polygons, in GeoJSON or of shapely, and `to_geojson` makes GeoJSON of unions. An `Index` finds which points lie in which
of many polygons. `area` and `boundary` measure a union, and `outline` draws it; a notebook shows a union
as a map. `neighbors` and `expanded` have cells around a cell and a union, and `bounds` the box around one. The
longitude comes first, as in GeoJSON. Beside these, `s2union_geo.frames` gives frames of geopandas and pandas an
accessor `.s2`, and gdal_S2UNION.py in this folder lets GDAL read union files.

>>> from s2union_geo import covering, interior, leaf
>>> square = {"type": "Polygon", "coordinates": [[[0, 0], [10, 0], [10, 10], [0, 10], [0, 0]]]}
>>> outer, inner = covering(square), interior(square)
>>> inner < outer, leaf(5, 5) in inner, leaf(11, 5) in outer, leaf(9.99, 5) in outer, leaf(9.999999, 5) in inner
(True, True, False, True, False)
"""

from typing import Any

from .around import bounds, edge_neighbors, expanded, neighbors, vertex_neighbors
from .coverer import MOST_CELLS, circle, covering, coverings, interior
from .places import leaf
from .reading import MOST_BYTES, MOST_POSITIONS, read_geojson

__all__ = ["leaf", "leaves", "points", "covering", "interior", "coverings", "circle", "to_geojson", "read_geojson",
           "Index", "area", "boundary", "outline", "neighbors", "edge_neighbors", "vertex_neighbors", "expanded",
           "bounds", "MOST_CELLS", "MOST_POSITIONS", "MOST_BYTES"]
BY_NUMPY = {"leaves": "sphere", "points": "sphere", "to_geojson": "geojson", "area": "outlines",
            "boundary": "outlines", "outline": "outlines", "Index": "index"}  # which is needed for these alone


def __getattr__(name: str) -> Any:
    """Of what needs numpy, when it is asked for."""
    if name not in BY_NUMPY:
        raise AttributeError(f"module {__name__!r} has no attribute {name!r}")
    from importlib import import_module
    return globals().setdefault(name, getattr(import_module(f"{__name__}.{BY_NUMPY[name]}"), name))


def __dir__() -> list[str]:
    return sorted({*globals(), *__all__})
