"""Cells as polygons of GeoJSON."""

from __future__ import annotations

from typing import Any, Iterator

import numpy
from s2union import CellUnion, tokens

from .interrupts import look
from .outlines import outline
from .sphere import geographic, on_cube, squares_of


def rings(cells: Any) -> Iterator[list[list[float]]]:
    """For each cell the ring of its corners, counterclockwise."""
    face, i, j, side = squares_of(cells)
    corners = [geographic(*on_cube(face, i + side * right, j + side * up))
               for right, up in ((0, 0), (1, 0), (1, 1), (0, 1))]
    for ring in numpy.array(corners).transpose(2, 0, 1).tolist():
        look()
        poles = [k for k, (_, latitude) in enumerate(ring) if abs(latitude) == 90]
        for k in poles:  # has every longitude: those of the corners before and after it
            ring[k:k + 1] = [[ring[k - 1][0], ring[k][1]], [ring[(k + 1) % 4][0], ring[k][1]]]
        for corner in ring[1:]:  # the shorter way from the first
            corner[0] += 360 * round((ring[0][0] - corner[0]) / 360)
        yield ring + ring[:1]


def to_geojson(union: CellUnion, *, dissolve: bool = False, **properties: Any) -> dict[str, Any]:
    """The cells of a union, or its outline, as polygons of GeoJSON.

    .. versionadded:: 1.1

    Parameters
    ----------
    union : CellUnion
        Any union. Faces are cut, since two of them have a pole inside.
    dissolve : bool
        Whether one feature with the `outline` of the union is made.
    **properties : object
        Properties of each feature, as JSON has them.

    Returns
    -------
    dict
        A FeatureCollection with a feature for each cell, which has these properties and its token, ``cell``; or with
        one feature that has these properties. In a position the longitude comes first, then the latitude, in degrees.
        A cell across the date line goes on beyond 180 or -180 degrees.

    Raises
    ------
    OutOfMemoryError
        There is no memory for the cells.

    Examples
    --------
    >>> from s2union import CellUnion
    >>> found = to_geojson(CellUnion.from_tokens("14"), name="pond")["features"]
    >>> [(feature["properties"], feature["geometry"]["type"]) for feature in found]
    [({'name': 'pond', 'cell': '14'}, 'Polygon')]
    """
    if dissolve:
        features = [{"type": "Feature", "properties": properties, "geometry": outline(union)}]
        return {"type": "FeatureCollection", "features": features}
    cells = numpy.array(union.denormalised(1), "uint64")
    features = [{"type": "Feature", "properties": {**properties, "cell": token},
                 "geometry": {"type": "Polygon", "coordinates": [ring]}}
                for token, ring in zip(tokens(cells), rings(cells.tolist()))]
    return {"type": "FeatureCollection", "features": features}
