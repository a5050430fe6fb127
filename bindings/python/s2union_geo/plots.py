"""The outline of a union as a patch of matplotlib, for `CellUnion.plot`."""

from __future__ import annotations

from math import cos, radians
from typing import Any

import numpy
from matplotlib import pyplot
from matplotlib.patches import PathPatch
from matplotlib.path import Path
from s2union import CellUnion

from .outlines import outline

STYLE = {"facecolor": "#2f81f759", "edgecolor": "#2f81f7", "linewidth": 1.0}  # if no color is named
LEAST = 0.05  # of the cosine of a latitude, where degrees of longitude have hardly a width


def plot(union: CellUnion, axes: Any, style: dict[str, Any]) -> Any:
    """Draws the outline of a union on these axes, or on new ones, and returns them."""
    is_new = axes is None
    if is_new:
        _, axes = pyplot.subplots()
    rings = [numpy.array(ring) for polygon in outline(union)["coordinates"] for ring in polygon]
    if rings:
        axes.add_patch(PathPatch(path_of(rings), **(style if "color" in style else {**STYLE, **style})))
        axes.autoscale_view()
    if is_new:
        south, north = axes.get_ylim()
        axes.set_aspect(1 / max(cos(radians((south + north) / 2)), LEAST))
    return axes


def path_of(rings: list[Any]) -> Path:
    """Closed rings as one path. Holes run the other way round, so nothing fills them."""
    codes = [numpy.full(len(ring), Path.LINETO) for ring in rings]
    for each in codes:
        each[0], each[-1] = Path.MOVETO, Path.CLOSEPOLY
    return Path(numpy.concatenate(rings), numpy.concatenate(codes))
