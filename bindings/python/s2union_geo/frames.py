"""`.s2` of a GeoDataFrame, or of a DataFrame of pandas that has columns of degrees: leaves, coverings and exact joins.
Importing this module is enough; it needs pandas, and geopandas for what asks polygons. It is tested, not proved.

>>> import pandas, s2union_geo.frames
>>> places = pandas.DataFrame({"longitude": [2.3522], "latitude": [48.8566]}, index=["Paris"])
>>> places.s2.leaves().to_dict()
{'Paris': 5180949494577750587}
"""

from __future__ import annotations

from typing import Any

import pandas

from .coverer import coverings
from .index import Index
from .sphere import leaves

__all__ = ["Frame"]

COLUMNS = ("longitude", "latitude"), ("lon", "lat"), ("lng", "lat")  # of degrees, if no others are named


@pandas.api.extensions.register_dataframe_accessor("s2")
class Frame:
    """The cells of a frame: its attribute ``s2``.

    .. versionadded:: 1.2

    Parameters
    ----------
    frame : DataFrame or GeoDataFrame
        One with a coordinate system is taken to longitudes and latitudes first; one without has degrees.
    """

    def __init__(self, frame: Any) -> None:
        self.frame = frame if getattr(frame, "crs", None) is None else frame.to_crs(4326)

    def leaves(self, longitude: str | None = None, latitude: str | None = None) -> pandas.Series:
        """The leaf of each row: of its point, or in a frame without geometry, of two columns of degrees.

        .. versionadded:: 1.2

        Parameters
        ----------
        longitude : str, optional
            The column of longitudes, from -540 to 540 degrees.
        latitude : str, optional
            The column of latitudes, from -90 to 90 degrees. If no columns are named, they are ``longitude`` and
            ``latitude``, ``lon`` and ``lat``, or ``lng`` and ``lat``, the first of these that are there.

        Returns
        -------
        Series of int64
            The leaves, with a sign, as databases have them, by the index of the frame.

        Raises
        ------
        ValueError
            A number is out of range, or a point is missing or empty: the message has its place.
        TypeError
            A column has no numbers.
        KeyError
            There is no such column.

        Examples
        --------
        >>> places = pandas.DataFrame({"lon": [2.3522], "lat": [48.8566]}, index=["Paris"])
        >>> places.s2.leaves()["Paris"] == 5180949494577750587
        True
        """
        x, y = self._degrees(longitude, latitude)
        found = leaves(x.to_numpy(), y.to_numpy()).view("int64")
        return pandas.Series(found, self.frame.index, name="leaf")

    def _degrees(self, longitude: str | None, latitude: str | None) -> Any:
        """The longitudes and the latitudes of the rows."""
        if hasattr(self.frame, "geometry"):
            return self.frame.geometry.x, self.frame.geometry.y
        names = next((pair for pair in COLUMNS if {*pair} <= {*self.frame.columns}), COLUMNS[0])
        if longitude is not None or latitude is not None:
            names = tuple(name if given is None else given for given, name in zip((longitude, latitude), COLUMNS[0]))
        for name in names:
            if name not in self.frame.columns:
                raise KeyError(f"a frame without geometry has two columns of degrees: there is no column {name!r}")
        return self.frame[names[0]], self.frame[names[1]]

    def coverings(self, max_cells: int = 200, max_level: int = 30) -> pandas.DataFrame:
        """Two unions for each row's polygons: one which contains them, and one that they contain.

        .. versionadded:: 1.2

        Parameters
        ----------
        max_cells : int
            The most cells of each, 0 to 1,000,000.
        max_level : int
            0 to 30: no cell is deeper.

        Returns
        -------
        DataFrame
            The columns ``outer`` and ``inner``, by the index of the frame.

        Raises
        ------
        ValueError
            The errors of `s2union_geo.coverings`, with the row.
        TypeError
            A number of cells or a level is no int, or the frame has no geometry.

        Examples
        --------
        >>> from geopandas import GeoDataFrame
        >>> from shapely.geometry import box
        >>> seas = GeoDataFrame(geometry=[box(0, 0, 10, 10)], index=["sea"])
        >>> found = seas.s2.coverings(max_cells=50)
        >>> found.inner["sea"] < found.outer["sea"]
        True
        """
        made = [self._covered(row, shape, max_cells, max_level) for row, shape in self._shapes().items()]
        return pandas.DataFrame(made, self.frame.index, ["outer", "inner"])

    @staticmethod
    def _covered(row: Any, shape: Any, max_cells: int, max_level: int) -> Any:
        try:
            return coverings(shape, max_cells, max_level)
        except ValueError as error:
            raise ValueError(f"row {row!r}: {error}") from None

    def sjoin(self, points: Any, max_cells: int = 50, longitude: str | None = None, latitude: str | None = None,
              predicate: str = "within") -> pandas.DataFrame:
        """Each pair of a row of this frame and a row of another whose point lies inside of its polygons.

        .. versionadded:: 1.2
        .. versionchanged:: 1.4
            An `Index` that was made before.
        .. versionchanged:: 1.4.1
            ``predicate``.

        Parameters
        ----------
        points : GeoDataFrame, DataFrame or Index
            The other frame: one of points, or one without geometry, which has columns of degrees. A row without a point
            or a polygon is in no pair. Or an `Index` of polygons; then this frame is the one of points.
        max_cells : int
            The most cells of a covering, 0 to 1,000,000. It changes no pair, since polygons decide.
        longitude : str, optional
            The column of longitudes, as `leaves` has it.
        latitude : str, optional
            The column of latitudes.
        predicate : str
            ``"within"``, or ``"intersects"``: then a point on the border of polygons is in them.

        Returns
        -------
        DataFrame
            The columns ``region`` and ``point``, which are of the index of each frame, or the names of an `Index`: the
            pairs of geopandas' ``points.sjoin(regions, predicate=predicate)``, and those across the date line.

        Raises
        ------
        ValueError
            The errors of `coverings` and `leaves`, or there is no such predicate.
        TypeError
            A number of cells is no int, or the frame of polygons has no geometry.
        KeyError
            A column is missing.

        Examples
        --------
        >>> from geopandas import GeoDataFrame
        >>> from shapely.geometry import Point, box
        >>> from s2union_geo import Index
        >>> seas = GeoDataFrame(geometry=[box(0, 0, 10, 10)], index=["sea"])
        >>> ships = GeoDataFrame(geometry=[Point(5, 5), Point(50, 5)], index=["one", "other"])
        >>> seas.s2.sjoin(ships).values.tolist(), ships.s2.sjoin(Index(seas)).values.tolist()
        ([['sea', 'one']], [['sea', 'one']])
        """
        is_made = isinstance(points, Index)
        made = points if is_made else Index(self._whole(), max_cells=max_cells)
        rows, *places = (self if is_made else points.s2)._points(longitude, latitude)
        point, zone = made.join(*places, predicate=predicate)
        order = zone.argsort(kind="stable")
        names = pandas.Index(made.names, tupleize_cols=False)
        return pandas.DataFrame({"region": names.take(zone[order]), "point": rows.take(point[order])})

    def _shapes(self) -> Any:
        if not hasattr(self.frame, "geometry"):
            raise TypeError("polygons are wanted in a GeoDataFrame: this frame has no geometry")
        return self.frame.geometry

    def _whole(self) -> Any:
        """The rows that have a geometry."""
        shapes = self._shapes()
        return self.frame[~(shapes.isna() | shapes.is_empty)]

    def _points(self, longitude: str | None, latitude: str | None) -> Any:
        """The index of the rows that have a point, and their longitudes and latitudes."""
        frame = self._whole() if hasattr(self.frame, "geometry") else self.frame
        x, y = frame.s2._degrees(longitude, latitude)
        is_there = (x.notna() & y.notna()).to_numpy()
        return frame.index[is_there], x.to_numpy()[is_there], y.to_numpy()[is_there]
