"""Which points lie in which of many polygons: exactly, by s2union_join.h, or by coverings alone, which numpy asks.
Tested, not proved."""

from __future__ import annotations

import io
import json
import os
import struct
import threading
import zipfile
from typing import Any, Callable

import numpy
from s2union import CellUnion, _library, range_maxes, range_mins

from .boxes import box_of
from .coverer import covering, interior, look_at_shape
from .interrupts import look
from .places import MOST, leaf
from .reading import LINE, Shape, parsed, polygons_of, shape_of, wkb_of
from .sphere import degrees_of, leaves

__all__ = ["Index"]

KIND = "s2union_geo.Index 1"  # of the files
PREDICATES = ("within", "intersects")  # of which the second has points on borders too, as in geopandas
MOST_SURE = 90  # degrees: shapes less wide and high are covered if they pass `look_at_shape`
AT_ONCE = 250_000  # points of a call, which takes less than a second
ARRAYS = {"cell": "u", "begin": "i", "zone": "i", "sure": "b", "shape": "u", "ends": "i", "spans": "f", "names": "u"}


class Index:
    """Which zones contain a point: the polygons of all zones, in memory of C, and their coverings.

    A tree over boxes finds the polygons that may have a point, and the edges at its longitude decide, exactly.
    Coverings are made when they are asked for: by ``exact=False``, or by `save`.

    .. versionadded:: 1.4

    Parameters
    ----------
    shapes : GeoDataFrame, GeoSeries, dict, str, bytes or iterable
        The polygons of the zones: a frame, a FeatureCollection of GeoJSON as an object or a text, or a list of what
        `covering` takes. A frame that has a system of coordinates is taken to degrees first. None has no polygon.
    names : iterable or str, optional
        The names of the zones: as many as shapes; or a property of the features, or a column of the frame. Without it,
        a frame's own index, or the numbers from 0.
    max_cells : int
        The most cells of each covering, 0 to 1,000,000. With more cells ``exact=False`` has fewer pairs too many.
    max_level : int
        0 to 30: no cell is deeper.
    leave : bool
        Whether zones whose polygons are refused are left without a cell, so that no point is in them. The attribute
        ``left`` has them.

    Attributes
    ----------
    names : list
        The name of each zone.
    left : list of tuple
        The number of each zone that was left, and why.

    Raises
    ------
    ValueError
        The errors of `coverings`, with the zone's name; a feature without the property; or as many names as shapes are
        not there.
    TypeError
        A number of cells or a level is no int.

    Notes
    -----
    S2: ``S2CellIndex`` and ``S2ShapeIndex``, with ``S2ContainsPointQuery`` of the model ``OPEN``.

    Examples
    --------
    >>> pond = {"type": "Polygon", "coordinates": [[[0, 0], [10, 0], [10, 10], [0, 10], [0, 0]]]}
    >>> isle = {"type": "Polygon", "coordinates": [[[4, 4], [6, 4], [6, 6], [4, 6], [4, 4]]]}
    >>> index = Index([pond, isle], ["pond", "isle"])
    >>> index.find(5, 5), index.find(1, 1), index.find(11, 1)
    (['pond', 'isle'], ['pond'], [])
    >>> points, zones = index.join([1, 5, 11], [1, 5, 1])
    >>> points.tolist(), zones.tolist()
    ([0, 1, 1], [0, 0, 1])
    """

    def __init__(self, shapes: Any, names: Any = None, max_cells: int = 50, max_level: int = 30, *,
                 leave: bool = False) -> None:
        shapes, self.names = _named(shapes, names)
        self.left: list[tuple[int, str]] = []
        _, none = _asked(lambda it: covering(it, max_cells, max_level), _NOTHING)  # an error if they are out of range
        self._begin_with([none] * len(shapes), numpy.zeros((len(shapes), 4)), (max_cells, max_level))
        for zone, shape in enumerate(shapes):
            try:
                if shape is not None:
                    self._take(zone, _read(shape))
            except ValueError as error:
                if not leave:
                    raise ValueError(f"zone {self.names[zone]!r}: {error}") from None
                self.left.append((zone, str(error)))

    def _begin_with(self, shapes: list[bytes], boxes: Any, most: Any, cells: Any = None) -> None:
        """Takes the zones' polygons and boxes. `most` says how coverings are made: not at all, if a file has their
        cells."""
        self._shapes, self._boxes, self._most, self._cells = shapes, boxes, most, cells
        self._outers: dict[int, CellUnion] = {}
        self._is_arranged = False
        self._zones = Zones(shapes)

    def _take(self, zone: int, shape: Any) -> None:
        """Looks at a zone, and covers it if it may be refused all the same, or has more than polygons."""
        _, wkb = _asked(look_at_shape, shape)
        west, south, east, north = box = box_of(wkb)
        is_polygons = LINE not in shape.rings[1::2] if isinstance(shape, Shape) else _has_polygons(shape)
        if not (is_polygons and max(east - west, north - south) < MOST_SURE):
            self._outers[zone], _ = _asked(lambda it: covering(it, *self._most), shape)
        self._shapes[zone], self._boxes[zone] = wkb, box

    def _covering(self, zone: int) -> CellUnion:
        if zone not in self._outers:
            self._outers[zone] = covering(self._shapes[zone], *self._most)
        return self._outers[zone]

    def _cover(self) -> None:
        """Makes the coverings of all zones, if they aren't there, and arranges their cells."""
        if self._cells is None:
            self._cells = _sorted([(zone, False, self._covering(zone)) for zone in range(len(self))])
        if not self._is_arranged:
            self._arrange(*self._cells[:3])
            self._is_arranged = True

    def _arrange(self, cell: Any, begin: Any, zone: Any) -> None:
        """Takes the cells, each once and each before those in it. Of each the places from `begin` on have the zones."""
        self._begin, self._zone = begin, zone
        self._first, self._last = range_mins(cell), range_maxes(cell)
        number = numpy.arange(len(cell))
        depth = number - numpy.sort(self._last).searchsorted(self._first)  # without the cells that ended before it
        self._above = numpy.full(len(cell), -1)  # the smallest of the cells that a cell lies in
        for deep in range(1, depth.max(initial=0) + 1):
            above, here = number[depth == deep - 1], number[depth == deep]
            self._above[here] = above[above.searchsorted(here) - 1]

    def __len__(self) -> int:
        """How many zones there are.

        .. versionadded:: 1.4
        """
        return len(self.names)

    def __repr__(self) -> str:
        return f"<Index of {len(self)} zones>"

    def find(self, longitude: float, latitude: float, exact: bool = True, predicate: str = "within") -> list[Any]:
        """The names of the zones that contain a point.

        .. versionadded:: 1.4
        .. versionchanged:: 1.4.1
           ``predicate``.

        Parameters
        ----------
        longitude : float
            From -540 to 540 degrees; it comes first.
        latitude : float
            From -90 to 90 degrees.
        exact : bool
            Whether polygons are asked, or coverings alone.
        predicate : str
            ``"within"``, or ``"intersects"``: then a point on the border of a zone is in it.

        Returns
        -------
        list
            In the order of the zones.

        Raises
        ------
        ValueError
            A number is out of range, or there is no such predicate.
        TypeError
            A value isn't a number.

        Examples
        --------
        >>> square = {"type": "Polygon", "coordinates": [[[0, 0], [10, 0], [10, 10], [0, 10], [0, 0]]]}
        >>> Index([square], ["square"]).find(9.9999, 5)
        ['square']
        """
        borders, here = _borders(predicate), numpy.uint64(leaf(longitude, latitude))
        if exact:
            found = self._zones.pairs(struct.pack("d", longitude), struct.pack("d", latitude), borders)
            return [self.names[zone] for _, zone in struct.iter_unpack("QQ", found)]
        self._cover()
        places: list[int] = []
        cell = self._first.searchsorted(here, "right") - 1
        while cell >= 0:
            if self._last[cell] >= here:
                places += range(self._begin[cell], self._begin[cell + 1])
            cell = self._above[cell]
        return [self.names[zone] for zone in sorted({int(self._zone[place]) for place in places})]

    def join(self, longitude: Any, latitude: Any, exact: bool = True,
             predicate: str = "within") -> tuple[Any, Any]:
        """Each pair of a point and a zone that contains it.

        .. versionadded:: 1.4
        .. versionchanged:: 1.4.1
           ``predicate``.

        Parameters
        ----------
        longitude : array of float
            From -540 to 540 degrees; it comes first.
        latitude : array of float
            From -90 to 90 degrees, of the same length.
        exact : bool
            Whether polygons are asked. Else coverings alone are: no pair is missing, and points near a border may be in
            pairs too many.
        predicate : str
            ``"within"``, or ``"intersects"``: then a point on the border of a zone is in it, as for PostGIS's
            ``ST_Covers``, and with the joins of PostgreSQL and SQLite.

        Returns
        -------
        points : array of int64
            The places of points in the arrays, in rising order.
        zones : array of int64
            The numbers of the zones, which ``names`` names; for each point in rising order.

        Raises
        ------
        ValueError
            A number is out of range, or missing: the message has its place. Or the lengths differ, or there is no such
            predicate.
        TypeError
            A value isn't a number.

        Notes
        -----
        The pairs are those of geopandas with the same predicate, and those of zones across the date line. Geopandas
        itself takes ``intersects`` if it is given none. A zone is all of its polygons together: of two that overlap,
        which geopandas takes for an error, what lies in both is in the zone. Where a polygon wider than 360 degrees
        lies on itself after a turn, places that it has an even number of times are outside, as they are of its
        `covering`.

        Examples
        --------
        >>> square = {"type": "Polygon", "coordinates": [[[0, 0], [10, 0], [10, 10], [0, 10], [0, 0]]]}
        >>> points, zones = Index([square]).join([5, 9.999999, 10.000001], [5, 5, 5])
        >>> points.tolist(), zones.tolist()
        ([0, 1], [0, 0])
        >>> [len(Index([square]).join([10], [5], predicate=it)[0]) for it in ("within", "intersects")]
        [0, 1]
        """
        borders = _borders(predicate)
        x, y = (numpy.ravel(it) for it in (longitude, latitude))
        if len(x) != len(y):
            raise ValueError(f"{len(x)} longitudes and {len(y)} latitudes")
        if exact:
            return self._exact(degrees_of(x, "longitude"), degrees_of(y, "latitude"), borders)
        point, zone = self._pairs(leaves(x, y))
        order = numpy.lexsort([zone, point])
        return point[order], zone[order]

    def _exact(self, x: Any, y: Any, borders: int) -> tuple[Any, Any]:
        """The pairs of points and zones, by parts of the points."""
        found = [numpy.zeros((0, 2), "int64")]
        for begin in range(0, len(x), AT_ONCE):
            look()
            part = (memoryview(it[begin:begin + AT_ONCE]) for it in (x, y))
            found.append(numpy.frombuffer(self._zones.pairs(*part, borders), "int64").reshape(-1, 2) + [begin, 0])
        point, zone = numpy.concatenate(found).T
        return point.copy(), zone.copy()

    def _pairs(self, places: Any) -> tuple[Any, Any]:
        """The pairs of a point and a zone in whose covering its leaf lies."""
        self._cover()
        point, cell = numpy.arange(len(places)), self._first.searchsorted(places, "right") - 1
        found = [(point[:0], self._zone[:0])]
        while True:
            is_there = cell >= 0
            point, cell = point[is_there], cell[is_there]
            if not len(cell):
                return tuple(numpy.concatenate(it) for it in zip(*found))  # type: ignore[return-value]
            here = self._last[cell] >= places[point]
            asked, inside = point[here], cell[here]
            count = self._begin[inside + 1] - self._begin[inside]
            of = numpy.repeat(numpy.arange(len(count)), count)
            entry = self._begin[inside][of] + numpy.arange(len(of)) - (numpy.cumsum(count) - count)[of]
            found.append((asked[of], self._zone[entry]))
            cell = self._above[cell]

    def save(self, path: str | os.PathLike[str]) -> None:
        """Write the index into one file, of some 10 bytes a cell and 16 a corner of a polygon.

        .. versionadded:: 1.4

        Parameters
        ----------
        path : str or path
            A file. One that is there is replaced when the new one is whole, also where a link leads to it. A pipe or a
            device is written into.

        Raises
        ------
        TypeError
            A name is neither a text nor a number.
        OSError
            The file can't be written.

        Notes
        -----
        The file is numpy's ``npz``, without compression, and has no objects of Python.

        Examples
        --------
        >>> from tempfile import TemporaryDirectory
        >>> square = {"type": "Polygon", "coordinates": [[[0, 0], [10, 0], [10, 10], [0, 10], [0, 0]]]}
        >>> with TemporaryDirectory() as folder:
        ...     Index([square], ["square"]).save(f"{folder}/zones.index")
        ...     Index.load(f"{folder}/zones.index").find(5, 5)
        ['square']
        """
        text = json.dumps([KIND, *self.names], default=_number_of).encode()
        cell, begin, zone, sure = self._with_interiors()
        arrays = {"cell": cell, "begin": begin.astype("int64"), "zone": zone.astype("int32"),
                  "sure": sure, "spans": self._boxes[:, ::2].ravel(),
                  "shape": numpy.frombuffer(b"".join(self._shapes), "uint8"),
                  "ends": numpy.cumsum([len(shape) for shape in self._shapes], dtype="int64"),
                  "names": numpy.frombuffer(text, "uint8")}
        if os.path.exists(path) and not os.path.isfile(path):
            numpy.savez(whole := io.BytesIO(), **arrays)
            with open(path, "wb") as file:
                file.write(whole.getbuffer())
            return
        path = os.path.realpath(path)  # a link stays
        written = f"{path}.{os.urandom(8).hex()}.new"
        try:
            with open(written, "xb") as file:
                numpy.savez(file, **arrays)
            os.replace(written, path)
        except BaseException:
            if os.path.exists(written):
                os.remove(written)
            raise

    def _with_interiors(self) -> tuple[Any, Any, Any, Any]:
        """The cells of both coverings, as `_sorted` has them."""
        if self._most is None:
            return self._cells  # type: ignore[no-any-return]
        made: list[tuple[int, bool, CellUnion]] = []
        for zone, shape in enumerate(self._shapes):
            inner = interior(shape, *self._most)
            made += [(zone, False, self._covering(zone) - inner), (zone, True, inner)]
        return _sorted(made)

    @classmethod
    def load(cls, path: str | os.PathLike[str]) -> Index:
        """The index of a file that `save` has written.

        .. versionadded:: 1.4

        Parameters
        ----------
        path : str or path
            The file. It is checked, so it may come from a stranger.

        Returns
        -------
        Index
            The same as was saved, without what it says of zones that were left.

        Raises
        ------
        ValueError
            The file is no index, or `Index` would refuse a shape in it.
        OSError
            The file can't be read.

        Examples
        --------
        >>> Index.load("/dev/null")
        Traceback (most recent call last):
        ValueError: /dev/null is no index: File is not a zip file
        """
        with open(path, "rb") as file:
            try:
                arrays = _arrays_of(file)
                kind, *names = json.loads(arrays["names"].tobytes())
                if kind != KIND:
                    raise ValueError(f"it is of another kind: {str(kind)[:40]!r}")
                return cls._of(arrays, names)
            except Exception as error:  # zipfile and numpy have many
                raise ValueError(f"{os.fspath(path)} is no index: {error}") from None

    @classmethod
    def _of(cls, arrays: dict[str, Any], names: list[Any]) -> Index:
        """An index of arrays that may be wrong."""
        cell, begin, zone, sure, shape, ends, spans, _ = (arrays[name] for name in ARRAYS)
        first, last = range_mins(cell), range_maxes(cell)
        is_sorted = (first[1:] > first[:-1]) | (first[1:] == first[:-1]) & (last[1:] < last[:-1])
        if not (is_sorted.all() and len(begin) == len(cell) + 1 and _rises(begin, len(zone)) and len(zone) == len(sure)
                and _rises(numpy.append(0, ends), len(shape)) and len(ends) == len(names)
                and len(spans) == 2 * len(names) and (abs(spans) <= MOST["longitude"]).all()
                and ((0 <= zone) & (zone < len(names))).all()):
            raise ValueError("its arrays don't fit together")
        self = cls.__new__(cls)
        self.names, self.left = names, []
        text = shape.tobytes()
        shapes = [text[a:b] for a, b in zip([0, *ends.tolist()], ends.tolist())]
        for name, wkb in zip(names, shapes):
            _look_at(wkb, name)
        boxes = numpy.zeros((len(names), 4))
        boxes[:, ::2] = spans.reshape(-1, 2)
        self._begin_with(shapes, boxes, None, (cell, begin.astype("int64"), zone.astype("int64"), sure))
        return self


class Zones:
    """Zones in memory of C, which are read by need, as their edges are. One thread asks them at a time; a handler of
    signals that interrupts it and asks them too has an error, in place of a lock that nobody opens."""

    def __init__(self, shapes: list[bytes]) -> None:
        self.shapes, self.made, self.lock = shapes, None, threading.RLock()

    def __reduce__(self) -> Any:
        return Zones, (self.shapes,)

    def pairs(self, x: Any, y: Any, borders: int) -> bytes:
        """A point and a zone for each pair, of 64 bits each. With `borders` 1 a point on a border is in the zone."""
        with self.lock:
            if self.made is None:
                self.made = _library.zones(tuple(self.shapes))
            return _library.pairs(self.made, x, y, borders)


_NOTHING = {"type": "MultiPolygon", "coordinates": []}


def _sorted(made: list[tuple[int, bool, CellUnion]]) -> tuple[Any, Any, Any, Any]:
    """The cells of zones, each once and each before those in it, where the zones of each begin and which these are, and
    whether they contain all of it; of unions of which the zone contains all, or not."""
    counts = [len(union) for _, _, union in made]
    cell = numpy.concatenate([numpy.zeros(0, "uint64"), *(numpy.asarray(union, "uint64") for _, _, union in made)])
    zone, sure = (numpy.repeat(numpy.array([it[k] for it in made], kind), counts)
                  for k, kind in ((0, "int64"), (1, "bool")))
    order = numpy.lexsort([zone, ~range_maxes(cell), range_mins(cell)])  # a cell comes before those in it
    cell, zone, sure = cell[order], zone[order], sure[order]
    is_first = numpy.append(True, cell[1:] != cell[:-1])[:len(cell)]
    return cell[is_first], numpy.append(numpy.flatnonzero(is_first), len(cell)), zone, sure


def _named(shapes: Any, names: Any) -> tuple[list[Any], list[Any]]:
    """The shapes and their names, as lists of one length."""
    if isinstance(shapes, (str, bytes)):
        shapes = parsed(shapes)
    if hasattr(shapes, "geometry"):
        given = shapes.index if names is None else shapes[names] if isinstance(names, str) else names
        shapes = shapes.geometry if getattr(shapes, "crs", None) is None else shapes.to_crs(4326).geometry
    else:
        if isinstance(shapes, dict):
            if not isinstance(shapes.get("features"), list):
                raise ValueError("one object of GeoJSON is a FeatureCollection; a list takes others")
            shapes = shapes["features"]
        shapes = list(shapes)
        given = ([_property(feature, names, place) for place, feature in enumerate(shapes)]
                 if isinstance(names, str) else names)
    shapes = list(shapes)
    named = list(range(len(shapes)) if given is None else given)
    if len(named) != len(shapes):
        raise ValueError(f"{len(shapes)} shapes and {len(named)} names")
    return shapes, named


def _property(feature: Any, name: str, place: int) -> Any:
    properties = feature.get("properties") if isinstance(feature, dict) else None
    if not isinstance(properties, dict) or name not in properties:
        raise ValueError(f"feature {place} has no property {name!r}")
    return properties[name]


def _has_polygons(shape: Any) -> bool:
    """Whether it is an object as shapely has them for polygons."""
    return getattr(shape, "geom_type", None) in ("Polygon", "MultiPolygon")


def _read(shape: Any) -> Any:
    """GeoJSON that is read, so that it is read once; what has WKB as it is."""
    return shape if _has_polygons(shape) or wkb_of(shape) is not None else shape_of(shape)


def _asked(ask: Callable[[Any], Any], shape: Any) -> tuple[Any, bytes]:
    """The answer about a shape, and its polygons in well-known binary, little-endian."""
    if not _has_polygons(shape):
        return ask(shape), _wkb_of(shape)
    wkb = bytes(shape.wkb)
    try:
        return ask(wkb), wkb
    except ValueError:  # the shape's own error has names of polygons and rings
        return ask(shape), wkb


def _wkb_of(shape: Any) -> bytes:
    is_wkb = isinstance(shape, bytes) and wkb_of(shape)
    parts = polygons_of(_of_shapely(shape) if is_wkb else shape)
    found = [struct.pack("<BII", 1, 6, len(parts))]
    for rings in parts:
        found.append(struct.pack("<BII", 1, 3, len(rings)))
        for ring in rings:
            found += [struct.pack("<I", len(ring)), numpy.asarray(ring, "<f8").tobytes()]
    return b"".join(found)


def _look_at(wkb: bytes, name: Any) -> None:
    """An error if these bytes of a file aren't polygons in such binary."""
    kind, = struct.unpack_from("<I", wkb, 1) if len(wkb) > 4 else (0,)
    if wkb[:1] != b"\1" or kind & 0x3fffffff not in (3, 6):  # of 3D and more, the first two bits
        raise ValueError(f"zone {name!r}: it has no polygons as `save` writes them")
    try:
        look_at_shape(wkb)
    except ValueError as error:
        raise ValueError(f"zone {name!r}: {error}") from None


def _borders(predicate: str) -> int:
    """Whether a point on a border is in the zone."""
    if predicate not in PREDICATES:
        raise ValueError(f"a predicate is {' or '.join(map(repr, PREDICATES))}, not {predicate!r}")
    return PREDICATES.index(predicate)


def _of_shapely(shape: bytes) -> Any:
    try:
        from shapely import wkb
    except ImportError:
        raise ModuleNotFoundError("zones in WKB need shapely (pip install shapely, or Debian's python3-shapely); "
                                  "objects of GeoJSON don't") from None
    return wkb.loads(shape)


def _number_of(name: Any) -> Any:
    """A name that JSON has no form for, as a number of numpy is."""
    if isinstance(name, numpy.generic) and isinstance(name.item(), (int, float, str)):
        return name.item()
    raise TypeError(f"a name of a zone is a text or a number, not {type(name).__name__}: {name!r}")


def _arrays_of(file: Any) -> dict[str, Any]:
    """The arrays of a file of numpy, which are stored as they are, of the kinds that an index has."""
    with zipfile.ZipFile(file) as whole:
        if any(it.compress_type != zipfile.ZIP_STORED for it in whole.infolist()):
            raise ValueError("it is compressed")
        found = {}
        for name, kind in ARRAYS.items():
            with whole.open(f"{name}.npy") as member:
                found[name] = numpy.lib.format.read_array(member, allow_pickle=False)
            if found[name].ndim != 1 or found[name].dtype.kind != kind:
                raise ValueError(f"its array {name!r} is of another kind")
    if found["cell"].dtype != "uint64":
        raise ValueError("its array 'cell' is of another kind")
    return found


def _rises(ends: Any, end: int) -> bool:
    """Whether numbers rise from 0 to the end."""
    return bool(len(ends) and ends[0] == 0 and ends[-1] == end and (ends[1:] >= ends[:-1]).all())
