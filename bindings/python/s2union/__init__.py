"""Unions of S2 cells, proved.

A `CellUnion` is a set of leaf cells of the sphere, kept as the one normalized list of cells that covers it. It is
immutable, and works like a set:

>>> from s2union import CellUnion, from_token
>>> a = CellUnion.from_tokens(["04", "0c", "14", "1c"])   # four siblings are their parent
>>> a.tokens()
['1']
>>> b = a - CellUnion.from_tokens(["14"])
>>> b.tokens()
['04', '0c', '1c']
>>> b < a, a | b == a, a & b == b, from_token("14") in b
(True, True, True, False)

Cells are their identifiers, as `int`. Where a cell is taken, its 64 bits may also be a signed number, as databases have
them; cells that are given back are not signed. A value that is wrong raises a subclass of `S2UnionError`, which is a
`ValueError` or a `MemoryError` too; one of a wrong type raises `TypeError`. All work is done by the library
libs2union, whose every call is proved; this module turns its statuses into exceptions and does no arithmetic on cells.
The library is looked for at $S2UNION_LIBRARY, beside this module, in the two folders above it, and in the system's own
places. The arguments of a call are checked in `_library`, which is written in C.
"""

from __future__ import annotations

import copy as _copy
import mmap as _mmap
import operator as _operator
import os as _os
from array import array as _array
from collections.abc import Set as _Set
from importlib import import_module as _import_module
from itertools import accumulate as _accumulate
from typing import TYPE_CHECKING, Any, Iterable, Iterator, NoReturn, overload

from . import _library, _rooms
from ._errors import (
    CornerError, FileCellError, FileShortError, FileTrailingError, FileVersionError, NotACellError, NotNormalizedError,
    OutOfMemoryError, OutOfRangeError, RingError, S2UnionError, ShapeError, TooManyCellsError, UnionFileError,
    UnknownStatusError,
)

if TYPE_CHECKING:
    from mmap import mmap
    from typing import Callable, Protocol, SupportsIndex, TypeVar

    import numpy as np
    import numpy.typing as npt

    Self = TypeVar("Self", bound="CellUnion")

    class Array(Protocol):
        """An array of numpy, or what is made one, such as a column of pandas."""

        def __array__(self, *arguments: Any, **options: Any) -> Any: ...

    Cells = Iterable[SupportsIndex] | Array
    Corners = Iterable[Iterable[SupportsIndex]] | Array
    Bytes = bytes | bytearray | memoryview | mmap | _array[Any] | Array

__all__ = ["CellUnion", "Union", "UnionFile", "version", "is_cell", "level", "face", "parent", "child", "range_min",
           "range_max", "size", "next_cell", "previous_cell", "common_ancestor", "contains", "intersects",
           "from_face_ij", "square", "token", "from_token", "debug", "from_debug", "tokens", "from_tokens", "to_signed",
           "levels", "parents", "range_mins", "range_maxes", "token_fields", "from_points", "is_union",
           # aliases: all
           "S2UnionError", "NotACellError", "NotNormalizedError", "OutOfRangeError", "TooManyCellsError",
           "OutOfMemoryError", "UnionFileError", "FileShortError", "FileVersionError", "FileTrailingError",
           "FileCellError", "CornerError", "RingError", "ShapeError", "UnknownStatusError"]

__version__ = "1.4.1"

def _refuse(status: int, what: str = "") -> NoReturn:
    _library.refuse(status, what)


def _deeper(wanted: SupportsIndex, cell: SupportsIndex) -> str:
    """What is said of a level at which a cell has no ancestor."""
    return f"level {wanted} is deeper than the cell {_library.token(cell)}, which is of level {_library.level(cell)}"


def version() -> tuple[int, int, int]:
    """The version of the library that runs.

    .. versionadded:: 0.1

    Returns
    -------
    tuple of int
        Major, minor, patch.

    Examples
    --------
    >>> version() >= (1, 1, 0)
    True
    """
    number = _library.version()
    return number // 10000, number // 100 % 100, number % 100


def is_cell(cell: SupportsIndex) -> bool:
    # comment: is_cell
    return _library.is_cell(cell)


def to_signed(cell: SupportsIndex) -> int:
    """The cell as the signed number of the same 64 bits, as a BIGINT of a database has it.

    .. versionadded:: 0.1

    Parameters
    ----------
    cell : int
        A cell: its 64 bits, with a sign or without.

    Returns
    -------
    int
        -2**63 to 2**63 - 1.

    Raises
    ------
    NotACellError
        A number is the identifier of no cell.

    Examples
    --------
    >>> to_signed(from_token("89c25")), level(to_signed(from_token("89c25")))
    (-8520159584101335040, 8)
    """
    return _library.to_signed(cell)


def level(cell: SupportsIndex) -> int:
    # comment: level
    return _library.level(cell)


def face(cell: SupportsIndex) -> int:
    # comment: face
    return _library.face(cell)


def parent(cell: SupportsIndex, level: SupportsIndex | None = None) -> int:
    # comment: parent
    wanted = _library.level(cell) - 1 if level is None else level
    if level is None and wanted == -1:
        raise OutOfRangeError(f"a face has no parent: {_library.bits(cell):#x}")
    found = _library.parent(cell, wanted)
    if found is None:
        raise OutOfRangeError(_deeper(wanted, cell))
    return found


def child(cell: SupportsIndex, number: SupportsIndex) -> int:
    # comment: child
    found = _library.child(cell, number)
    if found is None:
        raise OutOfRangeError(f"a leaf has no children: {_library.bits(cell):#x}")
    return found


def range_min(cell: SupportsIndex) -> int:
    # comment: range_min
    return _library.range_min(cell)


def range_max(cell: SupportsIndex) -> int:
    # comment: range_max
    return _library.range_max(cell)


def size(cell: SupportsIndex) -> int:
    # comment: size
    return _library.size(cell)


def next_cell(cell: SupportsIndex) -> int | None:
    # comment: next
    return _library.next_cell(cell)


def previous_cell(cell: SupportsIndex) -> int | None:
    # comment: prev
    return _library.previous_cell(cell)


def common_ancestor(a: SupportsIndex, b: SupportsIndex) -> int | None:
    # comment: common_ancestor
    return _library.common_ancestor(a, b)


def contains(whole: SupportsIndex, part: SupportsIndex) -> bool:
    # comment: cell_contains
    return _library.cell_contains(whole, part)


def intersects(a: SupportsIndex, b: SupportsIndex) -> bool:
    # comment: cell_intersects
    return _library.cell_intersects(a, b)


def from_face_ij(face: SupportsIndex, i: SupportsIndex, j: SupportsIndex) -> int:
    # comment: from_face_ij
    return _library.from_face_ij(face, i, j)


def square(cell: SupportsIndex) -> tuple[int, int, int, int]:
    # comment: square_of
    return _library.square_of(cell)


def token(cell: SupportsIndex) -> str:
    # comment: token
    return _library.token(cell)


def from_token(text: str | bytes) -> int:
    # comment: from_token
    return _library.from_token(text)


def debug(cell: SupportsIndex) -> str:
    # comment: debug
    return _library.debug(cell)


def from_debug(text: str | bytes) -> int:
    # comment: from_debug
    return _library.from_debug(text)


@overload
def levels(cells: Array) -> npt.NDArray[np.uint8]: ...
@overload
def levels(cells: Iterable[SupportsIndex]) -> list[int]: ...


def levels(cells: Any) -> Any:
    # comment: levels
    return _entries(cells, _found(*_library.levels(_given(cells))), "B")


@overload
def parents(cells: npt.NDArray[np.int64], level: SupportsIndex) -> npt.NDArray[np.int64]: ...  # type: ignore[misc]
@overload
def parents(cells: npt.NDArray[np.uint64], level: SupportsIndex) -> npt.NDArray[np.uint64]: ...  # type: ignore[misc]
@overload
def parents(cells: Array, level: SupportsIndex) -> npt.NDArray[np.uint64] | npt.NDArray[np.int64]: ...
@overload
def parents(cells: Iterable[SupportsIndex], level: SupportsIndex) -> list[int]: ...


def parents(cells: Any, level: SupportsIndex) -> Any:
    # comment: parents
    return _relatives(cells, _found(*_library.parents(_given(cells), level), level))


@overload
def range_mins(cells: npt.NDArray[np.int64]) -> npt.NDArray[np.int64]: ...  # type: ignore[misc]
@overload
def range_mins(cells: npt.NDArray[np.uint64]) -> npt.NDArray[np.uint64]: ...  # type: ignore[misc]
@overload
def range_mins(cells: Array) -> npt.NDArray[np.uint64] | npt.NDArray[np.int64]: ...
@overload
def range_mins(cells: Iterable[SupportsIndex]) -> list[int]: ...


def range_mins(cells: Any) -> Any:
    # comment: range_mins
    return _relatives(cells, _found(*_library.range_mins(_given(cells))))


@overload
def range_maxes(cells: npt.NDArray[np.int64]) -> npt.NDArray[np.int64]: ...  # type: ignore[misc]
@overload
def range_maxes(cells: npt.NDArray[np.uint64]) -> npt.NDArray[np.uint64]: ...  # type: ignore[misc]
@overload
def range_maxes(cells: Array) -> npt.NDArray[np.uint64] | npt.NDArray[np.int64]: ...
@overload
def range_maxes(cells: Iterable[SupportsIndex]) -> list[int]: ...


def range_maxes(cells: Any) -> Any:
    # comment: range_maxes
    return _relatives(cells, _found(*_library.range_maxes(_given(cells))))


@overload
def token_fields(cells: Array) -> npt.NDArray[np.bytes_]: ...
@overload
def token_fields(cells: Iterable[SupportsIndex]) -> list[bytes]: ...


def token_fields(cells: Any) -> Any:
    """The tokens of many cells in one call, as bytes, which is quicker for an array than the list that `tokens` gives.

    .. versionadded:: 0.2

    Parameters
    ----------
    cells : iterable of int, or array of 64-bit integers
        Cells: any iterable, a buffer of 64-bit integers, an array of numpy, a column of pandas, polars or pyarrow.

    Returns
    -------
    list of bytes, or array of S16
        A list; for an array, an array of texts of at most 16 bytes.

    Raises
    ------
    NotACellError
        A number is the identifier of no cell; the message has its place.

    Notes
    -----
    S2: ``S2CellId::ToToken``.

    Examples
    --------
    >>> token_fields([from_token("0c")])
    [b'0c']
    """
    width = _library.MOST_TOKEN
    fields = _found(*_library.token_fields(_given(cells)))
    if _is_array(cells):
        return _array_of(fields, "B").view(f"S{width}")
    text = bytes(fields)
    return [text[at:at + width].rstrip(b"\0") for at in range(0, len(text), width)]


@overload
def from_points(face: Array, i: Array, j: Array) -> npt.NDArray[np.uint64]: ...
@overload
def from_points(face: Iterable[SupportsIndex], i: Iterable[SupportsIndex], j: Iterable[SupportsIndex]) -> list[int]: ...


def from_points(face: Any, i: Any, j: Any) -> Any:
    """The leaves at many places of faces, in one call. `s2union_geo.leaves` takes degrees.

    .. versionadded:: 0.2

    Parameters
    ----------
    face : iterable or array of int
        0 to 5, for each point.
    i : iterable or array of int
        0 to 2**30 - 1, as many.
    j : iterable or array of int
        0 to 2**30 - 1, as many.

    Returns
    -------
    list of int, or array of uint64
        A list; an array if `face` is an array or column.

    Raises
    ------
    OutOfRangeError
        A number is out of range: of arrays, the message has its place.
    ValueError
        There are not as many of each.
    TypeError
        Something is no int: `from_face_ij` takes one point, `s2union_geo.leaves` degrees.

    Notes
    -----
    S2: ``S2CellId::FromFaceIJ``.

    Examples
    --------
    >>> from_points([0, 5], [0, 1], [0, 2]) == [from_face_ij(0, 0, 0), from_face_ij(5, 1, 2)]
    True
    """
    points = _points_of((face, 5, "a face"), (i, 2**30 - 1, "i"), (j, 2**30 - 1, "j"))
    found, place, _ = _library.from_points(memoryview(points))
    if place >= 0:
        _refuse(_library.ARGUMENT, f"at place {place}: {points[3 * place:3 * place + 3].tolist()}")
    return _entries(face, found)


def _points_of(*parts: tuple[Any, int, str]) -> _array[int]:
    """The numbers of points, each the first of all parts, the second of all, and so on."""
    columns = [_column_of(*part) for part in parts]
    count = len(columns[0])
    if any(len(column) != count for column in columns):
        raise ValueError(f"there are not as many of each: {', '.join(str(len(column)) for column in columns)}")
    points = _array("I", [0]) * (len(columns) * count)
    for place, column in enumerate(columns):
        points[place::len(columns)] = column
    return points


def _column_of(numbers: Any, most: int, what: str) -> _array[int]:
    """Numbers from 0 to `most`, of 32 bits each."""
    others = "from_face_ij takes one point, and s2union_geo.leaves longitudes and latitudes"
    if not _is_array(numbers):
        try:
            return _array("I", [_library.number(value, most, what) for value in numbers])
        except TypeError as error:
            raise TypeError(f"{what} of each point is wanted: {error}. {others}") from error
    import numpy
    given = numpy.asarray(numbers)
    if given.ndim != 1 or given.dtype.kind not in "iu":
        raise TypeError(f"{what} is an int, not of {given.ndim} dimensions and the type {given.dtype}. {others}")
    if given.size and (given.min() < 0 or given.max() > most):
        place = numpy.argmax((given < 0) | (given > most))
        raise OutOfRangeError(f"{what} is out of range at place {place}: {given[place]}")
    column = _array("I")
    column.frombytes(given.astype(numpy.uint32).tobytes())
    return column


def _given(cells: Any) -> bytes | memoryview:
    """Cells for a call that has an entry for each, where they lie: it copies them while it reads them."""
    return cells._ids if isinstance(cells, CellUnion) else _ids_of(cells)


def _found(entries: bytearray, place: int, cell: int, level: SupportsIndex = 0) -> bytearray:
    """The entries of cells; but if one has none, which may be at the level, its place is the first of those, and it is
    refused."""
    if place >= 0:
        if _library.is_cell(cell):
            raise OutOfRangeError(f"{_deeper(level, cell)}, at place {place}")
        raise NotACellError(f"not a cell at place {place}: {cell:#x}")
    return entries


def _array_of(found: bytearray, kind: str) -> Any:
    """An array of numpy over what was found."""
    import numpy
    return numpy.asarray(memoryview(found).cast(kind))


def _entries(given: Any, found: bytearray, kind: str = "Q") -> Any:
    """What was found, of a kind: in an array if the caller gave one, else in a list."""
    return _array_of(found, kind) if _is_array(given) else memoryview(found).cast(kind).tolist()


def _relatives(cells: Any, found: bytearray) -> Any:
    """Cells that were found for cells, which are signed in an array if the caller's are."""
    return _entries(cells, found, "q" if _is_array(cells) and _is_signed(cells) else "Q")


def _is_signed(cells: Any) -> bool:
    """Whether an array has signed numbers: by the type that numpy and pandas say, or by the memory that it has."""
    kind = getattr(getattr(cells, "dtype", None), "kind", "")
    view = None if kind else _view_of(cells)
    return kind == "i" or (view is not None and view.format.lstrip("@=<") in ("q", "l", "n"))


def tokens(cells: Iterable[SupportsIndex] | Array) -> list[str]:
    """The tokens of many cells in one call, in their order.

    .. versionadded:: 0.1

    Parameters
    ----------
    cells : iterable of int, or array of 64-bit integers
        Cells: any iterable, a buffer of 64-bit integers, an array of numpy, a column of pandas, polars or pyarrow.

    Returns
    -------
    list of str
        A token for each.

    Raises
    ------
    NotACellError
        A number is the identifier of no cell; the message has its place.

    Notes
    -----
    S2: ``S2CellId::ToToken``.

    Examples
    --------
    >>> tokens([0x1c00000000000000, 0x0400000000000000])
    ['1c', '04']
    """
    return _library.tokens(_read(cells)).split()


def from_tokens(text: str | bytes | Iterable[str]) -> list[int]:
    # comment: from_tokens
    return _cells_in(_named(text)).tolist()


def is_union(cells: Iterable[SupportsIndex] | Array) -> bool:
    # comment: is_union
    return _library.is_union(_read(cells))


def _named(text: str | bytes | Iterable[str]) -> bytes:
    """The cells that a text or an iterable of tokens names."""
    if isinstance(text, (str, bytes)):
        return _library.from_tokens(text)
    return _array("Q", [_library.from_token(word) for word in text]).tobytes()


def _is_array(cells: Any) -> bool:
    """Whether these are an array of numpy, a column of pandas or the like."""
    return hasattr(type(cells), "__array__")


def _view_of(cells: Any) -> memoryview | None:
    """The buffer of what has one; None for what has none, and for an array of Python's own objects."""
    numbers = cells.__array__() if _is_array(cells) else cells
    try:
        return None if getattr(numbers, "dtype", None) == "O" else memoryview(numbers)
    except (TypeError, ValueError):
        return None


def _refuse_missing(cells: Any) -> None:
    """Raises the error of the first missing value of an array or column, if it has one: by its name and place."""
    for place, value in enumerate(cells.__array__().flat if _is_array(cells) else ()):
        if value is None or type(value).__name__ == "NAType" or isinstance(value, float) and value != value:
            name = getattr(cells, "name", None)
            raise TypeError(f"the column{'' if name is None else f' {name!r}'} has a missing value at place {place}: "
                            "drop or fill missing values before they make floats of a column")


def _ids_of(cells: Any) -> bytes | memoryview:
    """The numbers in a buffer of 64-bit integers, where they lie, or the cells of an iterable."""
    view = _view_of(cells)
    if view is None:
        try:
            return _library.list_of(cells)
        except TypeError:
            _refuse_missing(cells)
            raise
    if view.ndim != 1 or view.itemsize != 8 or view.format.lstrip("@=<") not in ("Q", "L", "N", "q", "l", "n"):
        _refuse_missing(cells)
        rule = "; floats are rounded: drop or fill missing values before they make floats of a column"
        raise TypeError("a buffer of cells has one dimension and 64-bit integers "
                        f"(this one has {view.ndim} and the format {view.format!r}"
                        f"{rule if view.format.endswith(('d', 'f', 'e')) else ''})")
    return view if view.c_contiguous else view.tobytes()


def _read(cells: Any) -> bytes:
    """Cells for a call that only reads them: those of a union in place, and a copy of others."""
    if isinstance(cells, CellUnion):
        return cells._ids
    ids = _ids_of(cells)
    return ids if isinstance(ids, bytes) else ids.tobytes()


def _cells_in(ids: bytes) -> memoryview:
    return memoryview(ids).cast("Q")


def _refuse_place(place: Any, size: int) -> NoReturn:
    """Raises the error of a place at which a union of this size has no cell."""
    if not hasattr(type(place), "__index__"):
        raise TypeError(f"the place of a cell is an int or a slice, not {type(place).__name__}") from None
    raise IndexError(f"there is no cell {place}: the union has {size}") from None


def _shown(bounds: Iterable[SupportsIndex], level: SupportsIndex, most: SupportsIndex) -> str:
    """What a covering was asked for."""
    corners = " ".join(map(str, bounds))
    return f"{corners}{', ' if corners else ''}level {level}, at most {most} cells"


def _asked(outside: SupportsIndex, margin: SupportsIndex, rest: str) -> str:
    """What a covering of a polygon was asked for, besides its corners and rings."""
    return f"outside {outside}, margin {margin}, {rest}"


def _directions(corners: Any) -> memoryview:
    """Corners as the library takes them: three numbers of 64 bits for each. A buffer of such numbers isn't copied."""
    try:
        view = memoryview(corners)
    except TypeError:
        numbers = _array("q")
        try:
            for x, y, z in corners:
                numbers.extend((_operator.index(x), _operator.index(y), _operator.index(z)))
        except OverflowError:
            raise CornerError(f"a corner of a polygon is no direction: {x} {y} {z}") from None
        return memoryview(numbers)
    if view.format not in ("q", "l") or view.itemsize != 8 or not view.c_contiguous or view.nbytes % 24:
        raise TypeError("corners are three numbers of 64 bits each, one after another")
    return view.cast("B")


def _ends(ends: Iterable[SupportsIndex]) -> memoryview:
    """The ends of rings as the library takes them."""
    numbers = list(map(_operator.index, ends))
    try:
        return memoryview(_array("Q", numbers))
    except OverflowError:
        raise RingError(f"a ring of a polygon has a wrong end: one of {numbers}") from None


def _answers(cells: Any, answers: bytearray) -> Any:
    """The answers to questions about cells, 1 or 0 for each: a mask for whatever the caller has the cells in."""
    return _entries(cells, answers, "?")


def _bytes_in(data: Any) -> memoryview:
    """The bytes of a buffer, which stays where it is as long as this is there."""
    if isinstance(data, str):
        raise TypeError("bytes are wanted, not str: bytes.fromhex reads hexadecimal digits, base64.b64decode base64")
    view = memoryview(data)
    if not view.c_contiguous:
        raise TypeError("a buffer of bytes has no gaps")
    return view


def _text_in(view: memoryview) -> str:
    """Which text a file that isn't there may have been written as, by how one begins, for a message."""
    begin = view.tobytes()[:3] if view.nbytes < 3 else bytes(view.cast("B")[:3])
    if begin[:2] == b"01" or begin == b"\\x0":
        return ", which may be hexadecimal digits: bytes.fromhex reads these"
    if begin[:1] == b"A" and begin[1:2].isalpha():
        return ", which may be base64: base64.b64decode reads it"
    return ""


def _unchanging(view: memoryview) -> memoryview | bytes:
    """The bytes for a call that reads them twice. Bytes that can be written are copied: if another thread wrote them
    between the two times, the second would find what the first has ruled out."""
    return view if view.readonly else view.tobytes()


def _text_given(text: str | Bytes) -> memoryview | bytes:
    """The bytes of a text: in UTF-8, or as they are given. Of a str with halves of a character the call says so."""
    if isinstance(text, dict):
        raise TypeError("a text is wanted, not a dict: json.dumps writes one of it")
    return text.encode("utf-8", "surrogatepass") if isinstance(text, str) else _unchanging(_bytes_in(text))


def _both(coverings: tuple[bytes, bytes]) -> tuple[CellUnion, CellUnion]:
    """The outer and the inner covering whose normalized lists have these bytes."""
    outer, inner = coverings
    return CellUnion._holding(outer), CellUnion._holding(inner)


# methods: all others
class UnionFile:
    """A union file that answers questions in place, as in a mapped file or a row of a table: nothing is copied.

    The bytes are checked once to be the file that `CellUnion.to_bytes` writes for some union. If they are not, or no
    longer, a question raises `UnionFileError` or its answer means nothing. No thread and no process may write them
    during a call, and while the object exists none may cut a mapped file. Pickles and deep copies have bytes of their
    own.

    .. versionadded:: 0.1

    Parameters
    ----------
    data : bytes, or a buffer without gaps
        The bytes of a union file: bytes, a bytearray, a mapped file, a memoryview.
    checked : bool, optional
        Whether they were checked before, so that it is not done again: then any answer may be given of another file.

    Raises
    ------
    NotNormalizedError
        The cells of the file are not normalized: `CellUnion.from_bytes` takes it.
    UnionFileError
        The bytes are no union file.
    TypeError
        Something else than bytes is given, or the object is made twice.

    Examples
    --------
    >>> file = UnionFile(CellUnion.from_tokens(["04", "0c"]).to_bytes())
    >>> len(file), from_token("04") in file, from_token("14") in file
    (2, True, False)
    """

    __slots__ = ("_bytes",)

    def __init__(self, data: Bytes, checked: bool = False) -> None:
        view = _bytes_in(data)
        if hasattr(self, "_bytes"):  # which a call may be reading
            raise TypeError("a UnionFile is made once")
        if not checked and _library.file_check(view) == 0:
            raise NotNormalizedError("the cells of the file are not normalized: CellUnion.from_bytes takes it")
        _library.file_count(view)  # which refuses what is no file, also if it was checked
        self._bytes = view

    @classmethod
    def open(cls, path: str | _os.PathLike[str], checked: bool = False) -> UnionFile:
        """The union file at a path, mapped into memory. `with` closes it, and so does `close`.

        .. versionadded:: 1.2

        Parameters
        ----------
        path : str or path-like
            The path of the file.
        checked : bool, optional
            Whether its bytes were checked before, as for `UnionFile`.

        Returns
        -------
        UnionFile
            The file. Once it is closed, questions raise ValueError.

        Raises
        ------
        NotNormalizedError
            The cells of the file are not normalized: `CellUnion.from_bytes` takes it.
        UnionFileError
            The bytes are no union file.
        OSError
            The file can't be read.

        Examples
        --------
        >>> import tempfile
        >>> with tempfile.NamedTemporaryFile() as it:
        ...     _ = it.write(CellUnion.from_tokens(["04"]).to_bytes())
        ...     it.flush()
        ...     with UnionFile.open(it.name) as file:
        ...         len(file)
        1
        """
        with open(path, "rb") as file:
            has_bytes = _os.fstat(file.fileno()).st_size > 0  # without any it can't be mapped
            return cls(_mmap.mmap(file.fileno(), 0, access=_mmap.ACCESS_READ) if has_bytes else b"", checked)

    def close(self) -> None:
        """Let go of the bytes. Questions raise ValueError from then on, `len` and `bool` too.

        .. versionadded:: 1.2

        Returns
        -------
        None
            Nothing.

        Raises
        ------
        BufferError
            A call of another thread reads them. The file stays open.

        Examples
        --------
        >>> file = UnionFile(CellUnion.from_tokens(["04"]).to_bytes())
        >>> file.close()
        >>> from_token("04") in file
        Traceback (most recent call last):
            ...
        ValueError: operation forbidden on released memoryview object
        """
        self._bytes.release()

    def __enter__(self) -> UnionFile:
        return self

    def __exit__(self, *reason: object) -> None:
        self.close()

    def __reduce__(self) -> tuple[Any, ...]:
        return type(self), (self._bytes.tobytes(),)

    def __copy__(self) -> UnionFile:
        return self

    def __len__(self) -> int:
        return _library.file_count(self._bytes)

    @overload
    def __getitem__(self, place: SupportsIndex) -> int: ...
    @overload
    def __getitem__(self, place: slice) -> list[int]: ...

    def __getitem__(self, place: Any) -> Any:
        size = len(self)
        if isinstance(place, slice):
            return [self._cell_at(k) for k in range(*place.indices(size))]
        at = _operator.index(place) if hasattr(type(place), "__index__") else size
        if not -size <= at < size:
            _refuse_place(place, size)
        return self._cell_at(at % size)

    def _cell_at(self, place: int) -> int:
        return _library.file_cell(self._bytes, place)

    def __contains__(self, cell: SupportsIndex) -> bool:
        # comment: file_contains_cell
        return _library.file_contains_cell(self._bytes, cell)

    @overload
    def contains_cells(self, cells: Array) -> npt.NDArray[np.bool_]: ...
    @overload
    def contains_cells(self, cells: Iterable[SupportsIndex]) -> list[bool]: ...

    def contains_cells(self, cells: Any) -> Any:
        # comment: file_contains_cells
        return _answers(cells, _found(*_library.file_contains_cells(self._bytes, _given(cells))))

    @overload
    def intersects_cells(self, cells: Array) -> npt.NDArray[np.bool_]: ...
    @overload
    def intersects_cells(self, cells: Iterable[SupportsIndex]) -> list[bool]: ...

    def intersects_cells(self, cells: Any) -> Any:
        """Whether the union has a leaf of each cell in turn. Each is asked in a call of its own: `union()` is quicker
        for many.

        .. versionadded:: 0.1

        Parameters
        ----------
        cells : iterable of int, or array of 64-bit integers
            Cells: any iterable, a buffer of 64-bit integers, an array of numpy, a column of pandas, polars or
            pyarrow.

        Returns
        -------
        list of bool, or array of bool
            A list; for an array of numpy or a column, an array.

        Raises
        ------
        NotACellError
            A number is the identifier of no cell; the message has its place.
        UnionFileError
            The bytes were changed since they were checked, and are no union file.

        Notes
        -----
        S2: ``S2CellUnion::Intersects``.

        Examples
        --------
        >>> UnionFile(CellUnion.from_tokens("0401").to_bytes()).intersects_cells([from_token("04")])
        [True]
        """
        found = (_library.file_intersects_cell(self._bytes, cell) for cell in _cells_in(_read(cells)))
        return _answers(cells, bytearray(found))

    # methods: all others but file_count, file_cell
    def union(self) -> CellUnion:
        """The union itself, copied.

        .. versionadded:: 0.1

        Returns
        -------
        CellUnion
            The union.

        Raises
        ------
        UnionFileError
            The bytes were changed since they were checked, and are no union file.
        OutOfMemoryError
            There is no memory for the result.

        Notes
        -----
        S2: ``S2CellUnion::Decode``.

        Examples
        --------
        >>> UnionFile(CellUnion.from_tokens("04").to_bytes()).union()
        <CellUnion of 1 cells: 04>
        """
        return CellUnion._holding(_library.decode("", len(self), _unchanging(self._bytes)))


def _union_of(cells: Any) -> CellUnion:
    """A union itself, or the union of an iterable or a buffer of cells."""
    return cells if isinstance(cells, CellUnion) else CellUnion(cells)


def _wanted(kind: type, other: Any) -> Any:
    if not isinstance(other, kind):
        raise TypeError(f"a {kind.__name__} is wanted, not {type(other).__name__}")
    return other


class CellUnion:
    """An immutable set of leaf cells, as the one normalized list of cells that covers it.

    It is a `collections.abc.Set` of leaves with the operators ``|``, ``&``, ``-``, ``^``, ``~``, ``<=``, ``<``, ``==``,
    and as a sequence it has its cells, ascending: ``len(union)``, ``union[0]``, ``for cell in union``. Equal unions
    have equal hashes.

    .. versionadded:: 1.2
       Up to 1.1 the name was `Union`, which stays.

    Parameters
    ----------
    cells : iterable of int, buffer or array of 64-bit integers, optional
        Cells in any order, repeated, or inside one another. Of a buffer or an array nothing is copied but the union.

    Raises
    ------
    NotACellError
        A number is the identifier of no cell; the message has its place.
    TypeError
        Something is no int, or the buffer has other numbers than integers of 64 bits.
    OutOfMemoryError
        There is no memory for the union.

    Notes
    -----
    S2: ``S2CellUnion``.

    Examples
    --------
    >>> CellUnion([0x0c00000000000000, 0x0400000000000000, 0x0c00000000000000])
    <CellUnion of 2 cells: 04 0c>
    >>> CellUnion([0x0400000000000000, 2])
    Traceback (most recent call last):
        ...
    s2union.NotACellError: not a cell at place 1: 0x2
    """

    __slots__ = ("_ids", "_hash")  # _ids are the identifiers' own bytes

    _ids: bytes
    _hash: int | None

    def __new__(cls: type[Self], cells: Iterable[SupportsIndex] | Array = ()) -> Self:
        return cls._holding(cells._ids if isinstance(cells, CellUnion) else _library.normalise(_ids_of(cells)))

    def __init__(self, *_: Any, **__: Any) -> None:
        """Does nothing: `__new__` makes the union, and a second call must not change it."""

    @classmethod
    def _holding(cls: type[Self], ids: bytes) -> Self:
        """The union whose normalized list has these bytes."""
        self = object.__new__(cls)
        object.__setattr__(self, "_ids", ids)
        object.__setattr__(self, "_hash", None)
        return self

    def __setattr__(self, name: str, value: object) -> None:
        raise AttributeError("a CellUnion is immutable")

    def __delattr__(self, name: str) -> None:
        raise AttributeError("a CellUnion is immutable")

    @classmethod
    def of(cls: type[Self], unions: Iterable[Cells]) -> Self:
        """The leaves of any of many unions, in one call, which merges them in pairs.

        .. versionadded:: 0.1

        Parameters
        ----------
        unions : iterable of CellUnion or cells
            The unions, or what is made one.

        Returns
        -------
        CellUnion
            The union of all; the empty one of none.

        Raises
        ------
        NotACellError
            A number among cells is the identifier of no cell.
        TypeError
            Something among them is no int, or one union is given in place of several.
        OutOfMemoryError
            There is no memory for the result.

        Notes
        -----
        S2: ``S2CellUnion::Union``.

        Examples
        --------
        >>> CellUnion.of([CellUnion.from_tokens(text) for text in ("04 0c", "", "14", "1c")])
        <CellUnion of 1 cells: 1>
        """
        if isinstance(unions, CellUnion) and unions:
            raise TypeError(f"of takes an iterable of unions, and this is one union, of {len(unions)} cells")
        lists = [_union_of(union)._ids for union in unions]
        ends = _array("Q", _accumulate(len(ids) // 8 for ids in lists))
        return cls._holding(_library.union_of_many(b"".join(lists), memoryview(ends)))

    @classmethod
    def from_tokens(cls: type[Self], tokens: str | bytes | Iterable[str]) -> Self:
        """The union of the cells that a text names, as the function `from_tokens` reads it.

        .. versionadded:: 0.1

        Parameters
        ----------
        tokens : str, bytes, or iterable of str
            Words with blanks, tabs, line ends or commas between them, each a token or a debug text; or an iterable of
            tokens.

        Returns
        -------
        CellUnion
            Their union.

        Raises
        ------
        NotACellError
            A word names no cell: the message has it and its place.

        Examples
        --------
        >>> CellUnion.from_tokens("0c 04").tokens()
        ['04', '0c']
        """
        return cls._holding(_library.normalise(_named(tokens)))

    @classmethod
    def from_range(cls: type[Self], first: SupportsIndex, last: SupportsIndex) -> Self:
        # comment: range
        what = f"{_library.bits(first):#x} comes after {_library.bits(last):#x}"
        return cls._holding(_library.range_(what, _rooms.range_(), first, last))

    @classmethod
    def from_bytes(cls: type[Self], data: Bytes) -> Self:
        # comment: decode
        view = _bytes_in(data)
        room = _rooms.decode(view.nbytes)
        return cls._holding(_library.decode(f"{view.nbytes} bytes{_text_in(view)}", room, _unchanging(view)))

    @classmethod
    def covering(cls: type[Self], face: SupportsIndex, i0: SupportsIndex, i1: SupportsIndex, j0: SupportsIndex,
                 j1: SupportsIndex, level: SupportsIndex, inner: bool = False,
                 most: SupportsIndex = _library.MOST_COVERING) -> Self:
        """The cells of a level that share a leaf with a rectangle of a face; with `inner`, those that lie in it.

        .. versionadded:: 0.1

        Parameters
        ----------
        face : int
            0 to 5.
        i0 : int
            The least first coordinate, 0 to 2**30 - 1.
        i1 : int
            The greatest, which is in it, `i0` to 2**30 - 1.
        j0 : int
            The least second coordinate, 0 to 2**30 - 1.
        j1 : int
            The greatest, which is in it, `j0` to 2**30 - 1.
        level : int
            0 (a face) to 30 (a leaf).
        inner : bool
            Whether to take only the cells that lie in the rectangle.
        most : int
            The most cells that it may have: at most 1,000,000, which it is if it is left out.

        Returns
        -------
        CellUnion
            The cells, normalized.

        Raises
        ------
        OutOfRangeError
            A face, coordinate or level is out of range, or an end comes before its begin.
        TooManyCellsError
            There would be more than `most` cells.
        OutOfMemoryError
            There is no memory for the result.

        Examples
        --------
        >>> CellUnion.covering(0, 0, 2**30 - 1, 0, 0, level=1).tokens()
        ['04', '1c']
        """
        call = _library.inner if inner else _library.outer
        bounds = (face, i0, i1, j0, j1)
        return cls._holding(call(_shown(bounds, level, most), _rooms.outer(), bounds, level, most))

    @classmethod
    def of_polygon(cls: type[Self], corners: Corners, ends: Iterable[SupportsIndex], outside: SupportsIndex,
                   level: SupportsIndex, inner: bool = False, margin: SupportsIndex = 0,
                   most: SupportsIndex = _library.MOST_COVERING) -> Self:
        """The cells of a level that have an outer leaf of a polygon; with `inner`, those of inner leaves alone.

        Rings may cross, touch, nest and repeat each other: what is crossed an odd number of times on the way from the
        leaf outside lies inside. Outer leaves are those inside and those that an edge touches, inner leaves those
        inside that no edge touches. Nothing is rounded.

        .. versionadded:: 1.4

        Parameters
        ----------
        corners : iterable of triples of int, or a buffer of 64-bit numbers
            Directions from the center of the sphere, each less than 2**31 in size and not all 0, ring after ring: a
            unit vector times 2**31 - 1, rounded.
        ends : iterable of int
            How many corners there are up to the end of each ring.
        outside : int
            A leaf that lies outside.
        level : int
            0 (a face) to 30 (a leaf).
        inner : bool
            Whether to take only cells that have inner leaves alone.
        margin : int
            How near an edge has to come to a leaf to touch it: 0 to 2**60, of which a face has 6 * 2**60 a side.
        most : int
            The most cells that it may have: at most 1,000,000, which it is if it is left out.

        Returns
        -------
        CellUnion
            The cells, normalized.

        Raises
        ------
        OutOfRangeError
            The level is above 30, the margin is above 2**60, or `outside` is no leaf.
        CornerError
            A corner is no direction, or lies opposite the next corner of its ring.
        RingError
            A ring ends in a wrong place or has fewer than three corners, or there is none.
        TooManyCellsError
            There would be more than `most` cells; or edges touch more than 4,000,000 cells of the level, with `inner`
            or with a margin wider than a cell.
        OutOfMemoryError
            There is no memory for the result.

        Notes
        -----
        S2: ``GetCovering`` and ``GetInteriorCovering`` of an ``S2Polygon``, with one level.

        Examples
        --------
        >>> triangle = [(10, 1, 1), (10, 9, 1), (10, 1, 9)]
        >>> CellUnion.of_polygon(triangle, [3], from_face_ij(3, 0, 0), level=3).tokens()
        ['11', '13', '144', '17']
        """
        call = _library.polygon_inner if inner else _library.polygon_outer
        return cls._holding(call(_asked(outside, margin, f"level {level}, at most {most} cells"),
                                 _rooms.polygon_outer(), _directions(corners), _ends(ends), outside, margin, level,
                                 most))

    @staticmethod
    def few_of_polygon(corners: Corners, ends: Iterable[SupportsIndex], outside: SupportsIndex, cells: SupportsIndex,
                       inner: bool = False, margin: SupportsIndex = 0, least: SupportsIndex = 0,
                       deepest: SupportsIndex = 30) -> list[int]:
        """Few cells that have all outer leaves of a polygon, which is as for `of_polygon`; with `inner`, inner leaves.

        .. versionadded:: 1.4

        Parameters
        ----------
        corners : iterable of triples of int, or a buffer of 64-bit numbers
            Directions from the center of the sphere, each less than 2**31 in size and not all 0, ring after ring: a
            unit vector times 2**31 - 1, rounded.
        ends : iterable of int
            How many corners there are up to the end of each ring.
        outside : int
            A leaf that lies outside.
        cells : int
            The most cells, or 6 if that is more and `inner` is not set.
        inner : bool
            Whether to take only cells that have inner leaves alone.
        margin : int
            How near an edge has to come to a leaf to touch it: 0 to 2**60, of which a face has 6 * 2**60 a side.
        least : int
            Cells of lesser levels are cut into cells of this one, 0 to `deepest`. There may then be more of them.
        deepest : int
            The greatest level of a cell, 0 (a face) to 30 (a leaf).

        Returns
        -------
        list of int
            The cells, ascending; normalized if `least` is 0.

        Raises
        ------
        OutOfRangeError
            A level is above 30, `least` is above `deepest`, the margin is above 2**60, or `outside` is no leaf.
        CornerError
            A corner is no direction, or lies opposite the next corner of its ring.
        RingError
            A ring ends in a wrong place or has fewer than three corners, or there is none.
        TooManyCellsError
            There would be more than 1,000,000 cells after some were cut.
        OutOfMemoryError
            There is no memory for the result.

        Notes
        -----
        S2: ``GetCovering`` and ``GetInteriorCovering`` of an ``S2Polygon``, with ``max_cells`` and ``max_level``.

        Examples
        --------
        >>> triangle = [(10, 1, 1), (10, 9, 1), (10, 1, 9)]
        >>> tokens(CellUnion.few_of_polygon(triangle, [3], from_face_ij(3, 0, 0), cells=4))
        ['11', '13', '144', '17']
        """
        call = _library.polygon_inner_up_to if inner else _library.polygon_outer_up_to
        return _cells_in(call(_asked(outside, margin, f"levels {least} to {deepest}, at most {cells} cells"),
                              _rooms.polygon_outer_up_to(), _directions(corners), _ends(ends), outside, margin, least,
                              deepest, cells)).tolist()

    def outer(self: Self, level: SupportsIndex, most: SupportsIndex = _library.MOST_COVERING,
              rectangle: Iterable[SupportsIndex] | None = None) -> Self:
        """The cells of a level that share a leaf with the union, or with what it shares with a rectangle.

        .. versionadded:: 0.1

        Parameters
        ----------
        level : int
            0 (a face) to 30 (a leaf).
        most : int
            The most cells that it may have: at most 1,000,000, which it is if it is left out.
        rectangle : iterable of 5 int, optional
            A rectangle of a face: (face, i0, i1, j0, j1), with both ends of i and of j in it.

        Returns
        -------
        CellUnion
            The cells, normalized.

        Raises
        ------
        OutOfRangeError
            A face, coordinate or level is out of range, or an end comes before its begin.
        TooManyCellsError
            There would be more than `most` cells.
        OutOfMemoryError
            There is no memory for the result.

        Examples
        --------
        >>> CellUnion.from_tokens("0401").outer(1).tokens()
        ['04']
        """
        return self._covered(_library.outer_of, _library.outer_in, rectangle, level, most)

    def inner(self: Self, level: SupportsIndex, most: SupportsIndex = _library.MOST_COVERING,
              rectangle: Iterable[SupportsIndex] | None = None) -> Self:
        """The cells of a level that lie in the union, or in what it shares with a rectangle.

        .. versionadded:: 0.1

        Parameters
        ----------
        level : int
            0 (a face) to 30 (a leaf).
        most : int
            The most cells that it may have: at most 1,000,000, which it is if it is left out.
        rectangle : iterable of 5 int, optional
            A rectangle of a face: (face, i0, i1, j0, j1), with both ends of i and of j in it.

        Returns
        -------
        CellUnion
            The cells, normalized.

        Raises
        ------
        OutOfRangeError
            A face, coordinate or level is out of range, or an end comes before its begin.
        TooManyCellsError
            There would be more than `most` cells.
        OutOfMemoryError
            There is no memory for the result.

        Examples
        --------
        >>> CellUnion.from_tokens("04 1401").inner(1).tokens()
        ['04']
        """
        return self._covered(_library.inner_of, _library.inner_in, rectangle, level, most)

    def _covered(self: Self, whole: Callable[..., bytes], part: Callable[..., bytes],
                 rectangle: Iterable[SupportsIndex] | None, level: SupportsIndex, most: SupportsIndex) -> Self:
        """The covering that one call makes of the union, or the other of its part in a rectangle."""
        if rectangle is None:
            room = _rooms.outer_of(len(self))
            return self._holding(whole(_shown((), level, most), room, self._ids, level, most))
        bounds = tuple(rectangle)
        return self._holding(part(_shown(bounds, level, most), _rooms.outer_in(), self._ids, bounds, level, most))

    def to_bytes(self) -> bytes:
        # comment: encode
        return _library.encode("", _rooms.encode(len(self)), self._ids)

    __bytes__ = to_bytes

    def __reduce__(self) -> tuple[Any, ...]:
        return _unpickled, (self.to_bytes(), type(self)), getattr(self, "__dict__", None)

    def __copy__(self: Self) -> Self:
        return self

    def __deepcopy__(self: Self, memo: dict[int, Any]) -> Self:
        """The union itself, which can't change; or of a subclass that has attributes, a union with copies of these."""
        attributes = getattr(self, "__dict__", None)
        if not attributes:
            return self
        made = memo[id(self)] = self._holding(self._ids)
        made.__dict__.update(_copy.deepcopy(attributes, memo))
        return made

    def tokens(self) -> list[str]:
        """The tokens of the cells.

        .. versionadded:: 0.1

        Returns
        -------
        list of str
            In the order of the cells.

        Raises
        ------
        OutOfMemoryError
            There is no memory for the result.

        Notes
        -----
        S2: ``S2CellId::ToToken``.

        Examples
        --------
        >>> CellUnion.from_tokens("1c 14").tokens()
        ['14', '1c']
        """
        return _library.tokens(self._ids).split()

    # ---- as a collection of cells

    def __len__(self) -> int:
        return len(self._ids) // 8

    def __iter__(self) -> Iterator[int]:
        return iter(self.ids)

    def __reversed__(self) -> Iterator[int]:
        return reversed(self.ids)

    @overload
    def __getitem__(self, place: SupportsIndex) -> int: ...
    @overload
    def __getitem__(self, place: slice) -> list[int]: ...

    def __getitem__(self, place: Any) -> Any:
        if isinstance(place, slice):
            return list(self.ids[place])
        try:
            return self.ids[place]
        except (IndexError, TypeError):
            _refuse_place(place, len(self))

    @property
    def ids(self) -> memoryview:
        """The cells as a read-only memoryview of unsigned 64-bit integers, without a copy.

        .. versionadded:: 0.1

        Returns
        -------
        memoryview
            The format is ``Q``.

        Notes
        -----
        S2: ``S2CellUnion::cell_ids``.

        Examples
        --------
        >>> CellUnion.from_tokens("1c 14").ids.tolist() == [0x1400000000000000, 0x1c00000000000000]
        True
        """
        return _cells_in(self._ids)

    @property
    def __array_interface__(self) -> dict[str, Any]:
        return {"shape": (len(self),), "typestr": "<u8", "data": self.ids, "version": 3}

    # ---- as a set of leaves

    def __eq__(self, other: object) -> bool:
        if not isinstance(other, CellUnion):
            return NotImplemented
        return self._ids == other._ids

    def __hash__(self) -> int:
        if self._hash is None:
            object.__setattr__(self, "_hash", hash(("s2union", self._ids)))
        return self._hash  # type: ignore[return-value]

    def __contains__(self, cell: SupportsIndex) -> bool:
        # comment: contains_cell
        return _library.contains_cell(self._ids, cell)

    def cells_at(self, cell: SupportsIndex) -> list[int]:
        # comment: cells_at
        first, count = _library.cells_at(self._ids, cell)
        return self[first:first + count]

    @overload
    def contains_cells(self, cells: Array) -> npt.NDArray[np.bool_]: ...
    @overload
    def contains_cells(self, cells: Iterable[SupportsIndex]) -> list[bool]: ...

    def contains_cells(self, cells: Any) -> Any:
        # comment: contains_cells
        return _answers(cells, _found(*_library.contains_cells(self._ids, _given(cells))))

    @overload
    def intersects_cells(self, cells: Array) -> npt.NDArray[np.bool_]: ...
    @overload
    def intersects_cells(self, cells: Iterable[SupportsIndex]) -> list[bool]: ...

    def intersects_cells(self, cells: Any) -> Any:
        # comment: intersects_cells
        return _answers(cells, _found(*_library.intersects_cells(self._ids, _given(cells))))

    def _with(self: Self, call: Callable[..., bytes], other: CellUnion, room: Callable[[int, int], int]) -> Self:
        return self._holding(call("", room(len(self), len(other)), self._ids, other._ids))

    def __or__(self: Self, other: CellUnion) -> Self:
        if not isinstance(other, CellUnion):
            return NotImplemented
        return self._with(_library.union, other, _rooms.union)

    def __and__(self: Self, other: CellUnion) -> Self:
        if not isinstance(other, CellUnion):
            return NotImplemented
        return self._with(_library.intersection, other, _rooms.intersection)

    def __sub__(self: Self, other: CellUnion) -> Self:
        if not isinstance(other, CellUnion):
            return NotImplemented
        return self._with(_library.difference, other, _rooms.difference)

    def __xor__(self: Self, other: CellUnion) -> Self:
        if not isinstance(other, CellUnion):
            return NotImplemented
        return self._with(_library.symmetric_difference, other, _rooms.symmetric_difference)

    def __invert__(self: Self) -> Self:
        return self.complement()

    def union(self: Self, *others: Cells) -> Self:
        """The leaves of the union and of all others; `|` of two unions.

        .. versionadded:: 0.1

        Parameters
        ----------
        *others : CellUnion, or cells
            Unions, or iterables or arrays of cells, which are made unions.

        Returns
        -------
        CellUnion
            Their union.

        Raises
        ------
        NotACellError
            A number among cells is the identifier of no cell.
        TypeError
            Something among them is no int.
        OutOfMemoryError
            There is no memory for the result.

        Notes
        -----
        S2: ``S2CellUnion::Union``.

        Examples
        --------
        >>> CellUnion.from_tokens("04").union([from_token("0c")], CellUnion.from_tokens("14 1c")).tokens()
        ['1']
        """
        return self | others[0] if len(others) == 1 and isinstance(others[0], CellUnion) else self.of((self, *others))

    def intersection(self: Self, *others: Cells) -> Self:
        """The leaves that the union and all others have; `&` of two unions.

        .. versionadded:: 0.1

        Parameters
        ----------
        *others : CellUnion, or cells
            Unions, or iterables or arrays of cells, which are made unions.

        Returns
        -------
        CellUnion
            What they share.

        Raises
        ------
        NotACellError
            A number among cells is the identifier of no cell.
        TypeError
            Something among them is no int.
        OutOfMemoryError
            There is no memory for the result.

        Notes
        -----
        S2: ``S2CellUnion::Intersection``.

        Examples
        --------
        >>> CellUnion.from_tokens("1").intersection(CellUnion.from_tokens("04 3")).tokens()
        ['04']
        """
        both = self
        for other in others:
            both = both & _union_of(other)
        return both

    def difference(self: Self, *others: Cells) -> Self:
        """The leaves of the union that none of the others has; `-` of two unions.

        .. versionadded:: 0.1

        Parameters
        ----------
        *others : CellUnion, or cells
            Unions, or iterables or arrays of cells, which are made unions.

        Returns
        -------
        CellUnion
            The leaves that are left.

        Raises
        ------
        NotACellError
            A number among cells is the identifier of no cell.
        TypeError
            Something among them is no int.
        OutOfMemoryError
            There is no memory for the result.

        Notes
        -----
        S2: ``S2CellUnion::Difference``.

        Examples
        --------
        >>> CellUnion.from_tokens("1").difference(CellUnion.from_tokens("14")).tokens()
        ['04', '0c', '1c']
        """
        return self - CellUnion.of(others)

    def symmetric_difference(self: Self, other: Cells) -> Self:
        # comment: symmetric_difference
        return self ^ _union_of(other)

    def __ge__(self, other: CellUnion) -> bool:
        if not isinstance(other, CellUnion):
            return NotImplemented
        return _library.contains(self._ids, other._ids)

    def __le__(self, other: CellUnion) -> bool:
        if not isinstance(other, CellUnion):
            return NotImplemented
        return other.__ge__(self)

    def __gt__(self, other: CellUnion) -> bool:
        if not isinstance(other, CellUnion):
            return NotImplemented
        return self >= other and self != other

    def __lt__(self, other: CellUnion) -> bool:
        if not isinstance(other, CellUnion):
            return NotImplemented
        return other.__gt__(self)

    # methods: all others but union, intersection, difference, contains, compare
    def isdisjoint(self, other: Cells) -> bool:
        """Whether two unions share no leaf.

        .. versionadded:: 0.1

        Parameters
        ----------
        other : CellUnion, or cells
            A union, or an iterable or array of cells, which are made one.

        Returns
        -------
        bool
            True if they don't.

        Raises
        ------
        NotACellError
            A number among cells is the identifier of no cell.
        TypeError
            Something among them is no int.

        Examples
        --------
        >>> CellUnion.from_tokens("04").isdisjoint(CellUnion.from_tokens("1"))
        False
        """
        return not self.intersects(other)

    def issubset(self, other: Cells) -> bool:
        """Whether all leaves of the union are in another; `<=` of two unions.

        .. versionadded:: 0.1

        Parameters
        ----------
        other : CellUnion, or cells
            A union, or an iterable or array of cells, which are made one.

        Returns
        -------
        bool
            True also of equal unions.

        Raises
        ------
        NotACellError
            A number among cells is the identifier of no cell.
        TypeError
            Something among them is no int.

        Examples
        --------
        >>> CellUnion.from_tokens("04").issubset(CellUnion.from_tokens("1"))
        True
        """
        return self <= _union_of(other)

    def issuperset(self, other: Cells) -> bool:
        """Whether all leaves of another union are in this one; `>=` of two unions.

        .. versionadded:: 0.1

        Parameters
        ----------
        other : CellUnion, or cells
            A union, or an iterable or array of cells, which are made one.

        Returns
        -------
        bool
            True also of equal unions.

        Raises
        ------
        NotACellError
            A number among cells is the identifier of no cell.
        TypeError
            Something among them is no int.

        Notes
        -----
        S2: ``S2CellUnion::Contains``.

        Examples
        --------
        >>> CellUnion.from_tokens("1").issuperset(CellUnion.from_tokens("04"))
        True
        """
        return self >= _union_of(other)

    def denormalised(self, min_level: SupportsIndex, modulus: SupportsIndex = 1,
                     most: SupportsIndex | None = None) -> list[int]:
        # comment: denormalised
        need = _library.denormalised_len(self._ids, min_level, modulus)
        if most is not None and need > _library.number(most, 2**64 - 1, "most"):
            raise TooManyCellsError(f"too many cells: {need}")
        return _cells_in(_library.denormalised("", need, self._ids, min_level, modulus)).tolist()

    denormalized = denormalised

    def __repr__(self) -> str:
        shown = [_library.token(cell) for cell in self.ids[:8]]
        more = f" and {len(self) - 8} more" if len(self) > 8 else ""
        return f"<CellUnion of {len(self)} cells: {' '.join(shown)}{more}>"

    def _repr_html_(self) -> str | None:
        """Its map, which a notebook shows; None without numpy or `s2union_geo`: then the notebook shows the `repr`.

        .. versionadded:: 1.5
        """
        try:
            maps = _import_module("s2union_geo.maps")  # which needs this module
        except ImportError:
            return None
        shown: str = maps.html_of(self)
        return shown

    def plot(self, ax: Any = None, **style: Any) -> Any:
        """The outline, drawn with matplotlib by longitudes and latitudes, as ``plot`` of geopandas does.

        .. versionadded:: 1.5

        Parameters
        ----------
        ax : matplotlib.axes.Axes, optional
            Where to draw, such as on the axes that ``plot`` of a GeoDataFrame returns. If none are given, on new ones.
        **style
            Options of ``matplotlib.patches.Patch``, such as ``color``, ``alpha``, ``hatch`` and ``label``.

        Returns
        -------
        matplotlib.axes.Axes
            The axes. On new ones a degree of longitude is as wide as in the middle of the map.

        Raises
        ------
        ModuleNotFoundError
            There is no matplotlib, no numpy or no `s2union_geo`.
        OutOfMemoryError
            There is no memory for the outline.

        Examples
        --------
        >>> import matplotlib
        >>> matplotlib.use("agg")  # without a window
        >>> axes = CellUnion.from_tokens("04 0c").plot(color="tab:green", label="zone")
        >>> [round(degree) for degree in axes.dataLim.extents]  # west, south, east, north
        [-45, -45, 0, 45]
        """
        return _import_module("s2union_geo.plots").plot(self, ax, style)


_Set.register(CellUnion)

Union = CellUnion
"""The name of `CellUnion` up to 1.1, which stays. It hides that of `typing`."""


def _unpickled(data: bytes, kind: type[CellUnion] = CellUnion) -> CellUnion:
    return kind.from_bytes(data)
