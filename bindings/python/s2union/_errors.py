"""What a call raises for a value that it refuses: an exception for each status of the library, under one base.

Each is also the exception of Python's own that such a value raises elsewhere: a ValueError, or a MemoryError. A value
of a wrong type is a TypeError of Python, and a place that a union doesn't have an IndexError.
"""

from __future__ import annotations

__all__ = ["S2UnionError", "NotACellError", "NotNormalizedError", "OutOfRangeError", "TooManyCellsError",
           "OutOfMemoryError", "UnionFileError", "FileShortError", "FileVersionError", "FileTrailingError",
           "FileCellError", "CornerError", "RingError", "ShapeError", "UnknownStatusError"]


class S2UnionError(Exception):
    """The base of all that calls of this package refuse.

    .. versionadded:: 1.2
    """

    status: int = 0
    """The status of s2union.h, below 0: the same for each exception of one class."""


class NotACellError(S2UnionError, ValueError):
    """A number is the identifier of no cell, or a text names none.

    .. versionadded:: 1.2
    """

    status = -3  # NO_CELL


class NotNormalizedError(S2UnionError, ValueError):
    """The cells of a union file are not normalized: `CellUnion.from_bytes` takes it.

    .. versionadded:: 1.2
    """

    status = -4  # NO_UNION


class OutOfRangeError(S2UnionError, ValueError):
    """A level, face, coordinate, modulus, child's number or place is out of range, or a range ends before it begins.

    .. versionadded:: 1.2
    """

    status = -5  # ARGUMENT


class TooManyCellsError(S2UnionError, ValueError):
    """The result would have more cells than are allowed.

    .. versionadded:: 1.2
    """

    status = -6  # MANY


class OutOfMemoryError(S2UnionError, MemoryError):
    """There is no memory for the result.

    .. versionadded:: 1.2
    """

    status = -2  # MEMORY


class UnionFileError(S2UnionError, ValueError):
    """Bytes are no union file; its subclasses say why.

    .. versionadded:: 1.2
    """


class FileShortError(UnionFileError):
    """Bytes of the file are missing.

    .. versionadded:: 1.2
    """

    status = -10  # FILE_SHORT


class FileVersionError(UnionFileError):
    """The first byte of the file is not 1.

    .. versionadded:: 1.2
    """

    status = -11  # FILE_VERSION


class FileTrailingError(UnionFileError):
    """Bytes follow the last cell of the file.

    .. versionadded:: 1.2
    """

    status = -12  # FILE_TRAILING


class FileCellError(UnionFileError):
    """A number in the file is the identifier of no cell.

    .. versionadded:: 1.2
    """

    status = -13  # FILE_CELL


class CornerError(S2UnionError, ValueError):
    """A corner of a polygon is no direction, or lies opposite the next corner of its ring.

    .. versionadded:: 1.4
    """

    status = -14  # CORNER


class RingError(S2UnionError, ValueError):
    """A ring of a polygon ends in a wrong place or has fewer than three corners, or there is none.

    .. versionadded:: 1.4
    """

    status = -15  # RING


class ShapeError(S2UnionError, ValueError):
    """A text of GeoJSON, or bytes of WKB, are no shape of polygons.

    .. versionadded:: 1.5
    """

    status = -16  # SHAPE

    fault: str
    """Why, by the name that it has in s2union.h, such as ``"OPEN"``; ``"OTHER"`` of a later version."""

    byte: int
    """How many bytes of WKB come before the fault; 0 of a text, and of ``"NO_INSIDE"``."""

    part: int
    """How many points, lines and polygons come before it."""

    ring: int
    """How many rings and lines have ended before it, of all parts."""

    position: int
    """How many positions of its ring or line come before it."""

    def __init__(self, message: str = "", fault: str = "OTHER", *place: int) -> None:
        super().__init__(message)
        self.fault = fault
        self.byte, self.part, self.ring, self.position = place or (0, 0, 0, 0)


class UnknownStatusError(S2UnionError, ValueError):
    """A status of a later version of the library.

    .. versionadded:: 1.2
    """


_ALL: tuple[type[S2UnionError], ...] = (
    NotACellError, NotNormalizedError, OutOfRangeError, TooManyCellsError, OutOfMemoryError, FileShortError,
    FileVersionError, FileTrailingError, FileCellError, CornerError, RingError, ShapeError)
_KINDS = {kind.status: kind for kind in _ALL}

for _kind in (S2UnionError, UnionFileError, UnknownStatusError, *_KINDS.values()):
    _kind.__module__ = "s2union"  # where they are found


def of_status(status: int) -> type[S2UnionError]:
    """The exception of a status. One that this version doesn't know is a ValueError too."""
    return _KINDS.get(status, UnknownStatusError)
