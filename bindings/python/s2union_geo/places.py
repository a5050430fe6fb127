"""The leaf of a place in degrees, and what is said of numbers that are none: without numpy."""

from __future__ import annotations

from typing import Any

from s2union import _library

# In degrees. Longitudes of data are from -180 to 180 or from 0 to 360, and rings go on over the date line.
MOST = {"longitude": 540, "latitude": 90}
NO_NUMBERS = {str, bytes, bytearray, bool}  # of which Python makes floats all the same


def range_of(what: str) -> str:
    """What is said of a longitude or a latitude that is out of range."""
    order = " (the longitude comes first)" if what == "latitude" else ""
    return f"a {what} is from -{MOST[what]} to {MOST[what]}{order}"


def number_of(value: Any, what: str) -> float:
    """A number as a float."""
    if isinstance(value, tuple(NO_NUMBERS)):
        raise TypeError(f"a {what} is a number, not {type(value).__name__}: {value!r}")
    return float(value)


def look_at(longitude: float, latitude: float) -> None:
    """An error if a number is out of range."""
    for number, what in ((longitude, "longitude"), (latitude, "latitude")):
        if not abs(number) <= MOST[what]:
            raise ValueError(f"{range_of(what)}: {number!r}")


def leaf(longitude: float, latitude: float) -> int:
    """The leaf of one place.

    .. versionadded:: 1.1

    Parameters
    ----------
    longitude : float
        From -540 to 540 degrees; it comes first.
    latitude : float
        From -90 to 90 degrees.

    Returns
    -------
    int
        The cell.

    Raises
    ------
    ValueError
        A number is out of range.
    TypeError
        A value isn't a number.

    Notes
    -----
    S2: ``S2CellId(S2LatLng::FromDegrees(latitude, longitude))``, which takes the latitude first.

    Examples
    --------
    >>> from s2union import token
    >>> token(leaf(longitude=2.3522, latitude=48.8566))
    '47e66e1d8f8be23b'
    """
    return _library.leaf(longitude, latitude) or _leaf(longitude, latitude)


def _leaf(longitude: Any, latitude: Any) -> int:
    """The same of what becomes a float."""
    x, y = number_of(longitude, "longitude"), number_of(latitude, "latitude")
    look_at(x, y)
    return _library.leaf(x, y)
