"""Coverings of texts of GeoJSON and bytes of WKB: those of tests/model/maps.py, in the file that S2UNION_MAPS names."""

import mmap
import os
import pickle
from array import array
from pathlib import Path

import pytest
import s2union

ROWS = [line.split("\t") for line in Path(os.environ["S2UNION_MAPS"]).read_text("utf-8").splitlines()]
CALLS = {call: getattr(s2union, f"cover_{call.removeprefix('map_')}") for call, *_ in ROWS}
KINDS = {s2union.TooManyCellsError: "!many", s2union.OutOfRangeError: "!argument"}
SQUARE = '{"type": "Polygon", "coordinates": [[[0,0], [20,0], [20,20], [0,20], [0,0]]]}'
EMPTY = bytes([0, 0, 0, 0, 6, 0, 0, 0, 0])


def place_of(error):
    return error.byte, error.part, error.ring, error.position


def answer(call, data, level, most):
    """What a call answers, as the rows have it, with this bound of work or of cells; the message of an error has its
    place."""
    try:
        return [" ".join(f"{cell:x}" for cell in union) for union in CALLS[call](data, level, most)]
    except s2union.ShapeError as error:
        said = "byte %d, part %d, ring %d, position %d" % place_of(error)
        assert str(error).endswith(f": {said}") and error.status == -16
        return [" ".join(map(str, ("!" + error.fault.lower(), *place_of(error))))]
    except s2union.S2UnionError as error:
        return [KINDS[type(error)]]


def forms_of(call, data):
    """The same bytes in each form that a call takes."""
    yield from (data, bytearray(data), memoryview(data), memoryview(b"." + data)[1:], array("B", data))
    try:
        yield data.decode("utf-8") if "geojson" in call else data
    except UnicodeDecodeError:
        pass  # it is no str


def test_each_row():
    assert len(ROWS) > 500
    for call, data, level, most, *wanted in ROWS:
        for given in forms_of(call, bytes.fromhex(data)):
            assert answer(call, given, int(level), int(most)) == wanted


def test_what_is_usual():
    assert s2union.cover_geojson(SQUARE, 6) == s2union.cover_geojson(SQUARE, level=6, work=2**28)
    assert s2union.cover_wkb(wkb=EMPTY, level=30) == (s2union.CellUnion(), s2union.CellUnion())


def test_what_is_refused():
    for wrong in ({}, None, 1.5, ["{}"], object()):
        with pytest.raises(TypeError):
            s2union.cover_geojson(wrong, 6)
        with pytest.raises(TypeError):
            s2union.cover_wkb(wrong, 6)
    with pytest.raises(TypeError, match="json.dumps"):
        s2union.cover_geojson({"type": "Polygon", "coordinates": []}, 6)
    with pytest.raises(TypeError, match="bytes.fromhex"):
        s2union.cover_wkb(EMPTY.hex(), 6)
    with pytest.raises(TypeError, match="gaps"):
        s2union.cover_wkb(memoryview(EMPTY)[::2], 6)
    for level, work in ((31, 1), (-1, 1), (6, -1), (6, 2**64)):
        with pytest.raises(s2union.OutOfRangeError):
            s2union.cover_geojson(SQUARE, level, work)
    for deepest, most in ((31, 1), (-1, 1), (6, -1), (6, 2**64)):
        with pytest.raises(s2union.OutOfRangeError):
            s2union.cover_geojson_up_to(SQUARE, deepest, most)
    with pytest.raises(s2union.TooManyCellsError, match="^too many cells: level 9, work 100$"):
        s2union.cover_geojson(SQUARE, 9, 100)
    with pytest.raises(s2union.ShapeError, match="^the text is not UTF-8: "):
        s2union.cover_geojson('{"type": "\ud800"}', 6)


def test_an_error_stays_whole():
    with pytest.raises(s2union.ShapeError) as raised:
        s2union.cover_geojson(SQUARE.replace("[0,20], [0,0]", "[0,20]"), 6)
    again = pickle.loads(pickle.dumps(raised.value))
    assert (str(again), again.fault, place_of(again)) == (str(raised.value), "OPEN", (0, 0, 0, 4))
    other = s2union.ShapeError()
    assert (other.fault, place_of(other), isinstance(other, ValueError)) == ("OTHER", (0, 0, 0, 0), True)


def test_a_file_in_memory(tmp_path):
    path = tmp_path / "square.geojson"
    path.write_text(SQUARE)
    with open(path, "rb") as file, mmap.mmap(file.fileno(), 0, access=mmap.ACCESS_READ) as text:
        assert s2union.cover_geojson(text, 6) == s2union.cover_geojson(SQUARE, 6)
