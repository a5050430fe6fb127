"""Texts of GeoJSON and bytes of WKB that tests/model/readings.py prints, in the file that S2UNION_READINGS names: the
shape that each stands for, or its fault."""

import os
from pathlib import Path

import pytest
from s2union import ShapeError
from s2union_geo import covering
from s2union_geo.reading import LINE, shape_of

ROWS = [row.split("\t") for row in Path(os.environ["S2UNION_READINGS"]).read_text("utf-8").splitlines()]


def words_of(text):
    """The rings of a text as a row has them, or its fault."""
    try:
        shape = shape_of(text)
    except ShapeError as error:
        return [f"!{error.fault.lower()} {error.byte} {error.part} {error.ring} {error.position}"]
    begins = [0, *shape.rings[::2]]
    return [f"{'-' if polygon == LINE else polygon}:" + ",".join(map(repr, shape.positions[2 * begin:2 * end]))
            for begin, end, polygon in zip(begins, shape.rings[::2], shape.rings[1::2])]


def test_texts():
    texts = [(bytes.fromhex(data), wanted) for form, data, *wanted in ROWS if form == "geojson"]
    assert len(texts) > 500
    for text, wanted in texts:
        assert words_of(text) == wanted, text


def test_bytes_with_a_fault():
    for form, data, *wanted in ROWS:
        if form == "wkb" and wanted[:1] and wanted[0][0] == "!" and data[:2] in ("00", "01"):
            with pytest.raises(ValueError):
                covering(bytes.fromhex(data))
