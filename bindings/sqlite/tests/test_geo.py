"""The extension for points in SQLite: places, NULL, and what is refused. tests/geo asks S2 about more.

S2UNION_SQLITE is the path of the extension for unions, beside which it lies."""

import contextlib
import json
import math
import os
import sqlite3
import struct
import subprocess
import sys
import unittest

import pytest

from model.places import MIDDLES, POINTS
from test_sqlite import NO_CELLS

EXTENSION = os.path.join(os.path.dirname(os.environ["S2UNION_SQLITE"]), "mod_s2union_geo.so")


def opened(*more):
    """A database with the extension, and others."""
    db = sqlite3.connect(":memory:")
    db.enable_load_extension(True)
    for it in (EXTENSION, *more):
        db.load_extension(it)
    return db


def wkb(ring, order="<"):
    """A polygon of one ring as WKB."""
    return bytes([order == "<"]) + struct.pack(f"{order}III{2 * len(ring)}d", 3, 1, len(ring), *sum(ring, ()))


WITHOUT_ROOM = """import sqlite3, sys
db = sqlite3.connect(":memory:")
db.enable_load_extension(True)
for it in sys.argv[1:3]:
    db.load_extension(it)
db.execute("PRAGMA hard_heap_limit=5000000")
for call in sys.argv[3:]:
    try:
        print(call, db.execute(f"SELECT * FROM {call}" if "tiles" in call else f"SELECT {call}").fetchall())
    except MemoryError:
        print(call, "is out of memory")
"""


def test_bytes_that_the_heap_has_no_room_for():
    """They have a length, and there is no pointer to them. The limit is the process's, so one of its own has it."""
    bytes_ = "zeroblob(100000000)"
    calls = [f"s2_covers({bytes_}, 1, 2)", f"s2_covering({bytes_})", f"s2_interior({bytes_}, 8, 9)",
             f"s2_clip({bytes_}, 1)", f"s2_join_tiles({bytes_}, 3)", f"s2_expanded({bytes_}, 3)",
             f"s2_bounds({bytes_})", f"s2_area({bytes_})", f"s2_union({bytes_}, 1)", f"s2_tokens({bytes_})",
             f"s2_contains({bytes_}, 1)", f"s2_is_union({bytes_})",
             f"s2_tiles({bytes_}, 3)", f"s2_union_agg({bytes_})", f"s2_map_inner({bytes_}, 3)"]
    done = subprocess.run([sys.executable, "-c", WITHOUT_ROOM, EXTENSION, os.environ["S2UNION_SQLITE"], *calls],
                          capture_output=True, text=True, check=False)
    assert (done.returncode, done.stdout.splitlines()) == (0, [f"{call} is out of memory" for call in calls])


SQUARE = [(2.0, 48.0), (3.0, 48.0), (3.0, 49.0), (2.0, 49.0), (2.0, 48.0)]


LONGITUDE = "s2: a longitude is a number from -540 to 540: "
LATITUDE = "s2: a latitude is a number from -90 to 90 (the longitude comes first): "


@pytest.mark.parametrize("call,values,wanted", [
    ("s2_leaf_at(0, 91)", (), LATITUDE + "91"), ("s2_leaf_at(0, ?)", (-90.5,), LATITUDE + "-90.5"),
    ("s2_leaf_at(?, 0)", (math.inf,), LONGITUDE + "Inf"), ("s2_leaf_at(541, 0)", (), LONGITUDE + "541"),
    ("s2_leaf_at('2', 0)", (), LONGITUDE + "'2'"), ("s2_leaf_at(0, x'00')", (), LATITUDE + "a BLOB of length 1"),
    ("s2_longitude(2)", (), "s2: not a cell: 2"), ("s2_latitude('zz')", (), "s2: not a cell: 'zz'"),
    ("s2_latitude(?)", (50 * "é",), f"s2: not a cell: '{40 * 'é'}'"),
    ("s2_latitude('0/4')", (), "s2: not a cell: '0/4'"), ("s2_latitude(1.5)", (), "s2: not a cell: 1.5"),
    ("s2_latitude(x'')", (), "s2: not a cell: a BLOB of length 0"),
    ("s2_covering(1)", (), "s2: a shape is a BLOB of WKB: 1"),
    ("s2_interior('x')", (), "s2: a shape is a BLOB of WKB: 'x'"),
    ("s2_covering(x'')", (), "s2: the bytes are no WKB: at byte 0"),
    ("s2_covering(?)", (wkb(SQUARE)[:-1],), "s2: the bytes are no WKB: at byte 9"),
    ("s2_interior(?)", (wkb(SQUARE[:-1]),),
     "s2: a ring is open: its last position is not its first: ring 0, position 4"),
    ("s2_covering(?, 'x')", (wkb(SQUARE),), "s2: a number of cells is from 0 to 1000000: 'x'"),
    ("s2_covering(?, -1)", (wkb(SQUARE),), "s2: a number of cells is from 0 to 1000000: -1"),
    ("s2_covering(?, 9, 31)", (wkb(SQUARE),), "s2: a level is from 0 to 30: 31"),
    ("s2_neighbors('1', 18)", (), "s2: too many cells: 18"),
    ("s2_neighbors(1, 31)", (), "s2: a level is from 0 to 30: 31"), ("s2_neighbors(1.5)", (), "s2: not a cell: 1.5"),
    ("s2_neighbors(x'01', 9)", (), "s2: not a cell: a BLOB of length 1"),
    ("s2_neighbors(2, 9)", (), "s2: not a cell: 2"),
    ("s2_expanded('1', 'x')", (), "s2: a level is from 0 to 30: 'x'"),
    ("s2_expanded('1', -1)", (), "s2: a level is from 0 to 30: -1"),
    ("s2_expanded('1 x', 3)", (), "s2: not a cell: '1 x'"),
    ("s2_expanded('1', 30)", (), "s2: too many cells: 30"), ("s2_expanded(2, 3)", (), "s2: not a cell: 2"),
    ("s2_bounds(x'')", (), "s2: union file: bytes are missing: a BLOB of length 0"),
    ("s2_bounds(x'010100000000000000')", (), "s2: union file: bytes are missing: a BLOB of length 9"),
    ("s2_bounds(1.5)", (), "s2: not a cell: 1.5"), ("s2_area(1.5)", (), "s2: not a cell: 1.5"),
    ("s2_area('1 x')", (), "s2: not a cell: '1 x'"), ("s2_area(2)", (), "s2: not a cell: 2"),
    ("s2_area(x'01')", (), "s2: union file: bytes are missing: a BLOB of length 1")])
def test_what_is_refused(call, values, wanted):
    with contextlib.closing(opened()) as db, pytest.raises(sqlite3.OperationalError) as caught:
        db.execute(f"SELECT {call}", values).fetchone()
    assert str(caught.value) == wanted


class Points(unittest.TestCase):
    def setUp(self):
        self.db = opened()
        self.addCleanup(self.db.close)

    def said(self, text, *values):
        return self.db.execute(f"SELECT {text}", values).fetchone()

    def test_points(self):
        for longitude, latitude, token in POINTS:
            (cell,) = self.said("s2_leaf_at(?, ?)", longitude, latitude)
            self.assertEqual(f"{cell & 2**64 - 1:016x}", token.ljust(16, "0"))
        for token, *wanted in MIDDLES:
            for number, other in zip(wanted, self.said(f"s2_longitude('{token}'), s2_latitude('{token}')")):
                self.assertAlmostEqual(number, other, places=10, msg=token)
        self.assertEqual(self.said("s2_leaf_at(540, 1) >> 61, s2_leaf_at(-540, 1) >> 61"), (3, 3))
        self.assertEqual(self.said("s2_longitude('1'), s2_latitude('2/'), s2_latitude('b'), s2_longitude('7')"),
                         (0, 90, -90, 180))
        for face, token in enumerate("13579b"):
            x, y = self.said(f"s2_longitude('{token}'), s2_latitude('{token}')")
            (cell,) = self.said("s2_leaf_at(?, ?)", x, y)
            self.assertEqual((cell & 2**64 - 1) >> 61, face)

    def test_nothing(self):
        for call in ("s2_leaf_at(NULL, 1)", "s2_leaf_at(1, NULL)", "s2_leaf_at(NULL, 91)", "s2_longitude(NULL)",
                     "s2_latitude(NULL)", "s2_covering(NULL)", "s2_interior(x'', NULL)", "s2_covering(x'', 9, NULL)",
                     "s2_neighbors(NULL)", "s2_neighbors(2, NULL)", "s2_neighbors(NULL, 99)", "s2_neighbors(1, 29)",
                     "s2_expanded(NULL, 99)", "s2_expanded(2, NULL)", "s2_bounds(NULL)", "s2_bounds('')",
                     "s2_area(NULL)"):
            self.assertEqual(self.said(call), (None,))
        self.assertEqual(self.said("s2_leaf_at(?, 1)", math.nan), (None,))  # which SQLite has as NULL

    def test_cells_that_there_are_not(self):
        """Asked of each function that SQLite lists."""
        names = {name for name, in self.db.execute("SELECT name FROM pragma_function_list WHERE name LIKE 's2%'")}
        take_other = {"s2_leaf_at", "s2_covering", "s2_interior", "s2_covers", "s2_clip", "s2_expanded", "s2_bounds",
                      "s2_area"}
        for name in names - take_other:
            for wrong in NO_CELLS:
                with self.assertRaisesRegex(sqlite3.OperationalError, "^s2: not a cell: "):
                    self.said(f"{name}(?)", wrong)
        self.assertEqual(len(names), 11)

    def test_coverings(self):
        """Of a square, in both orders of bytes: places in it and beside it, how many cells, and how deep."""
        with contextlib.closing(opened(os.environ["S2UNION_SQLITE"])) as db:
            def said(text, *values):
                return db.execute(f"SELECT {text}", values).fetchone()

            square = wkb(SQUARE)
            for of in "s2_covering", "s2_interior":
                self.assertEqual(said(f"{of}(?1) = {of}(?2), {of}(?1) = {of}(?1, 200), {of}(?1) = {of}(?1, 200, 30)",
                                      square, wkb(SQUARE, ">")), (1, 1, 1))
                self.assertEqual(said(f"s2_contains({of}(?1), s2_leaf_at(2.5, 48.5)), "
                                      f"s2_contains({of}(?1), s2_leaf_at(3.1, 48.5)), s2_count({of}(?1, 50)) <= 50, "
                                      f"(SELECT max(s2_level(cell)) <= 8 FROM s2_cells({of}(?1, 1000, 8)))", square),
                                 (1, 0, 1, 1))
            self.assertEqual(said("s2_contains(s2_covering(?1), s2_interior(?1)), "
                                  "s2_contains(s2_interior(?1), s2_covering(?1))", square), (1, 0))
            self.assertEqual(said("s2_count(s2_covering(x'010700000000000000'))"), (0,))

    def test_what_is_around(self):
        """Of a region as a BLOB, a TEXT and a cell; across faces; and over the date line."""
        with contextlib.closing(opened(os.environ["S2UNION_SQLITE"])) as db:
            def said(text, *values):
                return db.execute(f"SELECT {text}", values).fetchone()

            self.assertEqual(said("s2_tokens(s2_neighbors('14')), s2_tokens(s2_neighbors(?, 0)), s2_tokens(s2_expanded("
                                  "'3 9', 0))", 1 << 60), ("04 0c 1c 24 3c 44 4c", "3 5 9 b", "1 3 5 7 9 b"))
            for region in ("'89c25'", "s2_normalise('89c25')", "s2_cell('89c25')"):
                self.assertEqual(said(f"s2_tokens(s2_expanded({region}, 8)), round(s2_bounds({region}) ->> 0, 3)"),
                                 ("89c24 89c29 89c2f 89c31 89c3b 89c3d", -74.218))
            for face, cell in enumerate("13579b"):  # all faces but itself and the one behind it
                others = "".join(each for other, each in enumerate("13579b") if other % 3 != face % 3)
                self.assertEqual(said("s2_tokens(s2_neighbors(?)), s2_count(s2_neighbors(?, 1))", cell, cell),
                                 (" ".join(others), 8))
            self.assertEqual(said("s2_expanded('89c25', 8) = s2_union(s2_neighbors('89c25'), '89c25'),"
                                  "s2_count(s2_neighbors('89c25', 10)), s2_count(s2_neighbors('1', 17))"),
                             (1, 20, 524288))
            for region, wanted in (("7", [135, -45, -135, 45]), ("5", [-180, 35, 180, 90]),
                                   ("1 3", [-45, -45, 135, 45])):
                (box,) = said("s2_bounds(?)", region)
                self.assertEqual([round(side) for side in json.loads(box)], wanted)

    def test_areas(self):
        """A face is a sixth of the sphere. Of a BLOB, a TEXT and a cell; of cells that share a place, which counts
        once; a cell has the area of its children."""
        self.assertAlmostEqual(self.said("s2_area('3') * 6")[0] / (4 * math.pi * 6371.01**2), 1, places=13)
        twice = bytes([1, 2, *bytes(7), *bytes(7), 0x10, *bytes(7), 0x14])  # the face 1, and a child of it
        for region in ("'1'", "0x1000000000000000", "x'010100000000000000" + "0000000000000010'", "'0/ 14 1'",
                       "'04 0c 14 1c'", f"x'{twice.hex()}'"):
            self.assertEqual(self.said(f"round(s2_area({region}))"), (85011012,), region)
        self.assertEqual(self.said("s2_area('')"), (0,))
        for cell in ("89c25", "89c259a3"):  # of levels 8 and 14
            begin = int(cell.ljust(16, "0"), 16)
            step = (begin & -begin) // 4
            parts = [self.said("s2_area(?)", begin + place * step - 2**64)[0] for place in (-3, -1, 1, 3)]
            self.assertAlmostEqual(self.said("s2_area(?)", cell)[0] / sum(parts), 1, places=12)

    def test_an_index(self):
        """The functions are deterministic, so an index and a generated column may have them."""
        self.db.execute("CREATE TABLE places(x, y, leaf AS (s2_leaf_at(x, y)) STORED)")
        self.db.execute("CREATE INDEX by_leaf ON places(s2_leaf_at(y, x))")
        self.db.execute("INSERT INTO places VALUES (2.3522, 48.8566)")
        self.assertEqual(self.said("leaf FROM places"), (0x47e66e1d8f8be23b,))

    def test_a_schema_that_is_not_trusted(self):
        """The functions are innocuous, so a view may have them whoever has made it."""
        self.db.execute("PRAGMA trusted_schema = OFF")
        self.db.execute("CREATE VIEW places AS SELECT s2_longitude(s2_leaf_at(0, 90)), s2_latitude('5')")
        self.assertEqual(self.said("* FROM places"), (-135, 90))
