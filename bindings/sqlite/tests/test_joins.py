"""Exact joins in SQLite: s2_covers beside fractions, s2_clip beside the whole shape, and s2_join_tiles in joins of all
pairs of a point and a zone. S2UNION_SQLITE is the path of the extension for unions."""

import math
import os
import random
import sqlite3
import struct
import unittest
from fractions import Fraction

import pytest

from model import plain_sql
from model.zones import plain_pairs, polygon, some_points, some_zones, star
from test_geo import SQUARE, opened, wkb


def both():
    return opened(os.environ["S2UNION_SQLITE"])


def wkb_of(zone):
    """The polygons of a zone of GeoJSON as WKB."""
    shape = zone["geometry"] if zone["type"] == "Feature" else zone
    parts = shape["coordinates"] if shape["type"] == "MultiPolygon" else [shape["coordinates"]]
    found = [struct.pack("<BII", 1, 6, len(parts))]
    for rings in parts:
        found.append(struct.pack("<BII", 1, 3, len(rings)))
        for ring in rings:
            found.append(struct.pack(f"<I{2 * len(ring)}d", len(ring), *(number for at in ring for number in at)))
    return b"".join(found)


def corners(bytes_of_wkb):
    """The positions of a MultiPolygon of this machine's order of bytes."""
    found, at = [], 9
    for _ in range(struct.unpack_from("=I", bytes_of_wkb, 5)[0]):
        rings, = struct.unpack_from("=I", bytes_of_wkb, at + 5)
        at += 9
        for _ in range(rings):
            count, = struct.unpack_from("=I", bytes_of_wkb, at)
            numbers = struct.unpack_from(f"={2 * count}d", bytes_of_wkb, at + 4)
            found += zip(numbers[::2], numbers[1::2])
            at += 4 + 16 * count
    assert at == len(bytes_of_wkb)
    return found


def plain_covers(rings, x, y):
    """Whether a polygon has a place, by fractions: the height of each edge at the place's longitude."""
    x, y, odd = Fraction(x), Fraction(y), False
    for ring in rings:
        places = [(Fraction(a), Fraction(b)) for a, b in ring]
        for (a, b), (c, d) in zip(places, places[1:]):
            if a == c:
                if x == a and min(b, d) <= y <= max(b, d):
                    return True
                continue
            height = b + (x - a) * (d - b) / (c - a)
            if min(a, c) <= x <= max(a, c) and height == y:
                return True
            odd ^= min(a, c) <= x < max(a, c) and height > y
    return odd


def beside(chance, ring):
    """A place on an edge of a ring, as near as numbers come, or some last digits beside it; or a corner."""
    k = chance.randrange(len(ring) - 1)
    (a, b), (c, d) = ring[k:k + 2]
    part = chance.choice([0, 1, 0.5, chance.random()])
    x, y = a + part * (c - a), b + part * (d - b)
    for _ in range(chance.randrange(4)):
        x, y = math.nextafter(x, chance.choice([x - 1, x, x + 1])), math.nextafter(y, chance.choice([y - 1, y, y + 1]))
    return x, y


class Covers(unittest.TestCase):
    @classmethod
    def setUpClass(cls):
        cls.db = opened()

    def covers(self, shape, x, y):
        return bool(self.db.execute("SELECT s2_covers(?, ?, ?)", [shape, x, y]).fetchone()[0])

    def test_places_beside_edges(self):
        """Of stars with long numbers, and of rings on a grid, which cross and touch themselves."""
        chance, count = random.Random(1), 0
        for _ in range(120):
            if chance.random() < 0.5:
                rings = [star(chance, chance.uniform(-90, 90), chance.uniform(-40, 40), 10, chance.randrange(3, 9))
                         for _ in range(2)]
            else:
                rings = [[(chance.randrange(6), chance.randrange(6)) for _ in range(chance.randrange(3, 8))]
                         for _ in range(2)]
                rings = [[*ring, ring[0]] for ring in rings]
            shape = wkb_of(polygon(*rings))
            for _ in range(25):
                x, y = beside(chance, chance.choice(rings))
                wanted = plain_covers(rings, x, y)
                self.assertEqual(self.covers(shape, x, y), wanted, (rings, x, y))
                count += wanted
        self.assertTrue(700 < count < 2700)

    def test_numbers_near_nothing(self):
        """Whose products are less than the least number."""
        chance, count = random.Random(3), 0
        for _ in range(200):
            ring = [tuple(chance.choice([0.0, 1.0, -3.0, 1e-150, -1e-180, 3e-250, 5e-280]) for _ in range(2))
                    for _ in range(3)]
            ring, shape = [*ring, ring[0]], wkb_of(polygon([*ring, ring[0]]))
            for _ in range(5):
                x, y = beside(chance, ring)
                wanted = plain_covers([ring], x, y)
                self.assertEqual(self.covers(shape, x, y), wanted, (ring, x, y))
                count += wanted
        self.assertTrue(300 < count < 900)

    def test_turns_of_the_map(self):
        """Parts of a polygon that lie on each other after a turn cancel."""
        for west, east, inside, outside in ((175, 185, (180, -180, 178, -176, 184, 540), (0, -5)),
                                            (-190, -179, (-180, 180, 171, -185, 535), (169, 0)),
                                            (0, 360, (-180, 0, 360, -540), ()),
                                            (-180, 270, (-90, -45, 45, 180), (-91, 181, -179)),
                                            (-360, 360, (0, 360), (90, 1, -1, -180))):
            ring = [(west, -10), (east, -10), (east, 10), (west, 10)]
            shape = wkb([(float(x), float(y)) for x, y in [*ring, ring[0]]])
            self.assertEqual([self.covers(shape, x, 0) for x in inside], [True] * len(inside))
            self.assertEqual([self.covers(shape, x, 0) for x in outside], [False] * len(outside))
            self.assertFalse(self.covers(shape, inside[0], 11))

    def test_lines_points_and_collections(self):
        line = b"\1" + struct.pack("<II4d", 2, 2, 0, 0, 2, 1)
        point = b"\1" + struct.pack("<I2d", 1, 7, 7)
        both_of_them = b"\1" + struct.pack("<II", 7, 3) + line + point + wkb(SQUARE, ">")
        for shape, x, y, wanted in ((line, 1, 0.5, True), (line, 1, 0.6, False), (line, 3, 1.5, False),
                                    (point, 7, 7, True), (point, 7, 8, False), (point, 367, 7, True),
                                    (both_of_them, 2, 1, True), (both_of_them, 7, 7, True),
                                    (both_of_them, 2.5, 48.5, True), (both_of_them, 2.5, 47.5, False),
                                    (both_of_them, 1, 0.2, False),
                                    (b"\1" + struct.pack("<II", 7, 0), 0, 0, False)):
            self.assertEqual(self.covers(shape, x, y), wanted)
            tiles = self.db.execute("SELECT s2_leaf_at(?, ?)", [x, y]).fetchone()
            clip, = self.db.execute("SELECT s2_clip(?, ?)", [shape, *tiles]).fetchone()
            self.assertEqual(self.covers(clip, x, y), wanted)
            self.assertLessEqual(len(clip), len(shape) + 9)


class Clips(unittest.TestCase):
    def test_each_place_of_a_tile(self):
        """Has the answer of the whole shape; and the corners are some of the shape's."""
        chance, asked, fewer = random.Random(2), 0, 0
        zones = [zone for zone in some_zones(chance) if zone["type"] != "Feature"]
        zones += [polygon(star(chance, 10, 50, 5, 400), star(chance, 10, 50, 2, 100))]
        db = both()
        for zone in zones:
            shape = wkb_of(zone)
            rings = [ring for part in (zone["coordinates"] if zone["type"] == "MultiPolygon" else [zone["coordinates"]])
                     for ring in part]
            for _ in range(40):
                x, y = beside(chance, chance.choice(rings))
                y, level = min(y, 90), chance.randrange(13)
                tile, clip = db.execute("SELECT tile, s2_clip(?1, tile) FROM"
                                        " (SELECT s2_parent(s2_leaf_at(?2, ?3), ?4) AS tile)",
                                        [shape, x, y, level]).fetchone()
                found = corners(clip)
                self.assertLessEqual({(a, b) for a, b in found}, {(a, b) for ring in rings for a, b in ring})
                fewer += len(found) < sum(map(len, rings)) / 4
                for k in range(12):
                    far = 40 / 2**level
                    there = (x, y) if k == 0 else beside(chance, chance.choice(rings)) if k < 4 else (
                        x + chance.uniform(-far, far), y + chance.uniform(-far, far))
                    there = there[0], min(max(there[1], -90), 90)
                    is_in, whole, part = db.execute(
                        "SELECT s2_parent(s2_leaf_at(?1, ?2), ?3) = ?4, s2_covers(?5, ?1, ?2), s2_covers(?6, ?1, ?2)",
                        [*there, level, tile, shape, clip]).fetchone()
                    if is_in:
                        self.assertEqual(part, whole, (zone, there, level))
                        asked += 1
        self.assertGreater(asked, 3000)
        self.assertGreater(fewer, 100)


class Joins(unittest.TestCase):
    @classmethod
    def setUpClass(cls):
        chance = random.Random(1105)
        zones = some_zones(chance)
        x, y = some_points(chance, 2000)
        cls.wanted = plain_pairs(zones, x, y)
        cls.db = both()
        cls.db.execute("CREATE TABLE zones(id INTEGER PRIMARY KEY, shape BLOB)")
        cls.db.executemany("INSERT INTO zones VALUES (?, ?)",
                           [(k, None if zone["type"] == "Feature" else wkb_of(zone)) for k, zone in enumerate(zones)])
        cls.db.execute("CREATE TABLE points(id INTEGER PRIMARY KEY, x REAL, y REAL)")
        cls.db.executemany("INSERT INTO points VALUES (?, ?, ?)",
                           [(k, *place) for k, place in enumerate(zip(x.tolist(), y.tolist()))])

    def test_all_pairs(self):
        """At several levels; and of coverings alone no pair is missing."""
        self.assertGreater(len(self.wanted), 1500)
        for call in ("s2_join_tiles(shape, 0)", "s2_join_tiles(shape, 3, 20)", "s2_join_tiles(shape, 6)"):
            level = int(call.partition(", ")[2][0])
            self.db.executescript(f"""DROP TABLE IF EXISTS tiles; CREATE TABLE tiles AS
                SELECT id AS zone, tile, part, sure, clip FROM zones, {call}; CREATE INDEX by_tile ON tiles(tile)""")
            query = f"""SELECT id, zone FROM (SELECT *, s2_leaf_at(x, y) AS leaf FROM points) JOIN tiles
                ON tile = s2_parent(leaf, {level}) AND s2_contains(part, leaf)"""
            exact = " AND (clip IS NULL OR s2_contains(sure, leaf) OR s2_covers(clip, x, y))"
            self.assertEqual(set(self.db.execute(query + exact)), self.wanted)
            self.assertGreater(set(self.db.execute(query)), self.wanted)
            self.assertLess(set(self.db.execute(query + " AND (clip IS NULL OR s2_contains(sure, leaf))")), self.wanted)

    def test_plain_sql(self):
        """The exact join of docs/ENGINES.md, whose cells are cut to tiles without the extension: all pairs."""
        made, _, of_cells, cut, join = plain_sql.statements("sql", "CREATE TABLE exact_cells")
        self.db.executescript(f"""{made}; {of_cells}; CREATE TABLE places AS
            SELECT id AS place, x AS longitude, y AS latitude, s2_leaf_at(x, y) AS leaf FROM points;
            INSERT INTO both_coverings SELECT id, cell, 1 FROM zones, s2_cells(s2_interior(zones.shape, 20));
            INSERT INTO both_coverings SELECT id, cell, 0
            FROM zones, s2_cells(s2_difference(s2_covering(zones.shape, 20), s2_interior(zones.shape, 20)));
            {cut}""")
        tile = next(plain_sql.key("leaf", 5))
        self.db.execute(f"CREATE TABLE of_tiles AS SELECT *, {tile} AS tile FROM places")
        join = join.replace("points", "of_tiles").replace("place, name, sure FROM", "place, name + 0 FROM")
        exact = join.replace(" ORDER BY place, name", """ JOIN zones ON zones.id = name
            WHERE sure = 1 OR s2_covers(shape, longitude, latitude)""")
        found = self.db.execute(exact).fetchall()
        self.assertEqual(len(found), len(self.wanted))
        self.assertEqual(set(found), self.wanted)
        self.assertGreater(set(self.db.execute(join)), self.wanted)
        self.assertGreater(self.db.execute("SELECT count(*) FROM both_coverings WHERE (cell & -cell) > ?",
                                           [plain_sql.UNIT]).fetchone()[0], 9)

    def test_rows(self):
        """The parts together are the covering, the sure ones the interior; only what isn't sure has a clip."""
        self.assertEqual(self.db.execute("""
            SELECT count(*) FROM zones WHERE shape IS NOT NULL AND NOT (
                SELECT s2_union_agg(part) = s2_covering(shape, 30) AND s2_union_agg(sure) = s2_interior(shape, 30)
                    AND sum((clip IS NULL) <> (part = sure)) = 0 AND min(s2_level(tile)) = 5 AND max(s2_level(tile)) = 5
                    AND count(DISTINCT tile) = count(*)
                    AND group_concat(tile) = (SELECT group_concat(tile) FROM s2_tiles(s2_covering(shape, 30), 5))
                FROM s2_join_tiles(zones.shape, 5, 30))""").fetchone(), (0,))

    def test_calls(self):
        """As tables of SQL are asked: hidden columns, NULL, an OR, an outer join, an order that is forced."""
        def rows(query):
            return self.db.execute(query).fetchall()
        square = f"x'{wkb(SQUARE).hex()}'"
        self.assertEqual(rows(f"SELECT count(*), level, hex(x) FROM s2_join_tiles({square}, 4)"),
                         rows(f"SELECT count(*), 4, hex({square}) FROM s2_join_tiles({square}, 4, 50)"))
        self.assertEqual(rows(f"SELECT tile FROM s2_join_tiles WHERE x = {square} AND level = 6 AND max_cells = 9"),
                         rows(f"SELECT tile FROM s2_join_tiles({square}, 6, 9)"))
        for call in "NULL, 3", f"{square}, NULL", f"{square}, 3, NULL", "x'010700000000000000', 3":
            self.assertEqual(rows(f"SELECT * FROM s2_join_tiles({call})"), [])
        self.assertEqual(rows("SELECT count(DISTINCT id) FROM zones LEFT JOIN s2_join_tiles(zones.shape, 3)"),
                         rows("SELECT count(*) FROM zones"))
        alone = rows(f"SELECT count(*) FROM s2_join_tiles({square}, 6)")
        self.assertEqual(rows(f"SELECT count(*) FROM s2_join_tiles WHERE x = {square} AND (level = 6 OR level + 0 = 6"
                              " AND level = 6)"), alone)
        for call in f"s2_join_tiles({square})", "s2_join_tiles", f"s2_join_tiles({square}, 3) WHERE max_cells > 9", \
                f"s2_join_tiles({square}, 3, 9) WHERE level = 3", \
                "s2_join_tiles(zones.shape, 3) CROSS JOIN zones":
            with self.assertRaisesRegex(sqlite3.OperationalError, "no query solution"):
                rows(f"SELECT count(*) FROM {call}")


@pytest.mark.parametrize("query,wanted", [
    ("SELECT s2_covers(1, 0, 0)", "s2: a shape is a BLOB of WKB: 1"),
    ("SELECT s2_covers(x'', 0, 0)", "s2: the bytes are no WKB: at byte 0"),
    ("SELECT s2_covers(:square, 541, 0)", "s2: a longitude is a number from -540 to 540: 541"),
    ("SELECT s2_covers(:square, 0, '1')", "s2: a latitude is a number from -90 to 90 (the longitude comes first): '1'"),
    ("SELECT s2_covers(:open, 0, 1)", "s2: a ring is open: its last position is not its first: ring 0, position 4"),
    ("SELECT s2_clip('x', '04')", "s2: a shape is a BLOB of WKB: 'x'"),
    ("SELECT s2_clip(:square, 2)", "s2: not a cell: 2"), ("SELECT s2_clip(:square, 'zz')", "s2: not a cell: 'zz'"),
    ("SELECT s2_clip(:square, x'04')", "s2: not a cell: a BLOB of length 1"),
    ("SELECT s2_clip(:open, '04')", "s2: a ring is open: its last position is not its first: ring 0, position 4"),
    ("SELECT * FROM s2_join_tiles(1, 3)", "s2: a shape is a BLOB of WKB: 1"),
    ("SELECT * FROM s2_join_tiles(:square, 31)", "s2: a level is from 0 to 30: 31"),
    ("SELECT * FROM s2_join_tiles(:square, 'x')", "s2: a level is from 0 to 30: 'x'"),
    ("SELECT * FROM s2_join_tiles(:square, 3, -1)", "s2: a number of cells is from 0 to 1000000: -1"),
    ("SELECT * FROM s2_join_tiles(:open, 3)",
     "s2: a ring is open: its last position is not its first: ring 0, position 4")])
def test_what_is_refused(query, wanted):
    with pytest.raises(sqlite3.OperationalError) as caught:
        opened().execute(query, {"square": wkb(SQUARE), "open": wkb(SQUARE[:-1])}).fetchall()
    assert str(caught.value) == wanted


def test_nothing():
    for call in ("s2_covers(NULL, 0, 0)", "s2_covers(x'', NULL, 0)", "s2_covers(x'', 0, NULL)", "s2_clip(NULL, 1)",
                 "s2_clip(x'', NULL)"):
        assert opened().execute(f"SELECT {call}").fetchone() == (None,)
