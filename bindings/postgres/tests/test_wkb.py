"""Exact joins in PostgreSQL without PostGIS: s2_covers, s2_clip and s2_join_table over polygons in WKB, beside a plain
loop over edges. The server is that of test_postgres.py; tests/geo asks PostGIS about the same."""

import random

from model.zones import plain_pairs, some_points, some_zones
from test_postgres import Tests, psql, wkb_of

SQUARE = [(60, 60), (61, 60), (61, 61), (60, 61), (60, 60)]


def wkb_of_zone(zone):
    """The polygons of a zone of GeoJSON as a literal of WKB, or NULL."""
    shape = zone["geometry"] if zone["type"] == "Feature" else zone
    if shape is None:
        return "NULL"
    parts = shape["coordinates"] if shape["type"] == "MultiPolygon" else [shape["coordinates"]]
    polygons = [wkb_of(*rings).partition("\\x")[2].partition("'")[0] for rings in parts]
    return f"'\\x0106000000{len(parts).to_bytes(4, 'little').hex()}{''.join(polygons)}'::bytea"


class Wkb(Tests):
    @classmethod
    def setUpClass(cls):
        super().setUpClass()
        chance = random.Random(1105)
        zones = some_zones(chance)
        x, y = some_points(chance, 2000)
        cls.wanted = plain_pairs(zones, x, y)
        rows = ", ".join(f"({k}, {x!r}, {y!r})" for k, (x, y) in enumerate(zip(x.tolist(), y.tolist())))
        values = ", ".join(f"({k}, {wkb_of_zone(zone)})" for k, zone in enumerate(zones))
        psql(f"""
            SET client_min_messages = error; CREATE EXTENSION IF NOT EXISTS s2union_geo CASCADE;
            DROP TABLE IF EXISTS wkb_points, wkb_zones, wkb_zones_tiles, wkb_others CASCADE;
            CREATE TABLE wkb_points (id int, x float8, y float8); INSERT INTO wkb_points VALUES {rows};
            CREATE TABLE wkb_zones (id int PRIMARY KEY, shape bytea); INSERT INTO wkb_zones VALUES {values};
        """)

    def pairs(self, query):
        return {tuple(map(int, line.split("|"))) for line in psql(query)}

    def test_1_all_pairs(self):
        """Asked of all zones, and by tiles of each level; and coverings alone miss none."""
        self.assertGreater(len(self.wanted), 1500)
        self.assertEqual(self.pairs("SELECT p.id, z.id FROM wkb_points p JOIN wkb_zones z ON s2_covers(shape, x, y)"),
                         self.wanted)
        for level, most in (("NULL", 50), (0, 20), (3, 20), (7, 100)):
            self.assertEqual(psql(f"SELECT s2_join_table('wkb_zones', 'shape', {level}, {most})"), ["wkb_zones_tiles"])
            self.assertEqual(self.pairs("SELECT p.id, z.id FROM wkb_points p, wkb_zones_at(x, y) z"), self.wanted)
        self.assertGreater(self.pairs("SELECT p.id, t.id FROM wkb_points p JOIN wkb_zones_tiles t"
                                      " ON tile = s2_parent(s2_leaf_at(x, y), 7) AND part @> s2_leaf_at(x, y)"),
                           self.wanted)

    def test_2_clips(self):
        """A clip has the places of its tile, and is smaller; and the tiles have all of both coverings."""
        self.assertEqual(psql("""
            SELECT bool_and(s2_covers(clip, x, y) = s2_covers(shape, x, y)), count(*) > 500,
                bool_and(octet_length(clip) <= octet_length(shape) + 50)
            FROM wkb_points JOIN wkb_zones_tiles t ON tile = s2_parent(s2_leaf_at(x, y), 7)
                JOIN wkb_zones z ON z.id = t.id
            WHERE clip IS NOT NULL"""), ["t|t|t"])
        self.assertEqual(psql("""
            SELECT DISTINCT s2_union_agg(part) = s2_covering(shape, 100), s2_union_agg(sure) = s2_interior(shape, 100)
            FROM wkb_zones JOIN wkb_zones_tiles USING (id) GROUP BY id"""), ["t|t"])

    def test_3_changes(self):
        inside = "SELECT id FROM wkb_zones_at(60.5, 60.5) ORDER BY id"
        psql(f"INSERT INTO wkb_zones VALUES (900, {wkb_of(SQUARE)}), (901, NULL)")
        self.assertEqual(psql(inside), ["900"])
        psql(f"UPDATE wkb_zones SET shape = {wkb_of(SQUARE)} WHERE id = 901;"
             " UPDATE wkb_zones SET id = 902 WHERE id = 900")
        self.assertEqual(psql(inside), ["901", "902"])
        psql("DELETE FROM wkb_zones WHERE id > 899")
        self.assertEqual(psql(inside), [])
        self.assertEqual(psql("BEGIN; TRUNCATE wkb_zones; SELECT count(*) FROM wkb_zones_tiles; ROLLBACK"), ["0"])

    def test_4_what_is_refused(self):
        psql("CREATE TABLE wkb_others (id int PRIMARY KEY, name text, shape bytea)")
        for call, said in (("s2_join_table('wkb_others', 'name')", '"name" of table public.wkb_others is of type text'),
                           ("s2_join_table('wkb_others')", 'column "geom" does not exist in table public.wkb_others'),
                           ("s2_join_table('wkb_points', 'x')", '"x" of table public.wkb_points is of type double'),
                           (f"s2_covers({wkb_of(SQUARE)}, 541, 0)", "a longitude is a number from -540 to 540: 541"),
                           (f"s2_covers({wkb_of(SQUARE)}, 0, 'NaN')", "a latitude is a number from -90 to 90: NaN"),
                           ("s2_covers('', 0, 0)", "the bytes are no WKB: at byte 0"),
                           (f"s2_covers({wkb_of(SQUARE[:-1])}, 0, 0)", "is open: .*: ring 0, position 4"),
                           (f"s2_clip({wkb_of(SQUARE)}, 2)", "not a cell: 2"),
                           (f"s2_clip({wkb_of(SQUARE[:-1])}, s2_cell('04'))", "is open"),
                           (f"s2_join_tiles({wkb_of(SQUARE)}, 31)", "argument out of range: 31"),
                           (f"s2_join_tiles({wkb_of(SQUARE)}, 3, -1)", "a number of cells is from 0 to 1000000")):
            with self.assertRaisesRegex(AssertionError, f"s2union: .*{said}", msg=call):
                psql(f"SELECT {call}")
        with self.assertRaisesRegex(AssertionError, "the bytes are no WKB"):
            psql("INSERT INTO wkb_zones VALUES (900, 'x')")
        self.assertEqual(psql("SELECT count(*) FROM wkb_zones WHERE id = 900"), ["0"])
        self.assertEqual(psql("SELECT s2_covers(NULL, 1, 1) IS NULL, s2_clip(NULL, 1) IS NULL"), ["t|t"])
        for numbers in "NULL, 3, 50", f"{wkb_of(SQUARE)}, NULL, 50", f"{wkb_of(SQUARE)}, 3, NULL":
            self.assertEqual(psql(f"SELECT count(*) FROM s2_join_tiles({numbers})"), ["0"])
