"""Exact joins in PostgreSQL by `s2_join_table`, beside a plain loop over edges and PostGIS, on the server of PGHOST."""
import json
import random
import re
import subprocess
import unittest

from model.changes import random_changes
from model.zones import box, plain_pairs, polygon, some_points, some_zones


def psql(script, database="joins", status=0):
    run = subprocess.run(["psql", "-XAqt", "-v", "ON_ERROR_STOP=1", "-d", database], input=script,
                         stdout=subprocess.PIPE, stderr=subprocess.PIPE, text=True, timeout=600)
    if run.returncode != status:
        raise AssertionError(run.stderr)
    return run.stdout.splitlines() if status == 0 else run.stderr


def pairs_of(query, database="joins"):
    return {tuple(map(int, line.split("|"))) for line in psql(query, database)}


def geometry(zone):
    shape = zone["geometry"] if zone["type"] == "Feature" else zone
    return "NULL" if shape is None else f"ST_SetSRID(ST_GeomFromGeoJSON('{json.dumps(shape)}'), 4326)"


ZONES = "SELECT p.id, z.id FROM points AS p, zones_at(p.geom) AS z"
BY_DEGREES = "SELECT p.id, z.id FROM points AS p, zones_at(p.longitude, p.latitude) AS z"
POSTGIS = "SELECT p.id, z.id FROM points AS p JOIN zones AS z ON ST_Covers(z.geom, p.geom)"


class Joins(unittest.TestCase):
    @classmethod
    def setUpClass(cls):
        for name in ("joins", "joins_restored"):
            psql(f"SET client_min_messages = error; DROP DATABASE IF EXISTS {name}", "postgres")
            psql(f"CREATE DATABASE {name}", "postgres")
        chance = random.Random(1105)
        cls.zones = some_zones(chance)
        x, y = some_points(chance, 3000)
        on_map = abs(x) <= 180
        cls.x, cls.y = x[on_map], y[on_map]
        rows = ", ".join(f"({k}, {x!r}, {y!r})" for k, (x, y) in enumerate(zip(cls.x.tolist(), cls.y.tolist())))
        zones = ", ".join(f"({k}, {geometry(zone)})" for k, zone in enumerate(cls.zones))
        psql(f"""
            SET client_min_messages = error;
            CREATE EXTENSION s2union_postgis CASCADE;
            CREATE TABLE points (id int, longitude float8, latitude float8);
            INSERT INTO points VALUES {rows};
            ALTER TABLE points ADD geom geometry;
            UPDATE points SET geom = ST_SetSRID(ST_Point(longitude, latitude), 4326);
            CREATE TABLE zones (id int PRIMARY KEY, geom geometry);
            INSERT INTO zones VALUES {zones};
        """)
        cls.wanted = plain_pairs(cls.zones, cls.x, cls.y)

    def test_1_pairs_at_each_level(self):
        """All pairs and no others, by geometries and by degrees; and PostGIS's, whose zones end at the date line."""
        self.assertGreater(len(self.wanted), 1500)
        for level, most in (("NULL", 50), (0, 20), (3, 20), (8, 100)):
            self.assertEqual(psql(f"SELECT s2_join_table('zones', level => {level}, max_cells => {most})"),
                             ["zones_tiles"])
            self.assertEqual(pairs_of(ZONES), self.wanted)
            self.assertEqual(pairs_of(BY_DEGREES), self.wanted)
        turned = {number for number, zone in enumerate(self.zones) if "180" not in json.dumps(zone)
                  and "185" in json.dumps(zone) or "-190" in json.dumps(zone)}
        self.assertEqual(pairs_of(POSTGIS), {pair for pair in self.wanted if pair[1] not in turned}
                         | {pair for pair in pairs_of(POSTGIS) if pair[1] in turned})
        self.assertLess(pairs_of(POSTGIS), self.wanted)

    def test_2_its_index_is_used_for_one_point(self):
        said = "\n".join(psql("SET enable_seqscan = off; EXPLAIN (COSTS OFF) SELECT id FROM zones_at(1, 2)"))
        self.assertRegex(said, "(?s)Index Scan using zones_tiles_pkey on zones_tiles t.*Index Cond: .tile = '?[0-9]+")

    def test_2_plans_are_parallel(self):
        parallel = "SET parallel_setup_cost = 0; SET parallel_tuple_cost = 0; SET min_parallel_table_scan_size = 0; "
        for query in (ZONES, BY_DEGREES):
            self.assertIn("Parallel Seq Scan on points", "\n".join(psql(f"{parallel} EXPLAIN {query}")))
            self.assertEqual(pairs_of(parallel + query), self.wanted)

    def test_3_changes_of_zones(self):
        """Rows that come, change and go, by a user who may not touch the tiles; and all of them."""
        inside = "SELECT id FROM zones_at(60.5, 60.5) ORDER BY id"
        psql(f"""
            SET client_min_messages = error; DROP ROLE IF EXISTS clerk; CREATE ROLE clerk;
            GRANT SELECT, INSERT, UPDATE, DELETE, TRUNCATE ON zones TO clerk; SET ROLE clerk;
            INSERT INTO zones VALUES (900, {geometry(polygon(box(60, 60, 61, 61)))}), (901, NULL);
        """)
        self.assertEqual(psql(inside), ["900"])
        psql(f"SET ROLE clerk; UPDATE zones SET geom = {geometry(polygon(box(60, 60, 62, 62)))} WHERE id = 901;"
             " UPDATE zones SET id = 902 WHERE id = 900;")
        self.assertEqual(psql(inside), ["901", "902"])
        psql("SET ROLE clerk; DELETE FROM zones WHERE id = 902; UPDATE zones SET geom = NULL WHERE id = 901;")
        self.assertEqual(psql(inside), [])
        moved = geometry(polygon(box(60, 60, 61, 61)))
        psql(f"""
            CREATE FUNCTION moved() RETURNS trigger LANGUAGE plpgsql AS $$BEGIN NEW.geom = {moved}; RETURN NEW; END$$;
            CREATE TRIGGER moved BEFORE UPDATE ON zones FOR EACH ROW WHEN (OLD.id > 899) EXECUTE FUNCTION moved();
            UPDATE zones SET id = id WHERE id = 901;
        """)
        self.assertEqual(psql(inside), ["901"])  # another trigger has changed it
        psql("DROP FUNCTION moved CASCADE; DELETE FROM zones WHERE id > 899")
        self.assertEqual(pairs_of(ZONES), self.wanted)
        self.assertEqual(psql("BEGIN; SET LOCAL ROLE clerk; TRUNCATE zones; RESET ROLE;"
                              " SELECT count(*) FROM zones_tiles; ROLLBACK; SELECT count(*) > 0 FROM zones_tiles"),
                         ["0", "t"])
        psql("DROP OWNED BY clerk; DROP ROLE clerk")

    def test_4_dump_and_restore(self):
        """Another database has the same pairs, and its triggers work."""
        subprocess.run("pg_dump joins | psql -XAqt -v ON_ERROR_STOP=1 -d joins_restored", shell=True, check=True,
                       stdout=subprocess.DEVNULL)
        self.assertEqual(pairs_of(ZONES, "joins_restored"), self.wanted)
        self.assertEqual(psql("SELECT count(*) FROM zones_tiles", "joins_restored"),
                         psql("SELECT count(*) FROM zones_tiles"))
        psql(f"INSERT INTO zones VALUES (900, {geometry(polygon(box(60, 60, 61, 61)))})", "joins_restored")
        self.assertEqual(psql("SELECT id FROM zones_at(60.5, 60.5)", "joins_restored"), ["900"])
        self.assertEqual(psql("SELECT s2_join_table('zones')", "joins_restored"), ["zones_tiles"])
        self.assertEqual(psql("SELECT id FROM zones_at(60.5, 60.5)", "joins_restored"), ["900"])

    def test_5_names_keys_and_meters(self):
        """Names in quotes, in a schema, a key of two columns, and zones in meters; points are in degrees."""
        psql(f"""
            CREATE SCHEMA "My maps";
            CREATE TABLE "My maps"."All zones" ("a b" text, k int, "the shape" geometry, PRIMARY KEY (k, "a b"));
            INSERT INTO "My maps"."All zones" SELECT 'zone ' || id, -id, ST_Transform(geom, 3857) FROM zones
                WHERE ST_YMax(geom) < 80 AND ST_XMax(geom) < 170 AND ST_XMin(geom) > -170;
        """)
        self.assertEqual(psql("""SELECT s2_join_table('"My maps"."All zones"', 'the shape', max_cells => 20)"""),
                         ['"My maps"."All zones_tiles"'])
        found = pairs_of("""SELECT p.id, -k FROM points AS p, "My maps"."All zones_at"(p.geom)
                            WHERE abs(latitude) < 85""")
        close = {(point, zone) for point, zone in self.wanted if abs(self.y[point]) < 85}
        close = {pair for pair in close if pair[1] in {zone for _, zone in found}}
        self.assertLess(len(close ^ found), 3)  # the edges are as straight as rounding to meters leaves them
        self.assertGreater(len(found), 1000)

    def test_6_what_is_refused(self):
        psql("CREATE TABLE keyless (geom geometry); CREATE TABLE other (id int PRIMARY KEY, geom geometry);"
             "CREATE TABLE other_tiles (id int);")
        crossed = geometry(polygon([[0, 0], [9, 9], [9, 0], [0, 9], [0, 0]]))
        self.assertEqual(psql("SELECT id FROM zones_at(ST_Point(1, 1)) ORDER BY id"),  # which has no SRID
                         psql("SELECT id FROM zones_at(ST_SetSRID(ST_Point(1, 1), 4326)) ORDER BY id"))
        for place, said in (("ST_SetSRID(ST_Point(1, 1), 4258)", "a place has degrees (SRID 4326), not SRID 4258"),
                            ("ST_SetSRID(ST_Point(1, 1), 3857)", "a place has degrees (SRID 4326), not SRID 3857"),
                            ("ST_Transform(ST_SetSRID(ST_Point(9, 9), 4326), 3857)", "a longitude is a number from")):
            self.assertIn(said, psql("SELECT * FROM zones_at(ST_SetSRID(ST_Point(1, 1), 4326)) AS there,"
                                     f" zones_at({place})", status=3))
        for call, said in (("s2_join_table('keyless')", "s2union: table public.keyless has no primary key"),
                           ("s2_join_table('other')", "s2union: table public.other_tiles is there, and not made by"),
                           ("s2_join_table('zones', 'shape')", 'column "shape" does not exist'),
                           ("s2_join_table('zones', level => 31)", "s2union: argument out of range: 31"),
                           ("s2_join_table('none')", 'relation "none" does not exist')):
            self.assertIn(said, psql(f"SELECT {call}", status=3))
        endless = "ST_SetSRID(ST_GeomFromText('POLYGON((0 0, 9 9, 600 0, 0 0))'), 4326)"
        self.assertIn("a longitude is from -540 to 540", psql(f"INSERT INTO zones VALUES (900, {endless})", status=3))
        self.assertEqual(psql("SELECT count(*) FROM zones WHERE id = 900"), ["0"])
        self.assertEqual(psql(f"BEGIN; DELETE FROM zones; INSERT INTO zones VALUES (900, {crossed});"
                              " SELECT x, count(id) FROM generate_series(1, 8) AS x LEFT JOIN zones_at(x, 7) ON true"
                              " GROUP BY x ORDER BY x; ROLLBACK"),  # which crosses itself at (4.5, 4.5)
                         [f"{x}|{int(x in (1, 2, 7, 8))}" for x in range(1, 9)])
        self.assertEqual(pairs_of(ZONES), self.wanted)  # what failed has changed nothing

    def test_7_random_changes_by_four_transactions(self):
        """At once on a table and on a partition. Then ST_Covers finds the same zones of places off their borders."""
        psql("""
            CREATE TABLE plain (id int PRIMARY KEY, x float8, y float8, geom geometry GENERATED ALWAYS AS
                (ST_Buffer(ST_SetSRID(ST_MakePoint(x, y), 4326), 1 + x / 9, 5)) STORED);
            CREATE TABLE whole (LIKE plain INCLUDING ALL) PARTITION BY RANGE (id);
            CREATE TABLE part PARTITION OF whole FOR VALUES FROM (0) TO (50);
            CREATE TABLE rest PARTITION OF whole DEFAULT;
            SELECT s2_join_table('plain', level => 9), s2_join_table('part'), s2_join_table('rest', level => 5);
        """)
        chance = random.Random(1130)
        scripts = [random_changes(chance, 100, ("plain", "whole"), {"whole": ("part", 0, 50)}, "geom")
                   for _ in range(4)]
        sessions = [subprocess.Popen(["psql", "-XAqt", "-d", "joins"], stdin=subprocess.PIPE, text=True,
                                     stdout=subprocess.DEVNULL, stderr=subprocess.PIPE) for _ in scripts]
        for session, script in zip(sessions, scripts):
            session.stdin.write(script)
            session.stdin.close()
        said = [line for session in sessions for line in session.stderr]
        self.assertEqual({session.wait() for session in sessions}, {0})
        expected = "deadlock|duplicate key|could not serialize|constraint|partition|aborted|no longer fit"
        self.assertEqual([line for line in said if "ERROR" in line and not re.search(expected, line)], [])
        places = ("(SELECT ST_SetSRID(ST_Point(i * 0.371, j * 0.413), 4326) AS at"
                  " FROM generate_series(-5, 35) AS i, generate_series(-5, 30) AS j) AS p")
        for table in "plain", "part", "rest":
            found = pairs = f"SELECT ST_X(at), ST_Y(at), z.id FROM {places}"
            found += f", {table}_at(at) AS z"
            pairs += f" JOIN {table} AS z ON ST_Covers(geom, at)"
            self.assertEqual(psql(f"SELECT count(*) FROM (({found}) EXCEPT ALL ({pairs})) AS d;"
                                  f"SELECT count(*) FROM (({pairs}) EXCEPT ALL ({found})) AS d"), ["0", "0"], table)
        self.assertGreater(int(psql(f"SELECT count(*) FROM {places}, plain_at(at)")[0]), 100)
