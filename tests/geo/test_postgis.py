"""The extension s2union_postgis by itself: its outlines, its update, and names that others have made, on the server of
PGHOST. The pages have the rest."""
import os
import subprocess
import sys
import unittest
from pathlib import Path

sys.path.append(str(Path(__file__).resolve().parents[2] / "bindings/postgres/tests"))
from test_strangers import TWINS, error_of  # noqa: E402

# A function as version 1.4 had it, whose text is looked up in the path of the caller.
DEGREES_1_4 = """
CREATE FUNCTION s2_has_degrees(place geometry)
RETURNS boolean
LANGUAGE plpgsql IMMUTABLE STRICT PARALLEL SAFE
AS $$
BEGIN
  IF ST_SRID(place) NOT IN (0, 4326) THEN
    RAISE 's2union: a place has degrees (SRID 4326), not SRID %', ST_SRID(place)
      USING ERRCODE = 'invalid_parameter_value', HINT = 'ST_Transform(place, 4326) takes it there.';
  END IF;
  RETURN true;
END
$$;
COMMENT ON FUNCTION s2_has_degrees(geometry) IS 'true. Error: an SRID that is neither 0 nor 4326';
"""
CATALOGUE = """
    SELECT pg_get_functiondef(objid) || coalesce(proacl::text, ''), obj_description(objid, 'pg_proc')
    FROM pg_depend JOIN pg_extension AS e ON refobjid = e.oid AND deptype = 'e' JOIN pg_proc AS p ON p.oid = objid
    WHERE extname = 's2union_postgis' ORDER BY 1;
"""
# Without ST_Transform, in which PostGIS asks its table in the path of the caller.
CALLS = [f"SELECT own.{call}" for call in (
    "s2_degrees(public.ST_Point(2, 48))", "s2_covering(public.ST_Point(2, 48))", "s2_covering('POINT(2 48)')",
    "s2_interior('POLYGON((2 48, 3 48, 3 49, 2 48))'::public.geometry, 9)", "s2_interior('POINT(2 48)', 9, 12)",
    "s2_coverings(public.ST_Point(2, 48))",
    "s2_map_outer('POLYGON((2 48, 3 48, 3 49, 2 48))'::public.geometry, 9)",
    "s2_map_inner('POLYGON((2 48, 3 48, 3 49, 2 48))'::public.geometry, 9)",
    "s2_map_outer('POLYGON((2 48, 3 48, 3 49, 2 48))'::public.geometry, 30, 8)",
    "s2_geodesic_outer('POLYGON((2 48, 3 48, 3 49, 2 48))'::public.geography, 9)",
    "s2_geodesic_inner('POLYGON((2 48, 3 48, 3 49, 2 48))'::public.geometry, 9)", "s2_geometry('04')",
    "s2_geometry('04', true)", "s2_geojson('04')", "s2_geojson('04', true)", "s2_envelope(1)",
    "s2_join_tiles(public.ST_Point(2, 48), 3)",
    "s2_has_degrees(public.ST_Point(2, 48))", "s2_has_degrees(public.ST_Point(2, 48, 3857))", "s2_has_degrees(4258)")]


def psql(script, *options):
    return subprocess.run(["psql", "-XAqt", *options, "-d", "strange"], input=script, capture_output=True, text=True,
                          check=False)


class PostGIS(unittest.TestCase):
    def setUp(self):
        self.ended()
        self.on_server("CREATE DATABASE strange")
        self.addCleanup(self.ended)
        self.said("CREATE SCHEMA own; CREATE EXTENSION postgis")

    def on_server(self, script):
        subprocess.run(["psql", "-XAqt", "-d", "postgres", "-c", "SET client_min_messages = error", "-c", script],
                       check=True)

    def ended(self):
        self.on_server("DROP DATABASE IF EXISTS strange")
        self.on_server("DROP ROLE IF EXISTS stranger")

    def said(self, script):
        run = psql("SET client_min_messages = error;" + script, "-v", "ON_ERROR_STOP=1")
        self.assertEqual(run.stderr, "")
        return run.stdout.splitlines()

    def test_an_outline_as_geojson(self):
        self.said("CREATE EXTENSION s2union_postgis CASCADE")
        for region in ("04 0c", "1 3 5", "89c25", ""):
            self.assertEqual(self.said(f"SELECT s2_geojson('{region}', outline => true) ="
                                       f" ST_AsGeoJSON(s2_geometry('{region}', true), 17, 0),"
                                       f" s2_geojson('{region}', outline => false) = s2_geojson('{region}')"), ["t|t"])
        self.assertEqual(self.said("SELECT ST_NumGeometries(ST_GeomFromGeoJSON(s2_geojson('04 0c', outline => true))),"
                                   " ST_NumGeometries(ST_GeomFromGeoJSON(s2_geojson('04 0c')))"), ["1|2"])

    def test_coverings_of_geometries_as_they_are_written(self):
        """Those of the bytes and of the text that PostGIS writes; also of a geometry without a system of coordinates,
        and of one in another."""
        self.said("CREATE EXTENSION s2union_postgis CASCADE")
        square = "ST_MakeEnvelope(2, 48, 3, 49, {})"
        for name in "s2_map_outer", "s2_map_inner", "s2_geodesic_outer", "s2_geodesic_inner":
            self.assertEqual(self.said(f"SELECT {name}({square.format(0)}, 8) = {name}(ST_AsEWKB(geom), 8), {name}"
                                       f"(geom, 8) = {name}(ST_AsGeoJSON(geom), 8), {name}(ST_Transform(geom, 4258), 8)"
                                       f" = {name}(geom, 8), {name}(NULL::geometry, 8) IS NULL"
                                       f" FROM (SELECT {square.format(4326)} AS geom) v"), ["t|t|t|t"])
        for name in "s2_map_outer", "s2_map_inner":
            self.assertEqual(self.said(f"SELECT {name}(geom, 30, 8) = {name}(ST_AsEWKB(geom), 30, 8),"
                                       f" s2_count({name}(geom, 30, 8)) FROM (SELECT {square.format(4326)} AS geom) v"),
                             ["t|8"])
        for name in "s2_geodesic_outer", "s2_geodesic_inner":
            self.assertEqual(self.said(f"SELECT {name}(geom::geography, 8) = {name}(geom, 8), {name}(geom, 8) ="
                                       f" {name}(ST_Transform(geom, 4258)::geography, 8), {name}(NULL::geography, 8)"
                                       f" IS NULL FROM (SELECT {square.format(4326)} AS geom) v"), ["t|t|t"])
        self.assertIn("an edge is 128 degrees or longer: byte 0, part 0, ring 0, position 0",
                      error_of("SELECT s2_geodesic_outer('POLYGON((-80 1, 80 1, 0 50, -80 1))'::geography, 8)"))
        self.assertIn("a point or a line has no inside: byte 0, part 0, ring 0, position 0",
                      error_of("SELECT s2_map_outer(ST_Point(2, 48), 8)"))
        self.assertIn("no point, line, polygon or collection of them: byte 0, part 0, ring 0, position 0",
                      error_of("SELECT s2_map_inner('CURVEPOLYGON((2 48, 3 48, 3 49, 2 48))'::geometry, 8)"))

    def test_the_update_from_1_4(self):
        """It makes what a new database has; a view that asks its function goes on."""
        self.said("CREATE EXTENSION s2union_postgis CASCADE")
        whole = self.said(CATALOGUE)
        folder = Path(os.environ["EXTENSIONS"])
        text = (folder / "s2union_postgis--1.5.0.sql").read_text()
        begin = text.index("CREATE OR REPLACE FUNCTION s2_has_degrees(srid")
        script = folder / "s2union_postgis--1.4.sql"
        script.write_text(text[:begin] + DEGREES_1_4)
        self.addCleanup(script.unlink)
        self.said("DROP EXTENSION s2union_postgis; CREATE EXTENSION s2union_postgis VERSION '1.4'")
        self.assertNotEqual(self.said(CATALOGUE), whole)
        self.said("CREATE VIEW asked AS SELECT s2_has_degrees(ST_Point(2, 48)) AS it")
        self.said("ALTER EXTENSION s2union_postgis UPDATE")
        self.assertEqual(self.said(CATALOGUE), whole)
        self.assertEqual(self.said("SELECT it FROM asked"), ["t"])

    def test_no_function_of_the_callers_path_is_called(self):
        self.said("CREATE EXTENSION s2union_postgis SCHEMA own CASCADE")
        self.said(TWINS)
        said = [psql(f"SET search_path = {path};\n" + ";\n".join(CALLS)) for path in
                ("pg_catalog", "twins, pg_catalog")]
        self.assertEqual(*(run.stdout for run in said))
        self.assertEqual(*(run.stderr for run in said))
        self.assertEqual(said[0].stderr.count("ERROR"), 2)  # of the last two calls
        self.assertEqual(said[0].stderr.count("a place has degrees (SRID 4326), not SRID"), 2)
        self.assertIn("twin", error_of("SET search_path = twins, pg_catalog;"
                                       " SELECT st_srid('POINT(2 48)'::public.geometry)"))

    def test_nothing_of_others_stands_for_what_it_requires(self):
        self.said("CREATE ROLE stranger; GRANT CREATE ON SCHEMA own TO stranger; SET ROLE stranger;"
                  " CREATE FUNCTION own.st_srid(public.geometry) RETURNS int LANGUAGE sql RETURN 0")
        self.assertIn("function own.st_srid(public.geometry) of role stranger is in the way",
                      error_of("CREATE EXTENSION s2union_postgis SCHEMA own CASCADE"))
        self.said("DROP OWNED BY stranger; CREATE EXTENSION s2union_postgis SCHEMA own CASCADE")

    def test_who_may_create_in_a_database_makes_it_and_gains_nothing(self):
        """Where a superuser has made PostGIS. A function of his that fits as well as PostGIS's isn't run."""
        made = "SET ROLE stranger; CREATE EXTENSION s2union_postgis SCHEMA trap CASCADE"
        self.said("CREATE ROLE stranger; GRANT CREATE ON DATABASE strange TO stranger; SET ROLE stranger;"
                  " CREATE SCHEMA trap; CREATE FUNCTION trap.st_srid(public.geometry) RETURNS int LANGUAGE plpgsql"
                  " IMMUTABLE AS 'BEGIN ALTER ROLE stranger SUPERUSER; RETURN 0; END'")
        self.assertIn("function trap.st_srid(public.geometry) of role stranger is in the way", error_of(made))
        self.said(f"DROP FUNCTION trap.st_srid(public.geometry); {made}; CREATE TABLE trap.zones (id int PRIMARY KEY,"
                  " geom public.geometry)")
        self.said("SET ROLE stranger; INSERT INTO trap.zones VALUES (1, public.ST_MakeEnvelope(2, 48, 3, 49, 4326))")
        self.assertEqual(self.said("SET ROLE stranger; SELECT trap.s2_join_table('trap.zones');"
                                   " SELECT id FROM trap.zones_at(2.3, 48.8)"), ["trap.zones_tiles", "1"])
        self.assertEqual(self.said("SELECT rolsuper FROM pg_roles WHERE rolname = 'stranger'"), ["f"])
        self.said("DROP OWNED BY stranger")
