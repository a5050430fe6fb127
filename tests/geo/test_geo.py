"""What docs/GEO.md shows, and that it is S2's: leaves, coverings and corners beside S2's own and plain polygons."""
import json
import os
import re
import sqlite3
import subprocess
import sys
from contextlib import closing
from math import atan, cos, degrees, radians, sin
from pathlib import Path
from random import Random

import docstrings
import geopandas
import numpy
import page
import pandas
import pywraps2 as s2
import s2union_geo.frames
from earth import all_pairs, points_of_the_sphere
from model import borders, shapes
from s2union import CellUnion, child, from_tokens, to_signed, tokens
from s2union_geo import Index, area, boundary, coverings, leaves, outline, points, to_geojson
from s2union_geo.geojson import rings
from shapely.geometry import Point, shape
from shapely.prepared import prep
from which import covering, features_of, which


def kilometers(x, y, to_x, to_y):
    """How far the places of two lists are apart."""
    x, y, to_x, to_y = map(numpy.radians, (x, y, to_x, to_y))
    half = numpy.sin((to_y - y) / 2)**2 + numpy.cos(y) * numpy.cos(to_y) * numpy.sin((to_x - x) / 2)**2
    return 2 * 6371.01 * numpy.arcsin(numpy.sqrt(half))


def points_on_borders():
    """A grid, and points on the borders of faces, many of which have two equal coordinates on the sphere."""
    grid = [(x, y) for x in range(-180, 181, 5) for y in range(-90, 91, 5)]
    upright = [(x, y / 2) for x in (-135, -45, 45, 135) for y in range(-80, 81)]
    turns = [x / 10 for x in range(-1799, 1801)]
    around = [(x, degrees(atan(max(abs(cos(radians(x))), abs(sin(radians(x))))))) for x in turns]
    return numpy.array(grid + upright + around + [(x, -y) for x, y in around], float).T


# The functions of s2union_postgis 1.3. They were in PL/Python, or called what was: here each has an answer of its own.
POSTGIS_1_3 = """
CREATE FUNCTION s2_coverings_of(geojson text, max_cells integer, max_level integer, OUT outer_file bytea,
  OUT inner_file bytea) LANGUAGE SQL IMMUTABLE STRICT RETURN ROW('04'::s2union::bytea, '04'::s2union::bytea);
CREATE FUNCTION s2_geojson_of(file bytea) RETURNS text LANGUAGE SQL IMMUTABLE STRICT RETURN 'of 1.3';
CREATE FUNCTION s2_in_degrees(shape geometry) RETURNS text LANGUAGE SQL IMMUTABLE STRICT RETURN ST_AsGeoJSON(shape, 17);
CREATE FUNCTION s2_covering(polygons geometry, max_cells integer DEFAULT 200, max_level integer DEFAULT 30)
  RETURNS s2union LANGUAGE SQL IMMUTABLE STRICT
  RETURN (s2_coverings_of(s2_in_degrees(polygons), max_cells, max_level)).outer_file::s2union;
CREATE FUNCTION s2_interior(polygons geometry, max_cells integer DEFAULT 200, max_level integer DEFAULT 30)
  RETURNS s2union LANGUAGE SQL IMMUTABLE STRICT
  RETURN (s2_coverings_of(s2_in_degrees(polygons), max_cells, max_level)).inner_file::s2union;
CREATE FUNCTION s2_geojson(region s2union) RETURNS text LANGUAGE SQL IMMUTABLE STRICT
  RETURN s2_geojson_of($1::bytea);
CREATE FUNCTION s2_geometry(region s2union) RETURNS geometry LANGUAGE SQL IMMUTABLE STRICT
  RETURN ST_GeomFromText(s2_geojson($1), 4326);
"""


class Geo(page.Page):
    name = "GEO.md"

    def test_page(self):
        self.page_holds()

    def test_leaves_are_s2s(self):
        """Of a million points of the sphere and those on borders; and each is within 8 mm of the middle of its leaf."""
        longitude, latitude = numpy.append(points_of_the_sphere(1000000), points_on_borders(), axis=1)
        text = "".join(f"{x!r} {y!r}\n" for x, y in zip(longitude.tolist(), latitude.tolist()))
        wanted = subprocess.run([self.file("leaf")], input=text, capture_output=True, text=True, check=True).stdout
        cells = leaves(longitude, latitude)
        self.assertEqual(tokens(cells), wanted.split())
        signed = [to_signed(cell) for cell in from_tokens(wanted)]
        back = numpy.array(points(cells.tolist()))
        self.assertLess(kilometers(longitude, latitude, *back).max(), 8e-6)
        for said in (self.in_sqlite(text), self.in_postgres(text)):
            rows = [line.split("|") for line in said.split()]
            self.assertEqual([int(row[0]) for row in rows], signed)
            apart = numpy.abs(numpy.array([row[1:] for row in rows], float).T - back)
            self.assertLess(numpy.minimum(apart, 360 - apart).max(), 1e-12)

        package = os.environ["S2UNION_PAGE"] + "/js"
        Path(self.file("places.txt")).write_text(text)
        subprocess.run(["node", os.path.join(page.TOP, "bindings/js/tests/geo.mjs"), package,
                        self.file("places.txt"), "-", self.file("leaves.txt")], check=True)
        made = from_tokens(Path(self.file("leaves.txt")).read_text())
        apart = numpy.flatnonzero(numpy.array(made, "uint64") != cells)
        self.assertGreaterEqual(apart.min(initial=len(cells)), 1000000)  # on borders Node's own sines may differ
        near = numpy.array(points([made[place] for place in apart])).reshape(2, -1)
        self.assertLess(kilometers(longitude[apart], latitude[apart], *near).max(initial=0), 8e-6)

    def in_sqlite(self, points):
        rows = "".join(f"{k} {line}\n" for k, line in enumerate(points.splitlines()))
        Path(self.file("rows")).write_text(rows)
        command = """sqlite3 -cmd ".load $PREFIX/lib/sqlite3/mod_s2union_geo" :memory: <<'SQL'
CREATE TABLE places(name INTEGER, longitude REAL, latitude REAL);
.separator " "
.import world/rows places
.separator "|"
SELECT leaf, printf('%!.17g', s2_longitude(leaf)), printf('%!.17g', s2_latitude(leaf))
FROM (SELECT name, s2_leaf_at(longitude, latitude) AS leaf FROM places) ORDER BY name;
SQL
"""
        return self.output(command)

    def in_postgres(self, points):
        command = """psql -XAqt regions -c "CREATE TABLE rows (place int, x float8, y float8)" \
            -c "\\copy rows FROM 'world/rows' (DELIMITER ' ')" \
            -c "SELECT leaf, s2_longitude(leaf), s2_latitude(leaf) FROM rows, s2_leaf_at(x, y) AS leaf ORDER BY place"
"""
        return self.output(command)

    def test_coverings_bound_their_polygons(self):
        """Of 20,000 points: those in an inner covering are in the polygon, and those in it are in the outer one."""
        longitude, latitude = points_of_the_sphere(20000)
        cells, points = leaves(longitude, latitude), list(map(Point, longitude, latitude))
        features = features_of(self.file("countries.geojson"))
        names, tested = which(features, self.file("countries"), longitude, latitude)
        plain = numpy.full(len(cells), "-", object)
        for feature in features:
            polygon = prep(shape(feature["geometry"]))
            inside = numpy.array([polygon.contains(point) for point in points])
            plain[inside] = feature["properties"]["name"]
            for folder in ("countries", "python"):
                inner, outer = (covering(self.file(folder), feature, kind) for kind in ("inner", "outer"))
                self.assertFalse((inner.contains_cells(cells) & ~inside).any())
                self.assertFalse((inside & ~outer.contains_cells(cells)).any())
                self.assertTrue(inner <= outer)
        self.assertEqual(names.tolist(), plain.tolist())
        self.assertTrue(0 < numpy.count_nonzero(tested) < 2000)

    def test_files_that_are_not_there(self):
        """cover.cc names the file that it can't read, that is no GeoJSON, or that it can't write, and a word that is
        no number."""
        countries, other, folder = self.file("countries.geojson"), self.file("other"), self.file("countries")
        ring = [[[0, 0], [1, 0], [1, 1], [0, 0]]]
        good = {"properties": {"file": "x"}, "geometry": {"coordinates": ring}}
        away, twice, nothing = ({"features": [good, it]} for it in (
            {"properties": {"file": "../x"}}, good, {"properties": {}}))
        point, beyond = ({"features": [{"properties": {"file": "x"}, "geometry": {"coordinates": it}}]} for it in (
            [0, 0], [[[0, 0], [10, 91], [20, 0], [0, 0]]]))
        for file, there, text, said in (
                ("none.geojson", folder, None, "none.geojson: it can't be read"),
                (other, folder, "{", f"{other}: it is no collection of features in GeoJSON"),
                (other, folder, json.dumps(away), f"{other}: ../x would lie in another folder"),
                (other, folder, json.dumps(twice), f"{other}: x is the name of two features"),
                (other, folder, json.dumps(nothing), f"{other}: .*'file' not found"),
                (other, folder, json.dumps(point), f"{other}: .*number"),
                (other, folder, json.dumps(beyond), f"{other}: a position is out of range"),
                (countries, "none", None, "none/.*: it can't be written")):
            if text:
                Path(file).write_text(text)
            done = subprocess.run([self.file("cover"), file, there, "200", "30"], capture_output=True, text=True)
            self.assertEqual((done.returncode, done.stdout), (1, ""))
            self.assertRegex(done.stderr, f"^{said}\n$")
            self.assertFalse(Path(folder, "x.outer").exists())
        for words, said in ((("many", "30"), "many: it is no number from 1 to 1000000"),
                            (("200", "31"), "31: it is no number from 0 to 30")):
            done = subprocess.run([self.file("cover"), countries, folder, *words], capture_output=True, text=True)
            self.assertEqual((done.returncode, done.stderr), (1, f"{said}\n"))

    def test_both_programs_cover_the_same_polygons(self):
        """Coverings by S2 in C++ and by s2union_geo: what is surely in a polygon by one is covered by the other, and
        with as many cells both bound the polygon about as closely."""
        ours, theirs = numpy.zeros(2), numpy.zeros(2)
        for feature in features_of(self.file("countries.geojson")):
            here, there = ({kind: covering(self.file(folder), feature, kind) for kind in ("inner", "outer")}
                           for folder in ("countries", "python"))
            self.assertTrue(here["inner"] <= there["outer"] and there["inner"] <= here["outer"])
            outer, inner = coverings(feature, 200)
            self.assertTrue(here["inner"] <= outer and inner <= here["outer"] and inner <= outer)
            self.assertTrue(len(outer) <= 200 and len(inner) <= 200)
            ours += [outer.leaf_count(), inner.leaf_count()]
            theirs += [here["outer"].leaf_count(), here["inner"].leaf_count()]
        self.assertLess(ours[0] / theirs[0], 1.1)
        self.assertGreater(ours[1] / theirs[1], 0.9)

    def test_corners_are_s2s(self):
        random = Random(7)
        cells = [s2.S2CellId.FromFacePosLevel(random.randrange(6), random.randrange(2**61), level).id()
                 for level in range(1, 31) for _ in range(50)]
        for cell, ring in zip(cells, rings(cells)):
            square = s2.S2Cell(s2.S2CellId(cell))
            corners = [s2.S2LatLng(square.GetVertex(k)) for k in range(4)]
            if all(abs(corner.lat().degrees()) < 89.9 for corner in corners):
                self.assertEqual((len(ring), ring[0]), (5, ring[4]))
                for corner, (longitude, latitude) in zip(corners, ring):
                    self.assertAlmostEqual(corner.lat().degrees(), latitude, places=12)
                    self.assertAlmostEqual((corner.lng().degrees() - longitude + 180) % 360, 180, places=11)

    def test_the_map_has_the_cells(self):
        with open(self.file("france.geojson"), encoding="utf-8") as it:
            features = json.load(it)["features"]
        with open(self.file("countries/France.outer"), "rb") as it:
            union = CellUnion.from_bytes(it.read())
        self.assertEqual([feature["properties"]["cell"] for feature in features], union.tokens())

    def union(self, name):
        with open(self.file(name), "rb") as it:
            return CellUnion.from_bytes(it.read())

    def test_areas_and_boundaries_are_s2s(self):
        """Of all coverings of countries, and of unions with a face, a pole and corners that touch."""
        source = os.path.join(page.TOP, "tests", "geo", "outline.cc")
        self.output(f"c++ -std=c++17 -O2 {source} -o world/outline -ls2 -Wl,--as-needed /usr/lib/*/libabsl_*.so "
                    "-lcrypto")
        made = {f"made.{k}": text for k, text in enumerate(("1", "5", "04 0c 1c", "04 14", "5c", "1 44", ""))}
        for name, text in made.items():
            Path(self.file(name)).write_bytes(CellUnion.from_tokens(text).to_bytes())
        names = [*made, *(f"countries/{name}" for name in sorted(os.listdir(self.file("countries"))))]
        lines = iter(subprocess.run([self.file("outline"), *map(self.file, names)], stdout=subprocess.PIPE, text=True,
                                    check=True).stdout.splitlines())
        for name in names:
            union, (wanted, count) = self.union(name), next(lines).split()
            wanted = float(wanted) * 6371.01**2
            self.assertLessEqual(abs(area(union) - wanted), 1e-9 * wanted)
            theirs = [corners_of(numpy.array(next(lines).split(), float).reshape(-1, 2)) for _ in range(int(count))]
            ours = [corners_of(numpy.array(line)) for line in boundary(union)["coordinates"]]
            self.assertEqual((len(ours), set(ours)), (len(theirs), set(theirs)))

    def test_outlines_are_valid(self):
        """Of all coverings of countries, and of unions with faces, poles and corners that touch: for GEOS, with the
        middles of the cells' children and none of the complement's."""
        made = ("1", "5", "7", "1 3 5 7 9 b", "04 0c 1c", "04 14", "2c 5c", "")
        countries = (self.union(f"countries/{name}") for name in sorted(os.listdir(self.file("countries"))))
        for union in [*map(CellUnion.from_tokens, made), *countries]:
            polygon = shape(outline(union))
            self.assertTrue(polygon.is_valid)
            contains = prep(polygon).contains
            for cells, is_in in ((union, True), (~union, False)):
                for place in zip(*points([child(cell, k) for cell in cells if not cell & 1 for k in range(4)])):
                    self.assertEqual(contains(Point(*place)), is_in)

    def test_gdal_reads_union_files(self):
        """Each covering of a country is a layer with its cells, which go through GeoPackage; and what is no union."""
        folder, = s2union_geo.__path__
        surroundings = {**os.environ, "GDAL_PYTHON_DRIVER_PATH": folder}

        def gdal(*words):
            return subprocess.run(words, env=surroundings, stdout=subprocess.PIPE, stderr=subprocess.STDOUT, text=True)

        for name in sorted(os.listdir(self.file("countries")))[::16]:
            done = gdal("ogr2ogr", "-f", "GeoJSON", "-lco", "COORDINATE_PRECISION=15", "/vsistdout/",
                        self.file(f"countries/{name}"))
            found, union = json.loads(done.stdout)["features"], self.union(f"countries/{name}")
            self.assertEqual(CellUnion(cell["properties"]["cell"] for cell in found), union)
            for feature, wanted in zip(found, to_geojson(union)["features"]):
                self.assertEqual(feature["properties"]["token"], wanted["properties"]["cell"])
                ring, other = (numpy.array(it["geometry"]["coordinates"][0]) for it in (feature, wanted))
                self.assertLess(numpy.abs(ring - other).max(), 1e-12)
        for name, content, said in (("no_cell", b"\1" + (1).to_bytes(8, "little") + b"\2" + bytes(7), "not a cell"),
                                    ("short", b"\1" + (2).to_bytes(8, "little") + bytes(8), "Unable to open"),
                                    ("long", CellUnion.from_tokens("04").to_bytes() + b"\0", "Unable to open"),
                                    ("none", b"", "Unable to open")):
            Path(self.file(name)).write_bytes(content)
            self.assertIn(said, gdal("ogrinfo", self.file(name)).stdout)
        drawn = [sys.executable, os.path.join(page.TOP, "tests", "geo", "qgis_map.py"),
                 self.file("countries/France.outer")]
        self.assertEqual(gdal(*drawn).stdout.splitlines()[-1], "155 EPSG:4326 token cell level, drawn")

    def test_postgis_both_ways(self):
        """All countries become the regions that s2union_geo makes of them, whose cells join with 100,000 points as
        their numbers do; and regions become polygons, those of to_geojson."""
        features = features_of(self.file("countries.geojson"))
        rows = "".join(f"{it['properties']['file']}\t{json.dumps(it['geometry'])}\n" for it in features)
        Path(self.file("shapes.tsv")).write_text(rows)
        cells = leaves(*points_of_the_sphere(100000))
        Path(self.file("leaves.tsv")).write_text("".join(f"{k}\t{leaf}\n" for k, leaf in
                                                         enumerate(cells.view("int64").tolist())))
        said = self.output("""psql -XAqt regions 2>&1 <<'SQL'
CREATE TABLE places (place int, leaf bigint);
CREATE TABLE given (name text, shape text);
\\copy places FROM 'world/leaves.tsv'
\\copy given FROM 'world/shapes.tsv'
CREATE TABLE made AS SELECT name, s2_covering(ST_GeomFromGeoJSON(shape), 20, 12) AS region FROM given;
CREATE INDEX ON made USING gin (region);
\\copy (SELECT name, encode(region::bytea, 'hex'), s2_geojson(region) FROM made) TO 'world/made.tsv'
\\copy (SELECT place, name FROM places, made WHERE region @> leaf) TO 'world/pairs.tsv'
SELECT count(*), sum(ST_NumGeometries(s2_geometry(region))), bool_and(ST_IsValid(ST_UnaryUnion(s2_geometry(region)))),
  bool_and(ST_IsValid(s2_geometry(region, outline => true))), s2_covering('POINT(2 48)') @> s2_leaf_at(2, 48),
  s2_count(s2_interior('POLYGON((2 48, 3 48, 3 49, 2 48))', 9)) FROM made;
SQL
""")
        regions = {}
        for line in Path(self.file("made.tsv")).read_text().splitlines():
            name, region, drawn = line.split("\t")
            regions[name] = union = CellUnion.from_bytes(bytes.fromhex(region))
            self.assertEqual(union, self.union(f"python/{name}.outer"))
            for (ring,), cell in zip(json.loads(drawn)["coordinates"], to_geojson(union)["features"], strict=True):
                other, = cell["geometry"]["coordinates"]
                self.assertLess(numpy.abs(numpy.array(ring) - numpy.array(other)).max(), 1e-12)
        self.assertEqual(said, f"177|{sum(len(it.denormalised(1)) for it in regions.values())}|t|t|t|9\n")
        found = {(int(place), name) for place, name in
                 (line.split("\t") for line in Path(self.file("pairs.tsv")).read_text().splitlines())}
        self.assertEqual(found, all_pairs(cells, {name: list(union) for name, union in regions.items()}))
        print(f"{len(found)} pairs of a region and a point", file=sys.stderr)

    def test_postgis_from_1_3(self):
        """A view of what version 1.3 had goes on after the update, and there is what a new database has."""
        script = Path(os.environ["EXTENSIONS"], "s2union_postgis--1.3.sql")
        script.write_text(POSTGIS_1_3)
        self.addCleanup(script.unlink)
        said = self.output("""psql -XAqt regions 2>&1 <<'SQL'
CREATE DATABASE updated;
\\connect updated
SET client_min_messages = warning;
CREATE EXTENSION s2union_geo VERSION '1.3' CASCADE;
CREATE EXTENSION s2union_postgis VERSION '1.3' CASCADE;
CREATE VIEW drawn AS SELECT s2_geometry(it) AS cells, s2_geojson(it) AS text, s2_covering(polygons => point) AS outside,
  s2_interior(polygons => point) AS inside FROM (SELECT '04'::s2union AS it, ST_Point(2, 48) AS point) AS given;
ALTER EXTENSION s2union_geo UPDATE;
ALTER EXTENSION s2union_postgis UPDATE;
SELECT extversion FROM pg_extension WHERE extname = 's2union_postgis';
SELECT GeometryType(cells), left(text, 22), outside @> s2_leaf_at(2, 48), s2_count(inside) FROM drawn;
\\t
\\df s2_*
\\connect regions
\\df s2_*
DROP DATABASE updated;
SQL
""").splitlines()
        self.assertEqual(said[:2], ["1.5.0", 'MULTIPOLYGON|{"type":"MultiPolygon"|t|0'])
        middle = 2 + len(said[2:]) // 2
        self.assertEqual(said[2:middle], said[middle:])
        self.assertGreater(middle, 100)

    def test_countries_in_javascript(self):
        """Each country has the cells there that it has in Python."""
        lines = []
        for feature in features_of(self.file("countries.geojson")):
            geometry = feature["geometry"]
            polygons = geometry["coordinates"] if geometry["type"] == "MultiPolygon" else [geometry["coordinates"]]
            rings = [(k, [tuple(at) for at in ring]) for k, polygon in enumerate(polygons) for ring in polygon]
            for options in shapes.options(50), shapes.options(500, edges=shapes.GEODESIC):
                made = coverings(feature, options[0], edges=("map", "geodesic")[options[3]])
                cells = (" ".join(f"{cell:x}" for cell in union) for union in made)
                lines.append("\t".join(["rings", shapes.shape_in_words(rings), shapes.in_words(options), *cells]))
        Path(self.file("shapes")).write_text("\n".join(lines))
        words = ["node", os.path.join(page.TOP, "bindings/js/tests/shapes.mjs"), os.environ["S2UNION_PAGE"] + "/js"]
        said = subprocess.run([*words, self.file("shapes")], check=False, capture_output=True, text=True).stdout
        self.assertTrue(said.endswith(f"{len(lines)} passed, 0 failed\n"), said[-2000:])

    def test_coverings_have_their_borders(self):
        """Of many triangles with an edge along both axes of the map: each place of one is in its coverings, and none
        outside is in an interior, by whole numbers."""
        for corners, x, y, lies in triangles(200):
            cells, shape = leaves(x, y), {"type": "Polygon", "coordinates": [borders.ring_of(corners)]}
            for most in (200, 2000, 20000):
                outer, inner = coverings(shape, most)
                self.assertFalse((~outer.contains_cells(cells[lies >= 0])).any(), (corners, most))
                self.assertFalse(inner.contains_cells(cells[lies < 0]).any(), (corners, most))

    def test_joins_have_the_places_along_borders(self):
        """By GeoPandas' frames and each predicate, and by PostGIS: of the same triangles, all places inside, and none
        outside."""
        rows, wanted = [], []
        for name, (corners, x, y, lies) in enumerate(triangles(40)):
            ring = borders.ring_of(corners)
            zone = geopandas.GeoDataFrame(geometry=[shape({"type": "Polygon", "coordinates": [ring]})], index=[name])
            for predicate, least in (("within", 1), ("intersects", 0)):
                found = zone.s2.sjoin(pandas.DataFrame({"lon": x, "lat": y}), predicate=predicate)
                self.assertEqual(found.point.tolist(), numpy.flatnonzero(lies >= least).tolist(), corners)
            text = ", ".join(f"{a!r} {b!r}" for a, b in ring)
            rows += [f"{name}\tPOLYGON(({text}))\t{leaf}\t{place}\n"
                     for leaf, place in zip(leaves(x, y).view("int64").tolist(), lies.tolist())]
        Path(self.file("borders.tsv")).write_text("".join(rows))
        said = self.output("""psql -XAqt regions 2>&1 <<'SQL'
CREATE TABLE borders (name int, shape text, leaf bigint, lies int);
\\copy borders FROM 'world/borders.tsv'
CREATE TABLE zones AS SELECT name, s2_covering(area, 5000), s2_interior(area, 5000)
FROM (SELECT name, min(shape)::geometry AS area FROM borders GROUP BY name) AS shapes;
SELECT count(*) FILTER (WHERE lies >= 0), count(*) FILTER (WHERE lies >= 0 AND NOT s2_covering @> leaf),
  count(*) FILTER (WHERE lies < 0 AND s2_interior @> leaf)
FROM borders JOIN zones USING (name);
SQL
""")
        inside = sum(line.rstrip().endswith(("\t0", "\t1")) for line in rows)
        self.assertEqual(said, f"{inside}|0|0\n")

    def test_a_statement_may_be_canceled(self):
        """Coverings that take seconds end at a timeout, before their result, also in a parallel query."""
        said = self.output("""psql -XAqt regions 2>&1 <<'SQL'
CREATE TABLE long AS SELECT ST_MakePolygon(ST_MakeLine(place ORDER BY number)) AS shape FROM (
  SELECT number, ST_MakePoint(539 - 1078 * (number % 2), 40 + number * 1e-6) AS place
  FROM generate_series(0, 89) AS number
  UNION ALL VALUES (90, ST_MakePoint(-540, 40.001)), (91, ST_MakePoint(-540, 39)), (92, ST_MakePoint(539, 40))) AS them,
  generate_series(1, 4) AS copy GROUP BY copy;
ALTER TABLE long SET (parallel_workers = 2);
SET parallel_setup_cost = 0; SET parallel_tuple_cost = 0; SET min_parallel_table_scan_size = 0;
SET statement_timeout = '100ms';
SELECT max(s2_count(s2_covering(shape, cells))) FROM (SELECT * FROM long LIMIT 1) AS one,
  generate_series(200, 999) AS cells;
SELECT sum(s2_count(s2_covering(shape, cells))) FROM long, generate_series(200, 999) AS cells;
SQL
""")
        errors = [line for line in said.splitlines() if line.startswith("ERROR")]
        self.assertEqual([error.split(": ")[-1].strip() for error in errors],
                         ["canceling statement due to statement timeout"] * 2)

    def test_sqlite_both_ways(self):
        """The same by the functions of texts that the page has for SQLite, with its tiles."""
        rows = [(it["properties"]["file"], json.dumps(it["geometry"]))
                for it in features_of(self.file("countries.geojson"))]
        cells = leaves(*points_of_the_sphere(100000))
        with closing(sqlite3.connect(":memory:")) as db:
            db.enable_load_extension(True)
            db.load_extension(os.path.join(os.environ["PREFIX"], "lib", "sqlite3", "mod_s2union"))
            for line in re.findall(r"^    (db\.create_function\(.*)$", self.text, re.M):
                exec(line, {**vars(s2union_geo), "db": db, "json": json, "CellUnion": CellUnion})
            db.executescript("CREATE TABLE given (name text, shape text); CREATE TABLE places (place int, leaf int)")
            db.executemany("INSERT INTO given VALUES (?, ?)", rows)
            db.executemany("INSERT INTO places VALUES (?, ?)", enumerate(cells.view("int64").tolist()))
            db.execute("CREATE TABLE made AS SELECT name, s2_covering(shape, 20, 12) AS region FROM given")
            db.execute("CREATE TABLE tiles AS SELECT name, tile, part FROM made, s2_tiles(region, 5)")
            regions = {}
            for name, region, drawn in db.execute("SELECT name, region, s2_geojson(region) FROM made"):
                regions[name] = union = CellUnion.from_bytes(region)
                self.assertEqual((union, json.loads(drawn)), (self.union(f"python/{name}.outer"), to_geojson(union)))
            found = db.execute("SELECT place, name FROM places JOIN tiles ON tile = s2_parent(leaf, 5)"
                               " AND s2_contains(part, leaf)").fetchall()
            self.assertEqual(sorted(found), sorted(all_pairs(cells, {name: list(it) for name, it in regions.items()})))
            self.assertEqual(len(regions), 177)
            for wrong in ("'{'", """'{"type": "Circle"}'""", "NULL"):
                self.assertRaises(sqlite3.OperationalError, db.execute, f"SELECT s2_covering({wrong})")

    def test_frames_join_as_polygons_do(self):
        """100,000 points and the countries, in degrees and in meters: the pairs that shapely finds, all of them."""
        longitude, latitude = points_of_the_sphere(100000)
        places = geopandas.GeoDataFrame(geometry=geopandas.points_from_xy(longitude, latitude), crs=4326)
        countries = geopandas.read_file(self.file("countries.geojson"))
        self.assertEqual(places.s2.leaves().tolist(), leaves(longitude, latitude).view("int64").tolist())
        wanted = set()
        for row, country in countries.geometry.items():
            west, south, east, north = country.bounds
            near = numpy.flatnonzero((west <= longitude) & (longitude <= east) & (south <= latitude)
                                     & (latitude <= north))
            exact = prep(country)
            wanted |= {(row, point) for point in near.tolist() if exact.contains(Point(longitude[point],
                                                                                       latitude[point]))}
        found = countries.s2.sjoin(places, 50)
        self.assertEqual(sorted(zip(found.region, found.point)), sorted(wanted))
        joined = places.sjoin(countries, predicate="within")
        self.assertEqual(sorted(zip(joined.index_right, joined.index)), sorted(wanted))
        Index(countries, "name", 20).save(self.file("countries.index"))
        made = Index.load(self.file("countries.index"))
        found = places.s2.sjoin(made)
        self.assertEqual(sorted(zip(found.region, found.point)),
                         sorted((countries.name[row], point) for row, point in wanted))
        self.assertEqual([made.find(longitude[k], latitude[k]) for k in range(2000)],
                         [[countries.name[row] for row in countries.index if (row, k) in wanted] for k in range(2000)])
        print(f"{len(wanted)} pairs of a country and a point", file=sys.stderr)

    def test_frames_that_need_care(self):
        """Points and polygons that are missing, a polygon across the date line, one that is refused, and meters."""
        ring = [[170, -5], [190, -5], [190, 5], [170, 5], [170, -5]]
        wide = geopandas.GeoDataFrame(geometry=[shape({"type": "Polygon", "coordinates": [ring]}), None], crs=4326,
                                      index=["wide", "none"])
        places = geopandas.GeoDataFrame(geometry=[Point(-175, 0), Point(169.999, 0), None, Point(180, 4.9999), Point()],
                                        crs=4326, index=list("abcde"))
        self.assertEqual(wide.s2.sjoin(places).values.tolist(), [["wide", "a"], ["wide", "d"]])
        small = geopandas.GeoDataFrame(geometry=[Point(-175, 0).buffer(1e-9)], crs=4326, index=["of leaves"])
        self.assertEqual(small.s2.sjoin(places).values.tolist(), [["of leaves", "a"]])
        self.assertEqual(places.s2.sjoin(Index(wide)).values.tolist(), [["wide", "a"], ["wide", "d"]])
        self.assertEqual(places.s2.sjoin(Index(wide.to_crs(3857)[1:], ["it"])).values.tolist(), [])
        self.assertEqual(wide.s2.sjoin(places[2:3]).values.tolist(), [])
        self.assertEqual(wide[1:].s2.sjoin(places).values.tolist(), [])
        degrees_of = {"lon": [-175, 169.999, None, 180], "lat": [0, 0, 0, 4.9999]}
        for names in (("longitude", "latitude"), ("lon", "lat"), ("lng", "lat"), ("x", "y")):
            plain = pandas.DataFrame(dict(zip(names, degrees_of.values())), index=list("abcd"))
            named = names if names[0] == "x" else ()
            self.assertEqual(wide.s2.sjoin(plain, 200, *named).values.tolist(), [["wide", "a"], ["wide", "d"]])
            self.assertEqual(plain[:2].s2.leaves(*named).tolist(), places[:2].s2.leaves().tolist())
        for work in (lambda: wide.s2.sjoin(plain), plain.s2.leaves, lambda: wide.s2.sjoin(plain, longitude="x")):
            self.assertRaisesRegex(KeyError, "two columns of degrees: there is no column 'l.*itude'", work)
        for work in (plain.s2.coverings, lambda: plain.s2.sjoin(places)):
            self.assertRaisesRegex(TypeError, "polygons are wanted in a GeoDataFrame", work)
        meters = places[:2].to_crs(3857)
        self.assertEqual(wide.s2.sjoin(meters).values.tolist(), [["wide", "a"]])
        self.assertEqual(len(meters.s2.leaves()), 2)
        beyond = [[0, 0], [10, 91], [10, 0], [0, 0]]
        wrong = geopandas.GeoDataFrame(geometry=[shape({"type": "Polygon", "coordinates": [beyond]})], index=["it"])
        with self.assertRaisesRegex(ValueError, "^row 'it': polygon 0, ring 0: position 1 is out of range"):
            wrong.s2.coverings()


def triangles(count):
    """The triangles of model/borders.py, each with places along its edges, and whether these lie in it."""
    for corners in borders.triangles(borders.EDGES + borders.MORE_EDGES):
        yield corners, *map(numpy.array, borders.places_of(corners, count))


def corners_of(positions):
    """The corners of a line, as points of the sphere, in no order."""
    x, y = numpy.radians(positions.T)
    place = numpy.array([numpy.cos(x) * numpy.cos(y), numpy.sin(x) * numpy.cos(y), numpy.sin(y)])
    return frozenset(map(tuple, (numpy.round(place, 9) + 0.0).T.tolist()))


Examples = docstrings.tests_of(s2union_geo.frames)
