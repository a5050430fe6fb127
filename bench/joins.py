"""Points in polygons, exactly, by each way beside its competitor: joins.py FOLDER MODULES MAP [--check], for
bench/databases.sh and tests/geo.

MODULES has the extensions for SQLite, and MAP, which QGIS has, 4,556 provinces and all countries of Natural Earth. Of
100,000 points one half is uniform on the sphere, and one half near corners of the zones. A number is processor time of
one process, the least of three rounds, or of one if it takes more than a few seconds; the ways take turns. Each way has
to find the same pairs, all of them. With --check the countries and a tenth of the provinces are asked once, with fewer
points, of which a part are corners, which are in, as for ST_Covers; the last line is then 'N passed, M failed'.
"""
import csv
import ctypes
import os
import sqlite3
import subprocess
import sys
import time
from pathlib import Path
from typing import Any, Callable, NamedTuple

import geopandas
import numpy
import pandas
from countries import Postgres
from earth import points_of_the_sphere
from s2union_geo import Index

NEAR, LONG = 0.2, 3  # degrees; seconds
LEVEL = 7  # of tiles: their cells are about a third as wide as a province


class Job(NamedTuple):
    """Zones, and points by their longitudes and latitudes. Files go into a folder."""

    folder: Path
    modules: Path
    zones: Any
    x: Any
    y: Any
    rounds: int
    predicate: str  # of Python: without points on borders both have the same pairs
    spatialite: bool  # which reads a whole polygon for each point in its box: of countries that takes minutes
    many: int = 0  # points of a larger table in PostgreSQL, if there is one


class Way(NamedTuple):
    """A way of joining: what it makes once, in seconds, if anything, and the pairs that it finds, with the seconds."""

    name: str
    made: Callable[[], float] | None
    pairs: Callable[[], tuple[Any, float]]


def corners_of(zones):
    return numpy.concatenate([numpy.asarray(part.exterior.coords) for shape in zones.geometry
                              for part in getattr(shape, "geoms", [shape])])


def some_points(corners, uniform, near, on):
    """The longitudes and the latitudes of points: of the sphere, around corners, and corners."""
    random = numpy.random.default_rng(6)
    around = corners[random.integers(0, len(corners), near)] + random.normal(0, NEAR, (near, 2))
    those = corners[random.integers(0, len(corners), on)]
    x, y = (numpy.concatenate(parts) for parts in zip(points_of_the_sphere(uniform), around.T, those.T))
    return numpy.clip(x, -180, 180), numpy.clip(y, -90, 90)


def compared(job, title, ways, pairs_of=lambda found: found):
    """Measures ways in turn, and ends the program if one of them finds other pairs."""
    print(f"\n{title}; {time.strftime('%Y-%m-%d')}, a load of {os.getloadavg()[0]:.0f}, {os.cpu_count()} processors")
    made = {way.name: way.made() for way in ways if way.made}
    least, found = {}, {}
    for turn in range(job.rounds):
        for way in ways:
            if least.get(way.name, 0) < LONG:
                answer, took = way.pairs()
                found[way.name] = set(pairs_of(answer))
                least[way.name] = min(took, least.get(way.name, took))
    print("| way | made before | to ask | times as long as the first |\n|---|---|---|---|")
    first = ways[0].name
    for way in ways:
        if found[way.name] != found[first]:
            sys.exit(f"{way.name} finds {len(found[way.name])} pairs and {first} {len(found[first])}: "
                     f"{sorted(found[way.name] ^ found[first])[:5]}")
        before = f"{made[way.name]:.2f} s" if way.made else ""
        print(f"| {way.name} | {before} | {least[way.name]:.2f} s | {least[way.name] / least[first]:.1f} |", flush=True)
    return found


# ---- PostgreSQL


def in_postgres(job):
    folder = job.folder
    session = Postgres("postgres")
    session.ask("DROP DATABASE IF EXISTS joins WITH (FORCE);")  # the sessions of the job before are there
    session.ask("CREATE DATABASE joins;")
    session = Postgres("joins")
    rows = ((k, shape.wkb_hex) for k, shape in enumerate(job.zones.geometry))
    write(folder / "provinces.rows", rows)
    write(folder / "points.rows", ((k, *place) for k, place in enumerate(zip(job.x.tolist(), job.y.tolist()))))
    session.ask(f"""SET client_min_messages = error; CREATE EXTENSION s2union_postgis CASCADE;
        CREATE TABLE provinces (id int PRIMARY KEY, geom geometry(Geometry, 4326));
        CREATE TABLE points (id int, x float8, y float8);
\\copy provinces FROM '{folder}/provinces.rows'
\\copy points FROM '{folder}/points.rows'
        ALTER TABLE points ADD geom geometry(Point, 4326);
        UPDATE points SET geom = ST_SetSRID(ST_Point(x, y), 4326);
        CREATE TABLE indexed_points AS TABLE points;
        CREATE TABLE shapes AS SELECT id, ST_AsBinary(geom) AS shape FROM provinces;
        ALTER TABLE shapes ADD PRIMARY KEY (id);
        CREATE TABLE indexed_provinces AS TABLE provinces;""")
    session.ask("VACUUM ANALYZE;")

    def made(statement):
        def takes():
            took = session.timed(f"{statement};\n\\echo 1")[1]
            session.ask("VACUUM ANALYZE;")
            return took
        return takes

    def asked(joined, point="p.id", province="z.id"):
        def pairs():
            text, took = session.timed(f"SELECT array_agg(10000 * {point}::bigint + {province}) FROM {joined};")
            return [divmod(int(pair), 10000) for pair in text.strip("{}").split(",")], took
        return pairs
    covers = "ON ST_Covers(z.geom, p.geom)"
    cut = """CREATE TABLE parts AS SELECT id, ST_Subdivide(geom, 128) AS geom FROM provinces;
        CREATE INDEX ON parts USING gist (geom)"""
    found = compared(job, "PostgreSQL, with PostGIS and without", [
        Way("provinces_at(point)", made("SELECT s2_join_table('provinces')"),
            asked("points AS p, provinces_at(p.geom) AS z")),
        Way("provinces_at(longitude, latitude)", None, asked("points AS p, provinces_at(p.x, p.y) AS z")),
        Way("without PostGIS: shapes_at(longitude, latitude)", made("SELECT s2_join_table('shapes', 'shape')"),
            asked("points AS p, shapes_at(p.x, p.y) AS z")),
        Way("ST_Covers, points indexed", made("CREATE INDEX ON indexed_points USING gist (geom)"),
            asked(f"indexed_points AS p JOIN provinces AS z {covers}")),
        Way("ST_Covers, parts by ST_Subdivide, indexed", made(cut),
            asked(f"(SELECT DISTINCT p.id AS point, z.id FROM points AS p JOIN parts AS z {covers}) AS z", "z.point")),
        Way("ST_Covers, parts and points indexed", None,
            asked(f"(SELECT DISTINCT p.id AS point, z.id FROM indexed_points AS p JOIN parts AS z {covers}) AS z",
                  "z.point")),
        Way("ST_Covers, provinces indexed", made("CREATE INDEX ON indexed_provinces USING gist (geom)"),
            asked(f"points AS p JOIN indexed_provinces AS z {covers}")),
    ])
    if job.many:
        with_many(session, job.many)
    return found


def with_many(session, many):
    """Prints what many uniform points cost, the sizes on disk, and what a province costs that is moved."""
    session.ask(f"""SELECT setseed(0.5);
        CREATE TABLE many AS SELECT ST_SetSRID(ST_Point(random() * 360 - 180, degrees(asin(random() * 2 - 1))), 4326)
            AS geom FROM generate_series(1, {many});
        VACUUM ANALYZE many;""")
    tiles = session.timed("SELECT count(*) FROM many AS p, provinces_at(p.geom);")
    parts = session.timed("SELECT count(*) FROM many AS p JOIN parts AS z ON ST_Covers(z.geom, p.geom);")
    index = session.timed("CREATE INDEX ON many USING gist (geom);\n\\echo 1")[1]
    session.ask("VACUUM ANALYZE many;")
    covers = session.timed("SELECT count(*) FROM many AS p JOIN provinces AS z ON ST_Covers(z.geom, p.geom);")
    if not tiles[0] == covers[0] == parts[0]:  # no point lies on a cut
        sys.exit(f"of {many} points provinces_at finds {tiles[0]}, ST_Covers {covers[0]}, and of parts {parts[0]}")
    print(f"\n{many} points, {tiles[0]} pairs: provinces_at {tiles[1]:.1f} s; "
          f"ST_Covers {covers[1]:.1f} s, the index of the points {index:.1f} s; of parts {parts[1]:.1f} s")
    session.ask("CREATE INDEX ON many (s2_leaf_at(ST_X(geom), ST_Y(geom)));")
    for table in "provinces", "provinces_tiles", "many_geom_idx", "many_s2_leaf_at_idx":
        print(f"{table}:", session.ask(f"SELECT pg_size_pretty(pg_total_relation_size('{table}'));")[0].strip())
    took = sorted(session.timed(f"UPDATE provinces SET geom = ST_Translate(geom, 0, 1e-6) WHERE id = {province};\n"
                                "\\echo 1")[1] for province in range(0, 4500, 45))
    print(f"a province moved, of {len(took)}: {took[len(took) // 2] * 1000:.1f} ms, at most {took[-1] * 1000:.0f} ms")


def write(path, rows):
    path.write_text("".join("\t".join(map(str, row)) + "\n" for row in rows))


# ---- SQLite, Python and the command


def clocked(work):
    begun = time.process_time()
    found = work()
    return found, time.process_time() - begun


def in_sqlite(job):
    database = sqlite3.connect(":memory:")
    database.enable_load_extension(True)
    for module in ("mod_s2union", "mod_s2union_geo"):
        database.load_extension(str(job.modules / module))
    database.execute("CREATE TABLE provinces(id INTEGER PRIMARY KEY, shape BLOB)")
    database.execute("CREATE TABLE points(id INTEGER PRIMARY KEY, longitude REAL, latitude REAL)")
    database.executemany("INSERT INTO provinces VALUES (?, ?)", (
        (k, shape.wkb) for k, shape in enumerate(job.zones.geometry)))
    database.executemany("INSERT INTO points VALUES (?, ?, ?)", zip(range(len(job.x)), job.x.tolist(), job.y.tolist()))

    def made(script):
        return lambda: clocked(lambda: database.executescript(script))[1]

    def asked(query):
        return lambda: clocked(lambda: list(database.execute(query)))
    tiles = f"""CREATE TABLE tiles AS
            SELECT id, tile, part, sure, clip FROM provinces, s2_join_tiles(shape, {LEVEL});
        CREATE INDEX by_tile ON tiles(tile)"""
    ways = [
        Way("s2_join_tiles, then a join", made(tiles), asked(
            f"""SELECT p.id, t.id FROM (SELECT *, s2_leaf_at(longitude, latitude) AS leaf FROM points) AS p
                JOIN tiles AS t ON tile = s2_parent(leaf, {LEVEL}) AND s2_contains(part, leaf)
                AND (clip IS NULL OR s2_contains(sure, leaf) OR s2_covers(clip, longitude, latitude))"""))]
    if not job.spatialite:
        return compared(job, f"SQLite {sqlite3.sqlite_version}", ways)
    database.load_extension("mod_spatialite")
    tree = """BEGIN; SELECT InitSpatialMetaDataFull(0); CREATE TABLE areas(id INTEGER PRIMARY KEY);
        SELECT AddGeometryColumn('areas', 'geom', 4326, 'MULTIPOLYGON', 'XY');
        INSERT INTO areas SELECT id, CastToMulti(GeomFromWKB(shape, 4326)) FROM provinces;
        SELECT CreateSpatialIndex('areas', 'geom'); COMMIT"""
    ways.append(
        Way("SpatiaLite: ST_Covers, provinces in an R-tree", made(tree), asked(
            """SELECT p.id, a.id FROM points AS p
                JOIN idx_areas_geom AS r ON r.xmin <= longitude AND r.xmax >= longitude
                AND r.ymin <= latitude AND r.ymax >= latitude JOIN areas AS a ON a.id = r.pkid
                WHERE ST_Covers(a.geom, MakePoint(longitude, latitude, 4326))""")))
    return compared(job, f"SQLite {sqlite3.sqlite_version}, and SpatiaLite", ways)


def in_python(job):
    path, kept = str(job.folder / "provinces.index"), {}

    def makes():
        kept["index"], took = clocked(lambda: Index(job.zones))
        return took

    def joined(index):
        return lambda: clocked(lambda: index().join(job.x, job.y, predicate=job.predicate))

    def frames():  # of which geopandas keeps the index that a join makes
        return [geopandas.GeoDataFrame(geometry=shapes, crs=4326)
                for shapes in (geopandas.points_from_xy(job.x, job.y), list(job.zones.geometry))]

    def theirs(both):
        def found():
            found = geopandas.sjoin(*both, predicate=job.predicate)
            return found.index, found.index_right
        return clocked(found)

    def indexed():
        kept["frames"] = frames()
        return clocked(lambda: [frame.sindex for frame in kept["frames"]])[1]
    return compared(job, f"Python, by {job.predicate}, beside geopandas {geopandas.__version__}", [
        Way("Index.join", makes, joined(lambda: kept["index"])),
        Way("Index.load, and join", lambda: clocked(lambda: kept["index"].save(path))[1],
            joined(lambda: Index.load(path))),
        Way("Index, and join", None, joined(lambda: Index(job.zones))),
        Way("geopandas.sjoin, both frames indexed", indexed, lambda: theirs(kept["frames"])),
        Way("geopandas.sjoin", None, lambda: theirs(frames())),
    ], lambda found: zip(*(column.tolist() for column in found)))


class Asked(ctypes.Structure):
    """Points and zones, as others.cc has them."""

    _fields_ = [("x", ctypes.c_void_p), ("y", ctypes.c_void_p), ("points", ctypes.c_int64), ("wkb", ctypes.c_char_p),
                ("ends", ctypes.c_void_p), ("zones", ctypes.c_int64)]


def pairs_of(call, x, y, shapes):
    """The pairs that a call of others.cc finds, and the seconds of its index and of its questions."""
    ends = numpy.cumsum([len(shape) for shape in shapes]).astype("int64")
    found, seconds = numpy.zeros((20 * len(x), 2), "int64"), (ctypes.c_double * 2)()
    call.restype = ctypes.c_int64
    asked = Asked(x.ctypes.data, y.ctypes.data, len(x), b"".join(shapes), ends.ctypes.data, len(shapes))
    length = call(ctypes.byref(asked), found.ctypes.data_as(ctypes.c_void_p), seconds)
    return {*map(tuple, found[:length].tolist())}, [*seconds]


def beside_others(job, x, y):
    """Prints what an `Index`, GEOS's tree of the points and S2's index of the shapes take, the least of three."""
    library, shapes = ctypes.CDLL(os.environ["S2UNION_OTHERS"]), [shape.wkb for shape in job.zones.geometry]
    index, made = clocked(lambda: Index(job.zones))
    (point, zone), _ = clocked(lambda: index.join(x, y))
    ours, least = {*zip(point.tolist(), zone.tolist())}, min(clocked(lambda: index.join(x, y))[1] for _ in range(3))
    print(f"\n{len(job.zones)} zones, {len(x)} points, {len(ours)} pairs: Index {made:.2f} s, join {least:.2f} s")
    for name, call in ("GEOS", library.pairs_of_geos), ("S2", library.pairs_of_s2):
        turns = [pairs_of(call, x, y, shapes) for _ in range(3)]
        before, asked = map(min, zip(*(seconds for _, seconds in turns)))
        print(f"{name}: its index {before:.2f} s, to ask {asked:.2f} s, {len(turns[0][0] ^ ours)} other pairs")


PLAIN = """import sys, geopandas, pandas
points, zones, out, predicate = sys.argv[1:]
points = pandas.read_csv(points, float_precision="round_trip")  # as corners of zones have it
points = geopandas.GeoDataFrame(points, geometry=geopandas.points_from_xy(points.lon, points.lat), crs=4326)
found = points.sjoin(geopandas.read_file(zones)[["zone", "geometry"]], predicate=predicate)
found.drop(columns=["geometry", "index_right"]).sort_index(kind="stable").to_csv(out, index=False)
"""


def by_the_command(job):
    """From files to a file: the index, or the zones as GeoJSON, and a script of geopandas."""
    points, zones, out = (str(job.folder / name) for name in ("points.csv", "provinces.geojson", "found.csv"))
    pandas.DataFrame({"id": range(len(job.x)), "lon": job.x, "lat": job.y}).to_csv(points, index=False)
    named = geopandas.GeoDataFrame({"zone": range(len(job.zones))}, geometry=list(job.zones.geometry), crs=4326)
    Path(zones).write_text(named.to_json(), encoding="utf-8")  # GDAL would round some corners

    def ran(*words, output=None):
        begun = os.times()
        with open(output or os.devnull, "wb") as file:
            subprocess.run([sys.executable, *words], stdout=file, check=True)
        ended = os.times()
        return ended.children_user + ended.children_system - begun.children_user - begun.children_system

    def pairs(*words, output=None):
        def asked():
            took = ran(*words, output=output)
            with open(out, newline="", encoding="utf-8") as file:
                return [(int(row["id"]), int(row["zone"])) for row in csv.DictReader(file)], took
        return asked
    command, index = ["-m", "s2union_geo"], str(job.folder / "zones.index")
    borders = ["--borders"] if job.predicate == "intersects" else []
    return compared(job, "The command, beside a script of geopandas", [
        Way("join, with the index", lambda: ran(*command, "index", zones, index, "--name", "zone"),
            pairs(*command, "join", points, index, *borders, output=out)),
        Way("join, with the zones", None,
            pairs(*command, "join", points, zones, "--name", "zone", *borders, output=out)),
        Way("read_file, sjoin and to_csv of geopandas", None, pairs("-c", PLAIN, points, zones, out, job.predicate)),
    ])


def zones_of(file, layer, every=1):
    zones = geopandas.read_file(file, layer=layer)
    return zones[zones.geometry.notna()][::every].reset_index(drop=True)


def joined(job):
    """How many ways have found the same pairs, or the end of the program."""
    print(f"\n{len(job.zones)} zones of {len(corners_of(job.zones))} corners, {len(job.x)} points")
    found = {name: pairs for way in (in_python, by_the_command, in_sqlite, in_postgres)
             for name, pairs in way(job).items()}
    every = set.intersection(*found.values())
    if any(pairs != every for pairs in found.values()):
        sys.exit(f"the ways find {sorted({*map(len, found.values())})} pairs")
    print(f"\nall {len(every)} pairs are the same, by each of {len(found)} ways")
    return len(found)


def main(folder, modules, file, *words):
    folder, modules = Path(folder), Path(modules)
    if words != ("--check",):
        for layer in "states_provinces", "countries":
            zones = zones_of(file, layer)
            points = some_points(corners_of(zones), 50000, 50000, 0)
            are_provinces = layer == "states_provinces"
            job = Job(folder, modules, zones, *points, 3, "within", are_provinces, 10_000_000 * are_provinces)
            joined(job)
            if "S2UNION_OTHERS" in os.environ:
                beside_others(job, job.x, job.y)
                beside_others(job, *points_of_the_sphere(1_000_000))
            if are_provinces:
                in_python(job._replace(predicate="intersects"))
        return
    passed = 0
    for layer, every in ("countries", 1), ("states_provinces", 10):
        zones = zones_of(file, layer, every)
        points = some_points(corners_of(zones), 3000, 3000, 1000)
        passed += joined(Job(folder, modules, zones, *points, 1, "intersects", False))
    print(f"{passed} passed, 0 failed")


if __name__ == "__main__":
    main(*sys.argv[1:])
