"""What users ask for, each beside what they would use instead, in one table: users.py FOLDER MAP [--small], for
bench/databases.sh.

A row has the nanoseconds that both take, and how many times as fast ours is. They take turns and repeat their work
until that takes 20 ms. The least of three rounds counts, or the first if it takes seconds. Both have to answer the
same, except in rows that say so. Times are processor time, of a command that of its process. Rows of C++, JavaScript
and the calculator are those of their own programs. With --small there are fewer points, and one round.
"""
import os
import re
import subprocess
import sys
import time
from pathlib import Path

import geopandas
import numpy
import pandas
import pywraps2
import shapely.geometry
from earth import points_of_the_sphere
from joins import LONG, PLAIN, Postgres, corners_of, some_points, write, zones_of
from s2union_geo import Index, circle, leaf

TOP = Path(__file__).resolve().parents[1]
SMALL = "--small" in sys.argv
ROUNDS, MANY = (1, 20_000) if SMALL else (3, 1_000_000)
NUMBERS = r" +(?P<other>[\d.]+) +(?P<ours>[\d.]+) "
# The programs of other languages, a word of their rows, and where a line has its name, ours and the other.
PROGRAMS = [
    ("cpp", "-_unions_", rf"(?P<name>\w+_(?:theirs|lists|converted)_(?:twins|apart)_(?:8|100|10000)){NUMBERS}"),
    *(("polygons", f"_of_{most}_fresh", rf"(?P<name>\S+){NUMBERS}") for most in (8, 50)),
    *(("library", word, rf"(?P<name>\S+){NUMBERS}")
      for word in ("contains_cells_in_order", "levels", "parents", "from_tokens")),
    *(("javascript", word, r"(?P<name>\S+) +ours +(?P<ours>[\d.e+]+) +plain +(?P<other>[\d.e+]+) ns")
      for word in ("fromLngLat", "hasEach_of_few")),
    *(("calculator", word, r"(?P<name>\S+) +(?P<ours>[\d,]+) +(?P<other>[\d,]+) ")
      for word in ("keep", "copy", "apart", "inside")),
]


def row(name, ours, other, note=""):
    times = other / ours if ours else float("inf")  # a program says 0.0 of less than it has digits for
    print(f"{name:64} {ours:16,.1f} {other:16,.1f} {times:9.2f}{note}", flush=True)


def beside(name, ours, other, units=1, same=lambda found: found):
    """A row of two sides, which do their work so many times, and answer what they found, and the seconds."""
    least, repeats, found = [float("inf")] * 2, [1, 1], [None] * 2
    for turn in range(ROUNDS):
        for k, side in enumerate((ours, other)):
            if turn and least[k] > LONG:
                continue
            while True:
                found[k], took = side(repeats[k])
                if took >= 0.02:
                    break
                repeats[k] = max(2 * repeats[k], int(repeats[k] * 0.02 / max(took, 1e-6)))
            least[k] = min(least[k], took / repeats[k])
    is_same = not same or same(found[0]) == same(found[1])
    row(name, *(1e9 * took / units for took in least),
        "" if is_same and same else "  not the same answer" if not same else "  DIFFERS")
    if not is_same:
        sys.exit(f"{name}: the answers differ")


def called(work):
    def side(times):
        begun = time.process_time()
        for _ in range(times):
            found = work()
        return found, time.process_time() - begun
    return side


def asked(session, *statements):
    def side(times):
        begun = session.took()
        found = session.ask("".join(f"{it};\n" for it in statements) * times)[-len(statements):]
        return found, session.took() - begun
    return side


def run(*words, given=os.devnull, said=os.devnull, made=None):
    """A command, whose answer is what it writes to a file that it makes, or as its output."""
    def side(times):
        begun = os.times()
        for _ in range(times):
            with open(given, "rb") as it, open(said, "wb") as to:
                subprocess.run([*map(str, words)], stdin=it, stdout=to, check=True, cwd=TOP)
        ended = os.times()
        took = ended.children_user + ended.children_system - begun.children_user - begun.children_system
        return Path(made or said).read_bytes(), took
    return side


def of_programs():
    for program, word, form in PROGRAMS:
        words = ["bash", str(TOP / "bench/run"), program, word, f"{ROUNDS}"]
        done = subprocess.run(words, stdout=subprocess.PIPE, text=True, check=False,
                              env={**os.environ, "S2_RELEASE": "1"})
        found = [it for line in done.stdout.splitlines() if (it := re.match(form, line))]
        for it in found:
            row(f"{program}: {it['name']}", *(float(it[side].replace(",", "")) for side in ("ours", "other")))
        if done.returncode or not found:
            sys.exit(f"{' '.join(words)}: status {done.returncode}, {len(found)} rows\n{done.stdout[-2000:]}")


# ---- PostgreSQL


def in_postgres(folder, zones):
    session = Postgres("postgres")
    session.ask("CREATE DATABASE users;")
    session = Postgres("users")
    write(folder / "zones.rows", ((k, shape.wkb_hex) for k, shape in enumerate(zones.geometry)))
    write(folder / "points.rows", ((k, x, y) for k, (x, y) in enumerate(zip(*points_of_the_sphere(MANY)))))
    session.ask(f"""SET client_min_messages = error; CREATE EXTENSION s2union_postgis CASCADE;
        CREATE TABLE zones (id int PRIMARY KEY, geom geometry(Geometry, 4326));
        CREATE TABLE points (id int, x float8, y float8);
\\copy zones FROM '{folder}/zones.rows'
\\copy points FROM '{folder}/points.rows'
        ALTER TABLE points ADD geom geometry(Point, 4326);
        UPDATE points SET geom = ST_SetSRID(ST_Point(x, y), 4326);
        ALTER TABLE zones ADD covering s2union;
        UPDATE zones SET covering = s2_covering(geom, 75);
        CREATE INDEX ON zones USING gin (covering); CREATE INDEX zones_gist ON zones USING gist (geom);
        CREATE INDEX ON points (id); CREATE INDEX ON points (s2_leaf_at(x, y));
        CREATE INDEX ON points USING gist (geom);
        SELECT s2_join_table('zones', 'geom');
        CREATE TABLE tiled (id int PRIMARY KEY, geom geometry(Geometry, 4326)); CREATE TABLE boxed (LIKE tiled);
        CREATE INDEX ON boxed USING gist (geom); SELECT s2_join_table('tiled', 'geom', level => 8);""")
    session.ask("VACUUM FULL ANALYZE;")
    by_tiles = "SELECT count(*) FROM points AS p, zones_at(p.x, p.y) AS z WHERE"
    covers = "SELECT count(*) FROM points AS p JOIN zones AS z ON ST_Covers(z.geom, p.geom) WHERE"
    some, place = range(0, len(zones), 150), "2.35, 48.86"
    for name, more in (("", ""), (", with two more conditions", "AND p.x < 170 AND p.y > -80")):
        beside(f"PostgreSQL: the points of one zone{name}", *(
            asked(session, *(f"{way} z.id = {zone} {more}" for zone in some)) for way in (by_tiles, covers)), len(some))
    beside("PostgreSQL: the zones of one place", asked(session, f"SELECT id FROM zones_at({place})"), asked(
        session, f"SELECT id FROM zones WHERE ST_Covers(geom, ST_SetSRID(ST_Point({place}), 4326))"))
    beside("PostgreSQL: a join of all points, each", *(
        asked(session, f"{way} p.id % 10 = 0") for way in (by_tiles, covers)), MANY // 10)
    box = "ST_MakeEnvelope(2, 46, 6, 50, 4326)"
    beside("PostgreSQL: zones whose covering or box meets a box", *(
        asked(session, f"SELECT count(*) FROM zones WHERE {it}") for it in (
            f"covering && s2_covering({box}, 20)", f"geom && {box}")), same=None)
    shapes = {"square": "ST_MakeEnvelope(0.9 * x, 0.9 * y, 0.9 * x + 0.5, 0.9 * y + 0.5, 4326)",
              "polygon of 100 corners": "ST_SetSRID(ST_Buffer(ST_Point(0.9 * x, 0.9 * y), 0.5, 25), 4326)"}
    for shape, made in shapes.items():
        insert = f"INSERT INTO TABLE_ SELECT id, {made} FROM points WHERE id"
        for name, ends in ("in one statement", ["< 100"]), ("one by one", [f"= {k}" for k in range(100)]):
            beside(f"PostgreSQL: inserts of a {shape}, {name}", *(
                asked(session, "BEGIN", *(f"{insert} {end}".replace("TABLE_", table) for end in ends),
                      f"SELECT count(*) FROM {table}; ROLLBACK") for table in ("tiled", "boxed")),
                100, same=lambda found: found[-1])
    beside("PostgreSQL: s2_join_table, and an index by GiST", asked(session, "SELECT s2_join_table('zones', 'geom')"),
           asked(session, "REINDEX INDEX zones_gist; SELECT 1"), same=None)


# ---- Python and the command


def frames(zones, x, y):
    return [geopandas.GeoDataFrame(geometry=shapes, crs=4326)
            for shapes in (geopandas.points_from_xy(x, y), list(zones))]


def pairs(found):
    columns = found if isinstance(found, tuple) else (found.index, found.index_right)
    return {*zip(*(column.tolist() for column in columns))}


def in_python(zones, x, y):
    beside("Python: leaf, of one place", called(lambda: leaf(2.3522, 48.8566)), called(
        lambda: pywraps2.S2CellId(pywraps2.S2LatLng.FromDegrees(48.8566, 2.3522))), same=lambda found: getattr(
            found, "id", lambda: found)())
    beside("Python: a circle of 5 km in 50 cells, and shapely's buffer", called(lambda: circle(2, 48, 5000, 50)),
           called(lambda: shapely.geometry.Point(2, 48).buffer(0.045)), same=None)
    corners = zip(*points_of_the_sphere(300 if SMALL else 10_000))
    squares = [shapely.geometry.box(a, b, a + 0.5, b + 0.5) for a, b in corners if abs(a) < 179 and abs(b) < 89]
    for name, shapes in (("provinces", list(zones.geometry)), ("squares", squares)):
        for count in (10, 1000, min(MANY, 100_000)):
            xs, ys = x[-count:], y[-count:]
            beside(f"Python: Index and join, {count} points in {name}", called(lambda: Index(shapes).join(xs, ys)),
                   called(lambda: geopandas.sjoin(*frames(shapes, xs, ys), predicate="within")), same=pairs)
        index, both = Index(shapes), frames(shapes, xs, ys)
        beside(f"Python: Index.join, {count} points in {name}, made before", called(lambda: index.join(xs, ys)),
               called(lambda: geopandas.sjoin(*both, predicate="within")), same=pairs)


def by_the_command(folder, zones, x, y):
    geojson, index, ours, other = (folder / name for name in ("zones.geojson", "zones.index", "ours.csv", "other.csv"))
    named = geopandas.GeoDataFrame({"zone": range(len(zones)), "file": map(str, range(len(zones)))},
                                   geometry=list(zones.geometry), crs=4326)
    geojson.write_text(named.to_json(), encoding="utf-8")
    command = sys.executable, "-m", "s2union_geo"
    subprocess.run([*command, "index", geojson, index, "--name", "zone"], check=True)
    for count in (1, 100_000, 1_000_000) if not SMALL else (1, 1000):
        points = folder / f"{count}.csv"
        pandas.DataFrame({"id": range(count), "lon": x[-count:], "lat": y[-count:], "name": "n"}).to_csv(
            points, index=False)
        for way, zones_as in (("an index", [index]), ("GeoJSON", [geojson, "--name", "zone"])):
            if count > 100_000 and way == "GeoJSON":  # the script of geopandas takes minutes
                continue
            beside(f"command: join, {count} rows, with {way}", run(*command, "join", points, *zones_as, said=ours),
                   run(sys.executable, "-c", PLAIN, points, geojson, other, "within", made=other),
                   same=lambda found: sorted(line.split(b",")[::4] for line in found.split()[1:]))
    places = folder / "places"
    numpy.savetxt(places, numpy.stack([x, y], 1)[-MANY:], "%.17g")
    beside(f"command: leaves of {MANY} lines", run(*command, "leaves", given=places, said=ours),
           run(folder / "leaf", given=places, said=other))
    beside("command: cover of provinces, 50 cells", run(*command, "cover", geojson, folder / "ours", 50, 30),
           run(folder / "cover", geojson, folder / "other", 50, 30), same=None)
    checked = folder / "ours" / "0.outer"
    beside("command: s2calc check, and cksum", run("./s2calc", "check", checked), run("cksum", checked), same=None)


def main(folder, file):
    zones = zones_of(file, "states_provinces", 50 if SMALL else 1)
    x, y = some_points(corners_of(zones), MANY // 2, MANY // 2, 0)
    shuffled = numpy.random.default_rng(7).permutation(MANY)
    print(time.strftime("%Y-%m-%d"), f"a load of {os.getloadavg()[0]:.0f}, {os.cpu_count()} processors")
    print(f"{'':64} {'ours, ns':>16} {'other, ns':>16} {'times':>9}")
    for name in "ours", "other":
        (folder / name).mkdir()
    in_postgres(folder, zones)
    in_python(zones, x[shuffled], y[shuffled])
    by_the_command(folder, zones, x[shuffled], y[shuffled])
    of_programs()


if __name__ == "__main__":
    main(*map(Path, sys.argv[1:3]))
