"""The countries of the earth in PostgreSQL beside PostGIS, and in SQLite: countries.py FOLDER, for bench/databases.sh.

FOLDER has the world of docs/examples/, covered; and in now/ both extensions. A number is the processor time of the
session that answers, the least of five rounds, or of two if one takes more than a second; those who answer the same
question take turns. The answers are in brackets. PostGIS counts points of borders where s2union counts cells.
"""
import json
import os
import sqlite3
import sys
import time
from pathlib import Path

import numpy
from costs import Session
from earth import points_of_the_sphere
from s2union_geo import leaves

POINTS, ROUNDS = 200000, 5
RANGES = "JOIN points ON leaf BETWEEN s2_range_min(cell) AND s2_range_max(cell)"
PAIR = "FROM pairs JOIN countries AS a ON a.id = x JOIN countries AS b ON b.id = y"
# What is asked, of s2union and of PostGIS.
IN_POSTGRES = {
    "points in countries, by the index of regions": (
        "count(*) FROM points JOIN countries ON covering @> leaf",
        "count(*) FROM points JOIN countries ON ST_Contains(polygon, point)"),
    "the same, by the index of points": (f"count(*) FROM countries, unnest(s2_cells(covering)) AS cell {RANGES}", None),
    "exact: by coverings, and by PostGIS between them": (
        f"""(SELECT count(*) FROM countries, unnest(s2_cells(interior)) AS cell {RANGES}) +
            (WITH near AS MATERIALIZED (
                SELECT polygon, point FROM countries, unnest(s2_cells(covering - interior)) AS cell {RANGES})
             SELECT count(*) FROM near WHERE ST_Contains(polygon, point))""", None),
    "the country of each city, one question each": (
        "sum((SELECT count(*) FROM countries WHERE covering @> leaf)) FROM cities",
        "sum((SELECT count(*) FROM countries WHERE ST_Contains(polygon, point))) FROM cities"),
    "pairs of countries that meet": (
        "count(*) FROM countries AS a JOIN countries AS b ON a.covering && b.covering AND a.id < b.id",
        "count(*) FROM countries AS a JOIN countries AS b ON ST_Intersects(a.polygon, b.polygon) AND a.id < b.id"),
    "countries that lie in another": (
        "count(*) FROM countries AS a JOIN countries AS b ON a.covering <@ b.covering AND a.id <> b.id",
        "count(*) FROM countries AS a JOIN countries AS b ON ST_CoveredBy(a.polygon, b.polygon) AND a.id <> b.id"),
    "the intersection of each pair": (f"sum(s2_count(a.covering & b.covering)) {PAIR}",
                                      f"sum(ST_NPoints(ST_Intersection(a.polygon, b.polygon))) {PAIR}"),
    "the union of each pair": (f"sum(s2_count(a.covering | b.covering)) {PAIR}",
                               f"sum(ST_NPoints(ST_Union(a.polygon, b.polygon))) {PAIR}"),
    "the difference of each pair": (f"sum(s2_count(a.covering - b.covering)) {PAIR}",
                                    f"sum(ST_NPoints(ST_Difference(a.polygon, b.polygon))) {PAIR}"),
    "the union of all countries": ("s2_count(s2_union_agg(covering)) FROM countries",
                                   "ST_NPoints(ST_Union(polygon)) FROM countries"),
}
IN_SQLITE = {
    "points in countries, by the index of points":
        "count(*) FROM countries, s2_cells(covering), points WHERE leaf BETWEEN range_min AND range_max",
    "the country of each city, by an index of cells":
        "count(*) FROM cities, s2_ancestors(leaf) AS above, country_cells AS c WHERE c.cell = above.cell",
    "pairs of countries that meet, by a scan": """count(*) FROM countries AS a, s2_prepared(a.covering) AS p,
        countries AS b WHERE a.id < b.id AND s2_intersects(p.value, b.covering)""",
    "the intersection of each pair": f"sum(s2_count(s2_intersection(a.covering, b.covering))) {PAIR}",
    "the union of each pair": f"sum(s2_count(s2_union(a.covering, b.covering))) {PAIR}",
    "the difference of each pair": f"sum(s2_count(s2_difference(a.covering, b.covering))) {PAIR}",
    "the union of all countries": "s2_count(s2_union_agg(covering)) FROM countries",
}


def table(title, sides, questions):
    """Asks the sides in turn. A side answers a question with its answer and the seconds that it took."""
    print(f"\n{title}; {time.strftime('%Y-%m-%d')}, a load of {os.getloadavg()[0]:.0f}, {os.cpu_count()} processors")
    print("| |", " | ".join(sides), "|")
    for question, statements in questions.items():
        least, found = {}, {}
        for turn in range(ROUNDS):
            if turn > 1 and max(least.values()) > 1:
                break
            for side, ask in sides.items():
                if statement := statements[side]:
                    found[side], took = ask(f"SELECT {statement};")
                    least[side] = min(took, least.get(side, took))
        numbers = (f"{1000 * least[side]:.1f} ms ({found[side]})" if side in least else "" for side in sides)
        print(f"| {question} |", " | ".join(numbers), "|", flush=True)


class Postgres(Session):
    def __init__(self, database):
        os.environ["PGDATABASE"] = database
        super().__init__()
        self.statistics = Path(f"/proc/{self.ask('SELECT pg_backend_pid();')[0].strip()}/schedstat")

    def took(self):
        return int(self.statistics.read_text().split()[0]) / 1e9

    def timed(self, question):
        begun = self.took()
        return self.ask(question)[-1].strip(), self.took() - begun


def in_postgres(folder, rows):
    session = Postgres("postgres")
    session.ask("CREATE DATABASE now;")
    session = Postgres("now")
    for name, lines in rows.items():
        Path(folder / name).write_text("".join("\t".join(map(str, line)) + "\n" for line in lines))
    session.ask(f"""SET client_min_messages = error;
        CREATE EXTENSION postgis; CREATE EXTENSION s2union;
        CREATE TABLE rows (id int, file text, border text);
        CREATE TABLE countries (id int, polygon geometry, covering s2union, interior s2union);
        CREATE TABLE cities (leaf bigint, x float8, y float8, point geometry(Point));
        CREATE TABLE points (LIKE cities);
\\copy rows FROM '{folder}/countries.rows'
\\copy cities (leaf, x, y) FROM '{folder}/cities.rows'
\\copy points (leaf, x, y) FROM '{folder}/points.rows'
        UPDATE cities SET point = ST_Point(x, y); UPDATE points SET point = ST_Point(x, y);
        INSERT INTO countries SELECT id, ST_MakeValid(ST_SetSRID(ST_GeomFromGeoJSON(border), 0)),
            pg_read_binary_file(file || '.outer')::s2union, pg_read_binary_file(file || '.inner')::s2union FROM rows;
        CREATE INDEX ON countries USING gin (covering); CREATE INDEX ON countries USING gist (polygon);
        CREATE INDEX ON points (leaf); CREATE INDEX ON points USING gist (point);
        CREATE TABLE pairs AS SELECT a.id AS x, b.id AS y FROM countries AS a JOIN countries AS b
            ON a.covering && b.covering AND a.id < b.id;""")
    session.ask("VACUUM FULL ANALYZE;")
    count = "count(*), sum(s2_count(covering)), sum(ST_NPoints(polygon)), (SELECT count(*) FROM pairs)"
    print("countries, cells, points of borders, pairs:", session.ask(f"SELECT {count} FROM countries;")[0].strip())
    sides = {"now": session, "PostGIS": Postgres("now")}
    asked = {question: {"now": ours, "PostGIS": theirs} for question, (ours, theirs) in IN_POSTGRES.items()}
    table("PostgreSQL", {name: side.timed for name, side in sides.items()}, asked)


def in_sqlite(folder, rows):
    """A function that asks a database with the extension."""
    database = sqlite3.connect(":memory:")
    database.enable_load_extension(True)
    database.load_extension(str(folder / "now/sqlite/mod_s2union"))
    database.execute("CREATE TABLE points(leaf INTEGER)")
    database.execute("CREATE TABLE cities(leaf INTEGER)")
    database.execute("CREATE TABLE countries(id INTEGER PRIMARY KEY, covering BLOB)")
    for name in ("points", "cities"):
        database.executemany(f"INSERT INTO {name} VALUES (?)", ((leaf,) for leaf, _, _ in rows[f"{name}.rows"]))
    database.executemany("INSERT INTO countries VALUES (?, ?)", (
        (country, Path(f"{file}.outer").read_bytes()) for country, file, _ in rows["countries.rows"]))
    database.executescript("""CREATE INDEX by_leaf ON points(leaf);
        CREATE TABLE country_cells(cell INTEGER, id INTEGER, PRIMARY KEY (cell, id)) WITHOUT ROWID;
        INSERT INTO country_cells SELECT cell, id FROM countries, s2_cells(covering);
        CREATE TABLE pairs AS SELECT a.id AS x, b.id AS y FROM countries AS a, countries AS b
            WHERE a.id < b.id AND s2_intersects(a.covering, b.covering);""")

    def ask(question):
        begun = time.process_time()
        answer = database.execute(question).fetchone()[0]
        return answer, time.process_time() - begun
    return ask


def with_leaves(longitude, latitude):
    """Rows of a point's leaf, longitude and latitude."""
    cells = leaves(longitude, latitude).view("int64").tolist()
    return list(zip(cells, longitude.tolist(), latitude.tolist()))


def main(folder):
    world = folder / "world"
    countries = json.loads((world / "countries.geojson").read_text())["features"]
    cities = numpy.array([line.split()[:2] for line in (world / "cities.txt").read_text().splitlines()], float)
    rows = {
        "countries.rows": [(k, world / "countries" / country["properties"]["file"], json.dumps(country["geometry"]))
                           for k, country in enumerate(countries)],
        "cities.rows": with_leaves(*cities.T),
        "points.rows": with_leaves(*points_of_the_sphere(POINTS)),
    }
    in_postgres(folder, rows)
    table(f"SQLite {sqlite3.sqlite_version}", {"now": in_sqlite(folder, rows)},
          {question: {"now": asked} for question, asked in IN_SQLITE.items()})


if __name__ == "__main__":
    main(Path(sys.argv[1]))
