"""What queries take in SQLite: costs.py. S2UNION_SQLITE is the path of the extension.

Makes 100,000 regions, asks, unites and indexes them, and asks them about a union of some 600,000 cells in each way to
name it. Prints processor time: the fastest of three runs, except for what is made only once. Ways that bring the union
to each row again are measured with fewer rows."""

import os
import sqlite3
import time

from test_sqlite import COMPARED_FOR_EACH_ROW, EXTENSION, PREPARED_ONCE

REGIONS = """
WITH RECURSIVE k(n) AS (SELECT 0 UNION ALL SELECT n + 1 FROM k WHERE n < 99999),
h(n, a, b) AS (SELECT n, (n * 2654435761) % 1072000000, (n * 40503 * 65537 + 12345) % 1072000000 FROM k)
INSERT INTO regions
SELECT n, s2_outer(n % 6, a, a + 131072 + n * 7919 % 900000, b, b + 131072 + n * 104729 % 900000, 13) FROM h
"""
OF_ALL = {
    "which regions contain a leaf": "SELECT sum(s2_contains(region, s2_leaf(2, 5, 7))) FROM regions",
    "which regions intersect one":
        "SELECT sum(s2_intersects(region, s2_outer(2, 5, 9000000, 7, 9000000, 13))) FROM regions",
    "the union of each with another":
        "SELECT sum(s2_count(s2_union(region, s2_outer(2, 5, 900000, 7, 900000, 13)))) FROM regions",
    "the union of all": "SELECT s2_count(s2_union_agg(region)) FROM regions",
}
INDEX = "INSERT INTO region_cells SELECT cell, id FROM regions, s2_cells(region)"
BY_INDEX = """
SELECT count(DISTINCT region) FROM (
    SELECT p.region FROM s2_ancestors(?1) AS above, region_cells AS p WHERE p.cell = above.cell
    UNION ALL SELECT p.region FROM s2_cells(?1) AS asked, region_cells AS p
    WHERE p.cell BETWEEN asked.range_min AND asked.range_max)
"""
COPIED = "s2_prepared in a subquery"
BUILT_IN = "SELECT sum(length((SELECT region FROM big)) + id) FROM regions"


def main():
    db = sqlite3.connect(":memory:", isolation_level=None)
    db.enable_load_extension(True)
    db.load_extension(EXTENSION)
    db.execute("CREATE TABLE regions(id INTEGER PRIMARY KEY, region BLOB NOT NULL)")
    db.execute("CREATE TABLE region_cells(cell INTEGER, region INTEGER, PRIMARY KEY (cell, region)) WITHOUT ROWID")
    db.execute("CREATE TABLE big(region)")

    def seconds(query, *values, runs=3):
        times = []
        for _ in range(runs):
            start = time.process_time()
            db.execute(query, values).fetchall()
            times.append(time.process_time() - start)
        return min(times)

    def measure(name, query, rows):
        took = seconds(query, *[big] * query.count("?"))
        print(f"{name}: {took / rows * 1e6:.2f} us a row")

    print(f"load of the machine {os.getloadavg()[0]:.1f}")
    print(f"make the regions and insert them: {seconds(REGIONS, runs=1):.2f} s")
    for name, query in OF_ALL.items():
        print(f"{name}: {seconds(query):.3f} s")
    print(f"an index of all cells: {seconds(INDEX, runs=1):.2f} s")
    (one,) = db.execute("SELECT s2_outer(2, 5000000, 9000000, 7000000, 9000000, 13)").fetchone()
    print(f"which regions meet one, by that index: {seconds(BY_INDEX, one) * 1e3:.2f} ms")
    db.execute("INSERT INTO big SELECT s2_union_agg(region) FROM regions WHERE id < 50000")
    big, cells = db.execute("SELECT region, s2_count(region) FROM big").fetchone()
    print(f"a union of {cells} cells")
    for name in sorted(set(PREPARED_ONCE) - {COPIED}):
        measure(name, PREPARED_ONCE[name], 100000)
    db.execute("DELETE FROM regions WHERE id >= 200")
    for name, query in [*COMPARED_FOR_EACH_ROW.items(), ("length() of a subquery", BUILT_IN)]:
        measure(name, query, 200)
    measure(COPIED, PREPARED_ONCE[COPIED], 200)


main()
