"""A million points against 10,000 regions: the table of docs/GEO.md. costs.py FOLDER [REGIONS POINTS]

The regions are caps of 10 to 300 km, covered by S2 with at most 20 cells. Each way finds which regions each point is
in, and how many points are in any; all have to find the same. Times are of the clock; memory is the peak of the process
that answers, with its points and regions.
"""
import glob
import os
import subprocess
import sys
import time
from random import Random

import numpy

HERE = os.path.dirname(os.path.realpath(__file__))


def made(folder, count, points):
    """The files of the cells, of the region of each, and of the leaves."""
    import pywraps2 as s2
    from earth import points_of_the_sphere
    from s2union_geo import leaves
    random, coverer, cells, owners = Random(47), s2.S2RegionCoverer(), [], []
    coverer.set_max_cells(20)
    for region, center in enumerate(zip(*points_of_the_sphere(count))):
        radius = s2.S1Angle.Radians(random.uniform(10, 300) / 6371)
        cap = s2.S2Cap(s2.S2LatLng.FromDegrees(center[1], center[0]).ToPoint(), radius)
        cells += [cell.id() for cell in coverer.GetCovering(cap)]
        owners += [region] * (len(cells) - len(owners))
    for name, numbers in (("cells", cells), ("owners", owners), ("points", leaves(*points_of_the_sphere(points)))):
        numpy.array(numbers, "uint64").tofile(os.path.join(folder, name))


def read(folder):
    return (numpy.fromfile(os.path.join(folder, name), "uint64") for name in ("cells", "owners", "points"))


class Clock:
    def __init__(self):
        self.begun = time.perf_counter()

    def says(self, what, *found):
        print(what, time.perf_counter() - self.begun, *found, flush=True)
        self.begun = time.perf_counter()


def peak(process="self"):
    """The most memory that a process has had, in MB."""
    with open(f"/proc/{process}/status", encoding="ascii") as it:
        print("peak", next(int(line.split()[1]) // 1024 for line in it if line.startswith("VmHWM")))


def ran(command, script=b""):
    """What a command answers, and its peak in MB. What Python starts itself begins with Python's own memory."""
    run = subprocess.run(["/usr/bin/time", "-f", "%M", *command], input=script, capture_output=True, check=True)
    return run.stdout, int(run.stderr) // 1024


def in_python(folder):
    """Which points lie in each cell is a range of the sorted points; which lie in any region, a question to a union."""
    from s2union import Union
    cells, owners, points = read(folder)
    clock = Clock()
    points.sort()
    smallest = cells & (~cells + numpy.uint64(1))
    every = Union(cells)
    clock.says("prepared")
    first = numpy.searchsorted(points, cells - (smallest - numpy.uint64(1)))
    beyond = numpy.searchsorted(points, cells + (smallest - numpy.uint64(1)), "right")
    counts = beyond - first
    pairs = numpy.repeat(first - numpy.cumsum(counts) + counts, counts) + numpy.arange(counts.sum())
    found = numpy.stack([points[pairs], numpy.repeat(owners, counts)])
    clock.says("which", found.shape[1])
    clock.says("any", numpy.count_nonzero(every.contains_cells(points)))
    peak()


def in_sqlite(folder):
    import sqlite3
    cells, owners, points = (numbers.view("int64").tolist() for numbers in read(folder))
    database = sqlite3.connect(":memory:")
    database.enable_load_extension(True)
    database.load_extension(os.path.join(os.environ["PREFIX"], "lib/sqlite3/mod_s2union"))
    clock = Clock()
    database.execute("CREATE TABLE points(leaf INTEGER PRIMARY KEY)")
    database.executemany("INSERT OR IGNORE INTO points VALUES (?)", ((leaf,) for leaf in points))
    database.execute("CREATE TABLE regions(id INTEGER PRIMARY KEY, region BLOB)")
    database.execute("CREATE TEMP TABLE cells(cell INTEGER, id INTEGER)")
    database.executemany("INSERT INTO cells VALUES (?, ?)", zip(cells, owners))
    database.execute("INSERT INTO regions SELECT id, s2_union_agg(cell) FROM cells GROUP BY id")
    clock.says("prepared")
    which = "SELECT count(*) FROM regions, s2_cells(region), points WHERE leaf BETWEEN range_min AND range_max"
    clock.says("which", *database.execute(which).fetchone())
    inside = """SELECT count(*) FROM (SELECT s2_union_agg(region) AS every FROM regions), s2_cells(every), points
        WHERE leaf BETWEEN range_min AND range_max"""
    clock.says("any", *database.execute(inside).fetchone())
    peak()


class Session:
    """A session of psql that is asked one thing after another."""

    def __init__(self):
        self.psql = subprocess.Popen(["psql", "-XAqt", "-v", "ON_ERROR_STOP=1"], stdin=subprocess.PIPE,
                                     stdout=subprocess.PIPE, text=True)

    def ask(self, question):
        self.psql.stdin.write(f"{question}\n\\echo end\n")
        self.psql.stdin.flush()
        lines = []
        while (line := self.psql.stdout.readline()) != "end\n":
            if not line:
                raise RuntimeError(question)
            lines.append(line)
        return lines


def in_postgres(folder):
    cells, owners, points = (numbers.view("int64") for numbers in read(folder))
    numpy.savetxt(os.path.join(folder, "cells.txt"), numpy.stack([owners, cells], 1), "%d")
    numpy.savetxt(os.path.join(folder, "points.txt"), points, "%d")
    session, clock = Session(), Clock()
    session.ask(f"""CREATE EXTENSION IF NOT EXISTS s2union;
        SET max_parallel_workers_per_gather = 0;
        CREATE TEMP TABLE cells (id int, cell bigint);
        CREATE TEMP TABLE points (leaf bigint);
\\copy cells FROM '{folder}/cells.txt' (DELIMITER ' ')
\\copy points FROM '{folder}/points.txt'
        CREATE TEMP TABLE regions AS SELECT id, s2_union_agg(cell) AS region FROM cells GROUP BY id;
        CREATE INDEX ON regions USING gin (region);
        CREATE INDEX ON points (leaf);
        ANALYZE regions; ANALYZE points;""")
    clock.says("prepared")
    which = session.ask("SELECT count(*) FROM regions JOIN points ON region @> leaf;")[0]
    clock.says("by_GIN", int(which))
    ranges = "AS cell JOIN points ON leaf BETWEEN s2_range_min(cell) AND s2_range_max(cell);"
    which = session.ask(f"SELECT count(*) FROM regions, unnest(s2_cells(region)) {ranges}")[0]
    clock.says("which", int(which))
    every = "s2_cells((SELECT s2_union_agg(region) FROM regions))"
    clock.says("any", int(session.ask(f"SELECT count(*) FROM unnest({every}) {ranges}")[0]))
    peak(int(session.ask("SELECT pg_backend_pid();")[0]))


def in_calculator(folder):
    """One register has all regions, so it only knows whether a point is in any. A line asks about a point."""
    from s2union import tokens
    cells, _, points = read(folder)
    named = tokens(cells)
    added = "".join(f"add a {' '.join(named[k:k + 200])}\n" for k in range(0, len(named), 200))
    asked = "".join(f"has a {token}\n" for token in tokens(points))
    for what, script in (("prepared", added), ("any", added + asked)):
        clock = Clock()
        answers, most = ran([os.environ["S2CALC"], "run", "--limit", "1000000"], script.encode())
        clock.says(what, *[answers.count(b"yes\n")] * (what == "any"))
    print("peak", most)


def in_s2(folder):
    answers, most = ran([os.path.join(folder, name) for name in ("cell_index", "cells", "owners", "points")])
    print(answers.decode(), end="")
    print("peak", most)


def built(folder):
    """The program that asks S2."""
    command = ["c++", "-std=c++17", "-O2", "-DNDEBUG", os.path.join(HERE, "cell_index.cc"), "-o",
               os.path.join(folder, "cell_index"), "-ls2", "-Wl,--as-needed", *glob.glob("/usr/lib/*/libabsl_*.so"),
               "-lcrypto"]
    subprocess.run(command, check=True)


WAYS = {"S2CellIndex": in_s2, "Python": in_python, "SQLite": in_sqlite, "PostgreSQL": in_postgres,
        "s2calc": in_calculator}


def main(folder, regions=10000, points=1000000):
    built(folder)
    made(folder, int(regions), int(points))
    columns = ("prepared", "which", "by_GIN", "any")
    found = {}
    print(f"{points} points, {regions} regions; a load of {os.getloadavg()[0]:.0f}, {os.cpu_count()} processors")
    print("| |", " | ".join([*columns, "MB"]), "|")
    for name in WAYS:
        run = subprocess.run([sys.executable, __file__, folder, name], stdout=subprocess.PIPE, text=True, check=True)
        times = dict.fromkeys(columns, "")
        for what, number, *count in map(str.split, run.stdout.splitlines()):
            times[what] = number if what == "peak" else f"{float(number):.2f} s"
            if count and found.setdefault(what.replace("by_GIN", "which"), count) != count:
                sys.exit(f"{name} finds {count} for {what}, and others {found}")
        print(f"| {name} |", " | ".join(times.values()), "|", flush=True)
    print(found)


if __name__ == "__main__":
    if sys.argv[2:] and sys.argv[2] in WAYS:
        WAYS[sys.argv[2]](sys.argv[1])
    else:
        main(*sys.argv[1:])
