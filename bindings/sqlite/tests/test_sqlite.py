"""The extension for SQLite against the plain model; NULL, wrong types, faults of files, flipped bits, and heap limits.

S2UNION_SQLITE is the path of the extension; the model is in tests/model."""

import ctypes
import gc
import os
import re
import sqlite3
import struct
import unittest
from pathlib import Path

from model import unions as model
from model import plain_sql
from model import random_cells
from model.random_cells import FACE, signed, unsigned

EXTENSION = os.environ["S2UNION_SQLITE"]
ROUNDS = int(os.environ.get("S2UNION_ROUNDS", "1500"))
UNDER_A_SANITIZER = "libasan" in os.environ.get("LD_PRELOAD", "")
EMPTY = model.file([])
PAGE = (Path(__file__).resolve().parents[3] / "bindings/sqlite/README.md").read_text()
FUNCTIONS = {
    "s2_union": "ll", "s2_intersection": "ll", "s2_difference": "ll", "s2_symmetric_difference": "ll", "s2_range": "cc",
    "s2_complement": "l",
    "s2_normalise": "l", "s2_is_union": "b", "s2_contains": "lq", "s2_within": "ql", "s2_intersects": "lq",
    "s2_count": "l", "s2_leaves": "l", "s2_tokens": "l", "s2_is_cell": "b",
    "s2_cell": "c", "s2_token": "c", "s2_debug": "c", "s2_level": "c", "s2_face": "c", "s2_parent": "cv",
    "s2_child": "ck", "s2_range_min": "c", "s2_range_max": "c", "s2_common_ancestor": "cc", "s2_leaf": "fnn",
    "s2_union_agg": "l", "s2_intersection_agg": "l", "s2_version": "", "s2_map_outer": "sv", "s2_map_inner": "sv",
    "s2_geodesic_outer": "sv", "s2_geodesic_inner": "sv",
}
COVERINGS = ("s2_outer", "s2_inner")
MAPS = ("s2_map_outer", "s2_map_inner")
# A value that each kind of argument takes, and of each kind of number the first that is too great: lists, cells or
# lists, cells, bytes, shapes; levels, faces, children, places on a face, the modulus, how many cells.
TRIANGLE = b"\1" + struct.pack("<3I8d", 3, 1, 4, 0, 0, 9, 2, 5, 8, 0, 0)
GOOD = {"l": "0c 14", "q": "0c", "c": "1c", "b": EMPTY, "s": TRIANGLE, "v": 1, "f": 1, "k": 1, "n": 1, "m": 1}
TOO_GREAT = {"v": 31, "f": 6, "k": 4, "n": 2**30, "m": 4, "e": 1_000_001}
NUMBERS = {"v": (-1, 31, 50, 2**31, 2**32, 2**32 + 5, -2**63), **{
    letter: (-1, TOO_GREAT[letter], 2**31, 2**32, 2**32 + 1, 2**63 - 1) for letter in "fknme"}}
NO_CELLS = (0, 2, -1, -2**63, "", "X", "0/4", "6/", "1\0", "9" * 17)
NO_LISTS = (0, 2, -1, "X", "0/4", "1 g", "1\0", "1\0 1")
sqlite = ctypes.CDLL("libsqlite3.so.0")
sqlite.sqlite3_memory_used.restype = ctypes.c_int64
sqlite.sqlite3_hard_heap_limit64.restype = ctypes.c_int64
sqlite.sqlite3_hard_heap_limit64.argtypes = [ctypes.c_int64]


def calls_in(text):
    """The functions that the tables of a page name, and the names of their arguments."""
    for row in re.findall(r"^\| (`s2_.*?\)`) \|", text, re.M):
        for name, names in re.findall(r"`(s2_\w+)\((.*?)\)`", row):
            yield name, names.split(", ") if names else []


def calls():
    """Each function with arguments that it takes."""
    for name, letters in FUNCTIONS.items():
        yield name, letters, [GOOD[letter] for letter in letters]
    for name in COVERINGS:
        yield name, "lv", ["0c 14", 3]
        yield name, "fnnnnv", [0, 5, 900, 7, 1000, 25]
        yield name, "lfnnnnv", ["0c 14", 0, 5, 900, 7, 1000, 25]
    for name in MAPS:
        yield name, "sve", [TRIANGLE, 9, 8]


class Random(random_cells.Random):
    def text(self, cell):
        return self.choice([model.token(cell), model.token(cell).upper(), model.debug(cell)])

    def form(self, cells):
        """One of the values that mean the union of these cells."""
        if len(cells) == 1 and self.random() < 0.5:
            return self.choice([signed(cells[0]), self.text(cells[0])])
        kind = self.randrange(4)
        if kind == 0:
            return model.file(self.sample(cells, len(cells)))
        if kind == 1:
            blank = self.choice([" ", ",", "\n", ", ", "\t"])
            return self.choice(["", " "]) + blank.join(self.text(cell) for cell in cells)
        return model.file(model.normal(model.runs(cells)))


class Tests(unittest.TestCase):
    def setUp(self):
        gc.collect()  # what tests of another file have left
        self.before = sqlite.sqlite3_memory_used()
        self.random = Random(20261122)
        self.db = sqlite3.connect(":memory:", isolation_level=None)
        self.db.enable_load_extension(True)
        self.db.load_extension(EXTENSION)

    def tearDown(self):
        self.db.close()
        gc.collect()
        self.assertEqual(sqlite.sqlite3_memory_used(), self.before, "memory stays taken")

    def ask(self, expression, *values):
        (answer,) = self.db.execute(f"SELECT {expression}", values).fetchone()
        return answer

    def call(self, name, values):
        return self.ask(f"{name}({', '.join('?' * len(values))})", *values)

    def refused(self, reason, expression, *values):
        with self.assertRaises(sqlite3.OperationalError) as caught:
            self.db.execute(f"SELECT {expression}", values).fetchall()
        self.assertIn(reason, str(caught.exception), (expression, values))


class AgainstTheModel(Tests):
    def test_sets(self):
        for _ in range(ROUNDS):
            xs = self.random.cells()
            ys = self.random.cells(near=xs)
            x, y = model.runs(xs), model.runs(ys)
            rest, other = model.common(x, model.rest(y)), model.common(y, model.rest(x))
            wanted = [model.normal(runs) for runs in (x + y, model.common(x, y), rest, rest + other, x, model.rest(x))]
            said = self.db.execute(
                """SELECT s2_union(?1, ?2), s2_intersection(?1, ?2), s2_difference(?1, ?2),
                   s2_symmetric_difference(?1, ?2), s2_normalise(?1), s2_complement(?1)""",
                (self.random.form(xs), self.random.form(ys)),
            ).fetchone()
            self.assertEqual(list(said), [model.file(cells) for cells in wanted])

    def test_questions(self):
        for turn in range(ROUNDS // 10):
            most = 12 if turn % 5 else 150
            xs = self.random.cells(most)
            x = model.runs(xs)
            rows = [self.random.cells(self.random.choice([3, most]), near=xs) for _ in range(10)]
            self.db.execute("CREATE TEMP TABLE asked(k INTEGER PRIMARY KEY, x, y)")
            for k, ys in enumerate(rows):
                self.db.execute("INSERT INTO asked VALUES(?, ?, ?)", (k, self.random.form(xs), self.random.form(ys)))
            contains = [int(not model.common(model.runs(ys), model.rest(x))) for ys in rows]
            intersects = [int(bool(model.common(model.runs(ys), x))) for ys in rows]
            reverse = [int(not model.common(x, model.rest(model.runs(ys)))) for ys in rows]
            wanted = list(zip(contains, intersects, reverse, contains, reverse))
            query = """SELECT s2_contains({0}, y), s2_intersects({0}, y), s2_contains(y, {0}), s2_within(y, {0}),
                s2_within({0}, y) FROM {1} ORDER BY k"""
            for value, source in (
                ("x", "asked"), ("?1", "asked"), ("(SELECT ?1)", "asked"), ("(SELECT x FROM asked LIMIT 1)", "asked"),
                ("p.value", "s2_prepared((SELECT x FROM asked WHERE k = 3)) AS p, asked"),
            ):
                values = (self.random.form(xs),) if "?" in value else ()
                self.assertEqual(self.db.execute(query.format(value, source), values).fetchall(), wanted, value)
            self.db.execute("DROP TABLE asked")

    def test_questions_of_cells(self):
        for _ in range(ROUNDS):
            xs = self.random.cells()
            cell = self.random.near(self.random.choice(xs or [FACE]))
            one, x = [model.run(cell)], model.runs(xs)
            contains = int(not model.common(one, model.rest(x)))
            wanted = (contains, int(bool(model.common(one, x))), contains)
            query = "SELECT s2_contains(?1, ?2), s2_intersects(?1, ?2), s2_within(?2, ?1)"
            for value in (signed(cell), model.token(cell)):
                self.assertEqual(self.db.execute(query, (self.random.form(xs), value)).fetchone(), wanted)

    def test_a_constant_in_another_order(self):
        cells = [model.identifier(20, 3 * k) for k in range(200)]
        shuffled = model.file(self.random.sample(cells, 200))
        self.db.execute("CREATE TABLE rows(y)")
        for k in range(0, 140, 10):
            self.db.execute("INSERT INTO rows VALUES(?)", (model.file(cells[k : k + 70]),))
        self.db.execute("INSERT INTO rows VALUES(?)", (model.file(cells[:70] + [model.identifier(5, 7)]),))
        for expression in ("s2_contains(?, y)", "s2_contains(s2_normalise(y), y) AND s2_contains(?, y)"):
            said = self.db.execute(f"SELECT {expression} FROM rows", (shuffled,)).fetchall()
            self.assertEqual(said, 14 * [(1,)] + [(0,)])
        query = "SELECT s2_intersects(y, ?1), s2_contains(y, ?1) FROM rows"
        said = self.db.execute(query, (shuffled,)).fetchall()
        self.assertEqual(said, 15 * [(1, 0)])

    def test_counts_and_tokens(self):
        for _ in range(ROUNDS):
            xs = self.random.cells()
            normal = model.normal(model.runs(xs))
            value = self.random.form(xs)
            self.assertEqual(self.ask("s2_count(?)", value), len(normal))
            self.assertEqual(self.ask("s2_leaves(?)", value), model.count(model.runs(xs)))
            text = self.ask("s2_tokens(?)", value)
            self.assertEqual(text, " ".join(model.token(cell) for cell in normal))
            self.assertEqual(self.ask("s2_normalise(?)", text), model.file(normal))
            self.assertEqual(self.ask("s2_is_union(?)", model.file(normal)), 1)
            self.assertEqual(self.ask("s2_is_union(?)", value), int(value == model.file(normal)))
        self.assertEqual(self.ask("s2_leaves(?)", model.file([model.identifier(0, f) for f in range(6)])), 6 * 4**30)

    def test_version(self):
        self.assertEqual(self.ask("s2_version()"), model.VERSION)

    def test_cells(self):
        for _ in range(ROUNDS):
            number = self.random.cell()
            level, place = model.cell(number)
            first, end = model.run(number)
            for value in (signed(number), model.token(number), model.debug(number)):
                said = self.db.execute(
                    """SELECT s2_cell(?1), s2_token(?1), s2_debug(?1), s2_level(?1), s2_face(?1),
                       s2_range_min(?1), s2_range_max(?1)""",
                    (value,),
                ).fetchone()
                wanted = (signed(number), model.token(number), model.debug(number), level, place // 4**level)
                self.assertEqual(said, wanted + (signed(2 * first + 1), signed(2 * end - 1)))
            for value in (number, self.random.getrandbits(64), number ^ 1 << self.random.randrange(64)):
                is_cell = int(model.cell(value) is not None)
                self.assertEqual(self.ask("s2_is_cell(?)", signed(value)), is_cell)
                self.assertEqual(self.ask("s2_is_cell(?)", f"{value:016x}"), is_cell)
            self.assertEqual(self.ask("s2_is_cell(?)", model.debug(number)), 1)
            for k in range(31):
                parent = signed(model.identifier(k, place // 4 ** (level - k))) if k <= level else None
                self.assertEqual(self.ask("s2_parent(?, ?)", signed(number), k), parent)
            for k in range(4):
                child = signed(model.identifier(level + 1, 4 * place + k)) if level < 30 else None
                self.assertEqual(self.ask("s2_child(?, ?)", signed(number), k), child)
            other = self.random.near(number)
            leaves = (first, end - 1, model.run(other)[0], model.run(other)[1] - 1)
            both = [k for k in range(31) if len({leaf // 4 ** (30 - k) for leaf in leaves}) == 1]
            above = signed(model.identifier(both[-1], first // 4 ** (30 - both[-1]))) if both else None
            self.assertEqual(self.ask("s2_common_ancestor(?, ?)", signed(number), model.token(other)), above)

    def test_cells_in_plain_sql(self):
        """What docs/ENGINES.md says, beside the extension's functions."""
        for cell, level, near in plain_sql.questions(self.random):
            cell, near = signed(cell), signed(near)
            parent, same, first, last = plain_sql.key(cell, level)
            least, greatest = list(plain_sql.key(near, level))[2:]
            holds = f"{near} BETWEEN {first} AND {last}"
            shares = f"{holds} OR {cell} BETWEEN {least} AND {greatest}"
            said = self.db.execute(f"SELECT {parent}, {same}, {first}, {last}, {holds}, {shares}").fetchone()
            wanted = self.db.execute("""SELECT s2_parent(?1, ?2), s2_parent(?1, ?2), s2_range_min(?1), s2_range_max(?1),
                s2_contains(?1, ?3), s2_intersects(?1, ?3)""", (cell, level, near)).fetchone()
            self.assertEqual(said, wanted, (cell, level, near))

    def test_the_join_in_plain_sql(self):
        """That of docs/ENGINES.md, without the extension: regions with cells of all sizes, beside a loop over all
        pairs; and its CHECK."""
        regions = {f"region {k}": model.normal(model.runs(self.random.cells(9, low=0))) for k in range(99)}
        near = [cell for cells in regions.values() for cell in cells]
        leaves = [model.identifier(30, self.random.choice([first, end - 1, self.random.randrange(first, end)]))
                  for cell in near for first, end in [model.run(self.random.near(cell))]]
        wanted = [(place, name) for place, leaf in enumerate(leaves) for name, cells in regions.items()
                  if any(first <= model.run(leaf)[0] < end for first, end in map(model.run, cells))]
        found, db = plain_sql.in_sqlite(map(signed, leaves), {name: map(signed, cells)
                                                              for name, cells in regions.items()})
        self.assertEqual(sorted(found), sorted(wanted))
        self.assertTrue(any(model.cell(cell)[0] < 5 for cell in near) and len(wanted) > 200, len(wanted))
        uncut = plain_sql.CUT[1].replace("WHERE (cell & -cell) <= ", "WHERE (cell & -cell) > ")
        with self.assertRaisesRegex(sqlite3.IntegrityError, "CHECK constraint failed"):
            db.execute(uncut)

    def test_ranges(self):
        for _ in range(ROUNDS):
            a, b = self.random.cell(), self.random.cell()
            first, end = model.run(a)[0], model.run(b)[1]
            if first < end:
                said = self.ask("s2_range(?, ?)", self.random.text(a), signed(b))
                self.assertEqual(said, model.file(model.normal([(first, end)])))
            else:
                self.refused("s2: argument out of range", "s2_range(?, ?)", signed(a), signed(b))

    def test_coverings(self):
        for _ in range(ROUNDS // 5):
            xs = self.random.cells(5)
            x = model.runs(xs)
            level = self.random.randint(0, 30)
            for name, want in (("s2_outer", model.around), ("s2_inner", model.within)):
                said = self.ask(f"{name}(?, ?)", self.random.form(xs), level)
                self.assertEqual(said, model.file(model.normal(want(x, level))))
            side = 2 ** self.random.randint(0, 4)
            face, i, j = self.random.randrange(6), self.random.randrange(2**30 - side), self.random.randrange(2**30 - 2)
            places = [(i + k % side, j + k // side) for k in range(2 * side)]
            leaves = [unsigned(self.ask("s2_leaf(?, ?, ?)", face, *place)) // 2 for place in places]
            square = model.joined([(leaf, leaf + 1) for leaf in leaves])
            for name, want in (("s2_outer", model.around), ("s2_inner", model.within)):
                said = self.call(name, [face, i, i + side - 1, j, j + 1, level])
                self.assertEqual(said, model.file(model.normal(want(square, level))))
                part = self.random.cells(5, [2 * leaf + 1 for leaf in leaves])
                said = self.call(name, [self.random.form(part), face, i, i + side - 1, j, j + 1, level])
                both = model.common(model.runs(part), square)
                self.assertEqual(said, model.file(model.normal(want(both, level))))
        self.refused("s2: too many cells", "s2_outer(0, 0, 1073741823, 5, 5, 30)")
        self.refused("s2: argument out of range", "s2_inner('1', 31)")
        self.refused("s2: argument out of range", "s2_outer(0, 9, 8, 5, 5, 20)")
        self.refused("s2: argument out of range", "s2_outer(6, 8, 9, 5, 5, 20)")
        self.refused("s2: argument out of range", "s2_inner('1', 6, 8, 9, 5, 5, 20)")
        self.refused("s2: argument out of range", "s2_outer('1', 0, 8, 9, 5, 5, 31)")
        self.refused("s2: too many cells", "s2_outer('1', 0, 0, 1073741823, 5, 5, 30)")

    def test_tables_of_cells(self):
        for _ in range(ROUNDS // 3):
            xs = self.random.cells()
            normal = model.normal(model.runs(xs))
            value = self.random.form(xs)
            rows = [(signed(c), signed(2 * model.run(c)[0] + 1), signed(2 * model.run(c)[1] - 1)) for c in normal]
            self.assertEqual(self.db.execute("SELECT * FROM s2_cells(?)", (value,)).fetchall(), rows)
            least = self.random.level_from(normal)
            small = [c for c in normal if model.cell(c)[0] > least - 4]
            modulus = self.random.randint(1, 3)
            said = self.db.execute("SELECT cell FROM s2_cells(?, ?, ?)", (model.file(small), least, modulus)).fetchall()
            self.assertEqual([unsigned(cell) for (cell,) in said], model.cut(small, least, modulus))
            said = self.db.execute("SELECT cell FROM s2_cells(?, ?)", (model.file(small), least)).fetchall()
            self.assertEqual([unsigned(cell) for (cell,) in said], model.cut(small, least, 1))
            said = self.db.execute("SELECT value FROM s2_prepared(?)", (value,)).fetchall()
            self.assertEqual(said, [(model.file(normal),)])
        for query in ("s2_cells", "s2_ancestors", "s2_cells WHERE modulus = 1 AND x = '1'", "s2_prepared",
                      "s2_cells WHERE x > '1'"):
            self.assertRaises(sqlite3.OperationalError, self.db.execute, f"SELECT * FROM {query}")

    def test_tiles(self):
        for _ in range(ROUNDS // 3):
            xs = self.random.cells()
            runs = model.runs(xs)
            level = self.random.level_from(model.normal(runs))
            wanted = [(signed(tile), model.file(part)) for tile, part in model.tiles(runs, level)]
            said = self.db.execute("SELECT * FROM s2_tiles(?, ?)", (self.random.form(xs), level)).fetchall()
            self.assertEqual(said, wanted)
        self.refused("no query solution", "* FROM s2_tiles('1')")
        self.refused("no query solution", "* FROM s2_tiles WHERE level = 1")
        said = self.peak("SELECT tile, s2_tokens(part) FROM s2_tiles('1 3', 30) LIMIT 2")
        self.assertEqual(said, [(1, "0000000000000001"), (3, "0000000000000003")])

    def test_joins_by_tile(self):
        """Beside all pairs: of points with regions, and of regions with regions."""
        regions = [self.random.cells(low=4) for _ in range(60)]
        points = [model.run(self.random.near(self.random.choice(xs)))[0] for xs in regions if xs for _ in range(9)]
        self.db.execute("CREATE TABLE points(id INTEGER PRIMARY KEY, leaf INTEGER)")
        self.db.execute("CREATE TABLE regions(id INTEGER PRIMARY KEY, region BLOB)")
        self.db.executemany("INSERT INTO points VALUES (?, ?)", enumerate(signed(2 * place + 1) for place in points))
        self.db.executemany("INSERT INTO regions VALUES (?, ?)", enumerate(self.random.form(xs) for xs in regions))
        self.db.executescript("""
            CREATE TABLE tiles AS SELECT id, tile, part FROM regions, s2_tiles(region, 5);
            CREATE INDEX by_tile ON tiles(tile);""")
        inside = self.db.execute("""SELECT points.id, tiles.id FROM points JOIN tiles
            ON tile = s2_parent(leaf, 5) AND s2_contains(part, leaf)""").fetchall()
        meeting = self.db.execute("""SELECT DISTINCT a.id, b.id FROM tiles AS a JOIN tiles AS b
            ON a.tile = b.tile AND a.id < b.id AND s2_intersects(a.part, b.part)""").fetchall()
        forms = [model.runs(xs) for xs in regions]
        self.assertCountEqual(inside, [(p, k) for p, place in enumerate(points) for k, x in enumerate(forms)
                                       if model.meet(x, [(place, place + 1)])])
        self.assertCountEqual(meeting, [(a, b) for a, x in enumerate(forms) for b, y in enumerate(forms)
                                        if a < b and model.meet(x, y)])
        self.assertGreater(len(inside), 50)

    def test_the_hidden_columns_are_the_arguments(self):
        for columns, call, values in (
            ("x, level, modulus", "s2_cells(?, ?, ?)", ("1", 0, 3)), ("x, level", "s2_cells(?, ?)", (signed(FACE), 2)),
            ("x, level", "s2_tiles(?, ?)", ("04 14", 2)),
            ("x", "s2_ancestors(?)", ("0/",)), ("x", "s2_prepared(?)", (model.file([FACE, FACE]),)),
        ):
            self.assertEqual(set(self.db.execute(f"SELECT {columns} FROM {call}", values)), {values}, call)
        self.assertEqual(self.ask("count(*) FROM s2_cells('04 0c 14', 3) WHERE level >= 1 AND x > '04'"), 48)
        self.assertEqual(self.ask("count(*) FROM s2_cells('04 0c 14', 3) WHERE level > 3"), 0)
        self.refused("no query solution", "level FROM s2_cells('1')")

    def test_an_argument_after_many_conditions(self):
        """SQLite leaves out the comparison with an argument only if that is among its first 16 conditions."""
        for most in range(1, 40):
            where = " AND ".join(f"cell > {-k}" for k in range(most))
            for call, rows in (("s2_cells('04 0c 14')", 3), ("s2_cells('04 0c 14', 2, 2)", 12),
                               ("s2_ancestors('04 0c 14')", 4)):
                self.assertEqual(self.ask(f"count(*) FROM {call} WHERE {where}"), rows, (call, most))
            tiles = where.replace("cell", "tile")
            self.assertEqual(self.ask(f"count(*) FROM s2_tiles('04 0c 14', 2) WHERE {tiles}"), 12, most)
            where = where.replace("cell", "value") # and any BLOB comes after any number
            self.assertEqual(self.ask(f"count(*) FROM s2_prepared('04 0c 14') WHERE {where}"), 1, most)

    def test_long_listings(self):
        """Cells that are cut to more than are ready at once, between cells that are not cut."""
        for most in (1, 3, 300, 1000):
            cells = [model.identifier(12, 5 * k) for k in range(most)]
            cells += [model.identifier(7, 5), model.identifier(7, 7)]
            cells += [model.identifier(14, 8 * 4**7 + 6 * k) for k in range(most)]
            for level, modulus in ((0, 1), (12, 1), (13, 1), (11, 2), (13, 3)):
                said = self.db.execute("SELECT cell FROM s2_cells(?, ?, ?)", (model.file(cells), level, modulus))
                wanted = [(signed(cell),) for cell in model.cut(model.normal(model.runs(cells)), level, modulus)]
                self.assertEqual(said.fetchall(), wanted, (most, level, modulus))

    def test_a_listing_makes_only_the_cells_that_are_asked_for(self):
        said = self.peak("SELECT cell, range_min, range_max FROM s2_cells('1 3', 30) LIMIT 5")
        self.assertEqual(said, [(2 * k + 1,) * 3 for k in range(5)])
        said = self.peak("SELECT max(cell) FROM (SELECT cell FROM s2_cells('1', 30, 3) LIMIT 9000)")
        self.assertEqual(said, [(17999,)])

    def test_a_text_takes_the_memory_of_its_cells(self):
        for text, wanted in ((" " * 4000000 + "04", "04"), ("0/0 " * 1000000, "04"), ("04,0c\n14\t1c " * 300000, "1")):
            self.db.execute("CREATE TEMP TABLE texts AS SELECT ? AS text", (text,))
            self.assertEqual(self.peak("SELECT s2_tokens(text) FROM texts", 2 * len(text)), [(wanted,)])
            self.db.execute("DROP TABLE texts")

    def test_texts_that_are_read_in_pieces(self):
        cells = [model.identifier(28, 3 * k) for k in range(12000)]
        for shift in range(0, 40, 3):
            between = ",\n\t\r "[shift % 5]
            text = " " * shift + between.join(self.random.text(cell) for cell in cells)
            self.assertEqual(self.ask("s2_normalise(?)", text), model.file(cells))
            self.refused("s2: not a cell", "s2_count(?)", text + " park")
            self.refused("s2: not a cell", "s2_count(?)", text[:65500] + " 1/0123" + "0" * shift + "park " + text)
        for word in ("0" * 65534, "0" * 65535, "0" * 65536, "0" * 200000, "1/" + "0" * 70000, "1" * 70000):
            self.refused("s2: not a cell", "s2_count(?)", "04 " + word)
            self.refused("s2: not a cell", "s2_count(?)", word + " 04")

    def peak(self, query, most=300000):
        """The rows of a query that takes at most this many bytes."""
        sqlite.sqlite3_memory_highwater(1)
        before = sqlite.sqlite3_memory_used()
        rows = self.db.execute(query).fetchall()
        self.assertLess(sqlite.sqlite3_memory_highwater(0) - before, most, query)
        return rows

    def test_tables_in_joins(self):
        regions = [self.random.cells() for _ in range(50)]
        self.db.execute("CREATE TABLE regions(id INTEGER PRIMARY KEY, region BLOB)")
        for k, xs in enumerate(regions):
            self.db.execute("INSERT INTO regions VALUES(?, ?)", (k, self.random.form(xs)))
        said = self.db.execute("SELECT id, cell FROM regions, s2_cells(region) ORDER BY id").fetchall()
        wanted = [(k, signed(cell)) for k, xs in enumerate(regions) for cell in model.normal(model.runs(xs))]
        self.assertEqual(said, wanted)
        said = self.db.execute("SELECT max(value) FROM regions, s2_prepared(region)").fetchone()[0]
        self.assertEqual(said, max(model.file(model.normal(model.runs(xs))) for xs in regions))
        self.assertEqual(self.db.execute("SELECT count(*) FROM s2_cells(NULL)").fetchone(), (0,))
        self.assertEqual(self.db.execute("SELECT count(*) FROM s2_cells('1', NULL)").fetchone(), (0,))
        self.assertEqual(self.db.execute("SELECT count(*) FROM s2_tiles(NULL, 1)").fetchone(), (0,))
        self.assertEqual(self.db.execute("SELECT count(*) FROM s2_tiles('1', NULL)").fetchone(), (0,))
        self.assertEqual(self.db.execute("SELECT count(*) FROM s2_prepared(NULL)").fetchone(), (0,))

    def test_an_argument_that_another_table_has(self):
        """An argument is known once its table is read, so the tables are read in that order, or there is no plan."""
        self.db.execute("CREATE TABLE t(level, modulus, region)")
        self.db.execute("INSERT INTO t VALUES(1, 1, '04'), (2, 2, '1')")
        calls = {"s2_cells('1', t.level)": 20, "s2_cells('1', 1, t.modulus)": 8, "s2_cells(t.region)": 2,
                 "s2_cells(t.region, t.level, t.modulus)": 17, "s2_tiles(t.region, t.level)": 17,
                 "s2_ancestors(t.region)": 3, "s2_prepared(t.region)": 2}
        for call, rows in calls.items():
            for tables in (f"t, {call}", f"{call}, t", f"t CROSS JOIN {call}", f"t LEFT JOIN {call}"):
                self.assertEqual(self.ask(f"count(*) FROM {tables}"), rows, tables)
            for tables in (f"{call} CROSS JOIN t", f"{call} LEFT JOIN t ON true"):
                with self.assertRaises(sqlite3.OperationalError, msg=tables):
                    self.db.execute(f"SELECT count(*) FROM {tables}").fetchall()

    def test_an_argument_as_a_condition(self):
        """The hidden columns of a table are its arguments. One that is given twice, or before another, has no plan."""
        for where, rows in (("x = '1' AND level = 2", 16), ("level = 2 AND x IN ('04', '1')", 20)):
            self.assertEqual(self.ask(f"count(*) FROM s2_cells WHERE {where}"), rows, where)
        for call in ("s2_cells('1', 2) WHERE level = 1", "s2_cells('1') WHERE x = 1", "s2_ancestors('1') WHERE x = '3'",
                     "s2_cells WHERE level = 1 AND level = 2", "s2_cells WHERE x = '1' AND modulus = 2"):
            self.refused("no query solution", f"* FROM {call}")

    def test_a_call_on_each_side_of_an_or(self):
        self.db.execute("CREATE TABLE pairs(a, b)")
        self.db.execute("INSERT INTO pairs VALUES('04', '14'), ('0c', '1c'), ('3', '0c')")
        for rest, rows in (
            ("s2_cells WHERE x = '04' AND level = 2 OR x = '14' AND level = 2", 8),
            ("s2_cells WHERE x = '04' AND level = 2 OR x = '1c' AND level = 1 OR x = '14' AND level = 3", 21),
            ("s2_ancestors WHERE x = '041' AND cell > 0 OR x = '14' AND cell > 0", 7),
            ("pairs, s2_cells WHERE x = a AND level = 2 OR x = b AND level = 2", 36),
            ("s2_cells WHERE x = '04' AND level = 1 OR x = '14' AND level = 2 OR x = '04' AND level = 1", 5),
            ("s2_cells WHERE x = '1' AND level = 2 AND modulus = 1 OR x = '1' AND level = 2 AND modulus = 2", 32),
            ("s2_ancestors WHERE x = '04' AND cell > 0 OR x = '0/0' AND cell > 0", 4),
            ("s2_tiles WHERE x = '04' AND level = 1 OR x = '14' AND level = 2 OR x = '04' AND level = 1", 5),
            ("s2_prepared WHERE x = '04' AND value > 0 OR x = '0/0' AND value > 0 OR x = '04' AND value > 1", 2),
        ):
            self.assertEqual(self.ask(f"count(*) FROM {rest}"), rows, rest)

    def test_a_call_in_a_full_join(self):
        """SQLite makes it again, to find the rows that have no match."""
        self.db.execute("CREATE TABLE seen(token, cell)")
        self.db.executemany("INSERT INTO seen VALUES(?1, s2_cell(?1))", [("04",), ("04",), ("14",), ("3",)])
        for call, others in (("s2_cells('04 0c 14')", ["0c"]), ("s2_ancestors('04 14')", ["1"]),
                             ("s2_cells('1', 1)", ["0c", "1c"])):
            rows = self.db.execute(
                f"SELECT token, s2_token(c.cell) FROM seen AS s FULL JOIN {call} AS c ON s.cell = c.cell")
            wanted = [("04", "04"), ("04", "04"), ("14", "14"), ("3", None)] + [(None, other) for other in others]
            self.assertCountEqual(rows, wanted, call)
        rows = self.db.execute("SELECT token, x FROM seen FULL JOIN s2_prepared('04') ON s2_within(cell, value)")
        self.assertCountEqual(rows, [("04", "04"), ("04", "04"), ("14", None), ("3", None)])

    def test_joins_of_calls(self):
        """Each has the rows of the same join of a table that has the rows of all calls."""
        words = ("04", "0c", "04 0c", "0c 14", "04 14 1c", "041 0c4", "")
        self.db.execute("CREATE TABLE known(cell, x, level)")
        for word in words:
            for level in range(4):
                self.db.execute("INSERT INTO known SELECT cell, x, level FROM s2_cells(?, ?)", (word, level))
        for turn in range(ROUNDS // 3):
            names = "abc"[: self.random.randint(1, 3)]
            sides, sources = [], {"s2_cells": "", "known": ""}
            for k, name in enumerate(names):
                most = self.random.randint(1, 4)
                calls = [(self.random.choice(words), self.random.randrange(4)) for _ in range(most)]
                one = f"s2_cells('{calls[0][0]}', {calls[0][1]})"
                rows = f"(SELECT * FROM known WHERE x = '{calls[0][0]}' AND level = {calls[0][1]})"
                join = self.random.choice([" JOIN ", " LEFT JOIN ", " FULL JOIN "]) if turn % 2 else " JOIN "
                on = f" ON {name}.cell {self.random.choice('=<>')} {self.random.choice(names[:k])}.cell" if k else ""
                for table, source in (("s2_cells", one), ("known", rows)):
                    sources[table] += (join if k else "") + (source if turn % 2 else table) + f" AS {name}{on}"
                if turn % 2 == 0:
                    sides.append(" OR ".join(f"{name}.x = '{x}' AND {name}.level = {level}" for x, level in calls))
            columns = ", ".join(f"{name}.cell, {name}.x, {name}.level" for name in names)
            where = " AND ".join(f"({side})" for side in sides) or "true"
            said, wanted = (self.db.execute(f"SELECT {columns} FROM {source} WHERE {where}").fetchall()
                            for source in sources.values())
            self.assertCountEqual(said, wanted, (sources, where))

    def test_views_and_triggers_of_an_untrusted_schema(self):
        self.db.executescript("""
            PRAGMA trusted_schema = OFF;
            CREATE TABLE parks(region, cells DEFAULT 0);
            CREATE VIEW counts AS SELECT s2_count(region) AS n, s2_contains(region, '04') AS has FROM parks;
            CREATE VIEW listed AS SELECT cell FROM parks, s2_cells(region);
            CREATE VIEW whole AS
                SELECT s2_tokens(s2_union_agg(region)), s2_tokens(s2_intersection_agg(region)) FROM parks;
            CREATE TRIGGER counted AFTER INSERT ON parks BEGIN
                UPDATE parks SET cells = (SELECT count(*) FROM s2_ancestors(NEW.region)) + s2_count(NEW.region);
            END;
            INSERT INTO parks VALUES('04 14', 0);
        """)
        self.assertEqual(self.db.execute("SELECT * FROM counts, whole").fetchall(), [(2, 1, "04 14", "04 14")])
        self.assertEqual(self.db.execute("SELECT cells, (SELECT count(*) FROM listed) FROM parks").fetchall(), [(5, 2)])

    def test_ancestors(self):
        for _ in range(ROUNDS // 3):
            xs = self.random.cells()
            wanted = set()
            for cell in model.normal(model.runs(xs)):
                level, place = model.cell(cell)
                wanted |= {model.identifier(k, place // 4 ** (level - k)) for k in range(level + 1)}
            said = self.db.execute("SELECT cell FROM s2_ancestors(?)", (self.random.form(xs),)).fetchall()
            self.assertEqual([unsigned(cell) for (cell,) in said], sorted(wanted))

    def test_the_aggregate(self):
        query = "SELECT s2_union_agg(region) FROM regions"
        self.db.execute("CREATE TABLE regions(kind, region)")
        self.assertEqual(self.db.execute(query).fetchone(), (None,))
        kinds = {}
        for _ in range(ROUNDS):
            xs, kind = self.random.cells(), self.random.randrange(9)
            kinds.setdefault(kind, []).extend(xs)
            self.db.execute("INSERT INTO regions VALUES(?, ?)", (kind, self.random.form(xs)))
            self.db.execute("INSERT INTO regions VALUES(?, NULL)", (kind,))
        self.db.execute("INSERT INTO regions VALUES(9, NULL), (10, '')")
        wanted = [(kind, model.file(model.normal(model.runs(kinds[kind])))) for kind in sorted(kinds)]
        said = self.db.execute("SELECT kind, s2_union_agg(region) FROM regions GROUP BY kind ORDER BY kind").fetchall()
        self.assertEqual(said, wanted + [(9, None), (10, EMPTY)])
        self.db.execute("INSERT INTO regions VALUES(0, 'x')")
        for name in ("s2_union_agg", "s2_intersection_agg"):
            self.refused("s2: not a cell", f"{name}(region) FROM regions")

    def test_aggregates_of_rows_that_are_alike(self):
        self.db.execute("CREATE TABLE regions(kind, k, region)")
        wanted, last = [], []
        for kind in range(ROUNDS // 10):
            rows = [self.random.cells()]
            union, both = [], [(0, model.LEAVES)]
            for k in range(self.random.randint(1, 6)):
                rows.append(rows[0] + self.random.cells(near=rows[0]))
                union, both = model.joined(union + model.runs(rows[-1])), model.common(both, model.runs(rows[-1]))
                self.db.execute("INSERT INTO regions VALUES(?, ?, ?)", (kind, k, self.random.form(rows[-1])))
                wanted.append((model.file(model.normal(union)), model.file(model.normal(both))))
            self.db.execute("INSERT INTO regions VALUES(?, 99, NULL)", (kind,))
            wanted.append(wanted[-1])
            last.append(wanted[-1])
        query = "SELECT s2_union_agg(region){0}, s2_intersection_agg(region){0} FROM regions"
        so_far = query.format(" OVER (PARTITION BY kind ORDER BY k)") + " ORDER BY kind, k"
        self.assertEqual(self.db.execute(so_far).fetchall(), wanted)
        self.assertEqual(self.db.execute(query.format("") + " GROUP BY kind ORDER BY kind").fetchall(), last)
        self.assertEqual(self.db.execute(query.format("") + " WHERE k > 99").fetchall(), [(None, None)])
        self.assertEqual(self.db.execute(query.format("") + " WHERE k = 99").fetchall(), [(None, None)])
        for frame in ("1 PRECEDING", "CURRENT ROW", "BETWEEN 1 FOLLOWING AND UNBOUNDED FOLLOWING"):
            for name in ("s2_union_agg", "s2_intersection_agg"):
                moving = f"{name}(region) OVER (ORDER BY kind, k ROWS {frame}) FROM regions"
                self.refused("s2: the frame of a window has to begin with UNBOUNDED PRECEDING", moving)
        others = self.db.execute("""
            SELECT s2_union_agg(region) OVER w, (SELECT s2_union_agg(region) FROM regions AS o
                WHERE o.kind = r.kind AND o.rowid <> r.rowid)
            FROM regions AS r WINDOW w AS (PARTITION BY kind ROWS BETWEEN UNBOUNDED PRECEDING AND UNBOUNDED FOLLOWING
                EXCLUDE CURRENT ROW)
        """).fetchall()
        self.assertTrue(all(said == wanted for said, wanted in others))

    def test_an_aggregate_of_many_cells(self):
        cells = [model.identifier(30, 3 * k) for k in range(150000)]
        self.db.execute("CREATE TABLE parts(part)")
        parts = [self.random.sample(cells, 30000) for _ in range(20)] + [cells]
        self.db.executemany("INSERT INTO parts VALUES(?)", ((model.file(part),) for part in parts))
        self.assertEqual(self.ask("s2_union_agg(part) FROM parts"), model.file(cells))
        self.db.execute("INSERT INTO parts VALUES(?)", (model.file([FACE]),))
        self.assertEqual(self.ask("s2_union_agg(part) FROM parts"), model.file([FACE]))


class WhatIsRefused(Tests):
    def test_the_functions_are_these(self):
        listed = "SELECT name, narg FROM pragma_function_list WHERE name LIKE 's2%'"
        rows = {*self.db.execute(listed)}
        self.assertEqual(rows, {(name, len(letters)) for name, letters, _ in calls()})
        self.db.load_extension(os.path.join(os.path.dirname(EXTENSION), "mod_s2union_geo.so"))
        functions, _, tables = PAGE.partition("### Tables of cells")
        self.assertEqual({(name, len(names)) for name, names in calls_in(functions)}, {*self.db.execute(listed)})
        for name in self.tables():
            said = [names for other, names in calls_in(tables) if other == name]
            self.assertEqual(said, [self.hidden(name)[: len(names)] for names in said])
            self.assertEqual(said[-1], self.hidden(name))
        self.assertEqual({name for name, _ in calls_in(tables)}, self.tables())

    def test_each_is_listed(self):
        """s2_functions has what SQLite has of each extension, with the last column of its row of the page."""
        asked = "SELECT name, arguments, result, extension FROM s2_functions"
        had = set()
        for extension in ("s2union", "s2union_geo"):
            self.db.load_extension(os.path.join(os.path.dirname(EXTENSION), f"mod_{extension}.so"))
            has = {*self.db.execute("SELECT name, narg FROM pragma_function_list WHERE name LIKE 's2%'")}
            rows = self.db.execute(f"{asked} WHERE extension = ?", (extension,)).fetchall()
            listed = {(name, len(names.split(", ")) if names else 0) for name, names, _, _ in rows}
            self.assertEqual({row for row in listed if row[0] not in self.tables()}, has - had)
            had = has
        said = {}
        for line in re.sub(r"\[(.*?)\]\(.*?\)", r"\1", PAGE).splitlines():
            first, *columns, last = line.strip("| ").split(" | ") if " | " in line else [line, line]
            if re.fullmatch(r"`s2_\w+\(.*\)`", first):
                said.update((call, (columns != [], last)) for call in first.split("`")[1::2])
        rows = self.db.execute(asked).fetchall()
        self.assertEqual(len(rows), len(said))
        for name, names, result, _ in rows:
            is_table, last = said[f"{name}({names})"]
            self.assertEqual(name in self.tables(), is_table)
            self.assertEqual(re.sub(r"^rows of \w+(, \w+)*: ", "", result) if is_table else result, last)
        columns = [name for name, in self.db.execute("SELECT name FROM pragma_table_info('s2_cells')")]
        for row in self.db.execute("SELECT result FROM s2_functions WHERE name IN ('s2_cells', 's2_ancestors')"):
            self.assertTrue(row[0].startswith(f"rows of {', '.join(columns)}: "), row)

    def tables(self):
        return {name for name, in self.db.execute("SELECT name FROM pragma_module_list WHERE name LIKE 's2%'")}

    def hidden(self, table):
        """The columns that are the arguments of a table."""
        rows = self.db.execute("SELECT name FROM pragma_table_xinfo(?) WHERE hidden = 1", (table,))
        return [name for name, in rows]

    def test_equal_values_give_equal_values(self):
        """So an index may be made of what a function answers, except of the version, which an update changes."""
        self.db.execute("CREATE TABLE regions(region)")
        for name, letters, values in calls():
            columns = ", ".join(["region"] * len(values))
            if not name.endswith(("_agg", "_version")):
                self.db.execute(f"CREATE INDEX '{name}{letters}' ON regions({name}({columns}))")
        with self.assertRaisesRegex(sqlite3.OperationalError, "non-deterministic"):
            self.db.execute("CREATE INDEX versions ON regions(s2_version())")

    def test_null_gives_null(self):
        for name, letters, values in calls():
            self.assertIsNotNone(self.call(name, values), name)
            for k in range(len(letters)):
                self.assertIsNone(self.call(name, values[:k] + [None] + values[k + 1 :]), (name, k))

    def test_wrong_types(self):
        for name, letters, values in calls():
            for k, letter in enumerate(letters):
                for wrong in {"l": (1.5,), "q": (1.5,), "c": (1.5, EMPTY), "b": (), "s": (1, 1.5)}.get(
                        letter, (1.0, "1", b"1")):
                    what = "a level, face, coordinate or number of cells is" if letter in NUMBERS else "a union is"
                    what = {"c": "a cell is", "s": "a shape is"}.get(letter, what)
                    marks = ", ".join("?" * len(values))
                    self.refused(f"s2: {what}", f"{name}({marks})", *values[:k], wrong, *values[k + 1 :])
        for wrong in (1, 1.5, "1", b"", b"\1", EMPTY.decode()):
            self.assertEqual(self.ask("s2_is_union(?)", wrong), 0)
        for wrong in (0, 2, -1, 1.0, "", "0", "2", "x", "0c 14", "0/4", "6/", b"", b"1", EMPTY):
            self.assertEqual(self.ask("s2_is_cell(?)", wrong), 0)
        for table in ("s2_cells", "s2_ancestors", "s2_prepared"):
            self.refused("s2: a union is", f"* FROM {table}(1.5)")
        self.refused("s2: a union is", "* FROM s2_tiles(1.5, 1)")
        self.refused("s2: a level", "* FROM s2_tiles('1', '1')")
        self.refused("s2: a level", "* FROM s2_cells('1', '1')")
        self.refused("s2: a level", "* FROM s2_cells('1', 1, 1.5)")

    def test_the_value_is_named(self):
        for said, expression, *values in (
            ("s2: not a cell: 2", "s2_contains('1', ?)", 2), ("s2: not a cell: 'x'", "s2_level(?)", "x"),
            ("s2: not a cell: '04 it''s'", "s2_count(?)", "04 it's"),
            ("s2: not a cell: '" + 40 * "é" + "'", "s2_count(?)", 50 * "é"),
            ("s2: a cell is an INTEGER or a TEXT: 1.5", "s2_parent(?, 3)", 1.5),
            ("s2: a level, face, coordinate or number of cells is an INTEGER: 'x'", "s2_parent('1', ?)", "x"),
            ("s2: argument out of range: '3', '1'", "s2_range(?, ?)", "3", "1"),
            ("s2: argument out of range: '1', 31", "s2_outer(?, ?)", "1", 31),
            ("s2: union file: bytes are missing: a BLOB of length 3", "s2_leaves(?)", b"\x01\0\0"),
            ("s2: not a cell: 'y'", "s2_union_agg(?)", "y"),
            ("s2: argument out of range: '1', 31", "count(*) FROM s2_cells(?, ?)", "1", 31),
        ):
            with self.assertRaises(sqlite3.OperationalError) as caught:
                self.ask(expression, *values)
            self.assertEqual(str(caught.exception), said)

    def test_the_page_lists_the_errors(self):
        reasons = {"s2: a longitude is a number from -540 to 540",
                   "s2: a latitude is a number from -90 to 90 (the longitude comes first)"}
        for expression in (
            "s2_count(1.5)", "s2_level(1.5)", "s2_parent('1', 1.5)", "s2_level(0)", "s2_leaf(6, 0, 0)",
            "s2_outer(0, 0, 1073741823, 5, 5, 30)", "s2_count(x'01')", "s2_count(x'02')", "s2_map_outer(1, 1)",
            "s2_count(x'01000000000000000000')", "s2_count(x'0101000000000000000000000000000000')",
            "sum(length(u)) FROM (SELECT s2_union_agg('1') OVER (ROWS 1 PRECEDING) AS u FROM s2_cells('1 3 5'))",
        ):
            with self.assertRaises(sqlite3.OperationalError) as refusal:
                self.ask(expression)
            reasons.add(re.match("s2: (?:union file: )?[^:]*", str(refusal.exception))[0])
        rows = "".join(re.findall(r"^\| (`s2: .*?) \|", PAGE, re.M))
        self.assertEqual({*re.findall("`(s2: .*?)`", rows)}, reasons)

    def wrong_in_turn(self, call, letters, values):
        """Each value that an argument may not have, in its place among others that are right, is an error."""
        for k, letter in enumerate(letters):
            reason = "s2: argument out of range" if letter in NUMBERS else "s2: not a cell"
            for wrong in {**NUMBERS, "c": NO_CELLS, "l": NO_LISTS, "q": NO_LISTS}.get(letter, ()):
                self.refused(reason, call, *values[:k], wrong, *values[k + 1 :])

    def test_levels_and_cells_that_there_are_not(self):
        """Asked of each function and of each table that the extension has: never NULL, never no row. So it is of a
        level that is deeper than all cells of an empty union."""
        for name, letters, values in calls():
            self.wrong_in_turn(f"{name}({', '.join('?' * len(values))})", letters, values)
        for name in self.tables() - {"s2_functions"}:  # it takes nothing
            letters = "".join({"x": "l", "level": "v", "modulus": "m"}[column] for column in self.hidden(name))
            for cells in ("0c 14", ""):
                values = [cells, 2, 1][: len(letters)]
                call = f"count(*) FROM {name}({', '.join('?' * len(values))})"
                self.assertIsNotNone(self.ask(call, *values))
                self.wrong_in_turn(call, letters, values)
        self.assertEqual(len(self.tables()), 5)

    def test_a_level_deeper_than_the_cell(self):
        """No cell of it contains the cell, which has no child if it is a leaf: NULL."""
        for level in range(31):
            cell = signed(model.identifier(level, 3))
            said = [self.ask("s2_parent(?, ?) IS NULL", cell, deeper) for deeper in range(31)]
            self.assertEqual(said, [0] * (level + 1) + [1] * (30 - level))
            said = [self.ask("s2_child(?, ?) IS NULL", cell, child) for child in range(4)]
            self.assertEqual(said, [int(level == 30)] * 4)

    def test_texts_that_are_not_one_cell(self):
        for text in ("", "1 1", " 1", "1,"):
            self.refused("s2: not a cell", "s2_cell(?)", text)

    def test_the_empty_union(self):
        for empty in (EMPTY, "", " , "):
            self.assertEqual(self.ask("s2_normalise(?)", empty), EMPTY)
            self.assertEqual(self.ask("s2_tokens(?)", empty), "")
            self.assertEqual(self.ask("s2_count(?) + s2_leaves(?1)", empty), 0)
            self.assertEqual(self.ask("s2_union(?1, '1') = s2_difference('1', ?1)", empty), 1)
            self.assertEqual(self.ask("s2_contains('1', ?1) + s2_contains(?1, ?1)", empty), 2)
            self.assertEqual(self.ask("s2_contains(?1, '1') + s2_intersects(?1, '1')", empty), 0)
            self.assertEqual(self.ask("s2_contains(?1, s2_cell('1')) + s2_intersects(?1, s2_cell('1'))", empty), 0)
            self.assertEqual(self.ask("count(*) FROM s2_cells(?)", empty), 0)
            self.assertEqual(self.ask("s2_outer(?, 3)", empty), EMPTY)

    def test_every_fault_of_a_file(self):
        self.db.execute("CREATE TABLE faults(file)")
        for file, reason in model.faults_of_files():
            self.db.execute("DELETE FROM faults")
            self.db.execute("INSERT INTO faults VALUES(?)", (file,))
            for name, letters, values in calls():
                for k in (k for k, letter in enumerate(letters) if letter in "lq"):
                    marks = ", ".join("?" * len(values))
                    self.refused(f"s2: union file: {reason}", f"{name}({marks})", *values[:k], file, *values[k + 1 :])
                    others = ", ".join("file" if n == k else "?" for n in range(len(values)))
                    self.refused(f"s2: union file: {reason}", f"{name}({others}) FROM faults",
                        *values[:k], *values[k + 1 :])
            for table in ("s2_cells", "s2_ancestors", "s2_prepared"):
                self.refused(f"s2: union file: {reason}", f"* FROM {table}(?)", file)
            self.assertEqual(self.ask("s2_is_union(?)", file), 0)

    def test_a_fault_is_found_in_every_row(self):
        """Even in a row with the length and the place of one that was right, or in one that comes again and again."""
        good = model.file([model.identifier(20, 3 * k) for k in range(2000)])
        bad = good[:9009] + bytes(8) + good[9017:]
        self.db.execute("CREATE TABLE rows(id INTEGER PRIMARY KEY, file)")
        for k in range(10):
            self.db.execute("INSERT INTO rows VALUES(?, ?)", (k, bad if k == 7 else good))
        leaf = signed(model.identifier(30, 4**10))
        for expression in ("s2_contains(file, ?)", "s2_intersects(file, ?)",
            "s2_contains('0401', file) + ?", "s2_count(file) + ?"):
            query = f"SELECT {expression} FROM rows WHERE id <> ? ORDER BY id"
            self.assertEqual(len(self.db.execute(query, (leaf, 7)).fetchall()), 9)
            for _ in range(4):
                self.refused("a number that is not a cell", f"{expression} FROM rows WHERE id = ?", leaf, 7)
            with self.assertRaisesRegex(sqlite3.OperationalError, "a number that is not a cell"):
                self.db.execute(query, (leaf, 8)).fetchall()

    def test_a_constant_of_the_host_that_changes(self):
        """In a trigger SQLite asks for a constant in each row."""
        normal, other = model.file([FACE]), model.file([FACE, FACE])
        large = model.file([FACE] + [model.identifier(9, 4**10 - 3 * k) for k in range(40, 0, -1)])
        self.db.execute("CREATE TABLE answers(answer)")
        self.db.execute("CREATE TABLE rows(x)")
        self.db.executemany("INSERT INTO rows VALUES(?)", [("04",)] * 6)
        self.db.execute("CREATE TEMP VIEW asked AS SELECT 1")
        orders = [normal, "1", normal, signed(FACE), other, "04 1"], [large, "1", other, large, signed(FACE), large]
        for lies in orders:
            for expression in ("s2_contains(lie(), x)", "s2_intersects(x, lie())"):
                left = iter(lies)
                self.db.create_function("lie", 0, left.__next__, deterministic=True)
                self.db.executescript(f"""
                    CREATE TEMP TRIGGER ask INSTEAD OF INSERT ON asked BEGIN
                        INSERT INTO answers SELECT {expression} FROM rows;
                    END;
                    INSERT INTO asked VALUES(1);
                    DROP TRIGGER ask;
                """)
                self.assertEqual(list(left), [])
        self.assertEqual(self.ask("sum(answer) FROM answers"), 24)

    def test_each_bit_of_100_stored_values_flipped(self):
        self.db.execute("CREATE TABLE flipped(id INTEGER PRIMARY KEY, file BLOB)")
        answers = errors = 0
        for _ in range(100):
            file = bytearray(model.file(model.normal(model.runs(self.random.cells(6)))))
            cell = signed(self.random.cell())
            for bit in range(0, 8 * len(file), 13 if UNDER_A_SANITIZER else 1):
                file[bit // 8] ^= 1 << bit % 8
                self.db.execute("INSERT OR REPLACE INTO flipped VALUES(1, ?)", (bytes(file),))
                for expression in (
                    "s2_contains(file, ?)", "s2_intersects('1', file) + ?", "s2_tokens(s2_union(file, ?))",
                    "s2_leaves(s2_difference('1', file)) + ?", "count(*) + ? FROM s2_cells((SELECT file FROM flipped))",
                ):
                    try:
                        source = "" if "FROM" in expression else " FROM flipped"
                        self.db.execute(f"SELECT {expression}{source}", (cell,)).fetchall()
                        answers += 1
                    except sqlite3.OperationalError as error:
                        self.assertIn("s2: union file: ", str(error))
                        errors += 1
                file[bit // 8] ^= 1 << bit % 8
        self.assertGreater(answers, 1000)
        self.assertGreater(errors, 1000)

    def test_heap_limits(self):
        big = model.file([model.identifier(14, 3 * k) for k in range(1000)])
        shuffled = model.file(self.random.sample([model.identifier(14, 3 * k + 1) for k in range(1000)], 1000))
        self.db.execute("CREATE TABLE parts(id, part)")
        for k in range(20):
            part = model.file([model.identifier(12, 7 * n + k) for n in range(200)])
            self.db.execute("INSERT INTO parts VALUES(?, ?)", (k, part))
        tokens = self.ask("s2_tokens(?)", big)
        queries = (
            ("SELECT s2_union(?, ?)", (big, shuffled)), ("SELECT s2_difference(?, ?)", (big, shuffled)),
            ("SELECT s2_intersection(?, ?)", (tokens, shuffled)),
            ("SELECT s2_contains(?, part) FROM parts", (shuffled,)),
            ("SELECT s2_intersects(part, ?) FROM parts", (tokens,)), ("SELECT s2_tokens(?)", (big,)),
            ("SELECT s2_outer(?, 12)", (big,)), ("SELECT s2_outer(1, 5, 900000, 7, 1000000, 16)", ()),
            ("SELECT s2_union_agg(part) FROM parts", ()), ("SELECT count(*), sum(cell) FROM s2_cells(?, 16)", (big,)),
            ("SELECT id % 3, s2_count(s2_union_agg(part)) FROM parts GROUP BY 1", ()),
            ("SELECT s2_normalise(?)", (tokens,)),
            ("SELECT count(*) FROM s2_prepared(?), parts WHERE s2_intersects(value, part)", (shuffled,)),
            ("SELECT sum(s2_contains(s2_union(?, part), part)) FROM parts", (shuffled,)),
            ("SELECT s2_symmetric_difference(?, ?)", (big, shuffled)),
            ("SELECT s2_intersection_agg(part) FROM parts", ()),
            ("SELECT s2_count(s2_union_agg(part) OVER (ORDER BY id)) FROM parts", ()),
            ("SELECT s2_range('0000000000000001', 'afffffffffffffff')", ()), ("SELECT s2_count(zeroblob(1000000))", ()),
            ("SELECT s2_map_outer(?, 8), s2_map_inner(?1, 8)", (TRIANGLE,)),
        )
        for query, values in queries:
            try:
                wanted = self.db.execute(query, values).fetchall()
            except sqlite3.OperationalError as error:
                wanted = str(error)
            refused = answered = 0
            for extra in list(range(0, 180000, 1777)) + list(range(180000, 2000000, 77777)):
                sqlite.sqlite3_hard_heap_limit64(sqlite.sqlite3_memory_used() + extra)
                try:
                    said = self.db.execute(query, values).fetchall()
                except MemoryError:
                    said = None
                except sqlite3.OperationalError as error:
                    said = str(error)
                sqlite.sqlite3_hard_heap_limit64(0)
                if said is None:
                    refused += 1
                else:
                    self.assertEqual(said, wanted, query)
                    answered += 1
            self.assertTrue(refused and answered, (query, refused, answered))


# A union in the table big that is queried for each row of the table regions. If SQLite brings it to each row again,
# it is compared with what it was in the row before.
PREPARED_ONCE = {
    "a parameter": "SELECT sum(s2_contains(?, region)) FROM regions",
    "a parameter of another form": "SELECT sum(s2_contains(s2_normalise(?), region)) FROM regions",
    "s2_prepared in FROM":
        "SELECT sum(s2_contains(value, r.region)) FROM s2_prepared((SELECT region FROM big)), regions AS r",
    "s2_prepared in a subquery":
        "SELECT sum(s2_contains((SELECT value FROM s2_prepared((SELECT region FROM big))), region)) FROM regions",
}
COMPARED_FOR_EACH_ROW = {
    "a subquery": "SELECT sum(s2_contains((SELECT region FROM big), region)) FROM regions",
    "a CTE":
        "WITH b AS MATERIALIZED (SELECT region AS u FROM big) SELECT sum(s2_contains(u, region)) FROM b, regions",
    "a join": "SELECT sum(s2_contains(big.region, regions.region)) FROM big CROSS JOIN regions",
    "two subqueries":
        "SELECT sum(s2_contains((SELECT region FROM big), (SELECT region FROM other))) FROM regions",
}


class Steps(Tests):
    """On the build of counted.c: how many cells are looked at one by one, as a check and a decoding do, and whether
    bytes are compared with others."""

    def test_a_union_that_is_asked_for_each_row(self):
        steps, compared = (ctypes.c_uint64.in_dll(ctypes.CDLL(EXTENSION), name) for name in ("s2_steps", "s2_compared"))
        cells = [model.identifier(20, 3 * k) for k in range(20000)]
        self.db.execute("CREATE TABLE big(region)")
        self.db.execute("INSERT INTO big VALUES(?)", (model.file(cells),))
        self.db.execute("CREATE TABLE other(region)")
        self.db.execute("INSERT INTO other VALUES(?)", (model.file(cells[1:]),))
        self.db.execute("CREATE TABLE regions(region)")
        for k in range(500):
            self.db.execute("INSERT INTO regions VALUES(?)", (model.file(cells[k : k + 9]),))
        for name, query in [*PREPARED_ONCE.items(), *COMPARED_FOR_EACH_ROW.items()]:
            values = (model.file(cells[::-1]),) if "?" in query else ()
            before = steps.value, compared.value
            self.assertEqual(self.db.execute(query, values).fetchone(), (500,), name)
            self.assertLessEqual((steps.value - before[0] - 500 * 9) / len(cells), 5, name)
            self.assertEqual(compared.value > before[1], name in COMPARED_FOR_EACH_ROW, name)
