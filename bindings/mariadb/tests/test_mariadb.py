"""The page for MariaDB: each user function over columns of files, texts, cells, numbers, degrees and shapes, row by row
beside the function of SQLite. BESIDE and the functions below it have the differences."""

import itertools
import json
import re
import sqlite3
import struct
import subprocess
import unittest
from pathlib import Path

from model import maps
from model.engine import INSTALL, WORK, MariadbServer
from model.random_cells import FACE, Random, signed
from model.shapes import box, of_lines, of_polygons, shapes_in_wkb, wkb_of

random = Random(12)
PAGE = (Path(__file__).resolve().parents[1] / "README.md").read_text("utf-8")
CELL = FACE + FACE // 4


def file(cells):
    """The union file of a list of cells, as it is."""
    return b"\1" + len(cells).to_bytes(8, "little") + b"".join(cell.to_bytes(8, "little") for cell in cells)


def words(cells):
    return " ".join(f"{cell:016x}".rstrip("0") for cell in cells)


def lists():
    """Lists of cells in any order, with repeats, cells within others, and four siblings."""
    yield from ([], [FACE], [3, 1], [1, 1], [FACE, CELL], [FACE // 4 * k for k in (1, 3, 5, 7)], range(1, 80, 8))
    near = [FACE, CELL]
    for _ in range(20):
        cells = random.cells(8, near)
        yield cells
        near += cells
    yield from (range(1 + k, 1601 + k, 8) for k in (0, 0, 8))  # files that are worth keeping
    yield range(1601, 1, -8)


LISTS = [list(cells) for cells in lists()]
NO_CELLS = (0, 2, 6, 2**64 - 1, 2**61 * 7 + 1)
FILES = [file(cells) for cells in LISTS]
FILES += [file([number]) for number in NO_CELLS] + [file([FACE, 6])]
FILES += [b"", b"\1", b"\2" + FILES[1][1:], FILES[1][:-1], FILES[1] + b"\0", FILES[2][:9], b"\1" + b"\xff" * 16]
TEXTS = [words(cells) for cells in LISTS[:20] if cells]
TEXTS += ["", " ", "1", "14", "64c", "X", "0/", "0/0", "4/032212", "0/4", "6/", "1,14", "14\t1c", "47e66e1d8f8be23b",
          "1" * 17, "5180949494577750587", "é", "1.5", "-1", "d", "c4"]
CELLS = [signed(cell) for cell in {*NO_CELLS, *(cell for cells in LISTS for cell in cells[:3])}]
NUMBERS = [-2**63, -1, *range(5), 12, 29, 30, 31, 99, 100, 2**32, 2**63 - 1]
DEGREES = [0.0, -0.0, 2.3522, 48.8566, -90.0, 90.0, 90.0000001, 180.0, 540.0, -540.0, 540.0000001, 1e30, -1e-300]
SQUARE, LINE = wkb_of(of_polygons([box(2, 48, 3, 49)])), wkb_of(of_lines([(0, 0), (10, 5)]))
POLYGON = '{"type": "Polygon", "coordinates": [[[2, 48], [3, 48], [3, 49], [2, 48]]]}'
GEOJSON = [POLYGON, POLYGON[:-1], "", " " + POLYGON, "{}", '{"type": "Feature", "geometry": null}',
           POLYGON.replace("3", "é")]
COUNTS = [-1, 7, 300, 1_000_001, 2**32 + 9]
DEPTHS = [-1, 9, 30, 31, 2**32 + 9]
COARSE = [-1, 0, 5, 31, 2**32 + 5]
KINDS = {"files": ("longblob", FILES), "texts": ("longtext", TEXTS), "cells": ("bigint", CELLS),
         "numbers": ("bigint", NUMBERS), "degrees": ("double", DEGREES), "shapes": ("longblob", shapes_in_wkb()),
         "counts": ("bigint", COUNTS), "depths": ("bigint", DEPTHS), "geojson": ("longtext", GEOJSON),
         "coarse": ("bigint", COARSE)}
UNION, CELL_OF, NUMBER, DEGREE = ("files", "texts", "cells"), ("texts", "cells"), ("numbers",), ("degrees", "numbers")
SHAPE, COUNT, DEPTH, EITHER, COARSE_OF = ("shapes",), ("counts",), ("depths",), ("shapes", "geojson"), ("coarse",)
ANY = tuple(KINDS)
MAPS = ("s2_map_outer", "s2_map_inner", "s2_geodesic_outer", "s2_geodesic_inner")
TAKES = {
    **dict.fromkeys(("s2_contains", "s2_intersects", "s2_union", "s2_intersection", "s2_difference",
                     "s2_symmetric_difference"), (UNION, UNION)),
    **dict.fromkeys(("s2_contains_cell", "s2_intersects_cell"), (UNION, CELL_OF)),
    **dict.fromkeys(("s2_count", "s2_leaves", "s2_tokens", "s2_complement", "s2_normalise"), (UNION,)),
    **dict.fromkeys(("s2_level", "s2_face", "s2_range_min", "s2_range_max", "s2_cell", "s2_token", "s2_longitude",
                     "s2_latitude"), (CELL_OF,)),
    **dict.fromkeys(("s2_covering", "s2_interior"), (SHAPE, COUNT, DEPTH)),
    **dict.fromkeys(MAPS[:2], (EITHER, COARSE_OF, COUNT)), **dict.fromkeys(MAPS[2:], (EITHER, COARSE_OF)),
    **dict.fromkeys(("s2_parent", "s2_child"), (CELL_OF, NUMBER)),
    "s2_neighbors": (CELL_OF, DEPTH), "s2_expanded": (UNION, NUMBER), "s2_bounds": (UNION,), "s2_area": (UNION,),
    "s2_common_ancestor": (CELL_OF, CELL_OF), "s2_leaf_at": (DEGREE, DEGREE), "s2_is_cell": (ANY,),
    "s2_is_union": (ANY,),
}
SHAPED = ("s2_covering", "s2_interior", *MAPS)
# Arguments, if some may be left out.
LEAST = {**dict.fromkeys(("s2_covering", "s2_interior", "s2_neighbors"), 1), **dict.fromkeys(MAPS[:2], 2)}
# SQLite has one function for a cell and for a region.
BESIDE = {"s2_contains_cell": "s2_contains", "s2_intersects_cell": "s2_intersects"}
TEXTS_OF = {"s2_union", "s2_intersection", "s2_difference", "s2_symmetric_difference", "s2_complement", "s2_normalise",
            "s2_token", "s2_tokens", "s2_expanded", *MAPS, *LEAST}
READ_BY = {"s2_longitude": float, "s2_latitude": float, "s2_area": float, "s2_bounds": json.loads}


def as_sqlite_has_it(name, kind, value):
    """What SQLite is given in place of a value. MariaDB doesn't say whether a text comes or bytes, so bytes that don't
    begin as a file are a text, and no bytes at all are only for s2_normalise the text of no cell."""
    if not isinstance(value, (bytes, str)) or name in SHAPED:
        return value
    taken = value if isinstance(value, bytes) else value.encode()
    if taken[:1] == b"\1":
        return taken
    is_region = kind == "files" or any("files" in kinds for kinds in TAKES[name]) and kind in UNION
    if taken == b"" and is_region and name not in ("s2_normalise", "s2_is_cell", "s2_is_union"):
        return b""
    return taken.decode("latin-1") if isinstance(value, bytes) else value


class BesideSqlite(MariadbServer):
    @classmethod
    def setUpClass(cls):
        super().setUpClass()
        cls.sqlite = sqlite3.connect(":memory:")
        cls.sqlite.enable_load_extension(True)
        for each in ("mod_s2union", "mod_s2union_geo"):
            cls.sqlite.load_extension(str(WORK / "sqlite_functions" / each))
        cls.ask(f"CREATE DATABASE trial; USE trial; {INSTALL}")
        for kind, (column, values) in KINDS.items():
            rows = [(place, None if value is None else shown(value)) for place, value in enumerate(with_nulls(values))]
            rows = ",".join(f"({place}, {value or 'NULL'})" for place, value in rows)
            cls.ask(f"SET NAMES utf8mb4; USE trial; CREATE TABLE {kind} (k int PRIMARY KEY, v {column}) "
                    f"CHARSET utf8mb4; INSERT INTO {kind} VALUES {rows}")

    def test_each_function_is_asked(self):
        self.assertEqual(set(re.findall(r"FUNCTION (\w+)", INSTALL)), set(TAKES))

    def test_each_function(self):
        """Each row of each pair of columns: the answer of SQLite, and NULL where SQLite has an error."""
        rows = answers = 0
        for name, takes in TAKES.items():
            counts = range(LEAST.get(name, len(takes)), len(takes) + 1)
            for kinds in itertools.chain(*(itertools.product(*takes[:count]) for count in counts)):
                found, wanted = self.in_mariadb(name, kinds), self.in_sqlite(name, kinds)
                given = list(itertools.product(*(with_nulls(KINDS[kind][1]) for kind in kinds)))
                wrong = [each for each in zip(given, found, wanted) if each[1] != each[2]]
                self.assertEqual(((name, kinds), wrong[:3], len(found)), ((name, kinds), [], len(given)))
                rows, answers = rows + len(found), answers + len(found) - found.count(None)
        self.assertGreater((rows, answers), (60_000, 20_000))

    def in_mariadb(self, name, kinds):
        """What MariaDB says of each row of these tables, or of each pair of rows."""
        call = f"{name}({', '.join(f't{place}.v' for place in range(len(kinds)))})"
        tables = " CROSS JOIN ".join(f"{kind} t{place}" for place, kind in enumerate(kinds))
        order = ", ".join(f"t{place}.k" for place in range(len(kinds)))
        shown_call = f"hex({call})" if name in TEXTS_OF else call
        said = self.ask(f"USE trial; SELECT {shown_call} FROM {tables} ORDER BY {order}")
        read = READ_BY.get(name, str)
        return [None if line == "NULL" else read(line) for line in said.splitlines()]

    def in_sqlite(self, name, kinds):
        other = BESIDE.get(name, name)
        statement = f"SELECT {other}({', '.join('?' * len(kinds))})"
        columns = [[as_sqlite_has_it(name, kind, value) for value in with_nulls(KINDS[kind][1])] for kind in kinds]
        if name in BESIDE:  # whose second argument is a cell, and no region
            columns[1] = [self.one_cell(value) for value in columns[1]]
        return [self.asked(statement, values, name) for values in itertools.product(*columns)]

    def one_cell(self, value):
        """The number of a cell, or what is none."""
        cell = self.asked("SELECT s2_cell(?)", (value,), "s2_cell")
        return None if cell is None else int(cell)

    def asked(self, statement, values, name):
        try:
            (answer,), = self.sqlite.execute(statement, values).fetchall()
        except sqlite3.OperationalError:
            return None
        if answer is not None and name in TEXTS_OF:
            return (answer if isinstance(answer, bytes) else answer.encode()).hex().upper()
        return answer if answer is None else READ_BY.get(name, str)(answer)

    def test_each_wrong_type(self):
        """It is an error of the statement, and an error in SQLite, whether it is a constant or in a column, even of no
        row. Whatever comes, s2_is_cell and s2_is_union answer."""
        union, cell = "a union is a BLOB, or cells in an integer or a text", "a cell is an integer or a text"
        number, degree = "a level or the number of a child is an integer", "a longitude or a latitude is a number"
        shape, count = "a shape is a BLOB of WKB", "a number of cells or a level is an integer"
        square = f"x'{SQUARE.hex()}'"
        self.ask("USE trial; CREATE TABLE none (t text, d double, m decimal(20, 0), x varchar(9))")
        columns = {"t": ("'3'", ("'abc'", "'2,3522'", "''")), "d": ("3e0", ("1e30", "5180949494577750587e0")),
                   "m": ("3.5", ("99999999999999999999", "-0.5"))}
        asked = 0
        for name, takes in TAKES.items():
            for place, kinds in enumerate(takes):
                what = {UNION: union, CELL_OF: cell, NUMBER: number, DEGREE: degree, SHAPE: shape, COUNT: count,
                        DEPTH: count, EITHER: f"{shape}, or a text of GeoJSON", COARSE_OF: number}.get(kinds)
                for column, (sample, others) in columns.items():
                    fits = kinds == ANY or ("degrees" in kinds if column != "t" else {"texts", "shapes"} & {*kinds})
                    for value in (column, f"MIN({column})", sample, *others):
                        given = ", ".join(value if at == place else "NULL" for at in range(len(takes)))
                        error = self.error(f"USE trial; SELECT {name}({given}) FROM none")
                        wanted = "" if fits else f"'{name}'; s2: argument {place + 1}: {what}\n"
                        self.assertEqual(error[-len(wanted):] if wanted else error, wanted, (name, given))
                        asked += 1
                        if not fits and value in (sample, *others) and column != "m":
                            other = [{DEGREE: "0", SHAPE: square, EITHER: square}.get(each, "1") for each in takes]
                            other[place] = value
                            statement = f"SELECT {BESIDE.get(name, name)}({', '.join(other)})"
                            with self.assertRaises(sqlite3.OperationalError, msg=statement):
                                self.sqlite.execute(statement).fetchall()
        self.assertGreater(asked, 400)
        for name in ("s2_is_cell", "s2_is_union"):
            said = self.ask(f"SELECT {name}(1.5), {name}(1e0), {name}('x'), {name}(-0.5)")
            self.assertEqual(said, "0\t0\t0\t0\n")
        self.assertIn(f"argument 1: {shape}", self.error("USE trial; SELECT s2_covering(1)"))

    def test_geometries(self):
        """What the server itself has as a geometry; one that isn't made WKB is no shape."""
        square = "ST_GeomFromText('POLYGON((2 48, 3 48, 3 49, 2 49, 2 48))')"
        said = self.ask(f"""USE trial; SELECT s2_contains_cell(s2_covering(ST_AsWKB({square})), s2_leaf_at(2.5, 48.5)),
            s2_contains_cell(s2_interior(ST_AsWKB({square}), 9), s2_leaf_at(3.5, 48.5)), s2_covering({square})""")
        self.assertEqual(said, "1\t0\tNULL\n")
        (call, shape), = re.findall(r"`(s2_map_outer\(ST_AsGeoJSON\((.*)\), 9\))`", PAGE)  # what the page shows
        said = self.ask(f"SELECT {call} = s2_map_outer(ST_AsWKB({shape}), 9), "
                        f"s2_contains_cell({call}, s2_leaf_at(3, 49))")
        self.assertEqual(said, "1\t1\n")

    def test_texts_and_bytes(self):
        """Those of tests/model/maps.py, in the file that S2UNION_MAPS names: an error is NULL and a warning."""
        asked = [row for row in maps.asked() if (row.data[:1] in (b"\0", b"\1")) == (row.form == "wkb")]  # as it reads
        warnings = "SHOW WARNINGS; "  # a statement without a table keeps those of the one before, if it has none
        calls = [f"SELECT hex(s2_{row.edges}_{name}({shown(row.data)}, {', '.join(map(str, row.numbers))})); "
                 f"{warnings if row.error else ''}SELECT '--';" for row in asked for name in ("outer", "inner")]
        said = self.ask("USE trial; " + "\n".join(calls)).split("\n--\n")
        wanted = [f"NULL\nWarning\t1416\ts2: {row.error}" if row.error else file(cells).hex().upper()
                  for row in asked for cells in (row.outer, row.inner)]
        for call, answer, right in zip(calls, said, [*wanted, ""], strict=False):
            self.assertEqual(answer, right, call[:400])
        self.assertEqual((len(said), len(asked) > 2000), (len(wanted) + 1, True))

    def test_a_warning_of_a_shape(self):
        """A column that is strict takes no such NULL, as of the server's own functions."""
        many = struct.pack("<B2I", 1, 6, 900) + 900 * SQUARE  # each of them has fewer cells than it may have
        said = self.ask(f"USE trial; SELECT s2_map_outer('{POLYGON}', 31), s2_map_inner(x'{SQUARE.hex()}', 30),"
                        f" s2_geodesic_inner(x'{many.hex()}', 18); SHOW WARNINGS").splitlines()
        self.assertEqual(said, ["NULL\tNULL\tNULL", "Warning\t1416\ts2: argument out of range",
                                "Warning\t1416\ts2: too many cells", "Warning\t1416\ts2: too many cells"])
        self.ask("USE trial; CREATE TABLE strict (region longblob)")
        self.assertIn("s2: the text is not JSON: byte 0, part 0, ring 0, position 0",
                      self.error("USE trial; INSERT INTO strict VALUES (s2_map_outer('x', 9))"))
        self.assertEqual(self.ask("USE trial; SELECT count(*) FROM strict"), "0\n")
        self.assertEqual(self.ask(f"SET NAMES latin1; SELECT s2_map_outer('{POLYGON}', 9) = s2_map_outer(x'"
                                  f"{POLYGON.encode().hex()}', 9)"), "1\n")

    @classmethod
    def error(cls, statement):
        return subprocess.run(cls.client, input=statement, capture_output=True, check=False, text=True,
                              timeout=600).stderr

    def test_another_number_of_arguments(self):
        for name, takes in TAKES.items():
            for count in {*range(5)} - {*range(LEAST.get(name, len(takes)), len(takes) + 1)}:
                error = self.error(f"USE trial; SELECT {name}({', '.join(['NULL'] * count)})")
                self.assertRegex(error, rf"'{name}'; s2: another number of arguments", (name, count))

    def test_parameters_and_variables(self):
        """A NULL that has no type yet is NULL, also as a parameter, which may be a number the next time."""
        said = self.ask("""USE trial; PREPARE p FROM 'SELECT s2_parent(?, ?)'; SET @cell = '14', @level = 0;
            EXECUTE p USING @cell, @level; SET @level = NULL; EXECUTE p USING @cell, @level; SET @cell = 1, @level = 30;
            EXECUTE p USING @cell, @level; SELECT s2_leaf_at(NULL, 1), s2_parent(1, (SELECT NULL));""")
        self.assertEqual(said.split(), [str(FACE), "NULL", "1", "NULL", "NULL"])
        self.assertIn("argument 2: a level", self.error("USE trial; SELECT s2_parent(1, @none := '30')"))
        unsigned = self.ask("SELECT s2_level(10376293541461622785), s2_cell(10376293541461622785)")
        self.assertEqual(unsigned.split(), ["30", str(signed(10376293541461622785))])

    def test_answers_that_the_server_keeps(self):
        """They aren't cut at the length of an argument."""
        two = file([1, 9]).hex()
        said = self.ask(f"USE trial; CREATE TABLE kept AS SELECT s2_token(1), hex(s2_normalise('1')), "
                        f"s2_tokens(x'{two}'); SELECT * FROM kept")
        self.assertEqual(said, f"{1:016x}\t{file([FACE]).hex().upper()}\t{words([1, 9])}\n")
        given = {UNION: "'47e66c 89c24'", CELL_OF: "'89c25'", SHAPE: f"x'{SQUARE.hex()}'", NUMBER: "9",
                 EITHER: f"'{POLYGON}'", COARSE_OF: "9"}
        names = sorted(TEXTS_OF | {"s2_bounds"})
        calls = [f"{name}({', '.join(given[each] for each in TAKES[name][: LEAST.get(name)])})" for name in names]
        columns = ", ".join(f"{call} AS {name}" for name, call in zip(names, calls))
        said = self.ask(f"USE trial; CREATE TABLE all_kept AS SELECT {columns}; "
                        f"SELECT hex(concat({', '.join(names)})) FROM all_kept")
        self.assertEqual(said, self.ask(f"SELECT hex(concat({', '.join(calls)}))"))
        self.assertNotIn("NULL", said)

    def test_a_statement_is_killed(self):
        """Inside of a call: it has ended before another one has, which begins then and has a fifth of its work."""
        ring = [(0, 0), (30, 5), (40, 40), (10, 30), (-5, 20), (0, 0)]
        call = f"SELECT length(s2_covering({shown(wkb_of(of_polygons([ring])))}, {{1}})) AS {{0}}"
        running = "FROM information_schema.processlist WHERE info LIKE 'SELECT length(%AS killed'"
        killed = subprocess.Popen(self.client, stdin=subprocess.PIPE, stdout=subprocess.PIPE, stderr=subprocess.PIPE,
                                  text=True)
        killed.stdin.write(f"USE trial; {call.format('killed', 1000000)}; SELECT 'goes on';\n")
        killed.stdin.close()
        while self.ask(f"SELECT count(*) {running}") != "1\n":
            self.assertIsNone(killed.poll())
        left = self.ask(f"USE trial; SET @id = (SELECT id {running}); EXECUTE IMMEDIATE concat('KILL QUERY ', @id);"
                        f" {call.format('other', 200000)}; SELECT count(*) {running}").split()
        self.assertEqual((int(left[0]) > 100000, left[1]), (True, "0"))
        self.assertIn("Query execution was interrupted", killed.stderr.read())
        killed.stdout.close(), killed.stderr.close(), killed.wait()

    def test_memory_goes_back_after_each_row(self):
        many = list(range(1, 160001, 8))
        self.ask(f"""USE trial; CREATE TABLE large (u longblob, w longblob, t longtext);
            INSERT INTO large VALUES (x'{file(many).hex()}', x'{file(many[::-1]).hex()}', '{words(many)}');""")
        for call in (f"length(s2_covering(x'{SQUARE.hex()}', 500))", f"s2_interior(x'{LINE.hex()}', 500)",
                     f"s2_covering(x'{SQUARE[:-1].hex()}')", f"length(s2_map_outer(x'{SQUARE.hex()}', 9))",
                     f"s2_map_inner(x'{LINE.hex()}', 9)", f"length(s2_geodesic_inner(x'{SQUARE.hex()}', 9))",
                     "length(s2_union(u, w))", "length(s2_complement(u))",
                     "length(s2_tokens(u))", "length(s2_normalise(t))", "s2_contains(u, t)", "s2_contains(w, u)",
                     "s2_union(u, 'x')", "s2_count(w)", "s2_intersects_cell(t, 1)", "s2_bounds(u)", "s2_area(w)",
                     "s2_neighbors('1', 9)", "s2_neighbors('1', 30)", "s2_expanded(u, 30)"):
            before = self.resident()
            self.ask(f"USE trial; SELECT BENCHMARK(300, {call}) FROM large")
            self.assertLess(self.resident() - before, 30_000, call)
        for _ in range(100):  # what a statement keeps
            twice = "SELECT s2_contains(a.u, b.u) FROM large a, large b, (SELECT 1 UNION SELECT 2) c;"
            self.ask("USE trial; " + twice * 9)
        self.assertLess(self.resident() - before, 60_000)


def with_nulls(values):
    """The values, with a NULL after the first and at the end."""
    return [*values[:1], None, *values[1:], None]


def shown(value):
    """A value in SQL."""
    if isinstance(value, bytes):
        return f"x'{value.hex()}'"
    return f"'{value}'" if isinstance(value, str) else repr(value)


if __name__ == "__main__":
    unittest.main()
