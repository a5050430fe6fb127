"""The extension for PostgreSQL against the plain model, its indexes against scans, and what it refuses.

The server is the one that PGHOST names, EXTENSIONS is its folder of extensions, and the model is in tests/model.
S2UNION_ROUNDS is the number of random rows: 1,000 if it isn't set. With S2UNION_ONE_SESSION most scripts share one
session."""

import bisect
import hashlib
import os
import re
import struct
import subprocess
import tempfile
import unittest
from pathlib import Path

from model import unions as model
from model import plain_sql
from model import random_cells
from model.places import MIDDLES, POINTS
from model.random_cells import signed

ROUNDS = int(os.environ.get("S2UNION_ROUNDS", "1000"))
FLIPPED = min(100, ROUNDS // 10)
QUESTIONS = min(2000, 2 * ROUNDS)
AS_POSTGRES = ["runuser", "-u", "postgres", "--"] if os.geteuid() == 0 else []
DATABASE = os.environ.get("PGDATABASE", "postgres")
# The ticks of a processor that the session has taken. Unlike the clock they don't go on while others have it.
TICKS = "SELECT split_part(s, ' ', 14)::int + split_part(s, ' ', 15)::int FROM pg_read_file('/proc/self/stat') s"
BINDINGS = Path(__file__).resolve().parents[3] / "bindings"
PSQL = ["psql", "-XAqt", "-v", "ON_ERROR_STOP=1", "-d"]
TRY = """
CREATE OR REPLACE FUNCTION try(query text) RETURNS text LANGUAGE plpgsql AS $$
DECLARE answer text;
BEGIN
    EXECUTE query INTO answer;
    RETURN answer;
EXCEPTION WHEN OTHERS THEN
    RETURN 'error: ' || SQLERRM;
END $$;
"""


STATE = """
CREATE OR REPLACE FUNCTION state_of(query text) RETURNS text LANGUAGE plpgsql AS $$
BEGIN
    EXECUTE query;
    RETURN 'no error';
EXCEPTION WHEN OTHERS THEN
    RETURN SQLSTATE;
END $$;
"""


class Random(random_cells.Random):
    def text(self, cells):
        blank = self.choice([" ", ",", ", ", "  "])
        return blank.join(self.choice([model.token, model.debug])(cell) for cell in cells)


class Session:
    """One psql for script after script, of which each finds a session that looks new. Under valgrind and under the
    sanitizers most of the time of a short script is what a new process of the server takes."""

    END = "the script has ended"
    STAYS = "s2_limit" # what outlives DISCARD ALL

    def __init__(self):
        self.process = self.errors = None

    def lines(self, script):
        if not self.process:
            self.errors = tempfile.TemporaryFile("w+")
            self.process = subprocess.Popen([*PSQL, DATABASE], stdin=subprocess.PIPE, stdout=subprocess.PIPE,
                                            stderr=self.errors, text=True)
        said = []
        with tempfile.NamedTemporaryFile("w", suffix=".sql") as file:
            print(script, file=file, flush=True)
            print(f"\\i {file.name}\nDISCARD ALL;\n\\echo {self.END}", file=self.process.stdin, flush=True)
            for line in self.process.stdout:
                if line == f"{self.END}\n":
                    return "".join(said).splitlines()
                said.append(line)
        self.process = None
        self.errors.seek(0)
        raise AssertionError(self.errors.read())


SESSION = Session() if "S2UNION_ONE_SESSION" in os.environ else None


def psql(script, database=DATABASE):
    """The lines that a script writes. An error of the server ends the script."""
    if SESSION and database == DATABASE and SESSION.STAYS not in script:
        return SESSION.lines(script)
    run = subprocess.run([*PSQL, database], input=script, stdout=subprocess.PIPE, stderr=subprocess.PIPE, text=True,
                         check=False)
    if run.returncode != 0:
        raise AssertionError(run.stderr)
    return run.stdout.splitlines()


def ask(expressions, before="", database=DATABASE):
    """What each expression is, as text, or its error. One statement asks for all, each as a query of its own."""
    rows = ",\n".join(f"($q$SELECT ({sql})::text$q$)" for sql in expressions)
    answers = psql(f"{before}SELECT coalesce(try(query), 'null') FROM (VALUES {rows}) asked(query);\n", database)
    assert len(answers) == len(expressions), answers
    return answers


def u(cells):
    return "'" + " ".join(model.token(cell) for cell in cells) + "'::s2union"


def md5(text):
    return hashlib.md5(text.encode()).hexdigest()


def tokens(cells):
    return " ".join(model.token(cell) for cell in cells)


def array(cells):
    return "{" + ",".join(str(signed(cell)) for cell in cells) + "}"


def boolean(value):
    return "true" if value else "false"


class Tests(unittest.TestCase):
    @classmethod
    def setUpClass(cls):
        psql("SET client_min_messages = error; CREATE EXTENSION IF NOT EXISTS s2union;" + TRY)

    def setUp(self):
        self.random = Random(20261122)

    def all_are(self, pairs, before=""):
        answers = ask([sql for sql, _ in pairs], before)
        for (sql, wanted), answer in zip(pairs, answers):
            self.assertEqual(answer, wanted, sql)

    def all_refused(self, pairs):
        answers = ask([sql for sql, _ in pairs])
        for (sql, wanted), answer in zip(pairs, answers):
            self.assertTrue(answer.startswith("error: ") and wanted in answer, (sql, wanted, answer))


class AgainstTheModel(Tests):
    def test_sets_and_questions(self):
        pairs = []
        for _ in range(ROUNDS):
            xs = self.random.cells()
            ys = xs[::-1] if self.random.random() < 0.1 else self.random.cells(near=xs)
            a, b = f"'{self.random.text(xs)}'::s2union", u(ys)
            x, y = model.runs(xs), model.runs(ys)
            normal = model.normal(x)
            both = model.common(x, y)
            contains, within = not model.common(y, model.rest(x)), not model.common(x, model.rest(y))
            order = (normal > model.normal(y)) - (normal < model.normal(y))
            pairs += [
                (a, tokens(normal)), (f"{a} | {b}", tokens(model.normal(x + y))),
                (f"{a} & {b}", tokens(model.normal(both))),
                (f"{a} - {b}", tokens(model.normal(model.common(x, model.rest(y))))),
                (f"{a} # {b}",
                 tokens(model.normal(model.common(x, model.rest(y)) + model.common(y, model.rest(x))))),
                (f"~{a}", tokens(model.normal(model.rest(x)))),
                (f"s2_complement({b})", tokens(model.normal(model.rest(y)))),
                (f"{a} @> {b}", boolean(contains)),
                (f"{a} <@ {b}", boolean(within)), (f"{a} && {b}", boolean(both)), (f"{a} = {b}", boolean(x == y)),
                (f"s2union_cmp({a}, {b})", str(order)), (f"s2_count({a})", str(len(normal))),
                (f"{a} < {b}", boolean(order < 0)), (f"{a} <= {b}", boolean(order <= 0)),
                (f"{a} <> {b}", boolean(order != 0)),
                (f"{a} > {b}", boolean(order > 0)), (f"{a} >= {b}", boolean(order >= 0)),
                (f"s2_leaves({a})", str(model.count(x))), (f"{a}::bytea", "\\x" + model.file(normal).hex()),
                (f"('\\x{model.file(self.random.sample(xs, len(xs))).hex()}'::bytea)::s2union = {a}", "true"),
                (f"s2union_hash({a}) = s2union_hash({u(normal)})", "true"),
                (f"s2union_hash_extended({a}, 7) = s2union_hash_extended({u(normal)}, 7)", "true"),
                (f"s2union_hash_extended({a}, 0)::bit(32) = s2union_hash({a})::bit(32)", "true"),
                (f"s2union_hash_extended({a}, 7) = s2union_hash_extended({a}, 8)", "false"),
                (f"s2_cells({a})", array(normal)), (f"{a}::bigint[]", array(normal)),
                (f"('{array(self.random.sample(xs, len(xs)))}'::bigint[])::s2union = {a}", "true"),
                (f"s2_tokens({a})", tokens(normal)), (f"s2_is_union('\\x{model.file(normal).hex()}')", "true"),
                (f"s2_is_union('\\x{model.file(xs).hex()}')", boolean(xs == normal)),
            ]
        self.all_are(pairs)

    def test_ancestors(self):
        scattered = [model.identifier(30, face * 4**30) for face in range(6)]
        unions = [scattered] + [model.normal(model.runs(self.random.cells())) for _ in range(ROUNDS // 3)]
        self.all_are([(f"s2_ancestors({u(cells)})", array(model.ancestors(cells))) for cells in unions])

    def test_an_array_of_two_dimensions(self):
        rows = "[s2_cell('24'), s2_cell('0c')], [s2_cell('14'), s2_cell('04')]"
        self.all_are([(f"(ARRAY[{rows}])::s2union", "04 0c 14 24")])

    def test_cells_cut(self):
        pairs = []
        for _ in range(ROUNDS // 3):
            normal = model.normal(model.runs(self.random.cells()))
            least = self.random.level_from(normal)
            small, modulus = [c for c in normal if model.cell(c)[0] > least - 4], self.random.randint(1, 3)
            pairs += [
                (f"s2_cells({u(small)}, {least}, {modulus})", array(model.cut(small, least, modulus))),
                (f"s2_cells({u(small)}, {least})", array(model.cut(small, least, 1))),
            ]
        self.all_are(pairs)

    def test_tiles(self):
        pairs = []
        for _ in range(ROUNDS // 3):
            xs = self.random.cells()
            runs = model.runs(xs)
            level = self.random.level_from(model.normal(runs))
            rows = [f"{signed(tile)}: {tokens(part)}" for tile, part in model.tiles(runs, level)]
            pairs.append((f"string_agg(tile || ': ' || part, ', ') FROM s2_tiles({u(xs)}, {level})",
                          ", ".join(rows) or "null"))
        pairs = [(f"(SELECT {query})", answer) for query, answer in pairs]
        self.all_are(pairs + [("(SELECT count(*) FROM s2_tiles('1 9', 4) WHERE part = tile::s2union)", "512")])

    def test_the_edges_of_a_union(self):
        """As signed numbers: faces 4 and 5 come first."""
        pairs = [("s2union_least('')", "null"), ("s2union_greatest('')", "null")]
        for _ in range(ROUNDS // 3):
            xs = self.random.cells()
            leaves = [signed(2 * leaf + 1) for cell in xs for leaf in (model.run(cell)[0], model.run(cell)[1] - 1)]
            for name, edge in (("least", min), ("greatest", max)):
                pairs.append((f"s2union_{name}({u(xs)})", str(edge(leaves)) if xs else "null"))
        self.all_are(pairs)

    def test_cells(self):
        pairs = []
        for _ in range(ROUNDS):
            number = self.random.cell()
            level, place = model.cell(number)
            first, end = model.run(number)
            xs = self.random.cells(near=[number])
            contains = not model.common([(first, end)], model.rest(model.runs(xs)))
            shares = bool(model.common([(first, end)], model.runs(xs)))
            cell, other = f"({signed(number)})::bigint", self.random.near(number)
            pairs += self.about_cells(number, other, cell, f"({signed(other)})::bigint") + [
                (f"{cell}::s2union", model.token(number)),
                (f"{u(xs)} @> {cell}", boolean(contains)), (f"{cell} <@ {u(xs)}", boolean(contains)),
                (f"{u(xs)} && {cell}", boolean(shares)), (f"{cell} && {u(xs)}", boolean(shares)),
            ]
        self.all_are(pairs)

    def about_cells(self, number, other, one, two):
        """What each function answers of a cell and of another, which SQL has as `one` and `two`."""
        level, place = model.cell(number)
        first, end = model.run(number)
        above, kth = self.random.randint(0, 30), self.random.randrange(4)
        parent = str(signed(model.identifier(above, place // 4 ** (level - above)))) if above <= level else "null"
        child = str(signed(model.identifier(level + 1, 4 * place + kth))) if level < 30 else "null"
        leaves = (first, end - 1, model.run(other)[0], model.run(other)[1] - 1)
        both = [k for k in range(31) if len({leaf // 4 ** (30 - k) for leaf in leaves}) == 1]
        common = str(signed(model.identifier(both[-1], first // 4 ** (30 - both[-1])))) if both else "null"
        span = tokens(model.normal([(first, leaves[3] + 1)]))[:24] if first <= leaves[3] else (
            f"error: s2union: argument out of range: {signed(number)} to {signed(other)}")
        return [
            (f"s2_cell({one})", str(signed(number))), (f"s2_token({one})", model.token(number)),
            (f"s2_is_cell({one})", "true"),
            (f"s2_debug({one})", model.debug(number)),
            (f"s2_level({one})", str(level)), (f"s2_face({one})", str(place // 4**level)),
            (f"s2_range_min({one})", str(signed(2 * first + 1))),
            (f"s2_range_max({one})", str(signed(2 * end - 1))),
            (f"s2_parent({one}, {above})", parent), (f"s2_child({one}, {kth})", child),
            (f"s2_common_ancestor({one}, {two})", common), (f"left(s2_range({one}, {two})::text, 24)", span),
        ]

    def written(self, cells, typed=False):
        """A text that names cells, as a literal or as a value of type text."""
        return f"'{self.random.text(cells)}'" + self.random.choice(["::text", "::varchar"]) * typed

    def test_cells_that_texts_name(self):
        pairs = []
        for _ in range(ROUNDS // 3):
            number = self.random.cell()
            other = self.random.near(number)
            ones, twos = ([f"({signed(cell)})::bigint", self.written([cell]), self.written([cell], True)]
                          for cell in (number, other))
            for one, two in ((1, 1), (2, 2), (1, 2), (2, 1), (1, 0), (0, 1), (2, 0), (0, 2)):
                pairs += self.about_cells(number, other, ones[one], twos[two])
        self.all_are(pairs)

    def test_numbers_and_texts_that_may_be_cells(self):
        pairs = [(f"s2_is_cell('{text}')", "false") for text in ("", "0", "2", "x", "0c 14", "0/4", "6/", "é")]
        for _ in range(ROUNDS // 3):
            cell = self.random.cell()
            for number in (self.random.getrandbits(64), cell ^ 1 << self.random.randrange(64)):
                is_cell = boolean(model.cell(number) is not None)
                pairs += [(f"s2_is_cell(({signed(number)})::bigint)", is_cell),
                          (f"s2_is_cell('{number:016x}')", is_cell)]
        self.all_are(pairs)

    def test_questions_about_what_texts_name(self):
        """Each side is a union, a cell or a text; a text of type text beside a union has to be cast."""
        pairs = []
        for _ in range(ROUNDS // 3):
            xs, ys = self.random.cells(3), self.random.cells(3)
            if self.random.random() < 0.7:
                ys = self.random.cells(3, near=xs)
            x, y = model.runs(xs), model.runs(ys)
            answers = {"s2_contains": not model.common(y, model.rest(x)), "s2_intersects": bool(model.common(x, y)),
                       "s2_within": not model.common(x, model.rest(y))}
            one, two = ([u(cells), self.written(cells), self.written(cells, True)]
                        + [f"({signed(cell)})::bigint" for cell in cells if len(cells) == 1] for cells in (xs, ys))
            pairs += [(f"{name}({a}, {b})", boolean(answer)) for name, answer in answers.items()
                      for a in one for b in two if {a, b} != {one[0], two[2]} and {a, b} != {one[2], two[0]}]
            pairs += [(f"({one[2]})::s2union", tokens(model.normal(x))),
                      (f"s2union({one[2]})", tokens(model.normal(x))), (f"s2union({one[1]})", tokens(model.normal(x)))]
        self.all_are(pairs)

    def test_arrays_of_texts_and_unions_of_none(self):
        pairs = []
        for _ in range(ROUNDS // 3):
            xs = self.random.cells()
            normal = model.normal(model.runs(xs))
            words = ", ".join(f"'{self.random.choice([model.token, model.debug])(cell)}'" for cell in xs)
            pairs += [
                (f"ARRAY[{words}]::text[]::s2union", tokens(normal)), (f"s2_is_empty({u(xs)})", boolean(not xs)),
                (f"(SELECT array_agg(cell) FROM unnest({u(xs)}) AS cell)", array(normal) if normal else "null"),
                (f"(SELECT string_agg(s2_token(c), ' ') FROM (SELECT unnest({u(xs)}) AS c) t)",
                 tokens(normal) or "null"),
                (f"(SELECT s2_union_agg(word) FROM unnest(ARRAY[{words}]::text[]) AS word)",
                 tokens(normal) if xs else "null"),
            ]
        self.all_are(pairs + [("s2_union_agg('04 0c 14')", "04 0c 14"), ("(SELECT count(*) FROM unnest(NULL::s2union))",
                                                                         "0")])

    def test_cells_in_plain_sql(self):
        """What docs/ENGINES.md says, beside the extension's functions."""
        pairs = []
        for cell, level, near in plain_sql.questions(self.random):
            number, other = f"({signed(cell)})::bigint", f"({signed(near)})::bigint"
            parent, same, first, last = plain_sql.key(number, level)
            least, greatest = list(plain_sql.key(other, level))[2:]
            holds = f"{other} BETWEEN {first} AND {last}"
            pairs += [
                (f"({parent}) = s2_parent({number}, {level}) AND ({same}) = s2_parent({number}, {level})", "true"),
                (f"({first}) = s2_range_min({number}) AND ({last}) = s2_range_max({number})", "true"),
                (f"({holds}) = s2_contains({number}::s2union, {other})", "true"),
                (f"({holds} OR {number} BETWEEN {least} AND {greatest}) = s2_intersects({number}::s2union, {other})",
                 "true"),
            ]
        self.all_are(pairs)

    def test_coverings_and_ranges(self):
        pairs = []
        for _ in range(ROUNDS // 3):
            xs, level = self.random.cells(5), self.random.randint(0, 30)
            x = model.runs(xs)
            pairs.append((f"s2_outer({u(xs)}, {level})", tokens(model.normal(model.around(x, level)))))
            pairs.append((f"s2_inner({u(xs)}, {level})", tokens(model.normal(model.within(x, level)))))
            first, last = sorted((self.random.cell(), self.random.cell()))
            a, b = model.run(first)[0], model.run(last)[1]
            pairs.append((f"s2_range({signed(first)}, {signed(last)})", tokens(model.normal([(a, b)]))))
            place = self.random.randrange(6), self.random.randrange(2**30), self.random.randrange(2**30)
            leaf = f"s2_leaf({place[0]}, {place[1]}, {place[2]})"
            box = f"{place[0]}, {place[1]}, {place[1]}, {place[2]}, {place[2]}"
            pairs.append((f"s2_outer({box}, 30) = {leaf}::s2union and s2_inner({box}, 30) = {leaf}::s2union", "true"))
            pairs.append((f"s2_outer({box}, {level}) = s2_parent({leaf}, {level})::s2union", "true"))
            pairs.append((f"s2_inner({box}, {min(level, 29)}) = ''::s2union", "true"))
            last, one = 2**30 - 1, model.plain.leaf_at(*place)[1]
            whole = f"{place[0]}, 0, {last}, 0, {last}"
            for bounds, region in ((box, (one, one + 1)), (whole, model.run(model.identifier(0, place[0])))):
                both = model.common(x, [region])
                for name, want in (("s2_outer", model.around), ("s2_inner", model.within)):
                    pairs.append((f"{name}({u(xs)}, {bounds}, {level})", tokens(model.normal(want(both, level)))))
        self.all_are(pairs)

    def test_long_texts(self):
        """They are read and written in pieces."""
        cells = [model.identifier(28, 3 * k) for k in range(70000)]
        lists = [cells[: 9000 + shift] for shift in range(0, 40, 3)]
        texts = [" " * shift + self.random.text(some) for shift, some in enumerate(lists)]
        lines = "".join(f"SELECT md5('{text}'::s2union::text);\n" for text in [*texts, tokens(cells)])
        self.assertEqual(psql(lines), [md5(tokens(some)) for some in [*lists, cells]])
        words = [f"1/0123{'0' * shift}park" for shift in range(40)]
        words += ["0" * 65534, "0" * 65535, "0" * 65536, "0" * 200000, "1/" + "0" * 70000, "1" * 70000]
        wrongs = [f"{texts[0][:65500].rpartition(' ')[0]} {word}\n{texts[1]}" for word in words]
        said = psql("".join(f"SELECT try($q$SELECT '{text}'::s2union$q$);\n" for text in wrongs))
        error = 'error: invalid input syntax for type s2union: "{:.40}" names no cell'
        self.assertEqual(said, [error.format(word) for word in words])
        self.all_are([("s2_count((repeat('04 ', 2000000) || '14')::s2union)", "2")])

    def test_large_values_that_come_again(self):
        """In each row, in every other row, or never twice; as a parameter of a generic plan, and from a subquery."""
        said = psql("""
            SET client_min_messages = error; SET max_parallel_workers_per_gather = 0;
            DROP TABLE IF EXISTS large;
            CREATE TABLE large AS SELECT k AS id, s2_outer(0, k * 90000000, k * 90000000 + 100000000, k % 3 * 200000000,
                k % 3 * 200000000 + 300000000, 12) AS region FROM generate_series(0, 8) AS k;
            INSERT INTO large SELECT 9 + k, s2_outer(0, 0, 400000000, 0, 700000000, 11) - region
                FROM generate_series(0, 1) AS k, large WHERE id = 3 * k;
            SELECT min(pg_column_size(region)) > 2000 FROM large;
            PREPARE shared(s2union) AS SELECT array_agg(id ORDER BY id) FROM large WHERE region && $1;
            SET plan_cache_mode = force_generic_plan;
            CREATE OR REPLACE FUNCTION answers(x s2union, y s2union) RETURNS text LANGUAGE sql IMMUTABLE AS $$
                SELECT format('%s%s%s', s2_count(x & y) > 0, s2_count(y - x) = 0, s2_count(x - y) = 0) $$;
        """ + "".join(f"""
            SELECT count(*), count(*) FILTER (WHERE said IS DISTINCT FROM answers(x, y)) FROM (
                SELECT x.region AS x, y.region AS y,
                    format('%s%s%s', x.region && y.region, x.region @> y.region, x.region <@ y.region) AS said
                FROM large x, large y ORDER BY {order} OFFSET 0) q;
        """ for order in ("x.id, y.id", "y.id, x.id", "x.id + y.id")) + """
            SELECT format('EXECUTE shared(%L);', region), format('SELECT array_agg(id ORDER BY id) FROM large
                WHERE region && (SELECT region FROM large WHERE id = %s)', id),
                format('SELECT array_agg(id ORDER BY id) FROM large WHERE s2_count(region & %L) > 0', region)
            FROM large ORDER BY id \\gexec
        """)
        self.assertEqual(said[:4], ["t", "121|0", "121|0", "121|0"])
        self.assertEqual(said[4::3], said[6::3])
        self.assertEqual(said[5::3], said[6::3])

    def test_binary_copy(self):
        rows = [self.random.cells() for _ in range(500)]
        values = ", ".join(f"({k}, {u(xs)})" for k, xs in enumerate(rows))
        said = psql(f"""
            SELECT current_setting('data_directory') || '/regions.copy' AS file \\gset
            CREATE TEMP TABLE a(id int, region s2union);
            CREATE TEMP TABLE b(LIKE a);
            INSERT INTO a VALUES {values}, (999, NULL);
            COPY a TO :'file' (FORMAT binary);
            COPY b FROM :'file' (FORMAT binary);
            SELECT count(*) FROM a JOIN b USING (id) WHERE a.region = b.region;
            SELECT count(*) FROM b WHERE region IS NULL;
        """)
        self.assertEqual(said, ["500", "1"])


def stored(cells):
    """The bytes of a stored value after its length."""
    return b"\1\0\0\0" + b"".join(cell.to_bytes(8, "little") for cell in cells)


def flips_of(value):
    """How many flips of one bit leave a stored value valid, and how many don't."""
    good, bits = 0, 8 * len(value)
    for bit in range(32, bits):
        flipped = int.from_bytes(value, "little") ^ 1 << bit
        words = flipped.to_bytes(len(value), "little")[4:]
        cells = [int.from_bytes(words[k : k + 8], "little") for k in range(0, len(words), 8)]
        good += all(map(model.cell, cells)) and model.normal(model.runs(cells)) == cells
    return good, bits - good


# The functions of one cell, and their other arguments.
OF_A_CELL = {"s2_cell": "", "s2_token": "", "s2_debug": "", "s2_level": "", "s2_face": "", "s2_parent": ", 0",
             "s2_child": ", 0", "s2_range_min": "", "s2_range_max": ""}

OF_A_STORED_VALUE = (
    "region", "region @> s2_cell('04')", "region && '1'", "'1' - region", "region | '3'", "region::bytea",
    "s2_cells(region)", "s2_ancestors(region)", "region < '1'", "s2union_hash(region)", "s2_outer(region, 3)",
    "s2_union_agg(region)",
)


class WhatIsRefused(Tests):
    @classmethod
    def setUpClass(cls):
        super().setUpClass()
        psql("""
            SET client_min_messages = error;
            DROP TYPE IF EXISTS raw8 CASCADE;
            CREATE TYPE raw8;
            CREATE FUNCTION raw8_in(cstring) RETURNS raw8 LANGUAGE internal IMMUTABLE STRICT AS 'byteain';
            CREATE FUNCTION raw8_out(raw8) RETURNS cstring LANGUAGE internal IMMUTABLE STRICT AS 'byteaout';
            CREATE TYPE raw8 (INPUT = raw8_in, OUTPUT = raw8_out, INTERNALLENGTH = VARIABLE, ALIGNMENT = double);
            CREATE CAST (raw8 AS s2union) WITHOUT FUNCTION;
        """)

    def test_stored_values_that_are_cut(self):
        cells = [model.identifier(5, k) for k in (1, 7, 60)]
        value = stored(cells)
        cut = [f"'\\x{value[:k].hex()}'::raw8::s2union" for k in range(len(value) + 1)]
        whole = {4 + 8 * k: tokens(cells[:k]) for k in range(4)}
        self.all_are([(cut[k], text) for k, text in whole.items()])
        self.all_refused([(sql, "not a normalized list") for k, sql in enumerate(cut) if k not in whole])

    def test_a_damaged_value_where_good_ones_have_been(self):
        """They are made in each row, at the same place of the memory."""
        cells = [model.identifier(5, k) for k in (1, 7, 60)]
        head, good, bad = stored(cells[:2]).hex(), stored(cells[2:])[4:].hex(), "00" * 8
        made = f"('\\x{head}'::bytea || CASE WHEN k < 3 THEN '\\x{good}' ELSE '\\x{bad}'::bytea END)"
        asked = f"(SELECT count(*) FROM generate_series(0, {{}}) AS k WHERE {made}::text::raw8::s2union {{}})"
        questions = ("&& s2_cell('1')", "@> ''", "<@ '1'", f"&& {u(cells)}")
        self.all_are([(asked.format(2, each), "3") for each in questions])
        self.all_refused([(asked.format(3, each), "not a normalized list") for each in questions])

    def test_texts(self):
        texts = ("X", "2", "g", "1 g", "1,0/4", "0" * 17, "é" * 60)
        wrong = [(f"'{text}'::s2union", "names no cell") for text in texts]
        wrong += [("'1 04,park 3 X'::s2union", '"park" names no cell'), ("' 0/5\t1'::s2union", '"0/5" names no cell')]
        ends = ("\\n", "\\r", "\\t", "\\r\\n", ",")
        wrong += [(f"E'1 park{end}04'::s2union", '"park" names no cell') for end in ends]
        self.all_refused(wrong)
        said = f'error: invalid input syntax for type s2union: "{"€" * 13}" names no cell' # psql drops half a sign
        self.all_are([("''::s2union::text = '' and ' , '::s2union = ''", "true"),
                      (f"md5(try($t$SELECT '1 {'€' * 20}'::s2union::text$t$))", md5(said))])

    def test_files(self):
        self.all_refused([(f"('\\x{file.hex()}'::bytea)::s2union", f"s2union: union file: {reason}")
                          for file, reason in model.faults_of_files()])

    def test_numbers(self):
        self.all_are([
            (sql, f"error: s2union: {wanted}") for sql, wanted in (
                ("s2_outer(6, 0, 0, 0, 0, 5)", "argument out of range: 6, 0, 0, 0, 0, 5"),
                ("s2_outer(0, 1, 0, 0, 0, 5)", "argument out of range: 0, 1, 0, 0, 0, 5"),
                ("s2_outer(0, 0, 0, 0, 0, 31)", "argument out of range: 0, 0, 0, 0, 0, 31"),
                ("s2_outer(0, -1, 0, 0, 0, 5)", "argument out of range: 0, -1, 0, 0, 0, 5"),
                ("s2_inner('1'::s2union, -1)", "argument out of range: -1"),
                ("s2_leaf(0, 0, -1)", "argument out of range: 0, 0, -1"),
                ("s2_outer('1'::s2union, 0, 1, 0, 0, 0, 5)", "argument out of range: 0, 1, 0, 0, 0, 5"),
                ("s2_inner('1'::s2union, 0, 0, 0, 0, 0, 31)", "argument out of range: 0, 0, 0, 0, 0, 31"),
                ("s2_inner('1'::s2union, 0, 0, 1073741823, 5, 5, 30)", "too many cells: 0, 0, 1073741823, 5, 5, 30"),
                ("s2_outer(0, 0, 1073741823, 5, 5, 30)", "too many cells: 0, 0, 1073741823, 5, 5, 30"),
                ("(2::bigint)::s2union", "not a cell: 2"), ("s2_cell(-5)", "not a cell: -5"),
                ("'1'::s2union @> 0::bigint", "not a cell: 0"), ("0::bigint <@ '1'::s2union", "not a cell: 0"),
                ("'1'::s2union && 0::bigint", "not a cell: 0"), ("0::bigint && '1'::s2union", "not a cell: 0"),
                ("s2_common_ancestor(2, s2_cell('1'))", "not a cell: 2"),
                ("s2_common_ancestor(s2_cell('1'), 2)", "not a cell: 2"),
                ("'{1,3,-9223372036854775808}'::bigint[]::s2union", "not a cell: -9223372036854775808"),
                ("(ARRAY[s2_cell('1'), NULL])::s2union", "a cell is NULL"),
                ("(ARRAY['1', NULL])::s2union", "a cell is NULL"),
                ("(SELECT s2_union_agg(c) FROM (VALUES (0::bigint)) v(c))", "not a cell: 0"),
                ("(SELECT count(*) FROM s2_tiles('1', 31))", "argument out of range: 31"),
                ("(SELECT count(*) FROM s2_tiles('', -1))", "argument out of range: -1"),
                ("(SELECT count(*) FROM s2_tiles('1', 30))", "too many cells: 30"),
                ("s2_cells('1'::s2union, 31)", "argument out of range: 31, 1"),
                ("s2_cells('1'::s2union, 1, 4)", "argument out of range: 1, 4"),
                ("s2_cells('1'::s2union, -1)", "argument out of range: -1, 1"),
                ("s2_cells('1'::s2union, 30)", "too many cells: 30, 1"),
                ("s2_cells('1 3'::s2union, 13)", "too many cells: 13, 1"),
                ("s2_cells(''::s2union, 31)", "argument out of range: 31, 1"),
                ("s2_range(-2, 1)", "not a cell: -2"), ("s2_range(1, 2)", "not a cell: 2"),
                ("s2_range(s2_cell('3'), s2_cell('1'))",
                 "argument out of range: 3458764513820540928 to 1152921504606846976"),
            )
        ] + [(f"{name}(0{more})", "error: s2union: not a cell: 0") for name, more in OF_A_CELL.items()])

    def test_numbers_that_an_index_is_asked_about(self):
        """Also if it finds no row, so that no operator is called."""
        psql("""
            SET client_min_messages = error;
            DROP TABLE IF EXISTS by_gin, by_gist;
            CREATE TABLE by_gin AS SELECT '04'::s2union AS region; CREATE TABLE by_gist AS TABLE by_gin;
            CREATE INDEX ON by_gin USING gin (region); CREATE INDEX ON by_gist USING gist (region);
        """)
        self.all_are([(f"(SELECT count(*) FROM {table} WHERE region {operator} {number})",
                       f"error: s2union: not a cell: {said}")
                      for table in ("by_gin", "by_gist") for operator in ("@>", "&&")
                      for number, said in (("0::bigint", "0"), ("(SELECT -6::bigint)", "-6"))],
                     "SET enable_seqscan = off;")

    def test_texts_that_name_no_cell(self):
        """Of each function that takes a cell: a number in quotes is none, and the message names the text."""
        pairs = []
        for text in ("-5", "1152921504606846976", "", "X", "04 0c", "6/", " 04", "0x04", "9" * 50):
            said = f'error: s2union: not a cell: "{text[:40]}"'
            calls = [f"{name}('{text}'{more})" for name, more in OF_A_CELL.items()]
            calls += [f"{name}({a}, {b})" for name in ("s2_common_ancestor", "s2_range")
                      for word in (f"'{text}'", f"'{text}'::text")
                      for a, b in ((word, "'04'"), ("'04'", word), ("s2_cell('04')", word), (word, "s2_cell('04')"))]
            calls += [f"(ARRAY['1', '{text}'])::s2union"]
            pairs += [(call, said) for call in calls]
        no_union = 'error: invalid input syntax for type s2union: "-5" names no cell'
        pairs += [(f"s2_{name}({a}, {b})", no_union) for name in ("contains", "within", "intersects")
                  for a, b in (("'-5'", "s2_cell('04')"), ("s2_cell('04')", "'-5'"), ("'1'", "'-5'"), ("'-5'", "'1'"))]
        pairs += [("s2union('-5'::text)", no_union), ("(SELECT s2_union_agg('04 -5'))", no_union)]
        self.all_are(pairs)
        said = subprocess.run(["psql", "-XAqt", "-d", DATABASE, "-c", "SELECT s2_level('1152921504606846976')"],
                              stdout=subprocess.PIPE, stderr=subprocess.PIPE, text=True, check=False).stderr
        self.assertIn("HINT:  A text names a cell by its token or its debug text. A number has no quotes.", said)

    def test_null_gives_null(self):
        """In each argument of each function and operator."""
        said = psql("""
            SELECT p.proname || '|' || p.pronargs || '|' || string_agg(t.typname, ',' ORDER BY a.k)
            FROM pg_proc p JOIN pg_depend d ON d.classid = 'pg_proc'::regclass AND d.objid = p.oid AND d.deptype = 'e'
                JOIN pg_extension e ON e.oid = d.refobjid AND e.extname = 's2union',
                unnest(p.proargtypes) WITH ORDINALITY a(type, k) JOIN pg_type t ON t.oid = a.type
            WHERE p.prokind = 'f' GROUP BY p.oid, p.proname, p.pronargs
            HAVING bool_and(t.typname NOT IN ('internal', 'cstring')) ORDER BY 1;
        """)
        good = {"s2union": "'04'::s2union", "int8": "s2_cell('04')", "int4": "1", "text": "'04'",
                "bytea": "'\\x01'::bytea", "_int8": "'{}'::bigint[]", "_text": "'{}'::text[]"}
        pairs = []
        for name, count, types in (line.split("|") for line in said):
            types = types.split(",")
            for k in range(int(count)):
                values = [f"NULL::{t[1:] + '[]' if t[0] == '_' else t}" if n == k else good[t]
                          for n, t in enumerate(types)]
                pairs.append((f"{name}({', '.join(values)})", "null"))
        self.assertGreater(len(pairs), 80)
        operators = ("|", "&", "-", "#", "@>", "<@", "&&", "=", "<>", "<", "<=", ">", ">=")
        pairs += [(f"NULL::s2union {name} '1'::s2union", "null") for name in operators]
        pairs += [(f"'1'::s2union {name} NULL", "null") for name in operators]
        self.all_are(pairs + [("NULL::s2union", "null"), ("s2_union_agg(NULL::bigint)", "null"),
                              ("s2_intersection_agg(NULL::s2union)", "null")])

    def test_the_code_of_each_refusal(self):
        file = model.file([model.identifier(5, k) for k in (1, 7)])
        wrong_cell = file[:9] + bytes(8) + file[17:]
        files = [b"", b"\2", file[:-1], file + b"\0", wrong_cell]
        codes = [(f"SELECT ('\\x{wrong.hex()}'::bytea)::s2union", "22P03") for wrong in files]
        codes += [
            ("SELECT 'X'::s2union", "22P02"), ("SELECT s2_level(0)", "22023"), ("SELECT s2_leaf(6, 0, 0)", "22023"),
            ("SELECT s2_cells('1', 30)", "54000"), ("SELECT s2_outer(0, 0, 1073741823, 5, 5, 30)", "54000"),
            ("SELECT s2_count('\\x0100000000'::raw8::s2union)", "XX001"),
            ("SELECT ARRAY[NULL::bigint]::s2union", "22004"), ("SELECT s2_parent('04', 31)", "22023"),
            ("SELECT s2_leaf_at(541, 0)", "22003"), ("SELECT s2_leaf_at(0, -91)", "22003"),
            ("SELECT s2_longitude(2)", "22023"), ("SELECT s2_latitude(2)", "22023"),
            ("SELECT s2_map_outer('[]', 3)", "22P02"), ("SELECT s2_map_outer('[]'::bytea, 3)", "22P03"),
        ]
        psql(STATE + "CREATE EXTENSION IF NOT EXISTS s2union_geo;")
        self.all_are([(f"state_of($s${query}$s$)", code) for query, code in codes])
        on_the_page = re.findall(r"^\| `(\w{5})` \|", (BINDINGS / "postgres/README.md").read_text(), re.M)
        elsewhere = {"53200", "42501"}  # memory that is missing, and strangers in the way
        self.assertEqual({*on_the_page}, {code for _, code in codes} | elsewhere)

    def test_each_bit_of_100_stored_values_flipped(self):
        """What a damaged page may hold: the bytes of a value after its length, with one wrong bit."""
        values = []
        for _ in range(FLIPPED):
            cells = model.normal(model.runs(self.random.cells(6)))
            values.append(stored(cells))
        flips = "".join(f"SELECT * FROM flip('\\x{value.hex()}');\n" for value in values)
        tries = "".join(f"""
                    BEGIN
                        SELECT ({query})::text INTO STRICT said FROM flipped;
                        IF said IS NULL THEN others := others + 1; ELSE answers := answers + 1; END IF;
                    EXCEPTION WHEN OTHERS THEN
                        IF SQLERRM = 's2union: not a normalized list of cells' THEN refusals := refusals + 1;
                        ELSE others := others + 1;
                        END IF;
                    END;""" for query in OF_A_STORED_VALUE)
        said = psql(f"""
            SET client_min_messages = error;
            DROP TABLE IF EXISTS flipped;
            CREATE TABLE flipped(id int, region s2union);
            CREATE OR REPLACE FUNCTION flip(file bytea, OUT answers int, OUT refusals int, OUT others int)
            LANGUAGE plpgsql AS $$
            DECLARE said text;
            BEGIN
                answers := 0; refusals := 0; others := 0;
                FOR bit IN 0 .. 8 * length(file) - 1 LOOP
                    UPDATE flipped SET region = set_bit(file, bit, 1 - get_bit(file, bit))::text::raw8::s2union;
                    {tries}
                END LOOP;
            END $$;
            INSERT INTO flipped VALUES (1, NULL);
            {flips}
            DROP TABLE flipped;
        """)
        counts = [[int(word) for word in line.split("|")] for line in said]
        times = len(OF_A_STORED_VALUE)
        wanted = [[times * good, times * bad, 0] for good, bad in map(flips_of, values)]
        self.assertEqual(counts, wanted)
        self.assertGreater(sum(answers for answers, _, _ in wanted), 10 * FLIPPED)


# By a scan and by an index, in how many questions the answers differ, how many rows match, and in how many lines of the
# last plan the index stands. `asked` is a query of what the questions are about, q; a condition has %s in its place.
# The answers of a scan come from one query over all questions, and are kept for the next index, since the regions stay.
# The index gets each question as a query of its own. Functions like this one stand in FROM, where they are called once;
# (differ(..)).* would call it for each of its columns.
DIFFER = """
DROP TABLE IF EXISTS scanned;
CREATE TABLE scanned(condition text, question text, ids int[]);
CREATE OR REPLACE FUNCTION differ(condition text, by text, asked text,
    OUT different int, OUT matches bigint, OUT plans int)
LANGUAGE plpgsql AS $$
DECLARE scan scanned; line text; ids int[];
BEGIN
    different := 0; matches := 0; plans := 0;
    IF NOT EXISTS (SELECT FROM scanned s WHERE s.condition = differ.condition) THEN
        PERFORM set_config('enable_seqscan', 'on', true), set_config('enable_bitmapscan', 'off', true),
            set_config('enable_indexscan', 'off', true);
        EXECUTE format('INSERT INTO scanned SELECT %L, format(''%%L::%%s'', q, pg_typeof(q)),
            (SELECT array_agg(id ORDER BY id) FROM regions WHERE %s) FROM (%s) asked',
            condition, format(condition, 'q'), asked);
    END IF;
    PERFORM set_config('enable_seqscan', 'off', true), set_config('enable_bitmapscan', 'on', true),
        set_config('enable_indexscan', 'on', true);
    FOR scan IN SELECT * FROM scanned s WHERE s.condition = differ.condition LOOP
        EXECUTE format('SELECT array_agg(id ORDER BY id) FROM regions WHERE ' || condition, scan.question) INTO ids;
        IF ids IS DISTINCT FROM scan.ids THEN different := different + 1; END IF;
        matches := matches + coalesce(array_length(scan.ids, 1), 0);
    END LOOP;
    FOR line IN EXECUTE format('EXPLAIN SELECT * FROM regions WHERE ' || condition, scan.question) LOOP
        IF line LIKE '%' || by || '%' THEN plans := plans + 1; END IF;
    END LOOP;
END $$;
"""
UNIONS = "SELECT region AS q FROM questions ORDER BY id"
CELLS = "SELECT (s2_cells(region))[1] AS q FROM questions WHERE s2_count(region) > 0 ORDER BY id LIMIT 200"
# Questions about a cell are written in three ways: by an operator, by its commutator, and by the function.
ABOUT_CELLS = ("region @> %s", "%s <@ region", "region && %s", "%s && region", "s2_contains(region, %s)",
               "s2_within(%s, region)", "s2_intersects(region, %s)", "s2_intersects(%s, region)")


def differ(conditions, by, asked=CELLS):
    values = ", ".join(f"('{condition}')" for condition in conditions)
    return f"SELECT * FROM (VALUES {values}) v(condition), differ(condition, '{by}', $${asked}$$);\n"


def differ_by(operators, by):
    return differ([f"region {operator} %s" for operator in operators], by, UNIONS)


GIN = differ_by(("&&", "@>", "<@"), "regions_gin")


class Indexes(Tests):
    def test_questions_by_index_and_by_scan(self):
        regions, questions = [], []
        for _ in range(3 * QUESTIONS // 2):
            near = self.random.choice(regions) if regions and self.random.random() < 0.6 else ()
            regions.append(self.random.cells(near=near, low=4))
        for _ in range(QUESTIONS):
            near = self.random.choice(regions) if self.random.random() < 0.9 else ()
            questions.append(self.random.cells(4, near=near))
        script = """
            SET client_min_messages = error;
            DROP TABLE IF EXISTS regions, questions;
            CREATE TABLE regions(id int, region s2union);
            CREATE TABLE questions(id int, region s2union);
        """
        for name, rows in (("regions", regions), ("questions", questions)):
            lines = "".join(f"{k}\t{tokens(xs)}\n" for k, xs in enumerate(rows))
            script += f"COPY {name} FROM STDIN;\n{lines}\\.\n"
        script += """
            INSERT INTO regions VALUES (9999, NULL);
            CREATE INDEX regions_gin ON regions USING gin (region);
            CREATE INDEX regions_btree ON regions (region);
            CREATE INDEX regions_hash ON regions USING hash (region);
            ANALYZE regions;
        """ + DIFFER + GIN + differ(ABOUT_CELLS, "regions_gin") + """
            DROP INDEX regions_gin;
            CREATE INDEX regions_gist ON regions USING gist (region);
        """ + differ_by(("&&", "@>"), "regions_gist") + differ(ABOUT_CELLS, "regions_gist") + """
            DROP INDEX regions_gist;
            CREATE EXTENSION IF NOT EXISTS amcheck;
            SELECT 'checked', 0, 1, 1 FROM bt_index_check('regions_btree', true);
        """ + differ_by(("=",), "regions_") + differ_by(("<", ">="), "regions_btree") + """
            DROP INDEX regions_btree;
        """ + differ_by(("=",), "regions_hash")
        said = [line.split("|") for line in psql(script)]
        wanted = {name: 0 for name in ("&&", "@>", "<@")}
        forms = [model.runs(xs) for xs in regions]
        for ys in questions[:100]:
            y = model.runs(ys)
            wanted["&&"] += sum(model.meet(x, y) for x in forms)
        self.assertEqual(len(said), 10 + 2 * len(ABOUT_CELLS))
        for name, different, found, plans in said:
            self.assertEqual(different, "0", name)
            self.assertNotEqual(plans, "0", name)
            self.assertGreater(int(found), 0, name)
        by_scan = psql("SELECT count(*) FROM questions q JOIN regions r ON r.region && q.region WHERE q.id < 100")
        self.assertEqual(int(by_scan[0]), wanted["&&"])

    def test_leaves_by_an_index_of_leaves(self):
        """By btree and by BRIN, for constants and in a join, beside a loop over all pairs."""
        regions = [[], [model.identifier(0, 3), model.identifier(0, 4)]] + [self.random.cells(6) for _ in range(40)]
        near = [self.random.near(self.random.choice(cells)) for cells in regions[1:] if cells for _ in range(30)]
        leaves = [model.run(cell)[self.random.randrange(2)] % model.LEAVES for cell in near]
        spans = [[model.run(cell) for cell in cells] for cells in regions]
        inside = [{k for k, leaf in enumerate(leaves) if any(first <= leaf < end for first, end in each)}
                  for each in spans]
        self.assertGreater(sum(map(len, inside)), 500)
        rows = "".join(f"{k}\t{signed(2 * leaf + 1)}\n" for k, leaf in enumerate(leaves))
        rows += "9999\t\\N\n"
        asked = "".join(f"{k}\t{tokens(cells)}\n" for k, cells in enumerate(regions))
        psql(f"""SET client_min_messages = error; DROP TABLE IF EXISTS leaves, unions;
            CREATE TABLE leaves(id int, leaf bigint); COPY leaves FROM STDIN;\n{rows}\\.
            CREATE TABLE unions(id int, region s2union); COPY unions FROM STDIN;\n{asked}\\.
            INSERT INTO unions VALUES (9999, NULL); CREATE INDEX leaves_hash ON leaves USING hash (leaf);""")
        for kind in ("btree (leaf)", "brin (leaf) WITH (pages_per_range = 1)"):
            setting = "SET enable_seqscan = off; SET enable_nestloop = on;"
            psql(f"DROP INDEX IF EXISTS leaves_leaf; CREATE INDEX leaves_leaf ON leaves USING {kind}; ANALYZE leaves;")
            for question in ("leaf <@ {}", "{} @> leaf", "s2_within(leaf, {})", "s2_contains({}, leaf)"):
                constants = [question.format(u(cells)) for cells in regions]
                said = psql(setting + "".join(f"SELECT array(SELECT id FROM leaves WHERE {constant} ORDER BY id);\n"
                                              for constant in constants))
                self.assertEqual(said, [f"{{{','.join(map(str, sorted(found)))}}}" for found in inside], question)
                plan = "\n".join(psql(f"{setting} EXPLAIN SELECT * FROM leaves WHERE {constants[9]}"))
                self.assertRegex(plan, r"(?s) leaves_leaf.*Cond: \(\(leaf >= '-?\d+'::bigint\) AND \(leaf <= ")
                join = f"FROM unions AS u JOIN leaves ON {question.format('u.region')}"
                said = psql(f"{setting} SELECT u.id || ' ' || leaves.id {join}")
                pairs = [f"{k} {leaf}" for k, found in enumerate(inside) for leaf in found]
                self.assertEqual(sorted(said), sorted(pairs), question)
                plan = "\n".join(psql(f"{setting} EXPLAIN SELECT * {join}"))
                self.assertRegex(plan, r"(?s) leaves_leaf.*Cond: \(\(leaf >= s2union_least\(u.region\)\) AND ")
            for question in ("leaf && '04'", "'04' <@ leaf::s2union", "leaf::s2union <@ '04'"):
                plan = "\n".join(psql(f"{setting} EXPLAIN SELECT * FROM leaves WHERE {question}"))
                self.assertNotIn("leaf >=", plan)

    def test_leaves_by_an_index_of_another_order(self):
        """Its operators of the same numbers are others, so it isn't asked."""
        asked = "SELECT count(*) FROM visits WHERE leaf <@ s2_parent(s2_leaf(0, 9000, 7000), 20)::s2union;"
        said = psql(f"""
            {VISITS} {asked}
            BEGIN;
            CREATE FUNCTION turned(bigint, bigint) RETURNS int IMMUTABLE LANGUAGE sql AS 'SELECT btint8cmp($2, $1)';
            CREATE OPERATOR CLASS turned FOR TYPE bigint USING btree AS OPERATOR 1 >, OPERATOR 2 >=, OPERATOR 3 =,
                OPERATOR 4 <=, OPERATOR 5 <, FUNCTION 1 turned(bigint, bigint);
            DROP INDEX visits_leaf_idx;
            CREATE INDEX ON visits (leaf turned);
            SET LOCAL enable_seqscan = off;
            {asked}
            ROLLBACK;
        """)
        self.assertEqual(said, ["113", "113"])

    def test_questions_of_many_cells(self):
        """With so little memory that the index answers some pages as a whole, and with rows that wait in its list."""
        rows = """
            SELECT k, CASE WHEN k % 50 = 0 THEN '' WHEN k % 51 = 0 THEN NULL
                WHEN k % 100 = 1 THEN s2_outer(0, 0, 16777215, 0, 16777215, 6) - s2_leaf(0, k * 1000, k * 1001)::s2union
                ELSE s2_outer(0, k * 7919 % 16000000, k * 7919 % 16000000 + k * 97 % 1048576,
                    k * 104729 % 16000000, k * 104729 % 16000000 + k * 89 % 1048576, 10) END
            FROM generate_series({}, {}) AS k
        """
        scattered = f"""
            SELECT n, s2_union_agg(s2_parent(s2_leaf(0, (8000000 + k * 7919 % side)::int,
                (8000000 + k * k * 31 % side)::int), level)::s2union) AS region
            FROM (VALUES (0, 100, 30), (1, 100000, 25), (2, 1000000, 20), (3, 8000000, 18)) v(n, side, level),
                generate_series(0::bigint, {ROUNDS - 1}) AS k WHERE k < {{}} GROUP BY n
        """
        said = psql(f"""
            SET client_min_messages = error;
            SET work_mem = '64kB';
            DROP TABLE IF EXISTS regions, questions;
            CREATE TABLE regions(id int, region s2union, half_a_page char(4000) DEFAULT '');
            ALTER TABLE regions ALTER half_a_page SET STORAGE plain;
            INSERT INTO regions (id, region) {rows.format(0, 2999)};
            CREATE INDEX regions_gin ON regions USING gin (region);
            ANALYZE regions;
            INSERT INTO regions (id, region) {rows.format(3000, 3099)};
            CREATE TABLE questions(id int, region s2union);
            INSERT INTO questions VALUES (0, ''), (1, NULL), (2, '1');
            INSERT INTO questions SELECT 3 + n, region FROM ({scattered.format(ROUNDS)}) s;
            INSERT INTO questions SELECT 7 + n, '1'::s2union - region FROM ({scattered.format(20)}) s;
            {DIFFER} {GIN}
            SELECT max(s2_count(region)) FROM questions WHERE id < 7;
        """)
        for line in said[:3]:
            name, different, found, plans = line.split("|")
            self.assertEqual(different, "0", name)
            self.assertNotEqual(plans, "0", name)
            self.assertGreater(int(found), 12, name)
        self.assertGreater(int(said[3]), ROUNDS // 2)

    def test_a_question_by_gist_reads_few_pages_of_regions_that_were_inserted(self):
        """20,000 regions, all over the faces, are put into the index one by one. A question reads 3 to 5 of 170 pages.
        With a penalty that is the same for all it reads 116 of 220, and where the greatest growth is least all."""
        said = psql("""
            SET client_min_messages = error;
            DROP TABLE IF EXISTS inserted;
            CREATE TABLE inserted(region s2union);
            CREATE INDEX inserted_gist ON inserted USING gist (region);
            INSERT INTO inserted SELECT s2_outer((k % 6)::int, i, i + 4000000, j, j + 4000000, 8) FROM (SELECT k,
                (k * 2654435761 % 1069000000)::int AS i, (k * 40503 * 65537 % 1069000000)::int AS j
                FROM generate_series(1, 20000::bigint) AS k) AS places;
            ANALYZE inserted;
            SELECT relpages FROM pg_class WHERE relname = 'inserted_gist';
            SET enable_seqscan = off;
            SET enable_bitmapscan = off;
            CREATE OR REPLACE FUNCTION read_by(question s2union) RETURNS int LANGUAGE plpgsql AS $$
            DECLARE plan json;
            BEGIN
                EXECUTE 'EXPLAIN (ANALYZE, BUFFERS, FORMAT json) SELECT count(*) FROM inserted WHERE region && $1'
                    INTO plan USING question;
                RETURN (plan->0->'Plan'->>'Shared Hit Blocks')::int + (plan->0->'Plan'->>'Shared Read Blocks')::int;
            END $$;
            SELECT sum(read_by(s2_outer((k % 6)::int, i, i + 1, j, j + 1, 8))) / 100 FROM (SELECT k,
                (k * 100193063 % 1073000000)::int AS i, (k * 10000019 % 1073000000)::int AS j
                FROM generate_series(1, 100::bigint) AS k) AS places;
        """)
        pages, read = map(int, said[-2:])
        self.assertGreater(pages, 100)
        self.assertLess(read, pages / 10)


VISITS = """
    SET client_min_messages = error;
    DROP TABLE IF EXISTS visits;
    CREATE TABLE visits AS SELECT s2_leaf(0, 9 * k, 7 * k) AS leaf FROM generate_series(1, 3000) AS k;
    CREATE INDEX ON visits (leaf);
    ANALYZE visits;
"""


class Planner(Tests):
    """Which plan is chosen, with nothing disabled."""

    @classmethod
    def setUpClass(cls):
        super().setUpClass()
        psql("""
            SET client_min_messages = error;
            DROP TABLE IF EXISTS countries, fresh, cities, small, thousand, loaded, many;
            CREATE TABLE countries AS SELECT k AS id, s2_outer(k % 6, k * 5000000, k * 5000000 + 150000000,
                k * 4000000, k * 4000000 + 130000000, 13) - s2_leaf(k % 6, k * 5000000, k * 4000000)::s2union AS region
                FROM generate_series(1, 180) AS k;
            CREATE TABLE fresh WITH (autovacuum_enabled = off) AS TABLE countries;
            CREATE TABLE cities AS SELECT k AS id, s2_leaf(k % 6, k * 4000000 + 7000000, k * 4000000 + 9000000) AS leaf
                FROM generate_series(1, 240) AS k;
            CREATE TABLE small AS SELECT k AS id, s2_outer(k % 6, k * 50000, k * 50000 + 300000,
                k * 40000, k * 40000 + 200000, 14) AS region FROM generate_series(1, 20000) AS k;
            CREATE TABLE loaded WITH (autovacuum_enabled = off) AS TABLE small;
            CREATE TABLE thousand WITH (autovacuum_enabled = off) AS SELECT * FROM small WHERE id <= 1000;
            ALTER TABLE thousand ALTER region SET STATISTICS 1000;
            ALTER TABLE countries ALTER region SET STATISTICS 1000;
            ALTER TABLE cities ALTER leaf SET STATISTICS 1000; -- so ANALYZE keeps all of the values of these three
            CREATE INDEX countries_gin ON countries USING gin (region);
            CREATE INDEX fresh_gin ON fresh USING gin (region);
            CREATE INDEX small_gin ON small USING gin (region);
            CREATE INDEX loaded_gin ON loaded USING gin (region);
            ANALYZE countries; ANALYZE cities; ANALYZE small; ANALYZE thousand;
        """)

    def plan(self, query, settings=""):
        return "\n".join(psql(f"SET max_parallel_workers_per_gather = 0; {settings} EXPLAIN {query}"))

    def test_joins_with_large_values_use_the_index(self):
        """They are kept out of line, and take as long to read as some thousand comparisons."""
        self.assertEqual(psql("SELECT min(s2_count(region)) > 1000, max(pg_column_size(region)) > 4000 FROM countries"),
                         ["t|t"])
        conditions = ("@> c.leaf", "@> c.leaf::s2union", "&& c.leaf", "&& c.leaf::s2union")
        for table in ("countries", "fresh"): # the second has no statistics
            for condition in conditions:
                plan = self.plan(f"SELECT count(*) FROM cities c JOIN {table} d ON d.region {condition}")
                self.assertIn(f"{table}_gin", plan)
            plan = self.plan(f"SELECT count(*) FROM cities c JOIN {table} d ON s2_contains(d.region, c.leaf)")
            self.assertIn(f"{table}_gin", plan)

    def test_questions_that_find_few_rows_use_the_index(self):
        for table in ("small", "countries", "loaded"): # the last has no statistics
            for condition in ("@> s2_leaf(1, 50100000, 40100000)", "&& s2_leaf(1, 50100000, 40100000)",
                              "&& s2_parent(s2_leaf(1, 50100000, 40100000), 14)::s2union"):
                plan = self.plan(f"SELECT * FROM {table} WHERE region {condition}")
                self.assertIn(f"{table}_gin", plan)
        for condition in ("region <@ '04 14'", "s2_within(region, '04 14')", "s2_within(region, s2_cell('04'))"):
            self.assertIn("loaded_gin", self.plan(f"SELECT * FROM loaded WHERE {condition}"))

    def test_questions_that_find_most_rows_scan(self):
        for condition in ("&& '1 3 5 7 9 b'", "<@ '1 3 5 7 9 b'", "&& (s2_range(s2_cell('1'), s2_cell('b')) - '04')"):
            plan = self.plan(f"SELECT * FROM small WHERE region {condition}")
            self.assertIn("Seq Scan", plan)

    def test_how_many_rows_are_expected(self):
        """What ANALYZE has kept says how many there are. It has all values of these tables, so nothing is left to
        chance. Of what it has not seen few rows are expected."""
        for condition, table in (
            ("region && '1'", "thousand"), ("region <@ '1'", "thousand"), ("region && '04'", "thousand"),
            ("'1 3' @> region", "thousand"), ("region && s2_cell('1')", "thousand"),
            ("s2_cell('3') && region", "thousand"), ("s2_intersects(region, '1 5')", "thousand"),
            ("s2_within(region, '5 7')", "thousand"), ("region && '3'", "countries"), ("region @> ''", "thousand"),
        ):
            rows = int(psql(f"SELECT count(*) FROM {table} WHERE {condition}")[0])
            expected = self.expected(self.plan(f"SELECT * FROM {table} WHERE {condition}"))
            self.assertGreater(rows, 0, condition)
            self.assertTrue(rows - 1 <= expected <= rows + 1, (condition, rows, expected))
        for condition in ("region @> s2_leaf(1, 900100000, 900100000)", "region && ''"):
            plan = self.plan(f"SELECT * FROM thousand WHERE {condition}",
                             "INSERT INTO thousand VALUES (0, s2_leaf(1, 900100000, 900100000)::s2union);")
            self.assertLessEqual(self.expected(plan), 2, condition)
        for condition in ("region @> leaf", "region && leaf", "leaf <@ region", "region @> leaf::s2union"):
            rows = int(psql(f"SELECT count(*) FROM countries, cities WHERE {condition}")[0])
            expected = self.expected(self.plan(f"SELECT * FROM countries, cities WHERE {condition}"))
            self.assertLessEqual(rows, 5 * expected, condition)
            self.assertLessEqual(expected, 5 * rows, condition)
        rows = int(psql("SELECT count(*) FROM countries x, countries y WHERE x.region && y.region")[0])
        expected = self.expected(self.plan("SELECT * FROM countries x, countries y WHERE x.region && y.region"))
        self.assertTrue(rows / 5 < expected < rows * 5, (rows, expected))

        plan = self.plan("EXECUTE unknown('04')", """PREPARE unknown(s2union) AS SELECT * FROM small WHERE region && $1;
            SET plan_cache_mode = force_generic_plan;""")
        self.assertIn("$1", plan)
        self.assertLess(self.expected(plan), 200)
        made = self.plan("SELECT * FROM small WHERE s2_complement(region) && '1'")
        self.assertLess(self.expected(made), 200)  # nothing is known of what is made of a column

    def test_how_many_rows_with_a_match_are_expected(self):
        for inner in ("countries d WHERE d.region @> c.leaf", "countries d WHERE s2_contains(d.region, c.leaf)",
                      "countries d JOIN small s ON s.id = d.id WHERE d.region @> c.leaf"):
            query = f"SELECT * FROM cities c WHERE {{}} (SELECT FROM {inner})"
            rows = len(psql(query.format("EXISTS")))
            some, none = (self.expected(self.plan(query.format(word))) for word in ("EXISTS", "NOT EXISTS"))
            self.assertTrue(rows / 3 < some < rows * 3, (inner, rows, some))
            self.assertTrue(239 <= some + none <= 241, (inner, some, none)) # there are 240 cities

    def test_all_of_a_large_sample_counts(self):
        """1,000 of the values are asked, of which ANALYZE keeps more: in the order of the rows or of the numbers."""
        psql("""
            SET client_min_messages = error;
            DROP TABLE IF EXISTS ordered;
            CREATE TABLE ordered WITH (autovacuum_enabled = off) AS
                SELECT leaf, leaf::s2union AS region, s2_leaf(k / 2000, k % 1000 * 1000000, 5) AS twice
                FROM generate_series(0, 11999) AS k, s2_leaf(k / 2000, k % 2000 * 500000, 5) AS leaf;
            ALTER TABLE ordered ALTER leaf SET STATISTICS 6000, ALTER region SET STATISTICS 6000,
                ALTER twice SET STATISTICS 6000;
            ANALYZE ordered;
        """)
        for face in ("1", "3", "5", "7", "9", "b"):
            for condition in (f"region && '{face}'", f"leaf <@ '{face}'::s2union", f"twice <@ '{face}'::s2union"):
                expected = self.expected(self.plan(f"SELECT * FROM ordered WHERE {condition}"))
                self.assertTrue(1000 < expected < 4000, (condition, expected)) # there are 2,000

    def test_an_array_of_constants_takes_little_memory(self):
        """The planner asks of each element which part of the rows it finds."""
        peak = "SELECT (regexp_match(pg_read_file('/proc/self/status'), 'VmHWM:\\s*(\\d+)'))[1];"
        for element in ("'04'::s2union", "s2_cell('04')"):
            said = psql(f"""
                EXPLAIN (COSTS off) SELECT FROM small WHERE region && ANY (array_fill({element}, ARRAY[3]));
                {peak}
                DO $$ DECLARE line text; BEGIN
                    FOR line IN EXPLAIN SELECT FROM small WHERE region && ANY (array_fill({element}, ARRAY[40000])) LOOP
                        EXIT;
                    END LOOP;
                END $$;
                {peak}
            """)
            before, after = [int(line) for line in said if line.isdigit()]
            self.assertLess(after - before, 600000, element) # kB, of which the address sanitizer keeps 400,000

    def expected(self, plan):
        return int(re.search(r"rows=(\d+)", plan)[1])

    def test_rows_that_are_null_count(self):
        psql("""
            SET client_min_messages = error;
            DROP TABLE IF EXISTS half;
            CREATE TABLE half AS SELECT id, CASE WHEN id % 2 = 0 THEN region END AS region FROM small;
            ANALYZE half;
        """)
        expected = self.expected(self.plan("SELECT * FROM half WHERE region && '1 3 5 7 9 b'"))
        self.assertTrue(8000 < expected < 12000, expected)
        self.assertIn("One-Time Filter: false", self.plan("SELECT * FROM half WHERE region && NULL::s2union"))

    def test_what_analyze_keeps_of_all_null_and_of_one_row(self):
        psql("""
            SET client_min_messages = error;
            DROP TABLE IF EXISTS nulls, one;
            CREATE TABLE nulls AS SELECT NULL::s2union AS region FROM generate_series(1, 1000);
            CREATE TABLE one AS SELECT '04'::s2union AS region;
            ANALYZE nulls; ANALYZE one;
        """)
        self.assertEqual(self.expected(self.plan("SELECT * FROM nulls WHERE region && '1'")), 1)
        self.assertEqual(self.expected(self.plan("SELECT * FROM one WHERE region && '1'")), 1)
        psql(VISITS)
        plan = self.plan("SELECT * FROM nulls, visits WHERE leaf <@ region", "SET enable_seqscan = off;")
        self.assertEqual(plan.count("s2union_least"), 4)  # as for the least part that is estimated

    def test_functions_that_are_renamed_keep_their_estimates_and_their_indexes(self):
        psql(VISITS)
        asked = [("contains", "small", "s2union, s2union", "region, '04'"), ("contains", "small", "s2union, bigint",
                  "region, s2_leaf(0, 5, 5)"), ("within", "small", "s2union, s2union", "region, '1 3 5'"),
                 ("within", "visits", "bigint, s2union", "leaf, s2_parent(s2_leaf(0, 9, 7), 24)::s2union"),
                 ("intersects", "small", "s2union, s2union", "region, '1 3 5'"),
                 ("intersects", "small", "bigint, s2union", "s2_leaf(0, 5, 5), region")]
        for name, table, types, arguments in asked:
            before, after = (f"EXPLAIN SELECT FROM {table} WHERE {call}({arguments});"
                             for call in (f"s2_{name}", "another_name"))
            said = psql(f"""
                BEGIN; {before} SELECT 'and then';
                ALTER FUNCTION s2_{name}({types}) RENAME TO another_name; {after} ROLLBACK;
            """)
            said = [line.replace("another_name", f"s2_{name}") for line in said if re.search("rows=|and then", line)]
            between = said.index("and then")
            self.assertEqual(said[:between], said[between + 1:], (name, types))
            self.assertTrue("Index" in "".join(said) or table == "small", said)

    def test_the_edges_of_a_union_are_found_by_their_names_in_c(self):
        """Also if another function has their name in SQL."""
        asked = "EXPLAIN SELECT FROM visits WHERE s2_within(leaf, s2_parent(s2_leaf(0, 9, 7), 24)::s2union);"
        psql(VISITS)
        for edge in ("s2union_least", "s2union_greatest"):
            plans = "\n".join(psql(f"""
                BEGIN; {asked} SELECT 'and then';
                ALTER FUNCTION {edge}(s2union) RENAME TO another_name; {asked} SELECT 'and then';
                CREATE FUNCTION {edge}(s2union) RETURNS bigint IMMUTABLE LANGUAGE sql AS 'SELECT 0::bigint';
                {asked} ROLLBACK;
            """)).split("\nand then\n")
            self.assertIn("Index Cond", plans[0])
            self.assertEqual(plans[1:], plans[:1] * 2)

    def test_a_join_with_leaves_uses_their_index_whatever_else_is_asked(self):
        """The planner knows no edge of a region that another table has, and would read the table for each further
        condition. All faces have leaves, one row none, and some larger cells; and what is found is what a plain join of
        all pairs finds. Regions are empty, NULL, and of parts on two faces; cells are of any level."""
        psql("""
            SET client_min_messages = error;
            DROP TABLE IF EXISTS seen, areas, parts;
            CREATE TABLE seen AS SELECT k AS id, k % 10 AS kind, CASE WHEN k % 5000 > 0 THEN
                s2_parent(s2_leaf(k % 6, k * 7919 % 99991 * 10700, k * 33013 % 99989 * 10700),
                    CASE WHEN k % 100 = 0 THEN 24 ELSE 30 END) END AS leaf FROM generate_series(1, 60000) AS k;
            CREATE INDEX ON seen (leaf);
            CREATE TABLE areas AS SELECT k AS id, CASE WHEN k % 50 > 0 THEN s2_outer(k % 6, k * 800000,
                k * 800000 + 9000000, k * 700000, k * 700000 + 8000000, 8) END AS region
                FROM generate_series(1, 1200) AS k;
            INSERT INTO areas VALUES (0, ''), (-1, '1001 b001');
            CREATE TABLE parts AS SELECT id, cell FROM areas, unnest(region) AS cell;
            ANALYZE seen; ANALYZE areas; ANALYZE parts;
        """)
        regions = "leaf <@ region", "region @> leaf", "s2_within(leaf, region)", "s2_contains(region, leaf)"
        cells = "s2_within(leaf, cell)", "s2_contains(cell, leaf)", "leaf <@ cell::s2union"
        unnested = "(SELECT id, unnest(region) AS cell FROM areas)"
        for table, asked in (("areas", regions), ("parts", cells), (unnested, cells)):
            for condition in asked:
                pairs = f"FROM seen s, {table} a WHERE {condition}"
                few = f"SELECT s.id, a.id {pairs} AND a.id BETWEEN 40 AND 42"
                for more in "", "AND kind = 3", "AND kind = 3 AND s.id > 7":
                    plan = self.plan(f"{few} {more}")
                    self.assertIn("seen_leaf_idx", plan, (few, more))
                    self.assertNotIn("Seq Scan on seen", plan, (few, more))
                plain = psql(f"SET enable_indexscan = off; SET enable_bitmapscan = off; {few} ORDER BY 1, 2")
                self.assertGreater(len(plain), 3, few)
                self.assertEqual(psql(f"{few} ORDER BY 1, 2"), plain)
                whole = f"SELECT count(*), sum(s.id * 7 + a.id) {pairs} AND a.id % 20 < 1"
                self.assertEqual(psql(f"SET enable_seqscan = off; {whole}"),
                                 psql(f"SET enable_indexscan = off; SET enable_bitmapscan = off; {whole}"))
        far = self.plan("SELECT FROM seen, areas a WHERE leaf <@ region AND kind = 3", "DELETE FROM areas"
                        " WHERE id <> -1; ANALYZE areas; SET enable_seqscan = off;")
        self.assertEqual(far.count("s2union_least"), 1)  # between two small cells of two faces lies much of the index
        for cell in 2, 0:
            with self.assertRaisesRegex(AssertionError, f"not a cell: {cell}"):
                psql(f"SELECT FROM seen, (VALUES ({cell}::bigint)) AS c (cell) WHERE s2_within(leaf, cell)")

    def test_an_operator_of_other_types_that_is_estimated_as_ours_are(self):
        def plan(kind, constant, function="LANGUAGE c AS 's2union', 's2union_contains'"):
            return psql(f"""
                BEGIN; CREATE SCHEMA stranger;
                CREATE FUNCTION stranger.s2_contains({kind}, {kind}) RETURNS boolean {function};
                CREATE OPERATOR @@@ (LEFTARG = {kind}, RIGHTARG = {kind}, FUNCTION = stranger.s2_contains,
                    RESTRICT = s2union_sel, JOIN = s2union_joinsel);
                EXPLAIN SELECT FROM pg_class WHERE relpages::{kind} @@@ {constant};
                ROLLBACK;
            """)

        for kind, constant in (("int", "5"), ("float8", "6e-310"), ("bigint", "5")):
            self.assertIn("Seq Scan on pg_class", plan(kind, constant)[0])
        for word in ("park", "a text that is longer than the head of a value"):
            self.assertRaisesRegex(AssertionError, "not a normalized list of cells", plan, "text", f"'{word}'::text")
            by_itself = "LANGUAGE plpgsql AS 'BEGIN RETURN true; END'"
            self.assertIn("Seq Scan on pg_class", plan("text", f"'{word}'::text", by_itself)[0])

    def test_a_function_costs_what_it_takes_to_read_its_arguments(self):
        def cost(query):
            return float(re.search(r"\.\.([\d.]+) rows", self.plan(query))[1])

        for call in ("s2_count(region)", "region | '04'", "s2_tokens(region)", "region = ''", "s2_cells(region, 3)",
                     "s2_tiles(region, 3)"):
            ratio = cost(f"SELECT {call} FROM countries") / 180 / (cost(f"SELECT {call} FROM small") / 20000)
            self.assertGreater(ratio, 200, call)

    def test_a_large_constant_is_read_once(self):
        psql("""
            CREATE TABLE many AS SELECT s2_union_agg(s2_leaf(0, 2 * (k % 600), 2 * (k / 600))::s2union) AS region
            FROM generate_series(0, 199999) AS k;
        """)
        plans = psql("""
            SET enable_bitmapscan = off;
            SELECT format('EXPLAIN SELECT count(*) FROM small WHERE region <@ %L', region) FROM many \\gexec
            SELECT format('EXPLAIN SELECT count(*) FROM small WHERE region | %L = region', region) FROM many \\gexec
        """)
        asked, made = [float(re.search(r"\.\.([\d.]+) rows", plan)[1]) for plan in plans if "Aggregate" in plan]
        self.assertLess(20 * asked, made)

    def test_equal_regions_are_joined_by_their_hashes(self):
        plan = self.plan("SELECT * FROM small x JOIN small y ON x.region = y.region", "SET enable_mergejoin = off;")
        self.assertIn("Hash Join", plan)
        plan = self.plan("SELECT * FROM small x JOIN small y ON x.region = y.region",
                         "SET enable_hashjoin = off; SET enable_nestloop = off;")
        self.assertIn("Merge Join", plan)


def seconds_of(command, milliseconds):
    """The seconds of a processor that a session takes whose command is cancelled after these milliseconds, and what it
    says of the command."""
    words = ["psql", "-XAqt", "-d", DATABASE]
    for each in (f"SET statement_timeout = {milliseconds}", command, "SET statement_timeout = 0", TICKS):
        words += ["-c", each]
    run = subprocess.run(words, stdout=subprocess.PIPE, stderr=subprocess.PIPE, text=True, check=True)
    return int(run.stdout.split()[-1]) / os.sysconf("SC_CLK_TCK"), run.stderr


class LargeQuestions(Tests):
    """While rows wait in the list of a GIN index, PostgreSQL compares each of them with each key of a question, and
    can't be cancelled. So a question has few keys. Elsewhere it is cancelled at once."""

    def ends_in_time(self, query):
        """It answers or is cancelled before it has taken twice its timeout of a processor."""
        took, said = seconds_of(query, 1000)
        self.assertTrue("ERROR" not in said or "due to statement timeout" in said, said)
        self.assertLess(took, 2, query)

    @classmethod
    def setUpClass(cls):
        super().setUpClass()
        psql("""
            SET client_min_messages = error;
            DROP TABLE IF EXISTS waiting, asked;
            CREATE TABLE waiting (id int, region s2union);
            CREATE INDEX waiting_gin ON waiting USING gin (region);
            INSERT INTO waiting SELECT k, s2_outer(k % 6, k * 100000, k * 100000 + 900000,
                k * 90000, k * 90000 + 700000, 13) FROM generate_series(1, 9000) AS k;
            CREATE TABLE asked AS SELECT n, s2_union_agg(s2_parent(s2_leaf((k * 7919 % 6)::int,
                (k * k * 7919 % 1073741823)::int, (k * 104729 % 1073741823)::int), 24)) AS region
                FROM (VALUES (100), (10000), (300000)) v(n), generate_series(1::bigint, 300000) AS k WHERE k <= n
                GROUP BY n;
            ANALYZE asked;
        """)

    def test_each_kind_of_large_question_over_pending_rows(self):
        ask = "SELECT count(*) FROM waiting WHERE "
        asked = "(SELECT region FROM asked WHERE n = {})"
        for n in (100, 10000, 300000):
            for condition in (f"region && {asked}", f"region @> {asked}", f"region <@ {asked}",
                              f"region @> (s2_cells({asked}))[1]", f"region && (s2_cells({asked}))[1]",
                              f"s2_intersects(region, {asked})"):
                self.ends_in_time("SET enable_seqscan = off; " + ask + condition.format(n))
            self.ends_in_time(f"""DO $do$ DECLARE q s2union := {asked.format(n)}; c bigint; BEGIN
                PERFORM set_config('enable_seqscan', 'off', true);
                EXECUTE '{ask} region && $1' INTO c USING q; END $do$""")
            self.ends_in_time("SET enable_seqscan = off; SELECT count(*) FROM asked a JOIN waiting w "
                              f"ON w.region && a.region WHERE a.n = {n}")

    def test_the_plan_of_a_question_about_a_large_array(self):
        psql("""
            SET client_min_messages = error;
            DROP TABLE IF EXISTS sampled;
            CREATE TABLE sampled AS SELECT region FROM waiting LIMIT 1000;
            ANALYZE sampled;
        """)
        for element in ("'04'::s2union", "s2_cell('04')"):
            self.ends_in_time(f"EXPLAIN SELECT FROM sampled WHERE region && ANY (array_fill({element}, ARRAY[500000]))")

    def test_by_gist(self):
        psql("""
            SET client_min_messages = error;
            DROP TABLE IF EXISTS placed;
            CREATE TABLE placed AS TABLE waiting;
            CREATE INDEX placed_gist ON placed USING gist (region);
        """)
        ask = "SET enable_seqscan = off; SELECT count(*) FROM placed p, asked a WHERE n = {} AND p.region {} a.region"
        for n in (100, 10000, 300000):
            for operator in ("&&", "@>"):
                self.ends_in_time(ask.format(n, operator))

    def test_the_answers_are_those_of_a_scan(self):
        for n in (100, 10000):
            for operator in ("&&", "@>", "<@"):
                query = f"SELECT count(*) FROM waiting WHERE region {operator} (SELECT region FROM asked WHERE n = {n})"
                scan, index = psql(f"""SET enable_bitmapscan = off; {query};
                    SET enable_bitmapscan = on; SET enable_seqscan = off; {query};""")
                self.assertEqual(scan, index, query)

    def test_texts_are_cancelled(self):
        self.ends_in_time("SELECT sum(length(region::text)) FROM asked, generate_series(1, 9999)")
        self.ends_in_time("SELECT length(repeat('04 ', 60000000)::s2union::text)")


class Aggregates(Tests):
    def test_the_aggregate(self):
        rows = [(self.random.randrange(20), self.random.cells()) for _ in range(5000)]
        script = "SET client_min_messages = error; DROP TABLE IF EXISTS parts;\n"
        script += "CREATE TABLE parts(kind int, region s2union);\nCOPY parts FROM STDIN;\n"
        script += "".join(f"{kind}\t{tokens(xs)}\n" for kind, xs in rows) + "\\.\nANALYZE parts;\n"
        query = "SELECT kind, s2_union_agg(region) FROM parts GROUP BY kind ORDER BY kind;\n"
        script += query + """
            SET parallel_setup_cost = 0; SET parallel_tuple_cost = 0; SET min_parallel_table_scan_size = 0;
            INSERT INTO parts VALUES (20, NULL); ALTER TABLE parts SET (parallel_workers = 3);
        """ + query + """
            SELECT s2_union_agg(region) FROM parts;
            SELECT s2_union_agg(region) IS NULL FROM parts WHERE kind > 99;
            EXPLAIN SELECT s2_union_agg(region) FROM parts;
        """
        said = psql(script)
        kinds = [model.normal(model.runs([cell for k, xs in rows if k == kind for cell in xs])) for kind in range(20)]
        lines = [f"{kind}|{tokens(cells)}" for kind, cells in enumerate(kinds)]
        self.assertEqual(said[:20], lines)
        self.assertEqual(said[20:41], lines + ["20|"])
        self.assertEqual(said[41:43], [tokens(model.normal(model.runs([cell for _, xs in rows for cell in xs]))), "t"])
        self.assertTrue(any("Partial Aggregate" in line for line in said[43:]), said[43:])

    def test_the_union_of_cells_and_the_intersection_of_unions(self):
        rows = [(self.random.randrange(ROUNDS // 10), self.random.cells(5)) for _ in range(ROUNDS)]
        kinds = {}
        for kind, xs in rows:
            first = kinds[kind][0] if kind in kinds else []
            kinds.setdefault(kind, []).append(xs + first)
        values = ", ".join(f"({kind}, {u(xs)})" for kind, lists in kinds.items() for xs in lists)
        query = """SELECT s2_union_agg(region), s2_intersection_agg(region),
            (SELECT s2_union_agg(c) FROM parts q, unnest(s2_cells(q.region)) AS c WHERE q.kind = p.kind)
            FROM parts p GROUP BY kind ORDER BY kind;\n"""
        said = psql(f"""SET client_min_messages = error; DROP TABLE IF EXISTS parts;
            CREATE TABLE parts(kind int, region s2union); INSERT INTO parts VALUES {values}, (-1, NULL);
            {query} SET parallel_setup_cost = 0; SET parallel_tuple_cost = 0; SET min_parallel_table_scan_size = 0;
            SET max_parallel_workers_per_gather = 3; ALTER TABLE parts SET (parallel_workers = 3); ANALYZE parts;
            SELECT s2_union_agg(c), s2_intersection_agg(region) FROM parts LEFT JOIN
                LATERAL unnest(s2_cells(region)) AS c ON true;
            EXPLAIN SELECT s2_intersection_agg(region) FROM parts; {query}""")
        wanted = ["||"]
        for _, lists in sorted(kinds.items()):
            union, both = [], [(0, model.LEAVES)]
            for xs in lists:
                union, both = model.joined(union + model.runs(xs)), model.common(both, model.runs(xs))
            whole = tokens(model.normal(union))
            wanted.append(f"{whole}|{tokens(model.normal(both))}|{whole}")
        self.assertEqual(said[: len(wanted)], wanted)
        self.assertEqual(said[-len(wanted):], wanted)
        every = tokens(model.normal(model.runs([cell for lists in kinds.values() for xs in lists for cell in xs])))
        self.assertEqual(said[len(wanted)].split("|")[0], every)
        self.assertTrue(any("Partial Aggregate" in line for line in said[len(wanted):]))

    def test_many_cells(self):
        said = psql("""
            SELECT s2_count(s2_union_agg(s2_parent(s2_leaf(0, 2 * (k % 600), 2 * (k / 600)), 30)::s2union))
                FROM generate_series(0, 359999) k;
            SELECT s2_union_agg(s2_leaf(0, k % 512, k / 512)::s2union) FROM generate_series(0, 262143) k;
        """)
        self.assertEqual(said[0], "360000")
        self.assertEqual(said[1], model.token(model.identifier(21, 0)))


class DumpAndRestore(Tests):
    def test_dump_and_restore(self):
        rows = [self.random.cells() for _ in range(300)]
        values = ", ".join(f"({k}, {u(xs)})" for k, xs in enumerate(rows))
        psql("DROP DATABASE IF EXISTS restored; DROP DATABASE IF EXISTS dumped;")
        psql("CREATE DATABASE dumped;")
        psql("CREATE DATABASE restored;")
        psql(f"""CREATE EXTENSION s2union; CREATE TABLE regions(id int PRIMARY KEY, region s2union);
             INSERT INTO regions VALUES {values}; CREATE INDEX ON regions USING gin (region);
             CREATE INDEX ON regions (region);""", "dumped")
        subprocess.run("pg_dump -Fc dumped | pg_restore -e -d restored", shell=True, check=True)
        query = """SELECT id, region FROM regions ORDER BY id;
                   SELECT indexdef FROM pg_indexes WHERE tablename = 'regions' ORDER BY 1;"""
        self.assertEqual(psql(query, "restored"), psql(query, "dumped"))
        self.assertEqual(len(psql(query, "restored")), 303)
        psql("DROP DATABASE restored; ")
        psql("DROP DATABASE dumped; ")

    def test_leaves_of_points_are_restored(self):
        """With the extension for points, and the column and the index that are built on it."""
        psql("DROP DATABASE IF EXISTS restored; ")
        psql("DROP DATABASE IF EXISTS dumped; ")
        psql("CREATE DATABASE dumped;")
        psql("CREATE DATABASE restored;")
        psql("""CREATE EXTENSION s2union_geo CASCADE;
             CREATE TABLE places(x float8, y float8, leaf bigint GENERATED ALWAYS AS (s2_leaf_at(x, y)) STORED);
             INSERT INTO places VALUES (2.3522, 48.8566), (-58.3816, -34.6037);
             CREATE INDEX ON places (s2_leaf_at(y, x));
             SET search_path = ''; ANALYZE public.places;""", "dumped")
        subprocess.run("pg_dump -Fc dumped | pg_restore -e -d restored", shell=True, check=True)
        self.assertEqual(psql("SELECT s2_token(leaf) FROM places ORDER BY x", "restored"),
                         ["95bccacf155f668f", "47e66e1d8f8be23b"])
        psql("DROP DATABASE restored; ")
        psql("DROP DATABASE dumped; ")

    def test_the_owner_of_a_database_may_create_the_extension(self):
        psql("DROP DATABASE IF EXISTS owned; ")
        psql("SET client_min_messages = error; DROP ROLE IF EXISTS owner, guest; CREATE ROLE owner; CREATE ROLE guest;")
        psql("CREATE DATABASE owned OWNER owner;")
        with self.assertRaisesRegex(AssertionError, "permission denied"):
            psql("SET ROLE guest; CREATE EXTENSION s2union;", "owned")
        said = psql("""SET ROLE owner; CREATE EXTENSION s2union; CREATE TABLE t AS SELECT '04'::s2union AS u; ANALYZE t;
                    SELECT u FROM t WHERE u && '1'; DROP EXTENSION s2union CASCADE;""", "owned")
        self.assertEqual(said, ["04"])
        psql("DROP DATABASE owned; ")
        psql("DROP ROLE owner, guest; ")


class Points(Tests):
    """The extension s2union_geo. tests/geo asks S2 about more points."""

    def setUp(self):
        psql("SET client_min_messages = error; CREATE EXTENSION IF NOT EXISTS s2union_geo CASCADE;")

    def test_points(self):
        rows = ", ".join(f"({x!r}::float8, {y!r}::float8)" for x, y, _ in POINTS)
        self.assertEqual(psql(f"SELECT s2_token(s2_leaf_at(x, y)) FROM (VALUES {rows}) AS places (x, y)"),
                         [token for _, _, token in POINTS])
        rows = ", ".join(f"('{token}')" for token, _, _ in MIDDLES)
        found = psql(f"SELECT s2_longitude(cell), s2_latitude(cell) FROM (VALUES {rows}) AS cells (cell)")
        for (token, *wanted), line in zip(MIDDLES, found, strict=True):
            for number, other in zip(wanted, map(float, line.split("|"))):
                self.assertAlmostEqual(number, other, places=10, msg=token)
        self.assertEqual(psql("SELECT s2_leaf_at(-58.3816, -34.6037), s2_face(s2_leaf_at(540, 1)),"
                              " s2_face(s2_leaf_at(-540, 1))"), ["-7657022275671071089|3|3"])
        self.assertEqual(psql("SELECT s2_leaf_at(NULL, 0) IS NULL, s2_leaf_at(0, NULL) IS NULL,"
                              " s2_longitude(NULL::bigint) IS NULL, s2_latitude(NULL::text) IS NULL"), ["t|t|t|t"])

    def test_boxes(self):
        """The box of a cell has each of 20,000 places that lie in it, at any level, also at poles and the date line; it
        is hardly larger than its children's boxes together; and that of a leaf is no larger than a leaf."""
        places = "SELECT random() * 360 - 180 AS x, degrees(asin(random() * 2 - 1)) AS y, k % 31 AS level" \
            " FROM generate_series(1, 20000) AS k UNION ALL SELECT x, y, level FROM (VALUES" \
            f" {', '.join(f'({x!r}::float8, {y!r}::float8)' for x, y, _ in POINTS)}) AS p (x, y)," \
            " generate_series(0, 30) AS level"
        inside = "box @> point(x + 360 * round(((center(box))[0] - x) / 360), y)"
        self.assertEqual(psql(f"SELECT bool_and({inside}) FROM ({places}) AS p,"
                              " s2_box(s2_parent(s2_leaf_at(x, y), level)) AS box"), ["t"])
        children = "SELECT max((b[0])[0] + turn) AS east, max((b[0])[1]) AS north, min((b[1])[0] + turn) AS west," \
            " min((b[1])[1]) AS south, min(width(box)) AS width, min((box[0])[1]) AS high, min((box[1])[1]) AS low" \
            " FROM cells, s2_box(cell) AS box, generate_series(0, 3) AS k, s2_box(s2_child(cell, k)) AS b," \
            " LATERAL (SELECT 360 * round(((center(box))[0] - (center(b))[0]) / 360) AS turn) AS t" \
            " WHERE s2_level(cell) < 30 AND width(box) < 180 AND abs((center(box))[1]) < 89.9999 GROUP BY cell"
        close = "width / (east - west) BETWEEN 0.9 AND 1.3 AND abs(high - north) + abs(low - south) < 1e-8"
        self.assertEqual(psql(f"WITH cells AS (SELECT DISTINCT s2_parent(s2_leaf_at(x, y), level) AS cell"
                              f" FROM ({places}) AS p) SELECT bool_and({close}), count(*) > 9000"
                              f" FROM ({children}) AS c"),
                         ["t|t"])
        self.assertEqual(psql("SELECT max(height(box)) < 3e-7 FROM generate_series(-90, 90) AS y,"
                              " s2_box(s2_leaf_at(7, y)) AS box"), ["t"])
        for token, *wanted in (("1", -45, -45, 45, 45), ("7", 135, -45, 225, 45),
                               ("5", -180, 35.264389682754654, 180, 90),
                               ("b", -180, -90, 180, -35.264389682754654), ("5004", -180, 86.52258405507725, 180, 90)):
            found, = psql(f"SELECT (b[1])[0], (b[1])[1], (b[0])[0], (b[0])[1] FROM s2_box('{token}') AS b")
            for number, other in zip(wanted, map(float, found.split("|")), strict=True):
                self.assertAlmostEqual(number, other, delta=2e-9, msg=token)
        self.assertEqual(psql("SELECT s2_box(NULL::bigint) IS NULL, s2_box('7') = s2_box(s2_cell('7'))"), ["t|t"])

    def test_points_that_are_refused(self):
        for call, said in (("s2_box(2)", "s2union: not a cell: 2"), ("s2_box('zz')", 's2union: not a cell: "zz"'),
                           ("s2_leaf_at(0, 91)", "a latitude is a number from -90 to 90: 91\nHINT:  The longitude"),
                           ("s2_leaf_at(0, 'NaN')", "s2union: a latitude is a number from -90 to 90: NaN"),
                           ("s2_leaf_at('-Infinity', 0)", "a longitude is a number from -540 to 540: -Infinity"),
                           ("s2_leaf_at(540.1, 0)", "s2union: a longitude is a number from -540 to 540: 540.1"),
                           ("s2_longitude(2)", "s2union: not a cell: 2"), ("s2_latitude(0)", "s2union: not a cell: 0"),
                           ("s2_latitude('zz')", 's2union: not a cell: "zz"')):
            with self.assertRaisesRegex(AssertionError, said, msg=call):
                psql(f"SELECT {call}")


def wkb_of(*rings):
    """A polygon as the text of a bytea with its WKB."""
    parts = [struct.pack("<BII", 1, 3, len(rings))]
    for ring in rings:
        parts += [struct.pack("<I", len(ring)), *(struct.pack("<dd", *position) for position in ring)]
    return f"'\\x{b''.join(parts).hex()}'::bytea"


def wkb_of_polygons(*polygons):
    """A MultiPolygon as the text of a bytea with its WKB."""
    head = struct.pack("<BII", 1, 6, len(polygons)).hex()
    return "'\\x" + head + "".join(wkb_of(*rings)[3:-8] for rings in polygons) + "'::bytea"


def polygons_in(wkb):
    """The rings of each polygon of a MultiPolygon in WKB."""
    def parts_of(kind, at):
        *head, parts = struct.unpack_from("<BII", wkb, at)
        assert head == [1, kind]
        return parts, at + 9

    (count, at), polygons = parts_of(6, 0), []
    for _ in range(count):
        rings, at = parts_of(3, at)
        polygons.append([])
        for _ in range(rings):
            count, at = struct.unpack_from("<I", wkb, at)[0], at + 4
            polygons[-1].append([struct.unpack_from("<dd", wkb, at + 16 * k) for k in range(count)])
            at += 16 * count
    assert at == len(wkb)
    return polygons


class Shapes(Tests):
    """Coverings of WKB, and regions as WKB, of the extension s2union_geo. tests/geo asks PostGIS about them."""

    TRIANGLE = [(2, 48), (4, 48), (2, 50), (2, 48)]

    def setUp(self):
        psql("SET client_min_messages = error; CREATE EXTENSION IF NOT EXISTS s2union_geo CASCADE;")

    def test_coverings(self):
        """Each place of a triangle is in the covering, and none outside in the interior; both come at once too."""
        shape = wkb_of(self.TRIANGLE)
        grid = "generate_series(1.95, 4.05, 0.03) AS x, generate_series(47.95, 50.05, 0.03) AS y"
        inside = "x >= 2 AND y >= 48 AND (x - 2) + (y - 48) <= 2"
        for cells, level in ((8, 30), (200, 30), (2000, 11)):
            given = f"{shape}, {cells}, {level}"
            self.assertEqual(psql(f"SELECT bool_and(NOT ({inside}) OR covering @> leaf), bool_and(({inside})"
                                  f" OR NOT interior @> leaf), count(*) FILTER (WHERE interior @> leaf) > 500"
                                  f" FROM s2_coverings({given}), {grid}, s2_leaf_at(x, y) AS leaf"), ["t|t|t"])
            self.assertEqual(psql(f"SELECT covering = s2_covering({given}), interior = s2_interior({given}),"
                                  f" s2_count(covering) <= {cells}, (SELECT max(s2_level(cell)) <= {level}"
                                  f" FROM unnest(s2_cells(covering)) AS cell) FROM s2_coverings({given})"), ["t|t|t|t"])
        self.assertEqual(psql(f"SELECT s2_covering(NULL::bytea) IS NULL, s2_count(s2_covering({wkb_of()})),"
                              f" s2_covering({shape}, 200, 30) = s2_covering({shape})"), ["t|0|t"])

    def test_shapes_that_are_refused(self):
        whole = wkb_of(self.TRIANGLE)
        for call, said in ((whole[:-10] + "'::bytea", "the bytes are no WKB: at byte"),
                           ("''::bytea", "the bytes are no WKB: at byte 0"),
                           (wkb_of([(2, 48), (4, 91), (2, 50), (2, 48)]), "a latitude .*: ring 0, position 1"),
                           (wkb_of(self.TRIANGLE, self.TRIANGLE[:3]), "fewer than four positions: ring 1"),
                           (wkb_of([*self.TRIANGLE, (0, 0)]), "is open: .*: ring 0"),
                           (f"{whole}, -1", "out of range: a number of cells is from 0 to 1000000, and a level"),
                           (f"{whole}, 1, 31", "out of range: a number of cells is from 0 to 1000000, and a level")):
            for name in ("s2_covering", "s2_interior", "s2_coverings"):
                with self.assertRaisesRegex(AssertionError, f"s2union: .*{said}", msg=call):
                    psql(f"SELECT {name}({call})")

    def test_what_is_around(self):
        """Cells that touch a cell, across faces too; unions with them; and boxes, over the date line and at a pole."""
        self.assertEqual(psql("SELECT s2_neighbors('14'), s2_neighbors(s2_cell('1'), 0), s2_neighbors('1', 1),"
                              " s2_neighbors(s2_cell('89c25')) = s2_expanded('89c25', 8) - '89c25',"
                              " s2_count(s2_neighbors('89c25', 10)), s2_expanded('3 9', 0), s2_expanded('', 9) = '',"
                              " s2_neighbors(1, 29) IS NULL, s2_neighbors(NULL::bigint, 31) IS NULL"),
                         ["04 0c 1c 24 3c 44 4c|3 5 9 b|24 3c 44 4c 8c 94 b4 bc|t|20|1 3 5 7 9 b|t|t|t"])
        self.assertEqual(psql("SELECT s2_neighbors(face) FROM unnest('{1,3,5,7,9,b}'::text[]) AS face"),
                         ["3 5 9 b", "1 5 7 b", "1 3 7 9", "3 5 9 b", "1 5 7 b", "1 3 7 9"])  # not the one behind it
        self.assertEqual(psql("SELECT s2_bounds('7')::numeric(9, 3)[], (s2_bounds('5'))[2]::numeric(9, 3),"
                              " s2_bounds('1 3')::numeric(9, 3)[], s2_bounds('') IS NULL"),
                         ["{135.000,-45.000,-135.000,45.000}|35.264|{-45.000,-45.000,135.000,45.000}|t"])
        self.assertEqual(psql("SELECT round(s2_area('3')), abs(s2_area('3') * 6 / (4 * pi() * 6371.01 ^ 2) - 1) < 1e-9,"
                              " s2_area(''), s2_area(NULL) IS NULL, round(s2_area(s2_cell('1')::s2union)),"
                              " abs(s2_area('89c25') / (SELECT sum(s2_area(cell::s2union)) FROM"
                              " unnest(s2_cells('89c25', 14)) AS cell) - 1) < 1e-12"),
                         ["85011012|t|0|t|85011012|t"])
        for call, said in (("s2_neighbors(2)", "not a cell: 2"), ("s2_neighbors('zz')", "not a cell"),
                           ("s2_neighbors('1', 18)", "too many cells: 18"),
                           ("s2_neighbors(1, -1)", "out of range: -1"), ("s2_neighbors('1', 31)", "out of range: 31"),
                           ("s2_expanded('1', 31)", "out of range: 31"), ("s2_expanded('1', -1)", "out of range: -1"),
                           ("s2_expanded('1', 30)", "too many cells: 30")):
            with self.assertRaisesRegex(AssertionError, f"s2union: .*{said}", msg=call):
                psql(f"SELECT {call}")

    def test_regions_as_polygons(self):
        """A square for each cell, faces in four; and an outline that has the same places, without borders inside."""
        def polygons(function, region):
            line, = psql(f"SELECT {function}('{region}')")
            return polygons_in(bytes.fromhex(line.removeprefix("\\x")))

        self.assertEqual(list(map(len, polygons("s2_squares", "1 5 89c25"))), [1] * 9)
        self.assertEqual([len(ring) for ring, in polygons("s2_squares", "5")], [6] * 4)
        for face, quarters in (("1", "04 0c 14 1c"), ("3", "24 2c 34 3c"), ("5", "44 4c 54 5c")):
            squares = [square for cell in quarters.split() for square in polygons("s2_squares", cell)]
            self.assertEqual(sorted(polygons("s2_squares", face)), sorted(squares))
        self.assertEqual([len(ring) for ring, in polygons("s2_squares", "89c25")], [5])
        self.assertEqual([len(it) for it in polygons("s2_outline", "1 3 5 7 9 b")], [1])
        self.assertEqual([len(it) for it in polygons("s2_outline", "04 0c 14")], [1])
        self.assertEqual([len(it) for it in polygons("s2_outline", "04 14")], [1, 1])
        self.assertEqual(polygons("s2_outline", ""), [])
        square, outline = (polygons(it, "89c25")[0][0] for it in ("s2_squares", "s2_outline"))
        for position in square:
            self.assertLess(min(abs(x - position[0]) + abs(y - position[1]) for x, y in outline), 1e-12)


class Exclusion(Tests):
    def test_no_two_regions_overlap(self):
        psql("""
            SET client_min_messages = error;
            DROP TABLE IF EXISTS zones;
            CREATE TABLE zones(id serial, region s2union, EXCLUDE USING gist (region WITH &&));
            CREATE OR REPLACE FUNCTION put(s2union) RETURNS boolean LANGUAGE plpgsql AS $$
            BEGIN
                INSERT INTO zones(region) VALUES ($1);
                RETURN true;
            EXCEPTION WHEN exclusion_violation THEN
                RETURN false;
            END $$;
        """)
        first = [model.identifier(20, 10**9 * k + 5 * k * k) for k in range(400)] # more than a page of the index has
        psql("".join(f"INSERT INTO zones(region) VALUES ({u([cell])});\n" for cell in self.random.sample(first, 400)))
        taken, regions = model.runs(first), [first]
        for _ in range(max(ROUNDS, 300)):
            near = self.random.choice(regions) if self.random.random() < 0.4 else ()
            regions.append(self.random.cells(30, near=near, low=5))
        said = psql("".join(f"SELECT put({u(xs)});\n" for xs in regions[1:]))
        for xs, answer in zip(regions[1:], said):
            free = not model.meet(model.runs(xs), taken)
            self.assertEqual(answer, "t" if free else "f")
            if free:
                taken = model.joined(taken + model.runs(xs))
        self.assertGreater(min(said.count("f"), said.count("t")), 0)


class Guarded(Tests):
    """On the build of guarded.c. That file says what the build refuses and counts."""

    @classmethod
    def setUpClass(cls):
        super().setUpClass()
        psql(STATE + """
            SET client_min_messages = error;
            CREATE OR REPLACE FUNCTION s2_refuse(bigint) RETURNS bigint LANGUAGE C AS '$libdir/s2union';
            CREATE OR REPLACE FUNCTION s2_cancel(bigint) RETURNS bigint LANGUAGE C AS '$libdir/s2union';
            CREATE OR REPLACE FUNCTION s2_left() RETURNS integer LANGUAGE C AS '$libdir/s2union';
            CREATE OR REPLACE FUNCTION s2_limit(bigint) RETURNS void LANGUAGE C AS '$libdir/s2union';
            CREATE OR REPLACE FUNCTION s2_chances() RETURNS bigint LANGUAGE C AS '$libdir/s2union';
            CREATE OR REPLACE FUNCTION s2_compared() RETURNS bigint LANGUAGE C AS '$libdir/s2union';
            CREATE OR REPLACE FUNCTION s2_pointer_to(s2union) RETURNS s2union LANGUAGE C AS '$libdir/s2union';
            CREATE OR REPLACE FUNCTION s2_keys(s2union, integer) RETURNS text LANGUAGE C AS '$libdir/s2union';
            CREATE OR REPLACE FUNCTION s2_keys(bigint, integer) RETURNS text LANGUAGE C AS '$libdir/s2union';
            CREATE OR REPLACE FUNCTION s2_keys_found(integer, text, boolean) RETURNS text LANGUAGE C
                AS '$libdir/s2union';
            DROP TABLE IF EXISTS parts;
            CREATE TABLE parts(id int, part s2union);
            INSERT INTO parts VALUES (1, '04 0c'), (2, '1c'), (3, NULL), (4, ''),
                (5, '1'::s2union - '0000000000000001'), (6, s2_outer(0, 5, 400000, 7, 400000, 20)),
                (7, s2_inner(0, 5, 400000, 7, 400000, 20));
            CREATE OR REPLACE FUNCTION indexed(method text) RETURNS bigint LANGUAGE plpgsql AS $$
            DECLARE found bigint;
            BEGIN
                EXECUTE format('CREATE INDEX parts_index ON parts USING %I (part)', method);
                EXECUTE 'SELECT count(*) FROM parts WHERE part '
                    || CASE WHEN method LIKE 'gi%' THEN '&& $t$041 1c4$t$' ELSE '= $t$04 0c$t$' END INTO found;
                DROP INDEX parts_index;
                RETURN found;
            END $$;
            CREATE OR REPLACE FUNCTION refused_in_turn(query text,
                OUT allocations bigint, OUT errors int, OUT wrong text)
            LANGUAGE plpgsql AS $$
            DECLARE answer text; said text;
            BEGIN
                errors := 0;
                answer := try(query);
                PERFORM s2_refuse(0);
                said := try(query);
                allocations := s2_refuse(0);
                FOR n IN 1 .. allocations LOOP
                    PERFORM s2_refuse(n);
                    said := try(query);
                    PERFORM s2_refuse(0);
                    IF said LIKE 'error: %out of memory' THEN errors := errors + 1;
                    ELSIF said IS DISTINCT FROM answer THEN wrong := format('%s: %s', n, said);
                    END IF;
                    IF try(query) IS DISTINCT FROM answer THEN wrong := format('after %s', n); END IF;
                END LOOP;
            END $$;
        """)

    def test_each_allocation_refused_in_turn(self):
        triangle = [(0, 0), (9, 2), (5, 8), (0, 0)]
        over_parts = (
            "part | '3'", "part & '0c 14'", "'1'::s2union - part", "part # '0c 14'", "~part", "part::bytea",
            "part::bytea::s2union",
            "s2_tokens(part)", "s2_cells(part, 20)", "part::bigint[]::s2union", "s2_cell('0401') <@ part",
            "part && s2_cell('0401')", "s2_cell('0401') && part",
            "s2_cells(part)", "s2_ancestors(part)", "s2_outer(part, 3)", "s2_inner(part, 3)", "part @> '04'",
            "s2_outer(part, 0, 5, 9000, 7, 9000, 24)", "s2_inner(part, 0, 5, 9000000, 7, 9000000, 12)",
            "'1'::s2union <@ part", "s2union_least(part)", "s2union_greatest(part)",
            "(SELECT string_agg(tile || t.part::text, ',') FROM s2_tiles(parts.part, 1) AS t)",
            "part && '1c'", "part @> s2_cell('0401')", "part < '1'", "s2union_cmp(part, '04 0c')", "s2union_hash(part)",
            "s2union_hash_extended(part, 3)", "s2_count(part) + s2_leaves(part)", "part",
        )
        queries = [f"SELECT string_agg(({sql})::text, ';' ORDER BY id) FROM parts" for sql in over_parts] + [
            "SELECT s2_union_agg(part) FROM parts",
            "SELECT array_agg(u) FROM (SELECT s2_union_agg(part) AS u FROM parts GROUP BY id % 2 ORDER BY 1) g",
            "SELECT s2_outer(0, 5, 9000, 7, 9000, 24)", "SELECT '1 04 3'::s2union",
            "SELECT s2_inner(0, 5, 9000, 7, 9000, 24)", "SELECT s2_range(s2_cell('0000000000000001'), s2_cell('3'))",
            f"SELECT s2_map_outer({wkb_of(triangle)}, 4)", f"SELECT s2_map_inner({wkb_of(triangle)}, 5)",
            """SELECT s2_map_outer('{"type": "Polygon", "coordinates": [[[0, 0], [9, 2], [5, 8], [0, 0]]]}', 4)""",
            f"SELECT s2_map_inner({wkb_of(triangle[1:])}, 4)", "SELECT s2_map_outer('[]', 4)",
            f"SELECT s2_geodesic_outer({wkb_of(triangle)}, 4)", f"SELECT s2_geodesic_inner({wkb_of(triangle)}, 5)",
            "SELECT s2_token(s2_parent(s2_cell('1c'), 0)), s2_cell('04')::s2union", "SELECT indexed('gin')",
            "SELECT s2_longitude('04') + s2_latitude('1/0') + s2_latitude(s2_leaf_at(2.3522, 48.8566))",
            "SELECT s2_latitude('zz')", "SELECT s2_leaf_at(0, 91)",
            "SELECT s2_union_agg(c) FROM parts, unnest(s2_cells(part)) AS c",
            "SELECT s2_intersection_agg(part) FROM parts WHERE id > 4", "SELECT indexed('gist')",
            "SELECT indexed('btree')", "SELECT indexed('hash')", "SELECT s2_union_agg(part) FROM parts p, parts q",
        ]
        script = """SET parallel_setup_cost = 0; SET parallel_tuple_cost = 0; SET min_parallel_table_scan_size = 0;
            SET max_parallel_workers = 0; SET enable_seqscan = off; SET client_min_messages = error;
            ANALYZE parts; ALTER TABLE parts SET (parallel_workers = 1);
            CREATE EXTENSION IF NOT EXISTS s2union_geo;\n"""
        script += "".join(f"SELECT * FROM refused_in_turn($q${query}$q$);\n" for query in queries)
        said = [line.split("|", 2) for line in psql(script)]
        self.assertEqual(len(said), len(queries))
        for query, (allocations, errors, wrong) in zip(queries, said):
            self.assertEqual(wrong, "", query)
            self.assertEqual(int(errors) > 0, int(allocations) > 0, query)
        self.assertGreater(sum(int(errors) for _, errors, _ in said), 150)

    def test_cancelled_at_an_allocation(self):
        """The call takes no other one, its error is that of the cancel, and then the session answers as before."""
        ring = [(0, 0), (30, 5), (40, 40), (10, 30), (-5, 20), (0, 0)]
        calls = [f"s2_covering({wkb_of(ring)}, 500)", f"s2_interior({wkb_of(ring)}, 500)",
                 f"(s2_coverings({wkb_of(ring)}, 500)).interior", f"s2_map_inner({wkb_of(ring)}, 7)",
                 f"s2_geodesic_inner({wkb_of(ring)}, 7)"]
        script = """SET client_min_messages = error; CREATE EXTENSION IF NOT EXISTS s2union_geo;
            CREATE FUNCTION pg_temp.cancelled(query text, OUT all_takes bigint, OUT wrong text) LANGUAGE plpgsql AS $$
            DECLARE answer text; again text; n bigint; takes bigint;
            BEGIN
                EXECUTE query INTO answer;
                PERFORM s2_cancel(0);
                EXECUTE query INTO again;
                all_takes := s2_cancel(0);
                FOR k IN 0 .. 19 LOOP
                    n := 1 + k * (all_takes - 4) / 19; -- the last ones are those of the value
                    BEGIN
                        PERFORM s2_cancel(n);
                        EXECUTE query INTO again;
                        wrong := format('not cancelled at %s', n);
                    EXCEPTION WHEN query_canceled THEN
                        takes := s2_cancel(0);
                        IF takes > n THEN wrong := format('cancelled at %s, and took %s', n, takes); END IF;
                    END;
                    EXECUTE query INTO again;
                    IF again <> answer THEN wrong := 'another answer'; END IF;
                END LOOP;
            END $$;\n"""
        said = psql(script + "".join(f"SELECT * FROM pg_temp.cancelled($q$SELECT {call}::text$q$);" for call in calls))
        for call, line in zip(calls, said, strict=True):
            takes, wrong = line.split("|")
            self.assertEqual(wrong, "", call)
            self.assertGreater(int(takes), 1000, call)

    def test_what_a_call_leaves(self):
        """Blocks that are still there when a call ends: the result, and what the end of the statement frees. A sort or
        an index calls the order and the hash many times before that, and a join the questions, so these must leave
        nothing, except what is kept for the next call: a block for each argument that is large."""
        large = "SELECT {} FROM parts x, parts y WHERE x.id = 6 AND y.id = 7"
        calls = [(large.format(f"x.part {name} y.part"), 0) for name in ("=", "<>", "<", "<=", ">", ">=")]
        calls += [(large.format(f"x.part {name} y.part"), 2) for name in ("@>", "<@", "&&")]
        calls += [
            (large.format("x.part @> s2_cell('04')"), 1), (large.format("s2_cell('04') <@ x.part"), 1),
            (large.format("x.part && s2_cell('04')"), 1), (large.format("s2_cell('04') && x.part"), 1),
            (large.format("x.part @> '04'"), 1), ("SELECT pg_column_size('04'::s2union # '14')", 1),
            (large.format("'04' <@ x.part"), 1),
            (large.format("s2union_least(x.part)"), 0), (large.format("s2union_greatest(x.part)"), 0),
            (large.format("s2union_cmp(x.part, y.part)"), 0), (large.format("s2union_hash(x.part)"), 0),
            (large.format("s2union_hash_extended(x.part, 1)"), 0), (large.format("s2_count(x.part)"), 1),
            ("SELECT pg_column_size('1'::s2union - '0000000000000001')", 1),
            ("SELECT pg_column_size('04'::s2union | '14')", 1), ("SELECT pg_column_size(s2_range(1, 3000000001))", 1),
            ("SELECT pg_column_size(s2_outer(0, 5, 90000, 7, 90000, 20))", 1),
            ("SELECT cardinality(s2_ancestors(part)) FROM parts WHERE id = 6", 3),
            ("SELECT cardinality(s2_ancestors('0000000000000001 2000000000000001 4000000000000001'))", 2),
            ("SELECT pg_column_size('04 0c'::text::s2union)", 1),
        ]
        said = psql("".join(f"{query};\nSELECT s2_left();\n" for query, _ in calls))
        self.assertEqual([(query, int(left)) for (query, _), left in zip(calls, said[1::2])], calls)

    def test_where_a_call_can_be_cancelled(self):
        """Once for each piece of a text or an array, each level of a covering, and each time that cells are sorted."""
        psql("""
            SET client_min_messages = error;
            DROP TABLE IF EXISTS scattered;
            CREATE TABLE scattered AS SELECT s2_union_agg(s2_leaf((k % 6)::int, k * 5003, k * 4999)) AS region
                FROM generate_series(0, 199999) AS k;
            DROP TABLE IF EXISTS apart;
            CREATE TABLE apart WITH (parallel_workers = 2) AS SELECT s2_leaf(0, k, k)::s2union AS region
                FROM generate_series(1, 20000) AS k;
            ANALYZE apart;
        """)
        several = (
            ("CREATE INDEX scattered_gist ON scattered USING gist (region)", 4), ("ANALYZE scattered", 4),
            ("SELECT length(region::text) FROM scattered", 4), ("SELECT s2_count(repeat('04 ', 90000)::s2union)", 5),
            ("SELECT s2_count(array_fill('04'::text, ARRAY[150000])::s2union)", 3),
            ("SELECT s2_keys(region, 1) FROM scattered", 6),
            ("SELECT s2_count(s2_union_agg(s2_leaf(0, k, k))) FROM generate_series(1, 500000) AS k", 3),
            ("SELECT s2_count(s2_union_agg(region)) FROM apart", 2), # for a part of the rows, and at the end
        )
        said = psql("""SET parallel_setup_cost = 0; SET parallel_tuple_cost = 0; SET max_parallel_workers = 0;
            SET min_parallel_table_scan_size = 0;\n""" + "".join(f"""
            SELECT s2_chances() IS NULL; {query}; SELECT 'chances: ' || s2_chances();\n""" for query, _ in several))
        chances = [int(line.rpartition(" ")[2]) for line in said if line.startswith("chances")]
        for (query, least), each in zip(several, chances, strict=True):
            self.assertGreaterEqual(each, least, query)

    def test_what_is_kept_does_not_grow(self):
        """Values that come again, that change in each row, and that change in every other row."""
        others = ("y.part", "CASE WHEN k % 2 < 1 THEN y.part ELSE x.part END",
                  "CASE WHEN k % 4 < 2 THEN y.part ELSE x.part END")
        calls = [call.format(f"CASE WHEN k > 0 THEN {other} END") for other in others
                 for call in ("x.part && {}", "x.part @> {}", "s2_intersects({}, s2_cell('04'))", "x.part & {}")]
        said = psql("".join(f"""
            SET work_mem = '64kB'; SELECT max(used) - min(used) FROM (
                SELECT CASE WHEN k IN (20, 3000) THEN (SELECT sum((m).used_bytes) FROM (
                    SELECT pg_get_backend_memory_contexts() AS m WHERE k > 0) n) END AS used
                FROM generate_series(1, 3000) AS k, parts x, parts y
                WHERE x.id = 6 AND y.id = 7 AND {call} IS NOT NULL
            ) u;
        """ for call in calls))
        for call, grown in zip(calls, said, strict=True):
            self.assertLess(int(grown), 100000, call)

    def test_what_is_compared_with_what_is_kept(self):
        """Values of 1,001 cells that are made in each of 60 rows: some differ in one word, which is not looked at
        first, so each is compared with two others; some in all words; and some are the same."""
        size = 8 + 8 * 1001
        cells = " ".join(model.token(model.identifier(20, k * (6 * 4**20 // 1000))) for k in range(1000))
        values = ("s2_union(region, s2_leaf(3, 2 * k, 0)::s2union)",
                  "(SELECT s2_union_agg(s2_leaf(3, 2 * n, 2 * k)) FROM generate_series(1, 1001) AS n)",
                  "s2_union(region, s2_leaf(3, 2 + 0 * k, 0)::s2union)")
        said = psql(f"""
            SET max_parallel_workers_per_gather = 0;
            CREATE TEMP TABLE base AS SELECT '{cells}'::s2union AS region;
        """ + "".join(f"""
            SELECT s2_compared() IS NULL;
            SELECT count(*) FROM base, generate_series(1, 60) AS k WHERE s2_intersects({value}, s2_leaf(3, 2, 0));
            SELECT s2_compared();
        """ for value in values))
        self.assertEqual(said[1::3], ["1", "0", "60"])
        alike, apart, same = map(int, said[2::3])
        self.assertTrue(57 * size < alike < 60 * 2 * size, alike)
        self.assertLess(apart, size)
        self.assertTrue(59 * size <= same < 60 * size, same) # the base too is compared, by its name

    def test_a_pointer_is_no_name_of_a_value(self):
        """In each row it is the same, and what it points to another value."""
        asked = "s2_intersects(s2_pointer_to(s2_leaf(0, k, 0)::s2union), s2_leaf(0, k, 0))"
        self.assertEqual(psql(f"SELECT count(*) FROM generate_series(1, 9) AS k WHERE {asked}"), ["9"])

    def test_limits_of_a_value(self):
        """Ten cells, or 87 bytes of text: 1 GB is more than a test should take."""
        limit = "DO $$ BEGIN PERFORM s2_limit(88); END $$;"
        cells = [model.identifier(2, 5 * k) for k in range(11)]
        leaves = [model.identifier(30, 5 * k) for k in range(6)]
        ten, eleven, six = u(cells[:10]), u(cells), u(leaves)
        two, three = [model.identifier(2, 95)], [model.identifier(4, 1535)] # cells with tokens of 2 and 3 letters
        self.all_are([
            (f"s2_count({ten})", "10"), (f"{ten}", tokens(cells[:10])), (f"s2_count('{' ' * 200}{ten[1:]})", "10"),
            (f"{u(leaves[:5])}", tokens(leaves[:5])), (f"s2_count({six})", "6"),
            (f"{u(leaves[:5] + two)}", tokens(leaves[:5] + two)), (f"length(({u(leaves[:5] + two)})::text)", "87"),
            (f"state_of($s$SELECT ({u(leaves[:5] + three)})::text$s$)", "54000"),
            (f"state_of($s$SELECT s2_tokens({u(leaves[:5] + three)})$s$)", "54000"),
            (f"length(({u(cells[:9])})::bytea)", "81"), (f"state_of($s$SELECT ({ten})::bytea$s$)", "54000"),
            (f"cardinality(s2_cells({u(cells[:8])}))", "8"),
            (f"state_of($s$SELECT s2_cells({u(cells[:9])})$s$)", "54000"),
            (eleven, "error: s2union: too many cells"), (six, "error: s2union: too many cells"),
            (f"state_of($s$SELECT {eleven}$s$)", "54000"), (f"state_of($s$SELECT ({six})::text$s$)", "54000"),
            (f"('\\x{model.file(cells).hex()}'::bytea)::s2union", "error: s2union: more than 10 cells"),
            ("state_of($s$SELECT '1 X'::s2union$s$)", "22P02"),
        ], limit)

    def test_the_limit_of_a_text_between_two_pieces(self):
        text = "(SELECT s2_union_agg(10 * k + 1) FROM generate_series(1, {}::bigint) k)::text"
        self.all_are([
            (f"length({text.format(65536)})", "1114111"), (f"state_of($s$SELECT {text.format(65537)}$s$)", "54000"),
        ], "DO $$ BEGIN PERFORM s2_limit(1114112); END $$;")

    def test_keys_of_a_question(self):
        """How many keys, how many of them ranges, how many with something that isn't compared, the mode of the search,
        and whether a row in which a key is found matches."""
        self.all_are([(f"s2_keys({asked})", answer) for asked, answer in (
            ("''::s2union, 1", "0 0 0 0 t"), ("''::s2union, 2", "0 0 0 2 t"), ("''::s2union, 3", "0 0 0 1 f"),
            ("'04 1c'::s2union, 1", "3 2 3 0 t"), ("'04 1c'::s2union, 2", "2 0 2 0 f"),
            ("'04'::s2union, 2", "2 0 2 0 t"), ("'04 1c'::s2union, 3", "2 2 2 1 f"),
            ("'1 3 5'::s2union, 1", "3 3 3 0 t"), ("'1'::s2union, 2", "1 0 1 0 t"),
            ("s2_cell('04'), 4", "2 0 2 0 t"), ("s2_cell('04'), 5", "2 1 2 0 t"), ("s2_cell('1'), 4", "1 0 1 0 t"),
            ("s2_cell('0000000000000001'), 4", "31 0 31 0 t"), ("s2_cell('0000000000000001'), 5", "31 1 31 0 t"),
            ("s2_cells('1', 3)::s2union - '04', 1", "4 3 4 0 t"),
        )])

    def test_a_question_has_at_most_256_keys(self):
        """Those of its outer covering at the finest level at which they are so few. The questions are n leaves of two
        diagonals, close together or far apart."""
        leaves = "SELECT s2_union_agg(s2_leaf(k % 2, {0} * k, {0} * k)) FROM generate_series(1, {1}) AS k"
        rows = [leaves.format(apart, n) for apart in (1, 3, 1000, 100000) for n in (5, 9, 10, 50, 200, 256, 257, 2000)]
        pairs = []
        for row, said in zip(rows, psql("".join(f"SELECT array_to_string(s2_cells(({row})), ' ');\n" for row in rows))):
            cells = [int(cell) % 2**64 for cell in said.split()]
            pairs += [(f"s2_keys(({row}), {strategy})", self.keys(cells, strategy)) for strategy in (1, 3)]
        self.all_are(pairs)

    def keys(self, cells, strategy):
        x, said = model.runs(cells), ""
        for level in range(31):
            covering = model.normal(model.around(x, level))
            keys = model.ancestors(covering) if strategy == 1 else covering
            if len(keys) > 256:
                break
            exact = boolean(strategy == 1 and covering == cells)[0]
            said = f"{len(keys)} {len(covering)} {len(keys)} {int(strategy == 3)} {exact}"
        return said

    def test_keys_that_are_found(self):
        self.all_are([(f"s2_keys_found({asked})", answer) for asked, answer in (
            ("1, 'ffffff', true", "f"), ("1, 'fffmff', true", "m"), ("1, 'mmmmmm', true", "m"),
            ("1, 'fffftf', true", "t"), ("1, 't', true", "t"), ("1, 'f', true", "f"), ("1, 't', false", "m"),
            ("1, 'ft', false", "m"),
            ("2, 'ft', false", "m"), ("2, 'ft', true", "t"), ("2, 'ff', false", "f"), ("2, 'mf', true", "m"),
            ("3, 'ff', false", "m"), ("3, 't', true", "m"), ("4, 'ft', true", "t"), ("5, 'ff', true", "f"),
        )])


class MemoryLimits(Tests):
    """A session that gets less and less memory from the system: it answers or reports an error, and goes on."""

    def said(self, query, extra):
        command = ["psql", "-XAqt", "-d", DATABASE]
        with subprocess.Popen(command, stdin=subprocess.PIPE, stdout=subprocess.PIPE, stderr=subprocess.STDOUT,
                              text=True) as session:
            print("SET max_parallel_workers_per_gather = 0;",
                  "SELECT pg_backend_pid() FROM large WHERE region @> '04' OR true;", file=session.stdin, flush=True)
            pid = int(session.stdout.readline())
            with open(f"/proc/{pid}/status", encoding="utf-8") as status:
                size = next(int(line.split()[1]) * 1024 for line in status if line.startswith("VmSize"))
            subprocess.run([*AS_POSTGRES, "prlimit", f"--pid={pid}", f"--as={size + extra}"], check=True)
            output, _ = session.communicate(f"{query};\nSELECT 'goes on';\n")
        return output.splitlines()

    def test_limits_in_steps(self):
        psql("""
            SET client_min_messages = error;
            DROP TABLE IF EXISTS large;
            CREATE TABLE large AS SELECT s2_union_agg(s2_leaf(0, 2 * (k % 600), 2 * (k / 600))::s2union) AS region
            FROM generate_series(0, 199999) AS k;
        """)
        many = "generate_series(0, 99999) AS k"
        queries = (
            f"SELECT s2_count(s2_union_agg(s2_leaf(1, 2 * (k % 600), k / 600)::s2union)) FROM {many}",
            "SELECT s2_count(region | '1') FROM large",
            "SELECT md5((s2_range(5, 4294967297) - region)::text) FROM large",
            "SELECT cardinality(s2_ancestors(region)) FROM large", "SELECT s2_count(region::bytea::s2union) FROM large",
            "SELECT s2_count(s2_outer(region, 29)), s2union_hash(region) FROM large",
        )
        for query in queries:
            wanted = psql(query)
            refused = answered = 0
            for extra in [2**20 * n for n in (1, 2, 3, 4, 6, 8, 12, 16, 24, 32, 64)]:
                said = self.said(query, extra)
                self.assertEqual(said[-1], "goes on", (query, extra, said))
                if said[:-1] == wanted:
                    answered += 1
                else:
                    self.assertIn("out of memory", said[0], (query, extra))
                    refused += 1
            self.assertTrue(refused and answered, (query, refused, answered))


def span(cell):
    """The least and the greatest number of a cell's leaves."""
    lowest = cell & -cell
    return cell - lowest + 1, cell + lowest - 1


def meet(one, other):
    """Whether two sorted lists of spans share a number: whether the last span of the other that begins before a span of
    one ends hasn't ended before it begins."""
    return any((k := bisect.bisect_right(other, (last, 2**63))) and other[k - 1][1] >= first for first, last in one)


class Tiles(unittest.TestCase):
    """After docs/SCALE.md has run: its joins, beside loops over all pairs, which know no tiles."""

    @classmethod
    def setUpClass(cls):
        cls.points = [line.split("|") for line in psql("SELECT id, leaf FROM points", "scale")]
        cls.regions = {}
        for line in psql("SELECT name, unnest(s2_cells(region)) FROM countries", "scale"):
            name, cell = line.split("|")
            bisect.insort(cls.regions.setdefault(name, []), span(int(cell)))

    def pairs_are(self, view, wanted):
        said = psql(f"SELECT * FROM {view}", "scale")
        self.assertEqual((len(said), set(said)), (len(wanted), wanted))
        self.assertGreater(len(wanted), 100)

    def test_points_in_regions(self):
        self.pairs_are("inside", {f"{point}|{name}" for name, spans in self.regions.items()
                                  for point, leaf in self.points if meet([span(int(leaf))], spans)})

    def test_regions_that_meet(self):
        self.pairs_are("meeting", {f"{one}|{other}" for one, each in self.regions.items()
                                   for other, spans in self.regions.items() if one < other and meet(each, spans)})

    def test_the_size_of_a_part(self):
        said = psql("""
            SELECT name, max(s2_count(part)) <= 3 * 4 ^ ((SELECT max(s2_level(cell)) FROM countries AS c,
                unnest(s2_cells(region)) AS cell WHERE c.name = tiles.name) - 6),
                bool_and(s2_level(tile) = 5 AND part <@ tile::s2union AND s2_count(part) > 0)
            FROM tiles GROUP BY name;""", "scale")
        self.assertEqual({line.partition("|")[2] for line in said}, {"t|t"})
        self.assertEqual(len(said), len(self.regions))


class Servers(unittest.TestCase):
    """After docs/SCALE.md has run."""

    def test_questions_over_two_servers(self):
        said = psql("""
            CREATE TABLE whole AS SELECT * FROM regions;
            SELECT count(*), count(*) FILTER (WHERE here.ids IS DISTINCT FROM there.ids), count(here.ids) > 50
            FROM generate_series(1, 200) AS k,
                LATERAL (SELECT s2_outer(k % 6, k * 9000, k * 9000 + 300000, k * 20000, k * 20000 + 9000, 15) AS q) a,
                LATERAL (SELECT array_agg(id ORDER BY id) AS ids FROM regions WHERE region && q) AS here,
                LATERAL (SELECT array_agg(id ORDER BY id) AS ids FROM whole WHERE region && q) AS there;
            SELECT (SELECT s2_union_agg(region) FROM regions) = (SELECT s2_union_agg(region) FROM whole);
        """, "scale")
        self.assertEqual(said, ["200|0|t", "t"])
