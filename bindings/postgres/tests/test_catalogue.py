"""What the extensions for PostgreSQL make in a database: s2union--VERSION.sql from top to bottom, s2union_geo--1.3.sql
and what came after it, and the same by an update from each earlier version. The server and EXTENSIONS are those of
test_postgres.py."""

import itertools
import os
import re
import unittest
from pathlib import Path

from model import unions as model
from test_postgres import BINDINGS, TRY, Tests, ask, psql, wkb_of

CONTROL = Path(os.environ["EXTENSIONS"], "s2union.control").read_text(encoding="utf-8")
VERSION = re.search("default_version = '(.*)'", CONTROL)[1]
MEMBERS = """
    SELECT d.classid, d.objid, pg_describe_object(d.classid, d.objid, 0) AS object FROM pg_depend d
    JOIN pg_extension e ON e.oid = d.refobjid AND e.extname IN ('s2union', 's2union_geo') WHERE d.deptype = 'e'
"""
# Functions that make a table of a table, which test_join_table.py asks: they are not of values.
OF_TABLES = "'regclass'::regtype = ANY (p.proargtypes)"
# All that the extension has in the catalogue, a line for each: functions, aggregates, operators, classes with their
# members, casts, the type, and comments. Numbers of objects are their names here.
CATALOGUE = f"""
    WITH members AS ({MEMBERS})
    SELECT object, pg_get_functiondef(objid) || coalesce(proacl::text, '')
        FROM members JOIN pg_proc p ON p.oid = objid AND prokind = 'f'
    UNION ALL
    SELECT object, (to_jsonb(a) - '{{aggfnoid,aggtranstype}}'::text[])::text || aggtranstype::regtype
        FROM members JOIN pg_aggregate a ON aggfnoid = objid
    UNION ALL
    SELECT object, (to_jsonb(p) - '{{oid,proowner,pronamespace,proargtypes,prorettype,prosupport}}'::text[])::text
        || prosupport FROM members JOIN pg_proc p ON p.oid = objid AND prokind = 'a'
    UNION ALL
    SELECT object, format('%s %s %s %s %s %s %s', oprcode::regprocedure, oprcom::regoperator, oprnegate::regoperator,
        oprrest, oprjoin, oprcanmerge, oprcanhash) FROM members JOIN pg_operator o ON o.oid = objid
    UNION ALL
    SELECT object, format('%s %s %s', opcintype::regtype, opcdefault, opckeytype::regtype)
        FROM members JOIN pg_opclass c ON c.oid = objid
    UNION ALL
    SELECT object, format('%s %s %s', amopstrategy, amoppurpose, amopopr::regoperator)
        FROM members JOIN pg_amop ON amopfamily = objid WHERE classid = 'pg_opfamily'::regclass
    UNION ALL
    SELECT object, format('%s %s %s %s', amproclefttype::regtype, amprocrighttype::regtype, amprocnum,
        amproc::regprocedure) FROM members JOIN pg_amproc ON amprocfamily = objid
        WHERE classid = 'pg_opfamily'::regclass
    UNION ALL
    SELECT object, format('%s %s %s', castfunc::regprocedure, castcontext, castmethod)
        FROM members JOIN pg_cast c ON c.oid = objid
    UNION ALL
    SELECT object, (to_jsonb(t) - '{{oid,typowner,typnamespace,typarray,typelem}}'::text[])::text
        FROM members JOIN pg_type t ON t.oid = objid
    UNION ALL
    SELECT object, 'comment: ' || description FROM members JOIN pg_description ON (classoid, objoid) = (classid, objid)
    UNION ALL
    SELECT object, NULL FROM members
    ORDER BY 1, 2;
"""
# Calls that an earlier version answers: with what SQL leaves untyped, and with cells, arrays, texts and bytes.
CALLS = [
    "region && '1c'", "'1c' && region", "region @> '1c03 1c05'", "'1c03' <@ region", "region <@ '1'", "'04' <@ region",
    "leaf <@ region", "leaf && region", "region @> leaf", "region && leaf", "leaf <@ '1 3'", "'1 3' @> leaf",
    "s2_contains(region, '1c03 1c05')", "s2_contains('1 3', region)", "s2_contains('1 3', leaf)",
    "s2_contains(region, leaf)", "s2_within(leaf, '1 3')", "s2_within(leaf, region)", "s2_within(region, '1 3')",
    "s2_within('04 0c', region)", "s2_intersects(region, '1c 0401')", "s2_intersects('1c 0401', region)",
    "s2_intersects(leaf, '1 3')", "s2_intersects('1 3', leaf)", "s2_intersects(leaf, region)", "region | '04'",
    "'1' - region", "s2_union(region, '14')", "s2_union('14', '1c')", "s2_intersection('1', region)", "s2_count('04')",
    "s2_leaves('04 1c')", "s2_tokens('0/0, 1c')", "s2_cells('04 0c')", "s2_cells('04', 2)", "s2_cells(region, 3, 2)",
    "s2_ancestors('04')", "s2_outer('0401', 3)", "s2_inner(region, 2)", "s2_outer(0, 0, 9, 0, 9, 4)",
    "s2_outer('1', 0, 0, 9, 0, 9, 4)", "s2_is_union('\\x010000000000000000')", "s2_cell('04')", "s2_cell('0/12')",
    "s2_cell('04')::s2union", "s2_level(leaf)", "s2_parent(leaf, 3)", "s2_parent(leaf, '3')",
    "s2_child(s2_cell('1'), 2)",
    "s2_common_ancestor(leaf, s2_cell('04'))", "s2_range(leaf, s2_cell('3'))", "s2_token(leaf)", "s2_debug(leaf)",
    "s2_range_min(s2_cell('04'))", "(ARRAY[leaf, leaf + 2])::s2union", "'{1,3,5,7}'::bigint[]::s2union",
    "region::bigint[]", "region::bytea::s2union", "s2union(leaf)", "s2union('04 0c')", "s2union('\\x01'::bytea)",
    "leaf::s2union", "'1c 14'::text::s2union", "'1c 14'::varchar::s2union", "bytea(region)", "region = '04'",
    "region < '1c'", "s2_level(NULL)", "s2_contains(region, NULL)", "s2union_cmp(region, '04')",
    "(SELECT s2_union_agg(region) FROM regions)", "(SELECT s2_union_agg(leaf) FROM regions)",
    "(SELECT s2_intersection_agg(region) FROM regions)", "(SELECT count(*) FROM unnest(s2_cells(region)))",
    "(SELECT count(*) FROM unnest(ARRAY[1, 2]))", "(SELECT count(*) FROM unnest('{1,2}'::int[]))",
    "(SELECT count(*) FROM unnest(ARRAY[1, 2], ARRAY['a', 'b', 'c']))", "s2_level(0)::text", "s2_leaf(0, 5, 7)",
]


# For each type of an argument that isn't a number, and for each name of one that is: a value that it takes, and those
# that it may not have. A number that no integer has is no function's.
RIGHT = {"s2union": "'04 0c'::s2union", "bigint": "s2_cell('0401')", "text": "'0401'::text", "bytea": "'\\x01'::bytea",
         "shape bytea": wkb_of([(0, 0), (9, 2), (5, 8), (0, 0)]),
         "shape text": '\'{"type": "Polygon", "coordinates": [[[0, 0], [9, 2], [5, 8], [0, 0]]]}\'::text',
         "double precision": "1", "level": "4", "face": "0", "child": "1", "modulus": "1"}
OTHER = {"s2_neighbors": {"level": "9"}}  # not above the cell's
WRONG = {"bigint": ("0::bigint", "2::bigint", "'-1'::bigint", "'-9223372036854775808'::bigint"),
         "text": ("'X'::text", "'2'::text", "'0/4'::text", "'6/'::text", "'-5'::text", "'04 0'::text"),
         "level": ("-1", "31", "50", "2147483647", "2147483648"), "face": ("-1", "6", "2147483648"),
         "child": ("-1", "4", "2147483648"), "modulus": ("-1", "0", "4", "2147483648"),
         "place": ("-1", "1073741824", "2147483648")}


class Catalogue(Tests):
    @classmethod
    def setUpClass(cls):
        super().setUpClass()
        psql("SET client_min_messages = error; CREATE EXTENSION IF NOT EXISTS s2union_geo;")

    def test_levels_and_cells_that_there_are_not(self):
        """Asked of each function and aggregate: an error, never NULL and never no row."""
        said = psql(f"""
            SELECT p.proname, p.prokind, p.proretset, array_to_string(p.proargtypes::regtype[], ','),
                array_to_string(coalesce(p.proargnames, '{{}}')::text[], ',')
            FROM pg_proc p JOIN ({MEMBERS}) m ON m.classid = 'pg_proc'::regclass AND m.objid = p.oid
            WHERE starts_with(p.proname, 's2_') AND p.pronargs > 0 AND p.proname <> 's2_is_cell' AND NOT {OF_TABLES}
            ORDER BY 1, 4;
        """)
        right, wrong = [], []
        for name, kind, rows, types, names in (line.split("|") for line in said):
            types, names = types.split(","), names.split(",")
            kinds = [names[k] if names[k] in WRONG else f"shape {each}" if names[k] == "shape" else
                     "place" if each == "integer" else each for k, each in enumerate(types)]
            values = [{**RIGHT, **OTHER.get(name, {})}.get(each, "5") for each in kinds]
            call = f"(SELECT count(*) FROM {name}({{}}))" if rows == "t" else f"{name}({{}})"
            call = f"(SELECT {name}(v) FROM (SELECT {{}} AS v) t)" if kind == "a" else call
            right.append(call.format(", ".join(values)))
            wrong += [call.format(", ".join(values[:k] + [each] + values[k + 1:]))
                      for k, some in enumerate(kinds) for each in WRONG.get(some, ())]
        for call, answer in zip(right, ask(right)):
            self.assertFalse(answer == "null" or answer.startswith("error"), (call, answer))
        for call, answer in zip(wrong, ask(wrong)):
            self.assertRegex(answer, "^error: .*(out of range|not a cell|names no cell|does not exist)", call)
        self.assertGreater(len(wrong), 300)

    def test_a_level_above_the_cell(self):
        """It has no neighbors of it: NULL."""
        self.all_are([(f"s2_neighbors('0401', {level})", "null") for level in (0, 4, 5)]
                     + [("s2_count(s2_neighbors('0401', 6))", "8"), ("s2_level('0401')", "6")])

    def test_a_level_deeper_than_the_cell(self):
        """No cell of it contains the cell, which has no child if it is a leaf: NULL."""
        self.all_are([(f"s2_parent('0401', {level})", "null") for level in (7, 8, 29, 30)]
                     + [("s2_level(s2_parent('0401', 6))", "6"), ("s2_child('0401', 3) IS NULL", "false")]
                     + [(f"s2_child(s2_range_min('04'), {child})", "null") for child in range(4)])

    def test_each_argument_has_a_name(self):
        said = psql(f"""
            SELECT object FROM ({MEMBERS}) m JOIN pg_proc p ON m.classid = 'pg_proc'::regclass AND m.objid = p.oid
            WHERE prokind = 'f' AND starts_with(proname, 's2_') AND pronargs > 0
                AND (proargnames IS NULL OR '' = ANY (proargnames[: pronargs]));
        """)
        self.assertEqual(said, [])
        self.all_are([("s2_parent(level => 1, cell => '0401') = s2_cell('04')", "true"),
                      ("s2_contains(part => s2_cell('04'), whole => '1'::s2union)", "true"),
                      ("s2_cells(modulus => 2, region => '1', level => 0)", "{1152921504606846976}")])

    def test_version(self):
        said = psql("SELECT s2_version(), extversion FROM pg_extension WHERE extname = 's2union';")
        self.assertEqual(said, [f"{model.VERSION}|{VERSION}"])

    def test_all_functions_but_the_version_are_immutable(self):
        said = psql(f"""
            SELECT proname, provolatile FROM pg_proc p JOIN ({MEMBERS}) m ON m.objid = p.oid
            WHERE starts_with(proname, 's2_') AND NOT {OF_TABLES}
                AND (provolatile, proparallel, proisstrict OR prokind = 'a') <> ('i', 's', true) ORDER BY 1;
        """)
        self.assertEqual(said, ["s2_join_tiles|i", "s2_version|s"])  # which isn't STRICT, so that a query takes it in
        said = psql(f"SELECT proname, provolatile, proparallel, proisstrict, prosecdef FROM pg_proc p"
                    f" JOIN ({MEMBERS}) m ON m.objid = p.oid WHERE {OF_TABLES}")
        self.assertEqual(sorted(said), ["s2_join_drop|v|u|t|f", "s2_join_table|v|u|f|f", "s2union_join_locked|v|u|t|f",
                                        "s2union_join_made|s|u|t|f"])

    def test_each_function_that_takes_a_cell_takes_a_text(self):
        """In place of each bigint; but no text beside a union, where an untyped literal is a union."""
        said = psql(f"""
            SELECT p.proname, array_to_string(p.proargtypes::regtype[], ',') FROM pg_proc p
            JOIN ({MEMBERS}) m ON m.objid = p.oid WHERE starts_with(p.proname, 's2_');
        """)
        there = {(name, tuple(types.split(","))) for name, types in (line.split("|") for line in said)}
        wanted = set()
        for name, types in there:
            ways = [("bigint", "text") if each == "bigint" else (each,) for each in types]
            wanted |= {(name, way) for way in itertools.product(*ways) if not {"s2union", "text"} <= set(way)}
        self.assertEqual(wanted - there, set())
        self.assertGreater(len(wanted), 60)

    def test_parameters_of_prepared_statements(self):
        """Of a type that the driver gives, and of that which SQL gives them; in a plan for all values too."""
        cell, leaf = model.identifier(1, 0), model.identifier(3, 5)
        token, number = model.token(cell), cell
        of_a_cell = {"s2_level({})": "1", "s2_token({})": token, "s2_child({}, 2)": str(model.identifier(2, 2)),
                     "s2_range_min({})": "1", "s2_common_ancestor({}, leaf)": str(number), "s2_range({}, '04')": token,
                     "s2_cell({})": str(number), "(SELECT s2_union_agg(c) FROM (SELECT {} AS c) v)": token}
        questions = {"s2_contains({}, leaf)": "text", "s2_within(leaf, {})": "text", "s2_intersects(leaf, {})": "text",
                     "s2_contains(region, {})": "s2union", "s2_within({}, region)": "s2union",
                     "s2_intersects(region, {})": "s2union", "region @> {}": "s2union", "{} @> leaf": "s2union",
                     "leaf <@ {}": "s2union", "region && {}": "s2union", "leaf && {}": "s2union"}
        asked = [(call, given, value, answer, given[1:-1] or "text") for call, answer in of_a_cell.items()
                 for given, value in (("", f"'{token}'"), ("(text)", f"'{token}'"), ("(varchar)", f"'{token}'"),
                                      ("(bigint)", str(number)))]
        asked += [(call, "", f"'{token}'", "true", kind) for call, kind in questions.items()]
        asked += [(call, "(s2union)", f"'{token}'", "true", "s2union") for call in questions]
        asked += [(call, "(bigint)", str(number), "true", "bigint") for call in questions
                  if call not in ("{} @> leaf", "leaf <@ {}", "leaf && {}")] # no operator is about two cells
        rows = f"FROM (SELECT '{token}'::s2union AS region, {leaf} AS leaf OFFSET 0) t"
        for mode in ("auto", "force_generic_plan"):
            said = psql(f"SET plan_cache_mode = {mode};" + "".join(f"""
                PREPARE asked{given} AS SELECT ({call.format('$1')})::text {rows};
                SELECT parameter_types[1] FROM pg_prepared_statements; EXECUTE asked({value}); DEALLOCATE asked;
            """ for call, given, value, _, _ in asked))
            for (call, given, _, answer, kind), types, found in zip(asked, said[::2], said[1::2], strict=True):
                kind = kind.replace("varchar", "character varying")
                self.assertEqual((types, found), (kind, answer), (call, given, mode))

    def test_everything_has_a_comment(self):
        said = psql(f"""
            SELECT object FROM ({MEMBERS}) m WHERE object <> 'type s2union[]'
                AND classid IN ('pg_proc'::regclass, 'pg_operator'::regclass, 'pg_type'::regclass)
                AND NOT EXISTS (SELECT FROM pg_description c WHERE (c.classoid, c.objoid) = (m.classid, m.objid));
        """)
        self.assertEqual(said, [])

    def test_no_two_functions_have_the_same_comment(self):
        """Those of one name have, but for the number of their arguments; and an operator has that of its function."""
        said = psql(f"""
            WITH commented AS (
                SELECT proname, pronargs, description FROM ({MEMBERS}) m JOIN pg_proc p ON p.oid = m.objid
                JOIN pg_description d ON (d.classoid, d.objoid) = (m.classid, m.objid)
                WHERE starts_with(proname, 's2_') OR proname IN ('unnest', 'bytea'))
            SELECT description, string_agg(DISTINCT proname, ', ') FROM commented
                GROUP BY description HAVING count(DISTINCT proname) > 1
            UNION ALL
            SELECT proname, string_agg(DISTINCT description, ', ') FROM commented
                GROUP BY proname, pronargs HAVING count(DISTINCT description) > 1
            UNION ALL
            SELECT object, obj_description(objid, 'pg_operator') FROM ({MEMBERS}) m JOIN pg_operator o ON o.oid = objid
                WHERE NOT starts_with(oprcode::text, 's2union_')
                    AND obj_description(objid, 'pg_operator') IS DISTINCT FROM obj_description(oprcode, 'pg_proc');
        """)
        self.assertEqual(said, [])

    def rows_of(self, system):
        """Of each function and number of arguments: their names, and what the table of the system's page says."""
        rows = {}
        text = (BINDINGS / system / "README.md").read_text()
        for calls, said in re.findall(r"^\| (`\w+\(.*?\)`(?:, `.*?`)*) \| (?:.* \| )?(.*) \|$", text, re.M):
            for name, names in re.findall(r"`(\w+)\((.*?)\)`", calls):
                rows[name, len(names.split(",")) if names else 0] = (names, said)
        return rows

    def test_the_pages_say_what_the_comments_say(self):
        """The table of functions has a row for each, with its comment and the names of its arguments. The page on
        SQLite says the same of the functions that it has, and may say more."""
        said = psql(f"""
            SELECT DISTINCT proname, pronargs, pronargdefaults, description, CASE prokind WHEN 'a' THEN 'region'
                ELSE array_to_string(coalesce(proargnames[: pronargs], '{{}}'), ',') END
            FROM ({MEMBERS}) m JOIN pg_proc p ON m.classid = 'pg_proc'::regclass AND p.oid = m.objid
            JOIN pg_description d ON (d.classoid, d.objoid) = (m.classid, m.objid)
            WHERE starts_with(proname, 's2_') OR proname = 'unnest';
        """)
        wanted = {}
        for line in said:
            name, count, defaults, rest = line.split("|", 3)
            comment, names = rest.rsplit("|", 1)
            for arguments in range(int(count) - int(defaults), int(count) + 1):
                wanted[name, arguments] = (", ".join(names.split(",")[:arguments]), comment)
        self.assertEqual(self.rows_of("postgres"), wanted)
        for (name, arguments), (_, row) in self.rows_of("sqlite").items():
            if (name, arguments) in wanted:
                comment = wanted[name, arguments][1]
                self.assertEqual(row[: len(comment)], comment, name)
        page = (BINDINGS / "postgres/README.md").read_text()
        said = psql(f"""
            SELECT CASE oprleft WHEN 0 THEN oprname || 'x' ELSE format('x %s y', oprname) END, proname,
                obj_description(m.objid, 'pg_operator')
            FROM ({MEMBERS}) m JOIN pg_operator o ON o.oid = m.objid JOIN pg_proc p ON p.oid = oprcode
            WHERE oprleft IN (0, oprright) AND starts_with(proname, 's2_');
        """)
        self.assertEqual(len(said), 8)
        for operator, function, comment in (line.rsplit("|", 2) for line in said):
            operator = operator.replace("|", "\\|")
            self.assertIn(f"\n| `{operator}` | `{function}` | {comment} |\n", page)


class Updates(unittest.TestCase):
    """What an earlier version has made goes on, and what the update makes is what a new database has."""

    @classmethod
    def setUpClass(cls):
        psql("DROP DATABASE IF EXISTS fresh;")
        psql("CREATE DATABASE fresh;")
        psql("CREATE EXTENSION s2union; CREATE EXTENSION s2union_geo;", "fresh")
        cls.whole = psql(CATALOGUE, "fresh")
        psql("DROP DATABASE fresh;")

    def test_the_whole_is_one_file(self):
        """CREATE EXTENSION runs the script of this version alone."""
        folder = os.environ["EXTENSIONS"]
        self.assertIn(f"s2union--{VERSION}.sql", os.listdir(folder))
        self.assertGreater(len(self.whole), 400)

    def test_the_update_from_each_earlier_version(self):
        scripts = " ".join(os.listdir(os.environ["EXTENSIONS"]))
        versions = sorted(set(re.findall(r"\bs2union--([\d.]+)--", scripts)))
        self.assertEqual(versions[0], "1.0")
        self.assertNotIn(VERSION, versions)
        for earlier in versions:
            self.update_from(earlier)

    def update_from(self, earlier):
        query = """
            SET enable_seqscan = off; SET max_parallel_workers_per_gather = 0;
            SELECT extversion FROM pg_extension WHERE extname = 's2union';
            SELECT count(*) FROM regions WHERE region && '04'; SELECT sum(n) FROM counts;
            SELECT count(*), min(tile), max(tile) FROM tiles; SELECT count(*) FROM regions WHERE s2_level(leaf) = 30;
        """
        geo = max("1.3", earlier)  # a script for new databases is there since then
        psql("DROP DATABASE IF EXISTS updated;")
        psql("CREATE DATABASE updated;")
        before = psql(f"""
            CREATE EXTENSION s2union VERSION '{earlier}'; CREATE EXTENSION s2union_geo VERSION '{geo}';
            CREATE TABLE regions(id int, region s2union, leaf bigint);
            INSERT INTO regions SELECT k, s2_leaf(0, k * 1000000, k * 900000)::s2union, s2_leaf(0, k, k)
                FROM generate_series(1, 999) k;
            CREATE INDEX ON regions USING gin (region);
            CREATE INDEX ON regions (leaf); CREATE INDEX ON regions (region);
            CREATE INDEX ON regions USING hash (region);
            CREATE INDEX regions_level ON regions (s2_level(leaf));
            CREATE VIEW counts AS SELECT s2_count(region) AS n FROM regions WHERE region @> s2_leaf(0, 1000000, 900000);
            CREATE VIEW tiles AS SELECT s2_parent(leaf, 24) AS tile FROM regions WHERE NOT s2_contains(region, '04');
        """ + TRY + query, "updated")
        if earlier == "1.4.1":  # whose functions of joins 1.5 has cured
            psql("CREATE OR REPLACE FUNCTION s2union_join_locked(zones regclass, mode text) RETURNS pg_class"
                 " LANGUAGE sql AS 'SELECT NULL::pg_class'", "updated")
        asked = [f"{call} FROM regions WHERE id = 7" for call in CALLS]
        answers = self.asked(asked)
        conditions = [call for call, was in zip(CALLS, answers) if was in ("true", "false")]
        rows = [f"count(*) FROM regions WHERE {call}" for call in conditions]
        found = self.asked(rows, "SET enable_seqscan = off;")
        self.assertGreater(len(found), 9)
        self.assertEqual(found, self.asked(rows, "SET enable_indexscan = off; SET enable_bitmapscan = off;"))
        after = psql("ALTER EXTENSION s2union UPDATE; ALTER EXTENSION s2union_geo UPDATE; " + query + """
            SELECT count(*) FROM regions WHERE region @> s2_leaf(0, 5000000, 4500000);
            EXPLAIN SELECT * FROM regions WHERE region @> s2_leaf(0, 5000000, 4500000);
            EXPLAIN SELECT * FROM regions WHERE s2_level(leaf) = 29;
        """, "updated")
        self.assertEqual(before[0], earlier)
        self.assertEqual(after[:6], [VERSION, *before[1:], "1"])
        for index in ("regions_region_idx", "regions_level"):
            self.assertTrue(any(index in line for line in after[6:]), after)
        lost = [(call, now) for call, was, now in zip(CALLS, answers, self.asked(asked))
                if not was.startswith("error") and was != now]
        self.assertEqual(lost, [])
        self.assertEqual(self.asked(rows, "SET enable_seqscan = off;"), found)
        self.assertGreater(len([was for was in answers if not was.startswith("error")]), 50)
        self.assertEqual(psql(CATALOGUE, "updated"), self.whole)
        psql("DROP DATABASE updated;")

    def asked(self, queries, before=""):
        return ask([f"SELECT {query}" for query in queries], before, "updated")

    def test_a_later_version(self):
        script = os.path.join(os.environ["EXTENSIONS"], f"s2union--{VERSION}--later.sql")
        with open(script, "w", encoding="utf-8") as file:
            file.write("COMMENT ON TYPE s2union IS 'a later version';\n")
        said = psql("""
            SET client_min_messages = error; DROP EXTENSION IF EXISTS s2union CASCADE; CREATE EXTENSION s2union;
            BEGIN; ALTER EXTENSION s2union UPDATE TO 'later';
            SELECT extversion, obj_description('s2union'::regtype, 'pg_type')
                FROM pg_extension WHERE extname = 's2union';
            ROLLBACK; DROP EXTENSION IF EXISTS s2union CASCADE; CREATE EXTENSION s2union;
            SELECT '1'::s2union @> '04'::s2union;
        """)
        os.remove(script)
        self.assertEqual(said, ["later|a later version", "t"])

    def test_another_schema(self):
        """All that is there goes on when the extension moves: operators, indexes, and functions written in SQL."""
        psql("DROP DATABASE IF EXISTS moved;")
        psql("CREATE DATABASE moved;")
        query = """
            SET enable_seqscan = off; SELECT count(*) FROM regions WHERE region {1} '1c'::{0}s2union;
            SELECT count(*) FROM here;
            SELECT {0}s2_level('04'), {0}s2_contains('04', '0401'), count(*) FROM {0}unnest('04 0c'::{0}s2union);
        """
        said = psql(f"""
            CREATE SCHEMA there; CREATE EXTENSION s2union; CREATE TABLE regions AS
                SELECT s2_outer(0, k * 1000000, k * 1000000 + 9, 0, 9, 20) AS region FROM generate_series(0, 999) AS k;
            CREATE INDEX ON regions USING gin (region);
            CREATE VIEW here AS SELECT FROM regions WHERE s2_intersects(region, '1c') OR s2_level('04') = 5;
            {query.format('', '&&')}
            ALTER EXTENSION s2union SET SCHEMA there;
            {query.format('there.', 'OPERATOR(there.&&)')}
            SET search_path = there, public;
            {query.format('', '&&')}
            EXPLAIN SELECT FROM regions WHERE region && '1c';
        """, "moved")
        self.assertEqual(said[:3], said[3:6])
        self.assertEqual(said[:3], said[6:9])
        self.assertEqual(said[2], "1|t|2")
        self.assertGreater(int(said[0]), 0)
        self.assertTrue(any("regions_region_idx" in line for line in said[9:]), said)
        psql("DROP DATABASE moved;")
