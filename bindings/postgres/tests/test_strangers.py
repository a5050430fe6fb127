"""What a role that is no superuser has made is never run by the extensions for PostgreSQL, nor taken for a type of
theirs: neither while their scripts run, which do so as a superuser, nor when their functions are called. The server is
that of test_postgres.py."""

import subprocess
import unittest

from test_catalogue import MEMBERS, OF_TABLES, OTHER, RIGHT
from test_postgres import PSQL, psql, wkb_of

# As the owner of a database: a schema whose functions and operators give him all rights if a script runs them. They
# fit better than those of PostgreSQL, which take other types or any.
TRAP = """
    CREATE SCHEMA trap; CREATE SCHEMA good;
    CREATE FUNCTION trap.taken() RETURNS void LANGUAGE plpgsql AS 'BEGIN ALTER ROLE stranger SUPERUSER; END';
    CREATE FUNCTION trap.format(text, name, text) RETURNS text LANGUAGE plpgsql AS
        'BEGIN PERFORM trap.taken(); RETURN NULL; END';
    CREATE FUNCTION trap.is(oid, regclass) RETURNS bool LANGUAGE plpgsql AS
        'BEGIN PERFORM trap.taken(); RETURN true; END';
    CREATE OPERATOR trap.= (LEFTARG = oid, RIGHTARG = regclass, FUNCTION = trap.is);
    CREATE FUNCTION trap.unnest(bigint[]) RETURNS SETOF bigint LANGUAGE plpgsql AS
        'BEGIN PERFORM trap.taken(); RETURN NEXT 0; END';
"""
# What stands before something of s2union for s2union_geo, by the version that is the first to need it.
BEFORE = {
    "1.3": ["CREATE FUNCTION trap.s2_cell(text) RETURNS bigint LANGUAGE sql RETURN 1"],
    "1.4": ["CREATE FUNCTION trap.mine(good.s2union, good.s2union) RETURNS good.s2union LANGUAGE sql RETURN $1; "
            "CREATE OPERATOR trap.& (LEFTARG = good.s2union, RIGHTARG = good.s2union, FUNCTION = trap.mine)",
            "CREATE DOMAIN trap.s2union AS good.s2union",
            "CREATE DOMAIN trap.s2union AS bigint; "
            "CREATE FUNCTION trap.s2_tiles(trap.s2union, integer, OUT tile bigint, OUT part trap.s2union) "
            "RETURNS SETOF record LANGUAGE sql AS 'SELECT 1::bigint, 1::trap.s2union'; "
            "CREATE FUNCTION trap.has(bigint, bigint) RETURNS bool LANGUAGE sql RETURN true; "
            "CREATE OPERATOR trap.@> (LEFTARG = bigint, RIGHTARG = bigint, FUNCTION = trap.has)"],
}
# A schema that has all functions of PostgreSQL, and of PostGIS if it is there, and PostgreSQL's operators once more,
# with the same types, those left out that only C can take. Each is an error.
TWINS = """
    CREATE SCHEMA twins;
    DO $$
    DECLARE each record; made int := 0;
    BEGIN
        FOR each IN SELECT oid, proname, pg_get_function_identity_arguments(oid) AS types FROM pg_proc
            WHERE pronamespace IN ('pg_catalog'::regnamespace, 'public'::regnamespace) AND prokind = 'f'
                AND NOT proargtypes::oid[] && '{internal,cstring,"\\"any\\""}'::regtype[]::oid[]
        LOOP
            BEGIN
                EXECUTE format('CREATE FUNCTION twins.%I(%s) RETURNS void LANGUAGE plpgsql AS %L', each.proname,
                    each.types, 'BEGIN RAISE ''a twin is called''; END');
                made := made + 1;
            EXCEPTION WHEN OTHERS THEN NULL;
            END;
        END LOOP;
        FOR each IN SELECT oid, oprname, oprleft::regtype AS l, oprright::regtype AS r FROM pg_operator
            WHERE oprnamespace = 'pg_catalog'::regnamespace AND oprleft <> 0
        LOOP
            BEGIN
                EXECUTE format('CREATE FUNCTION twins.of_%s(%s, %s) RETURNS bool LANGUAGE plpgsql AS %L', each.oid,
                    each.l, each.r, 'BEGIN RAISE ''a twin is called''; END');
                EXECUTE format('CREATE OPERATOR twins.%s (LEFTARG = %s, RIGHTARG = %s, FUNCTION = twins.of_%s)',
                    each.oprname, each.l, each.r, each.oid);
                made := made + 1;
            EXCEPTION WHEN OTHERS THEN NULL;
            END;
        END LOOP;
        FOR each IN SELECT f, concat_ws(', ', 'text', a, b, c) AS types FROM unnest('{format,concat}'::text[]) AS f,
            unnest('{text,name,regclass}'::text[]) AS a, unnest('{text,name,regclass,NULL}'::text[]) AS b,
            unnest('{text,name,regclass,NULL}'::text[]) AS c WHERE b IS NOT NULL OR c IS NULL
        LOOP
            EXECUTE format('CREATE FUNCTION twins.%s(%s) RETURNS text LANGUAGE plpgsql AS %L', each.f, each.types,
                'BEGIN RAISE ''a twin is called''; END');
        END LOOP;
        IF made < 3000 THEN RAISE 'only % twins', made; END IF;
    END $$;
"""


def error_of(script):
    """What the server says of a script that it refuses, in the database `strange`."""
    run = subprocess.run([*PSQL, "strange"], input=script, capture_output=True, text=True, check=False)
    assert run.returncode != 0, run.stdout
    return run.stderr


class Strangers(unittest.TestCase):
    """The owner of a database, who may create the extensions, for they are trusted."""

    def setUp(self):
        self.ended()
        psql("CREATE ROLE stranger;")
        psql("CREATE DATABASE strange OWNER stranger;")
        self.addCleanup(self.ended)

    def ended(self):
        psql("SET client_min_messages = error; DROP DATABASE IF EXISTS strange;")
        psql("SET client_min_messages = error; DROP ROLE IF EXISTS stranger;")

    def as_stranger(self, script):
        return psql(f"SET ROLE stranger; SET client_min_messages = error; {script}", "strange")

    def refused(self, script):
        said = error_of(f"SET ROLE stranger; SET client_min_messages = error; {script}")
        self.assertRegex(said, "(function|type|operator) trap.* of role stranger is in the way")

    def has_no_rights(self):
        self.assertEqual(psql("SELECT rolsuper FROM pg_roles WHERE rolname = 'stranger'"), ["f"])

    def test_no_update_runs_his_functions(self):
        self.as_stranger(TRAP + "CREATE EXTENSION s2union VERSION '1.0' SCHEMA trap;")
        for version in ("1.1", "1.2", "1.3", "1.4"):
            self.as_stranger(f"ALTER EXTENSION s2union UPDATE TO '{version}';")
            self.has_no_rights()
        self.as_stranger("ALTER EXTENSION s2union UPDATE;")
        self.has_no_rights()

    def test_no_function_runs_his(self):
        """Called by a superuser: of a new extension, and of one whose function an earlier version has made so."""
        self.as_stranger(TRAP + "CREATE EXTENSION s2union SCHEMA trap;")
        self.assertEqual(psql("SELECT trap.unnest('1'::trap.s2union)", "strange"), ["1152921504606846976"])
        self.has_no_rights()
        self.as_stranger("DROP EXTENSION s2union; CREATE EXTENSION s2union VERSION '1.4' SCHEMA trap;")
        psql("CREATE OR REPLACE FUNCTION trap.unnest(region trap.s2union) RETURNS SETOF bigint LANGUAGE sql "
             "IMMUTABLE PARALLEL SAFE BEGIN ATOMIC SELECT trap.unnest(trap.s2_cells($1)); END", "strange")
        self.as_stranger("ALTER EXTENSION s2union UPDATE;")
        self.assertEqual(psql("SELECT trap.unnest('1'::trap.s2union)", "strange"), ["1152921504606846976"])
        self.has_no_rights()

    def test_nothing_of_his_stands_for_what_an_extension_requires(self):
        """Neither at once nor by an update from a version that needed less, nor if he has put it into the extension
        that is required."""
        self.as_stranger("CREATE SCHEMA trap; CREATE SCHEMA good; CREATE EXTENSION s2union SCHEMA good;")
        for first, traps in BEFORE.items():
            for trap in traps:
                trapped = f"BEGIN; {trap}; "
                for version in sorted({first, "1.4", "1.4.1", "1.5.0"}):
                    self.refused(f"{trapped} CREATE EXTENSION s2union_geo VERSION '{version}' SCHEMA trap")
                if first == "1.4":
                    self.refused(f"BEGIN; CREATE EXTENSION s2union_geo VERSION '1.3' SCHEMA trap; {trap}; "
                                 "ALTER EXTENSION s2union_geo UPDATE")
        function, = BEFORE["1.3"]
        self.refused(f"BEGIN; {function}; ALTER EXTENSION s2union ADD FUNCTION trap.s2_cell(text); "
                     "CREATE EXTENSION s2union_geo SCHEMA trap")
        self.as_stranger("CREATE EXTENSION s2union_geo SCHEMA trap;")
        self.assertEqual(psql("SELECT trap.s2_longitude('1'::text)", "strange"), ["0"])

    def test_what_he_has_put_into_the_extension_is_no_part_of_it(self):
        """A superuser joins his table, whose shapes have a type of his and functions named as the extension's."""
        self.as_stranger("CREATE EXTENSION s2union; CREATE EXTENSION s2union_geo;" + TRAP + """
            CREATE TYPE trap.kind AS (shape bytea);
            CREATE FUNCTION trap.s2_join_tiles(trap.kind, integer, integer) RETURNS void LANGUAGE sql AS 'SELECT';
            ALTER EXTENSION s2union_geo ADD FUNCTION trap.s2_join_tiles(trap.kind, integer, integer);
            CREATE FUNCTION trap.s2_covering(trap.kind, integer, integer) RETURNS public.s2union
                LANGUAGE sql AS 'SELECT trap.taken(); SELECT ''1''::public.s2union';
            CREATE FUNCTION trap.s2_degrees(trap.kind) RETURNS trap.kind LANGUAGE sql AS
                'SELECT trap.taken(); SELECT $1';
            CREATE FUNCTION trap.st_asbinary(trap.kind) RETURNS bytea LANGUAGE sql RETURN NULL::bytea;
            CREATE TABLE trap.zones (id integer PRIMARY KEY, geom trap.kind);
            INSERT INTO trap.zones VALUES (1, ROW(NULL));
        """)
        self.assertIn("is of type trap.kind", error_of("SELECT public.s2_join_table('trap.zones')"))
        self.has_no_rights()


class Paths(unittest.TestCase):
    """Schemas in the path of the caller."""

    @classmethod
    def setUpClass(cls):
        psql("DROP DATABASE IF EXISTS strange;")
        psql("CREATE DATABASE strange;")
        psql("CREATE SCHEMA own; CREATE EXTENSION s2union SCHEMA own; CREATE EXTENSION s2union_geo SCHEMA own;"
             + TWINS, "strange")

    @classmethod
    def tearDownClass(cls):
        psql("DROP DATABASE strange;")

    def calls(self):
        """Of each function and aggregate that takes values: a call by its schema, with values by theirs."""
        said = psql(f"""
            SELECT p.proname, p.prokind, p.proretset, array_to_string(p.proargtypes::regtype[], ','),
                array_to_string(coalesce(p.proargnames, '{{}}')::text[], ',')
            FROM pg_proc p JOIN ({MEMBERS}) m ON m.classid = 'pg_proc'::regclass AND m.objid = p.oid
            WHERE p.pronargs > 0 AND NOT {OF_TABLES}
                AND NOT p.proargtypes::oid[] && '{{internal,cstring}}'::regtype[]::oid[] ORDER BY 1, 4;
        """, "strange")
        for name, kind, rows, types, names in (line.split("|") for line in said):
            types, names = types.split(","), names.split(",")
            kinds = [names[k] if k < len(names) and names[k] in {*RIGHT, *OTHER.get(name, {})} else each
                     for k, each in enumerate(types)]
            values = [{**RIGHT, "bigint[]": "'{1}'::bigint[]", "text[]": "'{1}'::text[]", **OTHER.get(name, {})}
                      .get(each.removeprefix("own."), "5") for each in kinds]
            values = [each.replace("::s2union", "::own.s2union").replace("s2_cell(", "own.s2_cell(")
                      for each in values]
            if kind == "a":
                yield f"SELECT own.{name}(v) FROM (SELECT {values[0]} AS v) AS t"
            else:
                yield f"SELECT {'* FROM ' * (rows == 't')}own.{name}({', '.join(values)})"

    def said(self, script):
        """What the server says of a script, for a caller who has the twins in the path and one who hasn't. Neither has
        the schema of the extensions there."""
        said = [subprocess.run([*PSQL[:2], "-d", "strange"], input=f"SET search_path = {path};\n{script}",
                               capture_output=True, text=True, check=False)
                for path in ("pg_catalog", "twins, pg_catalog")]
        self.assertEqual(*(run.stdout for run in said))
        self.assertEqual(*(run.stderr for run in said))
        return said[0]

    def test_no_function_of_the_callers_path_is_called(self):
        calls = list(self.calls())
        self.assertGreater(len(calls), 100)
        said = self.said("".join(f"{call};\n" for call in calls))
        self.assertGreater(len(said.stdout.splitlines()), 100)
        self.assertNotIn("does not exist", said.stderr)
        for twin in ("SELECT 1 + 1", "SELECT lower('A')", "SELECT unnest('{1}'::bigint[])"):
            self.assertIn("twin", error_of(f"SET search_path = twins, pg_catalog; {twin}"))

    def test_joins_call_none_either(self):
        """The tiles of a table are made, asked, kept in step and taken away."""
        triangle, other = (wkb_of([(x, 48), (x + 2, 48), (x, 50), (x, 48)]) for x in (2, 4))
        at = "SELECT * FROM public.zones_at(2.1, 48.1); SELECT * FROM public.zones_at(4.1, 48.1);"
        said = self.said(f"""
            CREATE TABLE public.zones (id int PRIMARY KEY, geom bytea);
            INSERT INTO public.zones VALUES (1, {triangle});
            SELECT own.s2_join_table('public.zones'); {at}
            INSERT INTO public.zones VALUES (2, {other}); {at}
            UPDATE public.zones SET geom = {other}; {at}
            DELETE FROM public.zones; {at}
            INSERT INTO public.zones VALUES (1, {triangle}); {at}
            SELECT own.s2_join_table('public.zones', 'geom', 5, 20); {at}
            TRUNCATE public.zones; {at}
            SELECT own.s2_join_drop('public.zones');
            DROP TABLE public.zones;
        """)
        self.assertEqual(said.stderr, "")
        self.assertEqual(sorted(line for line in said.stdout.split() if line.isdigit()), [*"1111122"])
