"""s2_join_table: whose rights its triggers have, that no change of the zones leaves the tiles behind, and that nothing
of somebody else's goes. Zones are rectangles, so plain comparisons say which has a place. The server is that of
test_postgres.py."""

import os
import random
import re
import subprocess
import time
import unittest

from model.changes import random_changes
from test_postgres import PSQL, psql

DATABASE = "joined"
ROLES = "keeper, guest, clerk"
BEGIN = """
    CREATE EXTENSION s2union_geo CASCADE; CREATE EXTENSION ltree; CREATE EXTENSION citext;
    CREATE FUNCTION rectangle(west float8, south float8) RETURNS bytea LANGUAGE SQL IMMUTABLE AS $$
        SELECT '\\x00000000030000000100000005' || string_agg(float8send(x) || float8send(y), '' ORDER BY k)
        FROM (VALUES (1, west, south), (2, west + 1, south), (3, west + 1, south + 1), (4, west, south + 1),
            (5, west, south)) AS corners (k, x, y) $$;
    CREATE SCHEMA free;
"""
AT = "SELECT string_agg(id::text, ' ' ORDER BY id::text) FROM {}_at({}.5, 5.5)"
# A type of the role that runs it, whose cast to a number makes this role a superuser, if a superuser runs it.
TRAP = """
    CREATE TYPE {0}.trap AS (n int);
    CREATE FUNCTION {0}.sprung({0}.trap) RETURNS int LANGUAGE plpgsql AS $$ BEGIN
        EXECUTE format('ALTER ROLE %I SUPERUSER', 'guest'); RETURN 1;
    EXCEPTION WHEN OTHERS THEN RETURN 1; END $$;
    CREATE CAST ({0}.trap AS int) WITH FUNCTION {0}.sprung({0}.trap) AS IMPLICIT;
"""
SUPERUSERS = "SELECT string_agg(rolname, ' ') FROM pg_roles WHERE rolsuper"


def ask(script):
    return psql("SET client_min_messages = error;" + script, DATABASE)


class Session:
    """A session beside others: what it is told, it does meanwhile."""

    def __init__(self):
        self.process = subprocess.Popen([*PSQL[:-3], "-d", DATABASE], stdin=subprocess.PIPE, stdout=subprocess.PIPE,
                                        stderr=subprocess.STDOUT, text=True)

    def begin(self, script):
        print(f"{script}\n\\echo done", file=self.process.stdin, flush=True)

    def ends(self):
        said = iter(self.process.stdout.readline, "done\n")
        return [line.rstrip("\n") for line in said]

    def say(self, script):
        self.begin(script)
        return self.ends()

    def close(self):
        self.process.communicate()


class Joined(unittest.TestCase):
    @classmethod
    def setUpClass(cls):
        for database in DATABASE, "rejoined", "earlier":
            psql(f"SET client_min_messages = error; DROP DATABASE IF EXISTS {database} (FORCE)")
        psql(f"SET client_min_messages = error; DROP ROLE IF EXISTS {ROLES}; CREATE ROLE keeper; CREATE ROLE guest;"
             f" CREATE ROLE clerk; CREATE DATABASE {DATABASE}")
        ask(BEGIN)

    @classmethod
    def tearDownClass(cls):
        psql(f"DROP DATABASE {DATABASE} (FORCE)")
        psql(f"DROP ROLE {ROLES}")

    def setUp(self):
        ask("DROP SCHEMA IF EXISTS maps CASCADE; DROP SCHEMA IF EXISTS plans CASCADE; CREATE SCHEMA maps;"
            " GRANT USAGE ON SCHEMA maps TO PUBLIC; GRANT CREATE ON SCHEMA maps TO keeper;"
            " GRANT CREATE, USAGE ON SCHEMA free TO keeper, guest")

    def zones(self, key="int", owner="keeper", name="maps.zones", more="", keys=(1, 2), column="id"):
        """A table in which the first zone has the longitudes from 1, the second those from 2."""
        values = ", ".join(f"({each}, rectangle({k}, 5))" for k, each in enumerate(keys, 1))
        ask(f"CREATE TABLE {name} ({column} {key} PRIMARY KEY, shape bytea) {more};"
            f" INSERT INTO {name} VALUES {values}; ALTER TABLE {name} OWNER TO {owner};"
            f" SELECT s2_join_table('{name}', 'shape')")

    def at(self, longitude, name="maps.zones"):
        return ask(AT.format(name, longitude))[0].split()

    def assert_refused(self, script, said):
        with self.assertRaisesRegex(AssertionError, said, msg=script):
            ask(script)


class Rights(Joined):
    def test_who_may_connect_gains_nothing(self):
        """The triggers' function isn't his to call; and where it is, it takes the zones' rows alone."""
        self.zones(owner="postgres")
        ask("GRANT SELECT ON maps.zones_tiles TO guest")
        forged = "SET ROLE guest;" + TRAP.format("pg_temp") + """
            CREATE TEMPORARY TABLE forged (id pg_temp.trap, shape bytea);
            CREATE TRIGGER forged AFTER INSERT OR DELETE ON forged FOR EACH ROW EXECUTE FUNCTION maps.zones_follow();
            CREATE TRIGGER emptied AFTER TRUNCATE ON forged EXECUTE FUNCTION maps.zones_follow();
            """
        insert = "INSERT INTO forged VALUES (ROW(1), rectangle(7, 5));"
        self.assert_refused(forged + insert, "permission denied for function maps.zones_follow")
        for change in insert, "TRUNCATE forged;":
            self.assert_refused("GRANT EXECUTE ON FUNCTION maps.zones_follow() TO guest;" + forged + change,
                                "table forged and its tiles maps.zones_tiles no longer fit")
        self.assert_refused("SELECT maps.zones_follow()", "can only be called as triggers")
        self.assertEqual(ask(SUPERUSERS), ["postgres"])
        self.assertEqual((self.at(1), self.at(7)), (["1"], []))

    def test_no_other_table_of_the_owner(self):
        self.zones()
        ask("GRANT CREATE ON SCHEMA maps TO keeper; SET ROLE keeper; CREATE TABLE maps.others (LIKE maps.zones);"
            " CREATE TRIGGER rows AFTER INSERT OR DELETE ON maps.others FOR EACH ROW"
            " EXECUTE FUNCTION maps.zones_follow()")
        self.assert_refused("SET ROLE keeper; INSERT INTO maps.others VALUES (1, rectangle(7, 5))",
                            "(?s)table maps.others and its tiles maps.zones_tiles no longer fit.*s2_join_table")
        self.assertEqual(self.at(7), [])

    def test_the_owner_gains_nothing_by_a_call_of_a_superuser(self):
        """He renames the key, and gives another column its name and a type of his own."""
        self.zones()
        ask("SET ROLE keeper;" + TRAP.format("maps").replace("guest", "keeper") + """
            DROP TRIGGER s2_join_values ON maps.zones; ALTER TABLE maps.zones RENAME COLUMN id TO number;
            ALTER TABLE maps.zones ADD id maps.trap; INSERT INTO maps.zones VALUES (3, rectangle(3, 5), ROW(1));
        """)
        self.assertEqual(ask(SUPERUSERS), ["postgres"])
        self.assertEqual(self.at(3), ["3"])

    def test_all_is_the_owners(self):
        self.zones()
        self.assertEqual(ask("""
            SELECT DISTINCT relowner::regrole FROM pg_class WHERE relnamespace = 'maps'::regnamespace UNION
            SELECT DISTINCT proowner::regrole FROM pg_proc WHERE pronamespace = 'maps'::regnamespace;
            SELECT count(*) FROM pg_proc WHERE pronamespace = 'maps'::regnamespace AND prosecdef
                AND NOT has_function_privilege('guest', oid, 'EXECUTE')"""), ["keeper", "1"])

    def test_who_may_call(self):
        self.zones()
        ask("GRANT INSERT, SELECT, UPDATE, TRUNCATE ON maps.zones TO clerk")
        for role, said in (("guest", "permission denied for table zones"),
                           ("clerk", "must be owner of table maps.zones")):
            for call in "s2_join_table('maps.zones', 'shape')", "s2_join_drop('maps.zones')":
                self.assert_refused(f"SET ROLE {role}; SELECT {call}", said)
        ask("SET ROLE clerk; INSERT INTO maps.zones VALUES (3, rectangle(3, 5))")
        self.assertEqual(self.at(3), ["3"])
        ask("GRANT keeper TO clerk; SET ROLE clerk; SELECT s2_join_table('maps.zones', 'shape');"
            " RESET ROLE; REVOKE keeper FROM clerk")
        self.assertEqual(self.at(3), ["3"])

    def test_tiles_with_code_of_their_own(self):
        """A deferred trigger would run when the caller, a superuser, commits."""
        for code, said in (
                ("CREATE FUNCTION maps.run() RETURNS trigger LANGUAGE plpgsql AS 'BEGIN RETURN NULL; END'; CREATE"
                 " CONSTRAINT TRIGGER run AFTER INSERT ON maps.zones_tiles DEFERRABLE INITIALLY DEFERRED"
                 " FOR EACH ROW EXECUTE FUNCTION maps.run()", "has triggers"),
                ("CREATE RULE run AS ON INSERT TO maps.zones_tiles DO ALSO SELECT maps.run()", "rules"),
                ("ALTER TABLE maps.zones_tiles ADD CHECK (maps.run() > 0)", "checks"),
                ("ALTER TABLE maps.zones_tiles ALTER clip SET DEFAULT ''", "expressions"),
                ("CREATE INDEX ON maps.zones_tiles (maps.run())", "expressions"),
                ("ALTER TABLE maps.zones_tiles ENABLE ROW LEVEL SECURITY", "policies")):
            self.setUp()
            self.zones()
            ask("CREATE FUNCTION maps.run() RETURNS int LANGUAGE SQL IMMUTABLE AS 'SELECT 1'"
                if "TRIGGER" not in code else "")
            ask(f"GRANT ALL ON SCHEMA maps TO keeper; SET ROLE keeper; {code}")
            self.assert_refused("SELECT s2_join_table('maps.zones', 'shape')", f"s2_join_table did not make|{said}")

    def meanwhile(self, change, also=""):
        """What a call of a superuser's says that has begun before a change of the owner's ends, and what `also` says
        before that."""
        owner, caller, other = Session(), Session(), Session()
        owner.say(f"SET ROLE keeper; BEGIN; {change};")
        caller.begin("SELECT s2_join_table('maps.zones', 'shape');")
        end = time.monotonic() + 60
        while ask("SELECT count(*) FROM pg_locks WHERE NOT granted") == ["0"] and time.monotonic() < end:
            pass
        said = other.say(also)
        owner.say("COMMIT;")
        said += caller.ends()
        for session in owner, caller, other:
            session.close()
        self.assertEqual(ask(SUPERUSERS), ["postgres"])
        return " ".join(said)

    def test_the_owner_gains_nothing_while_a_superuser_calls(self):
        """He changes the tiles, the zones, or what has their name, when the call has begun."""
        sprung = TRAP.format("maps").replace("guest", "keeper")
        for change, said in (
                (f"{sprung} CREATE FUNCTION maps.run() RETURNS trigger LANGUAGE plpgsql AS"
                 " 'BEGIN PERFORM maps.sprung(NULL); RETURN NEW; END'; CREATE TRIGGER run BEFORE INSERT"
                 " ON maps.zones_tiles FOR EACH ROW EXECUTE FUNCTION maps.run()", "has triggers"),
                (f"{sprung} CREATE FUNCTION maps.of(maps.trap) RETURNS bytea LANGUAGE SQL AS 'SELECT CASE WHEN"
                 " maps.sprung($1) > 0 THEN NULL::bytea END'; CREATE CAST (maps.trap AS bytea) WITH FUNCTION"
                 " maps.of(maps.trap) AS IMPLICIT; SELECT s2_join_drop('maps.zones');"
                 " ALTER TABLE maps.zones ALTER shape TYPE maps.trap USING ROW(1)", "is of type maps.trap"),
                ("ALTER TABLE maps.zones RENAME TO old; CREATE TABLE maps.zones (LIKE maps.old INCLUDING ALL)",
                 "table maps.old has another name than a moment ago")):
            self.setUp()
            self.zones()
            self.assertIn(said, self.meanwhile(change))

    def test_no_schema_gets_another_name_while_a_superuser_calls(self):
        self.zones()
        said = self.meanwhile("LOCK TABLE maps.zones",
                              "SET lock_timeout = '1s'; ALTER SCHEMA maps RENAME TO other;")
        self.assertRegex(said, "lock timeout.*maps.zones_tiles")

    def test_nothing_of_the_callers_path_is_called(self):
        """Functions and operators that fit better than PostgreSQL's own and the extension's."""
        ask("""
            CREATE TABLE maps.called (what text); GRANT INSERT ON maps.called TO PUBLIC;
            SET ROLE guest; SET check_function_bodies = off;
            CREATE FUNCTION free.format(text, name, text) RETURNS text LANGUAGE SQL AS
                $$INSERT INTO maps.called VALUES ('format') RETURNING ''$$;
            CREATE FUNCTION free.format(text, text, text) RETURNS text LANGUAGE SQL AS
                $$INSERT INTO maps.called VALUES ('format') RETURNING ''$$;
            CREATE FUNCTION free.obj_description(regclass, text) RETURNS text LANGUAGE SQL AS
                $$INSERT INTO maps.called VALUES ('obj_description') RETURNING ''$$;
            CREATE FUNCTION free.joined(name, text) RETURNS text LANGUAGE SQL AS
                $$INSERT INTO maps.called VALUES ('||') RETURNING ''$$;
            CREATE OPERATOR free.|| (LEFTARG = name, RIGHTARG = text, FUNCTION = free.joined);
            CREATE FUNCTION free.same(regtype, regtype) RETURNS boolean LANGUAGE SQL AS
                $$INSERT INTO maps.called VALUES ('=') RETURNING true$$;
            CREATE OPERATOR free.= (LEFTARG = regtype, RIGHTARG = regtype, FUNCTION = free.same);
            CREATE FUNCTION free.s2_covering(bytea, integer) RETURNS s2union LANGUAGE SQL AS
                $$INSERT INTO maps.called VALUES ('s2_covering') RETURNING ''::s2union$$;
            CREATE FUNCTION free.s2_coverings(bytea, integer, OUT covering s2union, OUT interior s2union)
                LANGUAGE SQL AS $$INSERT INTO maps.called VALUES ('s2_coverings') RETURNING ''::s2union, ''::s2union$$;
            RESET ROLE; ALTER EXTENSION s2union_geo SET SCHEMA free; SET search_path = free, public, maps;
            CREATE TABLE maps.zones (id int PRIMARY KEY, shape bytea);
            INSERT INTO maps.zones VALUES (1, public.rectangle(1, 5));
            SELECT s2_join_table('zones', 'shape'); SELECT s2_join_table('zones', 'shape');
            INSERT INTO zones VALUES (2, public.rectangle(2, 5)); SELECT s2_join_drop('zones');
            ALTER EXTENSION s2union_geo SET SCHEMA public;
        """)
        self.assertEqual(ask("SELECT * FROM maps.called; DROP OWNED BY guest"), [])

    def test_a_key_of_another_roles_type(self):
        ask("SET ROLE guest; CREATE TYPE free.kind AS (n int); RESET ROLE;"
            " CREATE TABLE maps.zones (id free.kind PRIMARY KEY, shape bytea); ALTER TABLE maps.zones OWNER TO keeper")
        self.assert_refused("SELECT s2_join_table('maps.zones', 'shape')", "is of a type of another role")
        ask("DROP SCHEMA maps CASCADE; DROP OWNED BY guest")


class InStep(Joined):
    def test_rows_of_an_open_transaction(self):
        for change, wanted in ("INSERT INTO maps.zones VALUES (3, rectangle(1, 5))", ["1", "3"]), (
                "DELETE FROM maps.zones WHERE id = 1", []):
            for made_before in False, True:
                self.setUp()
                self.zones()
                if not made_before:
                    ask("SELECT s2_join_drop('maps.zones')")
                first, second = Session(), Session()
                first.say(f"BEGIN; {change};")
                second.begin("SELECT s2_join_table('maps.zones', 'shape');")
                while not ask("SELECT 1 FROM pg_locks WHERE NOT granted AND relation = 'maps.zones'::regclass"):
                    pass
                first.say("COMMIT;")
                self.assertEqual(second.ends(), ["maps.zones_tiles"])
                self.assertEqual(self.at(1), wanted)
                first.close()
                second.close()

    def test_transactions_of_an_older_snapshot(self):
        self.zones()
        self.assert_refused("BEGIN ISOLATION LEVEL REPEATABLE READ; SELECT s2_join_table('maps.zones', 'shape')",
                            "(?s)may not see all rows.*READ COMMITTED")
        older = Session()
        older.say("BEGIN ISOLATION LEVEL REPEATABLE READ; SELECT count(*) FROM pg_class;")
        ask("SELECT s2_join_table('maps.zones', 'shape')")
        self.assertIn("no longer fit", " ".join(older.say("DELETE FROM maps.zones WHERE id = 1;")))
        older.say("ROLLBACK; BEGIN ISOLATION LEVEL REPEATABLE READ; DELETE FROM maps.zones WHERE id = 1; COMMIT;")
        older.close()
        self.assertEqual(self.at(1), [])

    def test_names_of_keys(self):
        for name in "longitude", "latitude", "place", "new", "t", "k", "z", "tg_op", '"a%s b"', '"$1"', '"%1$s"':
            self.setUp()
            self.zones(column=name)
            ask(f"UPDATE maps.zones SET {name} = 3 WHERE {name} = 2;"
                " INSERT INTO maps.zones VALUES (4, rectangle(4, 5))")
            said = ask(f"SELECT {name} FROM maps.zones_at(4.5, 5.5); SELECT {name} FROM maps.zones_at(2.5, 5.5);"
                       " SELECT count(*) FROM maps.zones_at(-120, 5.5)")
            self.assertEqual(said, ["4", "3", "0"], name)

    def test_types_of_keys(self):
        ask("SET ROLE keeper; CREATE TYPE maps.pair AS (a int, b text); CREATE TYPE maps.kind AS ENUM ('x', 'y', 'z');"
            " CREATE DOMAIN maps.few AS int CHECK (VALUE < 9)")
        for kind, first, second, third in (
                ("ltree", "'a.b'", "'a.c'", "'a.d'"), ("citext", "'a'", "'b'", "'A'"), ("maps.pair", "ROW(1, 'a')",
                "ROW(2, 'b')", "ROW(3, 'c')"), ("maps.kind", "'x'", "'y'", "'z'"), ("varchar(9)", "'a'", "'b'", "'c'"),
                ("float8", "0.3", "2", "0.30000000000000004"), ("int[]", "'{1}'", "'{2}'", "'{3}'"),
                ("maps.few", "1", "2", "3"), ("daterange", "'[2001-01-01,2002-01-01)'", "'[2003-01-01,2004-01-01)'",
                "'[2005-01-01,2006-01-01)'"), ("uuid", *(f"'{k:032}'" for k in (1, 2, 3)))):
            ask("DROP TABLE IF EXISTS maps.zones, maps.zones_tiles CASCADE;"
                " DROP FUNCTION IF EXISTS maps.zones_follow()")
            self.zones(kind, keys=(first, second))
            first, second, third = (f"{each}::{kind}" for each in (first, second, third))
            ask(f"SET extra_float_digits = 0; UPDATE maps.zones SET id = {third} WHERE id = {first};"
                f" DELETE FROM maps.zones WHERE id = {second}")
            self.assertEqual(ask(f"SELECT z = {third} FROM maps.zones_at(1.5, 5.5) AS z;"
                                 " SELECT count(*) FROM maps.zones_tiles WHERE tile IS NOT NULL AND"
                                 f" id IS DISTINCT FROM {third}"), ["t", "0"], kind)

    def test_partitions(self):
        """A table of partitions is refused; one of them may have tiles, whatever is done by the whole."""
        ask("""
            CREATE TABLE maps.all (id int PRIMARY KEY, shape bytea) PARTITION BY RANGE (id);
            CREATE TABLE maps.zones PARTITION OF maps.all FOR VALUES FROM (0) TO (10);
            CREATE TABLE maps.others PARTITION OF maps.all FOR VALUES FROM (10) TO (20);
            INSERT INTO maps.all VALUES (1, rectangle(1, 5)), (11, rectangle(1, 5));
            SELECT s2_join_table('maps.zones', 'shape');
        """)
        self.assert_refused("SELECT s2_join_table('maps.all', 'shape')",
                            "(?s)has rows in other tables.*for each of its partitions")
        ask("INSERT INTO maps.all VALUES (2, rectangle(1, 5)), (12, rectangle(1, 5))")
        self.assertEqual(self.at(1), ["1", "2"])
        ask("DELETE FROM maps.others; UPDATE maps.all SET id = 11 WHERE id = 1")
        self.assertEqual(self.at(1), ["2"])
        ask("UPDATE maps.all SET id = 3 WHERE id = 11")
        self.assertEqual(self.at(1), ["2", "3"])
        ask("ALTER TABLE maps.all DETACH PARTITION maps.zones; INSERT INTO maps.zones VALUES (4, rectangle(1, 5));"
            " ALTER TABLE maps.all ATTACH PARTITION maps.zones FOR VALUES FROM (0) TO (10);"
            " INSERT INTO maps.all VALUES (5, rectangle(1, 5))")
        self.assertEqual(self.at(1), ["2", "3", "4", "5"])
        for whole in "maps.zones", "maps.all":
            ask(f"INSERT INTO maps.all VALUES (6, rectangle(1, 5)); TRUNCATE {whole}")
            self.assertEqual(self.at(1), [])

    def test_heirs(self):
        ask("CREATE TABLE maps.base (id int PRIMARY KEY, shape bytea);"
            " CREATE TABLE maps.zones (PRIMARY KEY (id)) INHERITS (maps.base);"
            " SELECT s2_join_table('maps.zones', 'shape')")
        self.assert_refused("SELECT s2_join_table('maps.base', 'shape')", "(?s)rows in other tables.*that inherit")
        ask("INSERT INTO maps.zones VALUES (1, rectangle(1, 5)), (2, rectangle(1, 5));"
            " UPDATE maps.base SET id = 3 WHERE id = 1; DELETE FROM maps.base WHERE id = 2")
        self.assertEqual(self.at(1), ["3"])
        ask("TRUNCATE maps.base")
        self.assertEqual(self.at(1), [])
        ask("CREATE TABLE maps.heir () INHERITS (maps.zones)")
        self.assert_refused("INSERT INTO maps.zones VALUES (1, rectangle(1, 5))", "(?s)no longer fit.*a table inherits")
        ask("DROP TABLE maps.heir; INSERT INTO maps.zones VALUES (1, rectangle(1, 5))")
        self.assertEqual(self.at(1), ["1"])

    def test_a_replica(self):
        self.zones()
        ask("SET session_replication_role = replica; INSERT INTO maps.zones VALUES (3, rectangle(1, 5));"
            " DELETE FROM maps.zones WHERE id = 1; UPDATE maps.zones SET id = 4 WHERE id = 2")
        self.assertEqual((self.at(1), self.at(2)), (["3"], ["4"]))
        ask("SET session_replication_role = replica; TRUNCATE maps.zones")
        self.assertEqual(self.at(1), [])

    def test_drop_and_made_anew(self):
        self.zones()
        self.assert_refused("DROP TABLE maps.zones", "(?s)function maps.zones_at.* depends on table.*CASCADE")
        for column in "id", "shape":
            self.assert_refused(f"ALTER TABLE maps.zones DROP COLUMN {column}", "depends? on column")
        self.assert_refused("ALTER TABLE maps.zones ALTER COLUMN id TYPE bigint", "cannot alter type of a column")
        ask("DROP TABLE maps.zones CASCADE; CREATE TABLE maps.zones (id int PRIMARY KEY, shape bytea);"
            " ALTER TABLE maps.zones OWNER TO keeper")
        self.assert_refused(AT.format("maps.zones", 1), "function maps.zones_at.* does not exist")
        ask("INSERT INTO maps.zones VALUES (7, rectangle(1, 5)); SELECT s2_join_table('maps.zones', 'shape')")
        self.assertEqual(self.at(1), ["7"])

    def test_renamed(self):
        """Tables and columns keep their tiles, as a view keeps its tables; a new call is refused until they go."""
        self.zones()
        ask("ALTER TABLE maps.zones RENAME TO areas; ALTER TABLE maps.areas RENAME COLUMN id TO number;"
            " ALTER TABLE maps.areas RENAME COLUMN shape TO old; ALTER TABLE maps.areas ADD shape bytea;"
            " INSERT INTO maps.areas VALUES (3, rectangle(1, 5), rectangle(8, 5))")
        self.assertEqual((self.at(1), self.at(8)), (["1", "3"], []))
        self.assert_refused("SELECT s2_join_table('maps.areas', 'old')",
                            "(?s)calls function maps.zones_follow.*s2_join_drop")
        ask("CREATE TABLE maps.zones (id int PRIMARY KEY, shape bytea); ALTER TABLE maps.zones OWNER TO keeper")
        self.assert_refused("SELECT s2_join_table('maps.zones', 'shape')",
                            "(?s)table maps.areas has a trigger.*s2_join_drop")
        ask("SELECT s2_join_drop('maps.areas'); SELECT s2_join_table('maps.areas', 'old')")
        self.assertEqual(ask("SELECT number FROM maps.areas_at(1.5, 5.5) ORDER BY 1"), ["1", "3"])
        ask("SELECT s2_join_table('maps.zones', 'shape')")

    def test_a_renamed_key_and_a_new_call(self):
        self.zones()
        ask("ALTER TABLE maps.zones RENAME COLUMN id TO number")
        self.assert_refused("SELECT s2_join_table('maps.zones', 'shape')", "(?s)has not the key.*s2_join_drop")
        ask("SELECT s2_join_drop('maps.zones'); SELECT s2_join_table('maps.zones', 'shape')")
        self.assertEqual(ask("SELECT number FROM maps.zones_at(1.5, 5.5)"), ["1"])

    def test_another_schema(self):
        self.zones()
        ask("CREATE SCHEMA plans; ALTER TABLE maps.zones SET SCHEMA plans;"
            " INSERT INTO plans.zones VALUES (3, rectangle(1, 5))")
        self.assertEqual(self.at(1), ["1", "3"])
        ask("ALTER TABLE plans.zones SET SCHEMA maps; DROP SCHEMA plans; ALTER SCHEMA maps RENAME TO plans")
        for change in ("INSERT INTO plans.zones VALUES (4, rectangle(1, 5))", "TRUNCATE plans.zones",
                       "DELETE FROM plans.zones", "UPDATE plans.zones SET id = id + 9"):
            self.assert_refused(change, "(?s)no longer fit.*s2_join_table\\('plans.zones'\\) again")
        self.assertEqual(self.at(1, "plans.zones"), ["1", "3"])
        ask("SELECT s2_join_table('plans.zones', 'shape'); INSERT INTO plans.zones VALUES (4, rectangle(1, 5))")
        self.assertEqual(self.at(1, "plans.zones"), ["1", "3", "4"])

    def test_another_schema_of_the_extension(self):
        self.zones()
        ask("CREATE SCHEMA plans; ALTER EXTENSION s2union_geo SET SCHEMA plans;"
            " ALTER EXTENSION s2union SET SCHEMA plans; INSERT INTO maps.zones VALUES (3, rectangle(1, 5));"
            " SET search_path = ''; SELECT plans.s2_join_table('maps.zones', 'shape');"
            " INSERT INTO maps.zones VALUES (4, public.rectangle(1, 5));")
        self.assertEqual(self.at(1), ["1", "3", "4"])
        ask("ALTER EXTENSION s2union_geo SET SCHEMA public; ALTER EXTENSION s2union SET SCHEMA public")

    def test_another_owner(self):
        self.zones()
        ask("ALTER TABLE maps.zones OWNER TO guest")
        self.assert_refused("INSERT INTO maps.zones VALUES (3, rectangle(1, 5))", "(?s)no longer fit.*owner")
        ask("SELECT s2_join_table('maps.zones', 'shape'); INSERT INTO maps.zones VALUES (3, rectangle(1, 5))")
        self.assertEqual(self.at(1), ["1", "3"])
        ask("REASSIGN OWNED BY guest TO clerk; INSERT INTO maps.zones VALUES (4, rectangle(1, 5))")
        self.assertEqual(self.at(1), ["1", "3", "4"])
        for each in "TABLE maps.zones", "TABLE maps.zones_tiles", "FUNCTION maps.zones_key":
            ask(f"ALTER {each} OWNER TO keeper")  # all but the triggers' function, whose rights clerk gave away else
            self.assert_refused("INSERT INTO maps.zones VALUES (5, rectangle(1, 5))", "no longer fit")

    def test_other_triggers_and_keys_that_change_places(self):
        self.zones(key="int", keys=(1, 2))
        ask("""
            CREATE FUNCTION maps.moves() RETURNS trigger LANGUAGE plpgsql AS $$ BEGIN
                UPDATE maps.zones SET shape = rectangle(4, 5) WHERE id = NEW.id; RETURN NULL; END $$;
            CREATE TRIGGER moves AFTER INSERT ON maps.zones FOR EACH ROW EXECUTE FUNCTION maps.moves();
            INSERT INTO maps.zones VALUES (3, rectangle(3, 5)); DROP TRIGGER moves ON maps.zones;
        """)
        self.assertEqual((self.at(3), self.at(4)), ([], ["3"]))
        ask("DELETE FROM maps.zones WHERE id = 3; ALTER TABLE maps.zones DROP CONSTRAINT zones_pkey;"
            " ALTER TABLE maps.zones ADD PRIMARY KEY (id) DEFERRABLE INITIALLY IMMEDIATE;"
            " UPDATE maps.zones SET id = 3 - id")
        self.assertEqual((self.at(1), self.at(2)), (["2"], ["1"]))

    def test_unlogged(self):
        ask("CREATE UNLOGGED TABLE maps.zones (id int PRIMARY KEY, shape bytea);"
            " INSERT INTO maps.zones VALUES (1, rectangle(1, 5)); SELECT s2_join_table('maps.zones', 'shape')")
        self.assertEqual(ask("SELECT relpersistence FROM pg_class WHERE oid = 'maps.zones_tiles'::regclass"), ["u"])
        ask("ALTER TABLE maps.zones SET LOGGED")
        self.assert_refused("DELETE FROM maps.zones", "no longer fit")
        self.assert_refused("SELECT s2_join_table('maps.zones', 'shape')", "not logged as it")

    def test_rows_that_are_hidden(self):
        self.zones()
        ask("ALTER TABLE maps.zones ENABLE ROW LEVEL SECURITY; ALTER TABLE maps.zones FORCE ROW LEVEL SECURITY")
        self.assert_refused("INSERT INTO maps.zones VALUES (3, rectangle(1, 5))", "row-level security policy")
        self.assert_refused("SELECT s2_join_table('maps.zones', 'shape')", "hides rows from its owner")
        ask("ALTER TABLE maps.zones NO FORCE ROW LEVEL SECURITY; INSERT INTO maps.zones VALUES (3, rectangle(1, 5))")
        self.assertEqual(self.at(1), ["1", "3"])

    def test_dump_and_restore(self):
        self.zones("ltree", keys=("'a'", "'b'"))
        for whole, left_out in (True, ""), (False, "-T maps.zones_tiles"):
            psql("DROP DATABASE IF EXISTS rejoined")
            psql("CREATE DATABASE rejoined")
            dumps = ["pg_dump -Fc joined | pg_restore -e -d rejoined"] if whole else [
                "pg_dump -Fc -s joined | pg_restore -e -d rejoined",
                f"pg_dump -Fc -a {left_out} joined | pg_restore -e --data-only -d rejoined"]
            for dump in dumps:
                subprocess.run(f"set -o pipefail; {dump}", shell=True, check=True, executable="/bin/bash")
            psql("INSERT INTO maps.zones VALUES ('c', rectangle(1, 5)); DELETE FROM maps.zones WHERE id = 'b'",
                 "rejoined")
            asked = AT.format("maps.zones", 1) + ";" + AT.format("maps.zones", 2)
            self.assertEqual(psql(asked, "rejoined"), ["a c", ""])
            psql("SELECT s2_join_table('maps.zones', 'shape')", "rejoined")
        psql("DROP DATABASE rejoined")

    def test_random_changes_by_four_transactions(self):
        """At once on a table and on a partition; then each place has the zones that plain comparisons find."""
        rounds = min(int(os.environ.get("S2UNION_ROUNDS", "1000")) // 5, 200)
        ask("""
            CREATE TABLE maps.plain (id int PRIMARY KEY, x float8, y float8,
                shape bytea GENERATED ALWAYS AS (public.rectangle(x, y)) STORED);
            CREATE TABLE maps.all (LIKE maps.plain INCLUDING ALL) PARTITION BY RANGE (id);
            CREATE TABLE maps.part PARTITION OF maps.all FOR VALUES FROM (0) TO (50);
            CREATE TABLE maps.rest PARTITION OF maps.all DEFAULT;
            SELECT s2_join_table('maps.plain', 'shape', 9); SELECT s2_join_table('maps.part', 'shape', 6);
            SELECT s2_join_table('maps.rest', 'shape');
        """)
        chance = random.Random(1130)
        sessions = [Session() for _ in range(4)]
        for session in sessions:
            session.begin(random_changes(chance, rounds, ("maps.plain", "maps.all"),
                                         {"maps.all": ("maps.part", 0, 50)}))
        said = [line for session in sessions for line in session.ends()]
        for session in sessions:
            session.close()
        expected = "deadlock|duplicate key|could not serialize|constraint|partition|aborted|no longer fit"
        self.assertEqual([line for line in said if "ERROR" in line and not re.search(expected, line)], [])
        places = ("(SELECT i * 0.37 + 0.01 AS x, j * 0.41 + 0.013 AS y"
                  " FROM generate_series(0, 30) AS i, generate_series(0, 30) AS j)")
        for table in "maps.plain", "maps.part", "maps.rest":
            plain = (f"SELECT p.x, p.y, z.id FROM {places} p JOIN {table} z"
                     " ON p.x BETWEEN z.x AND z.x + 1 AND p.y BETWEEN z.y AND z.y + 1")
            tiles = f"SELECT p.x, p.y, z.id FROM {places} p, {table}_at(p.x, p.y) z"
            self.assertEqual(ask(f"SELECT count(*) FROM (({plain}) EXCEPT ALL ({tiles})) d;"
                                 f"SELECT count(*) FROM (({tiles}) EXCEPT ALL ({plain})) d;"), ["0", "0"], table)
        self.assertGreater(int(ask("SELECT count(*) FROM maps.plain")[0]), 3)


class PointsOfAZone(Joined):
    def test_an_index_of_leaves_is_used_whatever_else_is_asked(self):
        """And finds what plain comparisons find, of each of some zones."""
        ask("""
            CREATE TABLE maps.zones (id int PRIMARY KEY, x float8, y float8,
                shape bytea GENERATED ALWAYS AS (public.rectangle(x, y)) STORED);
            INSERT INTO maps.zones SELECT k, k * 17 % 350 - 175.3, k * 7 % 140 - 70.6
                FROM generate_series(1, 2000) AS k;
            CREATE TABLE maps.points AS SELECT k AS id, k % 10 AS kind, k * 0.61803398875 % 1 * 360::float8 - 180 AS x,
                k * 0.0009::float8 - 90 AS y FROM generate_series(1, 200000) AS k;
            SELECT s2_join_table('maps.zones', 'shape'); CREATE INDEX leaves ON maps.points (s2_leaf_at(x, y)); ANALYZE;
        """)
        asked = "SELECT z.id, p.id FROM maps.points p, maps.zones_at(p.x, p.y) z WHERE z.id {}"
        for more in "", " AND kind = 3", " AND kind = 3 AND p.id > 100 AND p.x < 170":
            plan = "\n".join(ask("SET max_parallel_workers_per_gather = 0; EXPLAIN " + asked.format("= 7") + more))
            self.assertRegex(plan, "(on|using) leaves ")
            self.assertNotIn("Seq Scan on points", plan)
        places = "p.x BETWEEN z.x AND z.x + 1 AND p.y BETWEEN z.y AND z.y + 1"
        plain = ask("SELECT z.id, p.id FROM maps.zones z, maps.points p WHERE z.id % 40 = 0 AND"
                    f" {places} ORDER BY 1, 2")
        found = ask(";".join(asked.format(f"= {zone} ORDER BY 2") for zone in range(40, 2001, 40)))
        self.assertGreater(len(plain), 100)
        self.assertEqual(found, plain)


class TakesNothing(Joined):
    def test_functions_and_tables_of_the_user(self):
        for own, said in (
                ("FUNCTION maps.zones_at(float8, float8) RETURNS int", "function maps.zones_at"),
                ("FUNCTION maps.zones_follow() RETURNS int", "function maps.zones_follow"),
                ("FUNCTION maps.zones_key(maps.zones) RETURNS int", "function maps.zones_key"),
                ("FUNCTION maps.zones_tiles(maps.zones) RETURNS int", "function maps.zones_tiles"),
                ("TABLE maps.zones_tiles", "table maps.zones_tiles")):
            self.setUp()
            ask("CREATE TABLE maps.zones (id int PRIMARY KEY, shape bytea)")
            ask(f"CREATE {own}" + (" LANGUAGE SQL AS 'SELECT 7'" if "FUNCTION" in own else " (id int)"))
            self.assert_refused("SELECT s2_join_table('maps.zones', 'shape')",
                                f"{said}.* is there, and not made by s2_join_table")

    def test_grants_and_views_live_through_a_new_call(self):
        self.zones()
        ask("GRANT SELECT ON maps.zones_tiles TO clerk; CREATE VIEW maps.seen AS SELECT count(DISTINCT id) FROM"
            " maps.zones_tiles; CREATE VIEW maps.found AS SELECT id FROM maps.zones_at(1.5, 5.5);"
            " GRANT EXECUTE ON FUNCTION maps.zones_at TO guest; SELECT s2_join_table('maps.zones', 'shape', 9)")
        self.assertEqual(ask("SELECT * FROM maps.seen; SELECT * FROM maps.found; SET ROLE clerk;" +
                             AT.format("maps.zones", 1)), ["2", "1", "1"])

    def test_numbers_out_of_range(self):
        """Of an empty table too."""
        ask("CREATE TABLE maps.zones (id int PRIMARY KEY, shape bytea)")
        for numbers, said in (("99", "out of range: 99"), ("-1", "out of range: -1"), ("31", "out of range: 31"),
                              ("5, -3", "out of range"), ("5, 1000001", "out of range"), ("5, NULL", "is NULL"),
                              ("NULL, -3", "out of range")):
            self.assert_refused(f"SELECT s2_join_table('maps.zones', 'shape', {numbers})", said)
        self.assertEqual(ask("SELECT s2_join_table('maps.zones', 'shape', 30, 0)"), ["maps.zones_tiles"])

    def test_drop(self):
        there = """
            SELECT count(*) FROM pg_class WHERE relnamespace = 'maps'::regnamespace AND relkind = 'r' UNION ALL
            SELECT count(*) FROM pg_proc WHERE pronamespace = 'maps'::regnamespace UNION ALL
            SELECT count(*) FROM pg_trigger WHERE tgname LIKE 's2%'"""
        for name in "zones", "areas":
            self.setUp()
            self.zones()
            ask(f"CREATE FUNCTION maps.zones_at(text) RETURNS text LANGUAGE SQL AS 'SELECT 7';"
                + (f"ALTER TABLE maps.zones RENAME TO {name}" if name != "zones" else ""))
            self.assertEqual(ask(there), ["2", "5", "3"])
            ask(f"SELECT s2_join_drop('maps.{name}')")
            self.assertEqual(ask(there), ["1", "1", "0"])
            self.assert_refused(f"SELECT s2_join_drop('maps.{name}')", "has no tiles")
            ask(f"INSERT INTO maps.{name} VALUES (3, rectangle(3, 5))")
        ask("SELECT s2_join_table('maps.areas', 'shape'); CREATE VIEW maps.seen AS SELECT * FROM maps.areas_tiles")
        self.assert_refused("SELECT s2_join_drop('maps.areas')", "view maps.seen depends")

    def test_tiles_that_are_gone(self):
        self.zones()
        ask("DROP TABLE maps.zones_tiles CASCADE")
        self.assert_refused("INSERT INTO maps.zones VALUES (3, rectangle(3, 5))", "(?s)no longer fit.*s2_join_drop")
        ask("SELECT s2_join_drop('maps.zones'); INSERT INTO maps.zones VALUES (3, rectangle(3, 5));"
            " SELECT s2_join_table('maps.zones', 'shape')")
        self.assertEqual(self.at(3), ["3"])

    def test_what_version_1_4_made(self):
        """The update takes its triggers' functions from the public, and a new call replaces all."""
        psql("DROP DATABASE IF EXISTS earlier")
        psql("CREATE DATABASE earlier")
        psql("SET client_min_messages = error; CREATE EXTENSION s2union; CREATE EXTENSION s2union_geo VERSION '1.4';"
             + BEGIN[BEGIN.index("CREATE FUNCTION"):] + """
            CREATE TABLE zones (id int PRIMARY KEY, shape bytea); INSERT INTO zones VALUES (1, rectangle(1, 5));
            ALTER TABLE zones OWNER TO keeper; SELECT s2_join_table('zones', 'shape');
            GRANT SELECT ON zones_tiles TO clerk;""", "earlier")
        public = "SELECT has_function_privilege('guest', 'zones_follow()', 'EXECUTE');"
        owners = """SELECT DISTINCT proowner::regrole FROM pg_proc WHERE proname LIKE 'zones%' UNION
            SELECT relowner::regrole FROM pg_class WHERE relname LIKE 'zones%'"""
        self.assertEqual(psql(public, "earlier"), ["t"])
        self.assertEqual(psql("ALTER EXTENSION s2union_geo UPDATE;" + public, "earlier"), ["f"])
        self.assertEqual(psql("SELECT obj_description('zones_tiles'::regclass, 'pg_class')", "earlier"),
                         ["made by s2_join_table of public.zones"])
        self.assertEqual(psql("INSERT INTO zones VALUES (2, rectangle(1, 5)); SELECT s2_join_table('zones', 'shape');"
                              " INSERT INTO zones VALUES (3, rectangle(1, 5)); " + owners + "; SET ROLE clerk;"
                              + AT.format("zones", 1), "earlier"), ["zones_tiles", "keeper", "1 2 3"])
        self.assertEqual(psql("SELECT obj_description('zones_tiles'::regclass, 'pg_class')", "earlier"),
                         ["made by s2_join_table of public.zones"])
        psql("SELECT s2_join_drop('zones'); SELECT * FROM zones", "earlier")
        psql("DROP DATABASE earlier")
