"""What PostgreSQL does around a call of the extension: it asks about the same large value in row after row and in part
after part of a table, asks an aggregate over a window again and again, hands over arrays that stay the caller's, and
cancels while an index is made. The server is that of test_postgres.py."""

import hashlib
import math
import unittest

from model import unions as model
from test_postgres import ROUNDS, Tests, array, psql, seconds_of, tokens, u, wkb_of, wkb_of_polygons

# The memory that a session has, and the most that it has had, in MB.
SIZE, PEAK = (f"SELECT (regexp_match(pg_read_file('/proc/self/status'), '{name}:\\s*(\\d+)'))[1]::int / 1024;"
              for name in ("VmRSS", "VmHWM"))


class AroundACall(Tests):
    def test_arrays_of_the_caller_stay_as_they_are(self):
        """Those of a subquery, of a stored column, of a parameter, of a variable, and constants."""
        given, union = array([7, 5, 3, 1, 1025]), tokens(model.normal(model.runs([7, 5, 3, 1, 1025])))
        said = psql(f"""
            SET client_min_messages = error;
            SELECT a, a::s2union, a FROM (SELECT '{given}'::bigint[] AS a OFFSET 0) t;
            DROP TABLE IF EXISTS arrays;
            CREATE TABLE arrays AS SELECT '{given}'::bigint[] AS a FROM generate_series(1, 2);
            SELECT a, a::s2union, a FROM arrays;
            SELECT a, a::s2union, a FROM arrays;
            PREPARE again(bigint[]) AS SELECT $1, $1::s2union, $1; SET plan_cache_mode = force_generic_plan;
            EXECUTE again('{given}'); EXECUTE again('{given}');
            CREATE OR REPLACE FUNCTION made_of(a bigint[]) RETURNS SETOF text LANGUAGE plpgsql AS $$
            DECLARE x s2union; c CONSTANT bigint[] := '{given}';
            BEGIN
                FOR k IN 1 .. 2 LOOP
                    x := a::s2union; RETURN NEXT format('%s|%s|%s', a, x, a);
                    x := c::s2union; RETURN NEXT format('%s|%s|%s', c, x, c);
                END LOOP;
            END $$;
            SELECT made_of('{given}');
        """)
        self.assertEqual(said, [f"{given}|{union}|{given}"] * 11)

    def test_aggregates_over_windows(self):
        """Their states go on after each answer."""
        rows = [self.random.cells(5) for _ in range(max(ROUNDS // 10, 20))]
        values = ", ".join(f"({k}, {u(xs)})" for k, xs in enumerate(rows))
        said = psql(f"""
            CREATE TEMP TABLE rows(k int, region s2union); INSERT INTO rows VALUES {values};
            SELECT k, s2_union_agg(region) OVER w, s2_intersection_agg(region) OVER w,
                s2_union_agg((s2_cells(region))[1]) OVER w, s2_union_agg(split_part(region::text, ' ', 1)) OVER w
                FROM rows WINDOW w AS (ORDER BY k) ORDER BY k;
            SELECT k, s2_union_agg(region) OVER (ORDER BY k ROWS BETWEEN 1 PRECEDING AND CURRENT ROW)
                FROM rows ORDER BY k;
        """)
        union, firsts, both, wanted = [], [], [(0, model.LEAVES)], []
        for k, xs in enumerate(rows):
            union, both = model.joined(union + model.runs(xs)), model.common(both, model.runs(xs))
            firsts += model.normal(model.runs(xs))[:1]
            answers = [union, both, model.runs(firsts), model.runs(firsts)]
            wanted.append("|".join([str(k), *(tokens(model.normal(each)) for each in answers)]))
        self.assertEqual(said[: len(rows)], wanted)
        pairs = [rows[max(k - 1, 0)] + xs for k, xs in enumerate(rows)]
        twos = [tokens(model.normal(model.runs(xs))) for xs in pairs]
        self.assertEqual(said[len(rows):], [f"{k}|{text}" for k, text in enumerate(twos)])

    def test_more_is_asked_about_than_is_kept(self):
        """Values of 200 kB and of 16 kB, more than work_mem has room for, against those of a plan with room: in each
        row two of them, and one of a call's arguments may have come long ago."""
        pairs = """
            SELECT sum((x.k * 31 + y.k * 17 + z.k * 13 + CASE WHEN x.v && y.v THEN 1 ELSE 0 END
                + CASE WHEN y.v @> z.v THEN 2 ELSE 0 END + CASE WHEN z.v <@ x.v THEN 4 ELSE 0 END)
                * (x.k + 3 * y.k + 5 * z.k)) FROM v x, v y, v z
        """
        rows = """
            WITH v AS MATERIALIZED (SELECT k, s2_outer(0, k * 9000, k * 9000 + {size}, k % 3 * 10000,
                k % 3 * 10000 + {size}, 30) - s2_leaf(0, k * 9000 + 5, k % 3 * 10000 + 5)::s2union AS v
                FROM generate_series(0, {n}) AS k) {pairs}
        """
        for size, n in ((12345, 5), (1000, 9)):
            query = rows.format(size=size, n=n, pairs=pairs) + "ORDER BY 1;"
            few, many = psql(f"SET work_mem = '64kB'; {query} SET work_mem = '64MB'; {query}")
            self.assertEqual(few, many)

    def test_values_that_differ_in_one_word(self):
        """Of 1,000 cells and a leaf in their middle, each beside each other leaf, and each twice."""
        cells = " ".join(model.token(model.identifier(20, k * (6 * 4**20 // 1000))) for k in range(1000))
        said = psql(f"""
            CREATE TEMP TABLE alike AS SELECT '{cells}'::s2union AS region;
            SELECT count(*) FROM alike, generate_series(1, 9) AS k, generate_series(1, 9) AS j, generate_series(1, 2)
                WHERE s2_union(region, s2_leaf(3, 2 * k, 0)::s2union) && s2_leaf(3, 2 * j, 0);
        """)
        self.assertEqual(said, ["18"])

    def test_values_of_an_earlier_transaction(self):
        """What is kept ends with its transaction, also in the middle of a procedure and after an error."""
        psql("""
            SET client_min_messages = error;
            DROP TABLE IF EXISTS kept;
            CREATE TABLE kept AS SELECT k, s2_outer(0, k * 90, k * 90 + 3000, 0, 3001, 30)
                - s2_leaf(0, k * 90 + 50, 50)::s2union AS v FROM generate_series(0, 2) AS k;
            CREATE OR REPLACE PROCEDURE asked() LANGUAGE plpgsql AS $$
            DECLARE found int; BEGIN
                FOR n IN 1 .. 6 LOOP
                    SELECT count(*) INTO found FROM kept x, kept y, generate_series(1, 3) WHERE x.v && y.v;
                    IF found <> 27 THEN RAISE EXCEPTION '%', found; END IF;
                    BEGIN PERFORM x.v && y.v AND 1 / (n - 3) = 0 FROM kept x, kept y;
                    EXCEPTION WHEN division_by_zero THEN NULL; END;
                    IF n % 2 = 0 THEN COMMIT; ELSE ROLLBACK; END IF;
                END LOOP;
            END $$;
        """)
        count = "SELECT count(*) FROM kept x, kept y, generate_series(1, 3) WHERE x.v && y.v;"
        self.assertEqual(psql(f"{count} CALL asked(); {count} BEGIN; {count} ROLLBACK; {count}"), ["27"] * 4)

    def test_what_is_kept_has_work_mem_and_no_more(self):
        """Of a hundred values of 70 kB, each in three questions: out of line, and made in each row. If work_mem has
        room for all, all are kept; else as much at the end as when it had come for the first time."""
        psql("""
            SET client_min_messages = error;
            DROP TABLE IF EXISTS spread;
            CREATE TABLE spread (k int, region s2union);
            ALTER TABLE spread ALTER region SET STORAGE external;
            INSERT INTO spread SELECT k, s2_outer(0, k * 9000, k * 9000 + 2000, 1, 2000, 30)
                FROM generate_series(1, 100) AS k;
        """)
        for value, room, least, most in (("region", "1MB", 700000, 1400000), ("region", "64MB", 6400000, 20000000),
                                         ("region | '1c'", "1MB", 700000, 1400000),
                                         ("region | '1c'", "64MB", 6400000, 20000000)):
            said = psql(f"""
                SET work_mem = '{room}'; SET max_parallel_workers_per_gather = 0;
                SELECT min(used) FILTER (WHERE k = 100), max(used) FROM (
                    SELECT k, (SELECT sum((m).used_bytes)
                        FROM (SELECT pg_get_backend_memory_contexts() AS m WHERE k > 0) n
                        WHERE (m).name = 's2union values') AS used
                    FROM spread, LATERAL generate_series(1, 3 + 0 * k) AS n
                    WHERE (CASE WHEN n > 0 THEN {value} END && s2_cell('04')) IS NOT NULL) u;
                SELECT max(s2_count({value})) BETWEEN 8000 AND 10000 FROM spread;
            """)
            self.assertEqual(said[1], "t")
            at_the_end, at_most = map(int, said[0].split("|"))
            self.assertTrue(least < at_the_end <= at_most < most, (value, room, said))

    def test_a_text_that_is_dropped_while_its_union_is_used(self):
        """Three long texts in a row, with room for all of them, but not for the union of the first too."""
        def text(start, cells):
            return " ".join(model.token(model.identifier(20, 7 * k + start)) for k in range(cells))

        texts = [text(10**7 * k, 9000 if k else 20000) for k in range(9)]
        room = (len("".join(texts[:3])) + 80000) // 1024
        values = ", ".join(f"({k}, '{u}', '{v}')" for k, (u, v) in enumerate(zip(texts[1::2], texts[2::2])))
        said = psql(f"""
            SET work_mem = '{room}kB'; SET max_parallel_workers_per_gather = 0;
            SELECT k, md5(s2_union(s2union(t), s2_union(s2union(u), s2union(v)))::text)
                FROM (VALUES {values}) r(k, u, v), (SELECT '{texts[0]}' AS t OFFSET 0) s ORDER BY k;
        """)
        for line, one, two in zip(said, texts[1::2], texts[2::2], strict=True):
            cells = sorted({*texts[0].split(), *one.split(), *two.split()}, key=lambda token: token.ljust(16, "0"))
            self.assertEqual(line.partition("|")[2], hashlib.md5(" ".join(cells).encode()).hexdigest())

    def test_a_text_that_comes_again(self):
        """As a parameter of a plan that is kept, beside texts of other lengths."""
        text = " ".join(model.token(model.identifier(12, 7 * k)) for k in range(400))
        other = text[:-1] + ("1" if text[-1] != "1" else "3")
        said = psql(f"""
            SET plan_cache_mode = force_generic_plan;
            PREPARE asked AS SELECT count(*), count(*) FILTER (WHERE s2_contains($1, s2_cell(c))), s2_count($1::s2union)
                FROM unnest(string_to_array($2, ' ')) AS c;
            EXECUTE asked('{text}', '{text}'); EXECUTE asked('{other}', '{text}'); EXECUTE asked('04', '{text}');
            SELECT sum(s2_count(t::s2union)) FROM unnest(ARRAY['{text}', '{other}', '{text}', '{text}', '04']) AS t;
        """)
        self.assertEqual(said, ["400|400|400", "400|399|400", "400|400|1", "1601"])


class Memory(Tests):
    """A question that is larger than work_mem, about a table of sixty parts: none of them keeps a copy of its own."""

    @classmethod
    def setUpClass(cls):
        super().setUpClass()
        psql("""
            SET client_min_messages = error;
            DROP TABLE IF EXISTS parted, lone, large;
            CREATE TABLE large AS SELECT n, s2_union_agg(s2_leaf(n, 2 * (k % 1000), 2 * (k / 1000))) AS region
                FROM generate_series(0, 1) AS n, generate_series(0, 999999) AS k GROUP BY n;
            CREATE TABLE parted (id int, region s2union) PARTITION BY RANGE (id);
            SELECT format('CREATE TABLE part_%s PARTITION OF parted FOR VALUES FROM (%s) TO (%s)', k, 5 * k, 5 * k + 5)
                FROM generate_series(0, 59) AS k \\gexec
            INSERT INTO parted SELECT k, s2_leaf(k % 2, 2 * k, 2 * k)::s2union FROM generate_series(0, 299) AS k;
            CREATE TABLE lone AS SELECT * FROM parted WHERE id < 5;
            CREATE INDEX ON parted USING gin (region);
            CREATE INDEX ON lone USING gin (region);
            ANALYZE parted; ANALYZE lone; ANALYZE large;
        """)

    def peak(self, query, wanted, settings=""):
        said = psql(f"SET max_parallel_workers_per_gather = 0; SET work_mem = '4MB'; {settings} {query}; {PEAK}")
        self.assertEqual(said[0], wanted, query)
        return int(said[1])

    def test_a_question_about_sixty_parts(self):
        scan, index = "SET enable_bitmapscan = off;", "SET enable_seqscan = off;"
        for question, settings, most in (
            ("(SELECT region FROM large WHERE n = 0)", scan, 20),
            ("(SELECT s2_union_agg(region) FROM large)", scan, 20),
            ("(SELECT region FROM large WHERE n = 0)", index, 9 * 60), # PostgreSQL has a copy for each index itself
        ):
            query = f"SELECT count(*) > 0 FROM {{}} WHERE region && {question}"
            one, sixty = (self.peak(query.format(table), "t", settings) for table in ("lone", "parted"))
            self.assertLess(sixty - one, most, (question, settings))

    def test_a_question_of_forty_sides(self):
        side = "region && (SELECT region - '{}' FROM large WHERE n = 0)"
        sides = " OR ".join(side.format(face) for face in ("3", "5", "7", "9", "b"))
        few = self.peak(f"SELECT count(*) FROM lone WHERE {sides}", "3")
        many = self.peak(f"SELECT count(*) FROM lone WHERE {' OR '.join([sides] * 8)}", "3")
        self.assertLess(many - few, 400)

    def test_rows_of_tiles_take_the_memory_of_one(self):
        """Of 16,384 tiles, each with room for 2 kB: what is made for a row goes before the next."""
        leaves = " | ".join(f"s2_leaf(0, {k}, {k})::s2union" for k in (5, 300000000, 600000000, 900000000))
        said = psql(f"""
            {PEAK} SELECT s2_count(region) > 256, count(*), sum(s2_leaves(part)) = s2_leaves(region)
                FROM (SELECT '1' - ({leaves}) AS region OFFSET 0) r, s2_tiles(region, 7) GROUP BY region; {PEAK}
        """)
        self.assertEqual(said[1], "t|16384|t")
        self.assertLess(int(said[2]) - int(said[0]), 30)


class Errors(Tests):
    """What is made before an error is found, in memory that is not the server's."""

    def test_coverings_of_a_polygon_before_the_one_that_is_wrong(self):
        """Both coverings of the first of two polygons are there when the second is refused, 150 times."""
        large = [[(-180, -60), (0, -60), (-90, 60), (-180, -60)]]
        wrong = [[(-179, -90), (181, -90), (181, 90), (-179, 90), (-179, -90)],
                 [(10, 10), (10 + 1e-9, 10), (10, 10 + 1e-9), (10, 10)]]  # only this hole is outside
        errors = f"""
            SET s2.times = {{}};
            DO $$ BEGIN
                FOR k IN 1 .. current_setting('s2.times')::int LOOP
                    BEGIN
                        PERFORM s2_coverings({wkb_of_polygons(large, wrong)}, 10000, 9);
                        RAISE 'it is covered';
                    EXCEPTION WHEN invalid_parameter_value THEN NULL;
                    END;
                END LOOP;
            END $$;
        """
        psql("SET client_min_messages = error; CREATE EXTENSION IF NOT EXISTS s2union_geo;")
        first, last = map(int, psql(f"{errors.format(30)} {SIZE} {errors.format(150)} {SIZE}"))
        self.assertLess(last - first, 2)  # the inner cells alone would be 3


class Cancels(Tests):
    """While an index of large values is made, while ANALYZE reads them, and inside of one shape."""

    def test_one_shape(self):
        """Calls that take many seconds each: a session that is cancelled in one goes on, and doesn't grow."""
        ring = [(0, 0), (30, 5), (40, 40), (10, 30), (-5, 20), (0, 0)]
        star = [(10 + r * math.cos(k / 5000), 20 + r * math.sin(k / 5000)) for k, r in
                ((k, 14 + 6 * (k * 7919 % 1000) / 1000) for k in range(31415))]
        psql(f"""
            SET client_min_messages = error;
            CREATE EXTENSION IF NOT EXISTS s2union_geo CASCADE;
            DROP TABLE IF EXISTS shaped;
            CREATE TABLE shaped AS SELECT {wkb_of(ring)} AS few, {wkb_of([*star, star[0]])} AS many,
                s2_covering({wkb_of(ring)}, 300000) AS region;
        """)
        for call in ("s2_covering(few, 1000000)", "s2_interior(few, 1000000)", "s2_covering(many, 1000000)",
                     "s2_outline(region)", "s2_covering(s2_outline(region), 1000000)", "s2_bounds(region)"):
            took, said = seconds_of(f"SELECT {call} FROM shaped", 100)
            self.assertIn("due to statement timeout", said, call)
            self.assertLess(took, 1, call)
        size = "SELECT split_part(pg_read_file('/proc/self/statm'), ' ', 2)::int;\n"
        cancelled = "DO $$ BEGIN PERFORM s2_covering(few, 1000000) FROM shaped; EXCEPTION WHEN query_canceled THEN" \
                    " NULL; END $$;\n"
        pages = list(map(int, psql("SET statement_timeout = '200ms';\n" + (cancelled + size) * 15)))
        self.assertLess(pages[-1] - max(pages[:5]), 1000, "pages that ten cancels have left")  # once one had the most
        self.assertEqual(psql("SELECT s2_count(region) > 200000 FROM shaped"), ["t"])
        psql("DROP TABLE shaped;")

    def test_indexes_and_analyze(self):
        psql("""
            SET client_min_messages = error;
            DROP TABLE IF EXISTS placed;
            CREATE TABLE placed (region s2union);
            ALTER TABLE placed ALTER region SET STORAGE external;
            INSERT INTO placed SELECT s2_union_agg(s2_leaf(0, 2 * (k % 1000), 2 * (k / 1000)))
                FROM generate_series(0, 999999) AS k;
            INSERT INTO placed SELECT region FROM placed, generate_series(1, 39);
        """)
        for command in ("CREATE INDEX ON placed USING gist (region)", "CREATE INDEX ON placed USING gin (region)",
                        "CREATE INDEX ON placed USING hash (region)", "ANALYZE placed"):
            took, said = seconds_of(command, 50)
            self.assertIn("due to statement timeout", said, command)
            self.assertLess(took, 2, command)
        psql("DROP TABLE placed;")
