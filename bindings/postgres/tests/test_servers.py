"""Three servers and a replica, after docs/SERVERS.md has run: a part moves, a server is down, a cable is cut.

NET is the name of the network namespaces, and WORK the folder of the servers' folders."""

import os
import re
import subprocess
import threading
import time
import unittest

NET, WORK = os.environ["NET"], os.environ["WORK"]
FIRST, SECOND, THIRD = "s2_leaf(5, 7, 9)", "s2_leaf(1, 300000000, 400000000)", "s2_leaf(2, 300000000, 400000000)"
ALL = "SELECT count(*) FROM tiles"
SIDE = 2**21  # leaves along the side of a cell of level 9, that of the page's regions
DONE = "== done"


def at(leaf):
    """A question that only the server of this place is asked."""
    return f"SELECT count(*) FROM tiles WHERE tile = s2_parent({leaf}, 5) AND part @> {leaf};"


def insert(leaf):
    return f"INSERT INTO tiles SELECT 'new', s2_parent({leaf}, 5), {leaf}::s2union;"


class Session:
    """A session on the first server, in its namespace."""

    def __init__(self, host="192.0.2.1"):
        command = ["ip", "netns", "exec", f"{NET}-first"]
        command += ["psql", "-XAqt", "-h", host, "-U", "postgres", "-d", "postgres"]
        self.process = subprocess.Popen(command, stdin=subprocess.PIPE, stdout=subprocess.PIPE,
                                        stderr=subprocess.STDOUT, text=True, bufsize=1)

    def ask(self, script):
        """The lines that a script writes, with those of errors."""
        self.process.stdin.write(f"{script}\n;\\echo {DONE}\n")
        lines = iter(self.process.stdout.readline, "")
        return "\n".join(line.rstrip("\n") for line in iter(lambda: next(lines, DONE + "\n"), DONE + "\n"))

    def __enter__(self):
        return self

    def __exit__(self, *_):
        self.process.stdin.close()
        self.process.stdout.close()
        self.process.wait()


def once(script, host="192.0.2.1"):
    with Session(host) as session:
        return session.ask(script)


def control(server, *arguments):
    """Runs pg_ctl for a server, in its namespace."""
    folder = f"{WORK}/{server}"
    subprocess.run(["ip", "netns", "exec", f"{NET}-{server}", "runuser", "-u", "postgres", "--", "pg_ctl", "-D", folder,
                    "-l", f"{folder}/log", "-w", *arguments], check=True, cwd="/", stdout=subprocess.DEVNULL)


def cable(server, state):
    subprocess.run(["ip", "-n", NET, "link", "set", server, state], check=True)


def region(k):
    """The page's region k: its face, and its cells of level 9 along i and along j."""
    i, j = k * 1000000, k * 1500000
    return k % 6, range(i // SIDE, (i + 90000000) // SIDE + 1), range(j // SIDE, (j + 60000000) // SIDE + 1)


def point(k):
    """The page's point k: its face, and its cell of level 9 along i and along j."""
    return k % 6, k * 350000 // SIDE, (k * 500000 + k % 50 * 1000000) // SIDE


def overlap(one, other):
    return max(one[0], other[0]) <= min(one[-1], other[-1])


def signed(cell):
    return cell - 2**64 if cell >= 2**63 else cell


def timed(call):
    began = time.monotonic()
    return call(), time.monotonic() - began


class AfterThePage(unittest.TestCase):
    def test_all_pairs(self):
        """The page's joins, beside loops over all pairs of rectangles and places on a face."""
        regions, points = {k: region(k) for k in range(1, 601)}, {k: point(k) for k in range(1, 2001)}
        inside = {f"{p}|region {k}" for k, (face, across, up) in regions.items()
                  for p, (on, i, j) in points.items() if on == face and i in across and j in up}
        meeting = {"|".join(sorted((f"region {a}", f"region {b}"))) for a, one in regions.items()
                   for b, other in regions.items()
                   if a < b and one[0] == other[0] and overlap(one[1], other[1]) and overlap(one[2], other[2])}
        for setting in ("on", "off"):
            said = once(f"SET enable_partitionwise_join = {setting}; SELECT * FROM inside;").splitlines()
            self.assertEqual((len(said), set(said)), (len(inside), inside))
            said = once(f"SET enable_partitionwise_join = {setting}; SELECT * FROM meeting;").splitlines()
            self.assertEqual((len(said), set(said)), (len(meeting), meeting))

    def test_a_part_moves(self):
        """From the first server, to which the page has moved it, back to the second."""
        before, inserted, counts, moved = int(once(ALL)), [], [], threading.Event()

        def write():
            with Session() as session:
                while not moved.is_set():
                    inserted.append(session.ask(insert((FIRST, SECOND, THIRD)[len(inserted) % 3])))

        def read():
            with Session() as session:
                while not moved.is_set():
                    counts.append(session.ask(ALL))

        threads = [threading.Thread(target=call) for call in (write, read, read)]
        for thread in threads:
            thread.start()
        while len(inserted) < 6 and threads[0].is_alive():
            time.sleep(0.01)
        said = once("""
            BEGIN;
            LOCK TABLE tiles IN SHARE ROW EXCLUSIVE MODE;
            INSERT INTO tiles_second SELECT * FROM tiles_moved;
            ALTER TABLE tiles DETACH PARTITION tiles_moved;
            ALTER TABLE tiles ATTACH PARTITION tiles_second FOR VALUES FROM (0) TO (4611686018427387904);
            DROP TABLE tiles_moved;
            COMMIT;""")
        so_far = len(inserted)
        while len(inserted) < so_far + 6 and threads[0].is_alive():
            time.sleep(0.01)
        moved.set()
        for thread in threads:
            thread.join()
        self.assertEqual((said, set(inserted)), ("", {""}))
        self.assertEqual(int(once(ALL)), before + len(inserted))
        self.assertGreater(len(inserted), 10)
        counts = [int(count) for count in counts]
        self.assertTrue(all(before <= count <= before + len(inserted) for count in counts))
        once("DELETE FROM tiles WHERE name = 'new'")
        self.assertEqual(int(once(ALL)), before)

    def test_questions(self):
        said = once("""
            CREATE TABLE whole AS SELECT * FROM tiles;
            SELECT count(*), count(*) FILTER (WHERE apart.found IS DISTINCT FROM together.found),
                count(apart.found) > 50
            FROM generate_series(1, 200) AS k,
                LATERAL (SELECT s2_outer(k % 6, k * 900000, k * 900000 + 30000000, k * 1000000, k * 1000000 + 9000000,
                    10) AS q) AS asked,
                LATERAL (SELECT array_agg(name || tile ORDER BY name, tile) AS found FROM tiles WHERE part && q)
                    AS apart,
                LATERAL (SELECT array_agg(name || tile ORDER BY name, tile) AS found FROM whole WHERE part && q)
                    AS together;
            SELECT (SELECT s2_union_agg(part) FROM tiles) = (SELECT s2_union_agg(part) FROM whole);
            DROP TABLE whole;""")
        self.assertEqual(said, "200|0|t\nt")

    def test_fetch_size(self):
        once("CREATE TABLE many AS SELECT k, s2_leaf(0, k, k)::s2union AS part FROM generate_series(1, 100000) AS k;",
             "192.0.2.2")
        once("CREATE FOREIGN TABLE many (k int, part s2union) SERVER second OPTIONS (fetch_size '100');")
        for size in (1, 100, 1000, 10000, 100000):
            with Session() as session:
                session.ask(f"ALTER FOREIGN TABLE many OPTIONS (SET fetch_size '{size}'); SELECT count(*) FROM many;")
                said, took = timed(lambda: session.ask("CREATE TEMP TABLE got AS SELECT * FROM many;"))
                self.assertEqual(said, "")
                found = session.ask("SELECT sum(s2_leaves(part)), count(DISTINCT k) FROM got;")
                self.assertEqual(found, "100000|100000")
            print(f"100,000 rows with a fetch_size of {size}: {1000 * took:.0f} ms", flush=True)

    def test_a_cable_is_cut(self):
        with Session() as session:
            count = session.ask(ALL)
            found = session.ask(at(THIRD))
            cable("second", "down")
            said, took = timed(lambda: session.ask(ALL))
            self.assertIn("ERROR", said)
            self.assertLess(took, 60)
            print(f"a session whose server can't be reached answers so after {1000 * took:.0f} ms", flush=True)
            said, took = timed(lambda: once(ALL))
            self.assertIn('could not connect to server "second"', said)
            self.assertLess(took, 60)
            print(f"a new session answers so after {1000 * took:.0f} ms", flush=True)
            self.assertEqual(session.ask(at(THIRD)), found)
            cable("second", "up")
            self.assertEqual((session.ask(ALL), once(ALL)), (count, count))

    def test_the_replica_is_down(self):
        """All is answered but a row for the third server, which waits until the replica is back."""
        count, answers = int(once(ALL)), []
        control("replica", "-m", "immediate", "stop")
        waits = threading.Thread(target=lambda: answers.append(once(insert(THIRD))))
        waits.start()
        self.assertEqual(once(insert(SECOND)), "")
        waits.join(3)
        self.assertEqual((waits.is_alive(), int(once(ALL))), (True, count + 1))
        control("replica", "start")
        waits.join(600)
        self.assertEqual((answers, int(once(ALL))), ([""], count + 2))

    def test_a_server_is_down(self):
        with Session() as session:
            count, found = session.ask(ALL), session.ask(at(SECOND))
            self.assertEqual(session.ask(insert(THIRD)), "")
            count = str(int(count) + 1)
            control("third", "-m", "immediate", "stop")
            self.assertEqual((once(ALL), session.ask(ALL)), (count, count))
            refused = session.ask(insert(THIRD))
            self.assertIn("cannot execute INSERT in a read-only transaction", refused)
            self.assertEqual(session.ask(insert(SECOND)), "")
            control("replica", "promote")
            self.assertEqual(session.ask(insert(THIRD)), "")
            count = str(int(count) + 2)
            self.assertEqual((once(ALL), session.ask(ALL)), (count, count))
            control("replica", "-m", "immediate", "stop")
            said = session.ask(ALL)
            self.assertIn('could not connect to server "third"', said)
            self.assertEqual(int(session.ask(at(SECOND))), int(found) + 1)
            control("replica", "start")
            self.assertEqual((once(ALL), session.ask(ALL)), (count, count))


class OverTheCountries(unittest.TestCase):
    """The countries of the earth and random points in the page's tables, and on the first server alone."""

    @classmethod
    def setUpClass(cls):
        import earth
        regions, points = earth.coverings(f"{WORK}/world/countries"), earth.points()
        cls.pairs = {f"{place}|{name}" for place, name in earth.all_pairs(points, regions)}
        rows = {"region_rows": "".join(f"{name}\t{{{','.join(str(signed(cell)) for cell in cells)}}}\n"
                                       for name, cells in regions.items()),
                "point_rows": "".join(f"{k}\t{leaf}\n" for k, leaf in enumerate(points.view("int64").tolist()))}
        for name, text in rows.items():
            with open(f"{WORK}/{name}", "w", encoding="utf-8") as file:
                file.write(text)
        said = once(f"""
            CREATE TABLE region_rows (name text, cells bigint[]);
            CREATE TABLE alone_points (id int, leaf bigint);
            \\copy region_rows FROM '{WORK}/region_rows'
            \\copy alone_points FROM '{WORK}/point_rows'
            CREATE TABLE alone_regions AS SELECT name, cells::s2union AS region FROM region_rows;
            CREATE TABLE alone_tiles AS SELECT name, tile, part FROM alone_regions, s2_tiles(region, 5);
            CREATE INDEX ON alone_regions USING gin (region);
            CREATE INDEX ON alone_points (leaf);
            TRUNCATE tiles, points;
            INSERT INTO tiles SELECT * FROM alone_tiles;
            INSERT INTO points SELECT id, s2_parent(leaf, 5), leaf FROM alone_points;
            VACUUM ANALYZE alone_regions, alone_points, alone_tiles; ANALYZE tiles; ANALYZE points;""")
        assert said == once("ANALYZE", "192.0.2.2") == once("ANALYZE", "192.0.2.3") == "", said

    def join(self, name, query, settings=""):
        """Asks for the pairs of a join, which have to be all, and says how long it took, at the least."""
        with Session() as session:
            session.ask(settings)
            times = []
            for _ in range(4):
                said, took = timed(lambda: session.ask(f"SELECT id, name FROM {query};"))
                said, times = said.splitlines(), [*times, took]
                self.assertEqual((len(said), set(said)), (len(self.pairs), self.pairs), name)
        print(f"{len(said)} pairs of 100,000 points and 177 countries, {name}: {1000 * min(times):.0f} ms", flush=True)

    def test_one_server(self):
        self.join("one server, by tile", "alone_points JOIN alone_tiles ON tile = s2_parent(leaf, 5) AND part @> leaf")
        self.join("one server, region @> leaf", "alone_points JOIN alone_regions ON region @> leaf")
        self.join("one server, ranges of leaves", """alone_regions, unnest(s2_cells(region)) AS cell JOIN alone_points
            ON leaf BETWEEN s2_range_min(cell) AND s2_range_max(cell)""")

    def test_each_level(self):
        """The table of docs/SCALE.md: how many tiles, their size, and the most cells of a part; and all pairs."""
        with open(f"{os.path.dirname(os.path.abspath(__file__))}/../../../docs/SCALE.md", encoding="utf-8") as file:
            rows = re.findall(r"^\| (\d) \| ([\d,]+) \| ([\d,]+) KB \| (\d+) \|", file.read(), re.M)
        self.assertEqual(len(rows), 7)
        for level, *wanted in rows:
            said = once(f"""SET client_min_messages = error; DROP TABLE IF EXISTS level_tiles;
                CREATE TABLE level_tiles AS SELECT name, tile, part FROM alone_regions, s2_tiles(region, {level});
                ANALYZE level_tiles;
                SELECT count(*), pg_relation_size('level_tiles') / 1024, max(s2_count(part)) FROM level_tiles;""")
            self.assertEqual(said.split("|"), [number.replace(",", "") for number in wanted])
            self.join(f"by tile of level {level}",
                      f"alone_points JOIN level_tiles ON tile = s2_parent(leaf, {level}) AND part @> leaf")

    def test_three_servers(self):
        self.join("three servers, by tile", "inside", "SET enable_partitionwise_join = on;")
        self.join("three servers, by tile, not partitionwise", "inside")
