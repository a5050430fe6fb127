"""The plain SQL of docs/ENGINES.md in SQLite, MariaDB and ClickHouse, over random points and the countries of the earth
as S2 covers them, with cells that are larger than a tile: all pairs.

WORLD is the folder of the countries, and WORK one for the servers, which listen on no network but this machine's own.
"""

import os
import socket
import subprocess
import unittest

import earth
import numpy
from model import plain_sql
from model.engine import INSTALL, WORK, Engine, MariadbServer
from model.random_cells import signed
from s2union import Union, tokens

CLICKHOUSE = """<yandex>
<logger><level>error</level><console>1</console></logger>
<listen_host>127.0.0.1</listen_host><tcp_port>{port}</tcp_port>
<path>{work}/clickhouse/</path><tmp_path>{work}/clickhouse/part/</tmp_path><mark_cache_size>1000000</mark_cache_size>
<users_config>{work}/clickhouse.xml</users_config>
<default_profile>default</default_profile><default_database>default</default_database>
<profiles><default/></profiles><quotas><default/></quotas>
<users><default><password/><networks><ip>127.0.0.1</ip></networks><profile>default</profile><quota>default</quota>
</default></users>
</yandex>
"""


def setUpModule():
    """The points and the countries, as signed numbers and in files, and all pairs of them."""
    global POINTS, REGIONS, PAIRS
    leaves, regions = earth.points(), earth.coverings(os.environ["WORLD"])
    PAIRS = sorted(earth.all_pairs(leaves, regions))
    POINTS = leaves.view("int64").tolist()
    REGIONS = {name: [signed(cell) for cell in cells] for name, cells in regions.items()}
    assert any(cell & -cell > plain_sql.UNIT for cells in REGIONS.values() for cell in cells)
    for sign, kind in ((0, "signed"), (2**64, "unsigned")):
        write(f"places.{kind}", [(place, leaf % sign if sign else leaf) for place, leaf in enumerate(POINTS)])
        write(f"coverings.{kind}", [(name, cell % sign if sign else cell)
                                    for name, cells in REGIONS.items() for cell in cells])


def write(name, rows):
    (WORK / name).write_text("".join("\t".join(map(str, row)) + "\n" for row in rows))


def pairs(text):
    """The pairs that a client has written, a place and a name a line, with a tab between them."""
    rows = (line.split("\t") for line in text.splitlines())
    return sorted((int(place), name) for place, name in rows)


class Sqlite(unittest.TestCase):
    def test_all_pairs(self):
        self.assertEqual(sorted(plain_sql.in_sqlite(POINTS, REGIONS)[0]), PAIRS)


class Terms(unittest.TestCase):
    """Tokens and ancestors as terms, in an index of plain sets: what docs/ENGINES.md says of search engines."""

    def test_all_pairs(self):
        index = {"cells": {}, "keys": {}}
        terms = {name: {"cells": union.tokens(), "keys": tokens(union.ancestors())}
                 for name, union in ((name, Union(cells)) for name, cells in REGIONS.items())}
        for name, lists in terms.items():
            for kind, words in lists.items():
                for word in words:
                    index[kind].setdefault(word, set()).add(name)
        nothing = set()
        found = [(place, name) for place, leaf in enumerate(POINTS)
                 for name in set().union(*(index["cells"].get(key, nothing)
                                           for key in tokens(Union([leaf]).ancestors())))]
        self.assertEqual(sorted(found), PAIRS)
        ranges = {name: numpy.array(sorted((cell - (cell & -cell) + 1, cell + (cell & -cell) - 1) for cell in cells)).T
                  for name, cells in REGIONS.items()}

        def meet(a, b):  # the first range of b that ends no earlier than each of a begins
            at = b[1].searchsorted(a[0])
            return bool((b[0][at[at < b.shape[1]]] <= a[1][at < b.shape[1]]).any())

        for name, lists in terms.items():
            met = set().union(*(index["keys"].get(word, nothing) for word in lists["cells"]),
                              *(index["cells"].get(word, nothing) for word in lists["keys"]))
            self.assertEqual(met, {other for other in ranges if meet(ranges[name], ranges[other])})


class Mariadb(MariadbServer):
    def given(self, kind, made="signed"):
        """The tables of points and of countries, in columns of this kind, in a database of their own."""
        return f"""DROP DATABASE IF EXISTS world; CREATE DATABASE world; USE world;
            CREATE TABLE places (place int, leaf bigint {kind});
            CREATE TABLE coverings (name varchar(200), cell bigint {kind});
            LOAD DATA LOCAL INFILE '{WORK}/places.{made}' INTO TABLE places;
            LOAD DATA LOCAL INFILE '{WORK}/coverings.{made}' INTO TABLE coverings;"""

    def test_all_pairs(self):
        recipe = ";".join(plain_sql.statements("sql mariadb"))
        self.assertEqual(pairs(self.ask(self.given("") + recipe)), PAIRS)
        self.assertEqual(pairs(self.ask(self.given("unsigned", "unsigned") + recipe)), PAIRS)

    def test_functions(self):
        """The page for MariaDB: all pairs of a leaf and a covering and of two coverings, and set operations beside the
        module for Python."""
        values = ",".join(f"('{name}', x'{Union(cells).to_bytes().hex()}')" for name, cells in REGIONS.items())
        pairs_of_unions = "SELECT count(*) FROM regions a JOIN regions b ON a.name < b.name AND s2_intersects(a.u, b.u)"
        self.ask(f"""{self.given('')} {INSTALL}
            CREATE TABLE regions (name varchar(200) PRIMARY KEY, u longblob NOT NULL);
            INSERT INTO regions VALUES {values};""")
        found = self.ask("USE world; SELECT place, name FROM places JOIN regions ON s2_contains_cell(u, leaf)")
        self.assertEqual(pairs(found), PAIRS)
        unions = {name: Union(cells) for name, cells in REGIONS.items()}
        wanted = sum(a < b and unions[a].intersects(unions[b]) for a in unions for b in unions)
        self.assertEqual(self.ask(f"USE world; {pairs_of_unions}"), f"{wanted}\n")
        france = unions["France"]
        for a, b in ((france, unions["Germany"]), (~Union(), france), (france, ~Union())):
            given = f"(x'{a.to_bytes().hex()}', x'{b.to_bytes().hex()}')"
            said = self.ask(f"SELECT hex(s2_union{given}), hex(s2_intersection{given}), hex(s2_difference{given}), "
                            f"hex(s2_symmetric_difference{given}), s2_contains{given}")
            self.assertEqual([bytes.fromhex(word) for word in said.split("\t")[:4]],
                             [union.to_bytes() for union in (a | b, a & b, a - b, a ^ b)])
            self.assertEqual(said.split("\t")[4], f"{int(a >= b)}\n")
        said = self.ask("USE world; SELECT hex(s2_complement(u)), s2_count(u), s2_leaves(u), s2_tokens(u), "
                        "hex(s2_normalise(s2_tokens(u))), s2_contains(u, u) FROM regions WHERE name = 'France'")
        said = said.rstrip("\n").split("\t")
        self.assertEqual([bytes.fromhex(said[k]) for k in (0, 4)], [(~france).to_bytes(), france.to_bytes()])
        self.assertEqual(said[1:4] + said[5:],
                         [str(len(france)), str(france.leaf_count()), " ".join(france.tokens()), "1"])

    def test_what_is_not_cut(self):
        """The CHECK refuses it."""
        made, filled = plain_sql.statements("sql mariadb")[:2]
        uncut = filled.replace("FROM cut WHERE CAST(cell & -cell AS SIGNED) <= ", "FROM cut WHERE 0 < ")
        self.assertNotEqual(uncut, filled)
        with self.assertRaises(subprocess.CalledProcessError):
            self.ask(f"{self.given('')} {made}; {uncut}")


class Clickhouse(Engine):
    @classmethod
    def setUpClass(cls):
        with socket.create_server(("127.0.0.1", 0)) as free:
            port = free.getsockname()[1]
        (WORK / "clickhouse.xml").write_text(CLICKHOUSE.format(port=port, work=WORK))
        cls.begin(["/usr/sbin/clickhouse-server", f"--config-file={WORK}/clickhouse.xml"],
                  ["clickhouse-client", "--port", str(port), "--multiquery"])

    def test_all_pairs(self):
        self.ask("CREATE TABLE places (place Int32, leaf Int64) ENGINE = Memory")
        self.ask("CREATE TABLE coverings (name String, cell Int64) ENGINE = Memory")
        for table in ("places", "coverings"):
            with open(WORK / f"{table}.signed", "rb") as rows:
                subprocess.run([*self.client[:-1], "--query", f"INSERT INTO {table} FORMAT TSV"], stdin=rows,
                               check=True)
        found = [self.ask(statement) for statement in plain_sql.statements("sql clickhouse")]
        self.assertEqual(pairs(found[-1]), PAIRS)
