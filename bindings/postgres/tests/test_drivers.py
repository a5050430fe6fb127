"""Unions through drivers of Python: what `%s` takes, and what rows give back, of the server of test_postgres.py."""

import random
import sqlite3
import unittest

import psycopg
import psycopg2
import psycopg2.extras
from s2union import CellUnion
from s2union.adapters import register_psycopg

UNIONS = [CellUnion.from_tokens(tokens) for tokens in ("", "04 0c", "1 3 5 7 9 b", "1/0123 2/3")] + [
    CellUnion(random.Random(k).choices(range(1, 2**61, 2), k=10**k)) for k in range(5)]


class Drivers(unittest.TestCase):
    def connections(self):
        for driver in (psycopg, psycopg2):
            with driver.connect("dbname=postgres") as connection:
                cursor = connection.cursor()
                cursor.execute("SET client_min_messages = error; CREATE EXTENSION IF NOT EXISTS s2union;"
                               "CREATE TEMP TABLE woods (name text, region s2union)")
                register_psycopg(connection)
                yield connection, connection.cursor()
                connection.rollback()

    def test_each_union_comes_back(self):
        for connection, cursor in self.connections():
            cursor.executemany("INSERT INTO woods VALUES (%s, %s)", [(str(k), union) for k, union in enumerate(UNIONS)])
            cursor.execute("SELECT region FROM woods ORDER BY name::int")
            self.assertEqual([region for region, in cursor.fetchall()], UNIONS)
            for union in UNIONS:
                cursor.execute("SELECT region, region::bytea, s2_count(region) FROM woods WHERE region = %s", [union])
                (found, data, count), = cursor.fetchall()
                self.assertEqual((found, CellUnion.from_bytes(data), count), (union, union, len(union)))
            cursor.execute("SELECT NULL::s2union, array_agg(region ORDER BY name::int) FROM woods")
            self.assertEqual(cursor.fetchone(), (None, UNIONS))
            cursor.execute("SELECT %s::bytea::s2union", [UNIONS[1].to_bytes()])  # a driver that knows bytes alone
            self.assertEqual(cursor.fetchone(), (UNIONS[1],))

    def test_binary_results(self):
        connections = self.connections()
        connection, _ = next(connections)
        found = connection.execute("SELECT %s::s2union, ARRAY[%s]::s2union[]", [UNIONS[3], UNIONS[1]], binary=True)
        self.assertEqual(found.fetchone(), (UNIONS[3], [UNIONS[1]]))

    def test_what_is_refused(self):
        with self.assertRaisesRegex(TypeError, "a connection of psycopg or psycopg2 is wanted, not Connection"):
            register_psycopg(sqlite3.connect(":memory:"))
        for driver in (psycopg, psycopg2):
            with driver.connect("dbname=template1") as connection:
                with self.assertRaisesRegex(LookupError, "has no type s2union; CREATE EXTENSION"):
                    register_psycopg(connection)
