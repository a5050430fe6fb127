"""Coverings of polygons as they are written, in PostgreSQL: the texts and bytes of tests/model/maps.py, in the file
that S2UNION_MAPS names, in each encoding of a database, and what is refused and cancelled."""

import unittest

from model import maps
from test_postgres import SESSION, STATE, TRY, Tests, ask, psql, seconds_of, tokens, wkb_of

PLACE = "byte 0, part 0, ring 0, position 0"
SQUARE = '{"type": "Feature", "properties": {"name": "Zürich"}, "geometry": {"type": "Polygon", ' \
         '"coordinates": [[[2, 48], [3, 48], [3, 49], [2, 49], [2, 48]]]}}'
NAMES = ("s2_map_outer", "s2_map_inner", "s2_geodesic_outer", "s2_geodesic_inner")


def is_text(data):
    """Whether PostgreSQL has these bytes as a text."""
    try:
        return "\0" not in data.decode()
    except UnicodeDecodeError:
        return False


class Maps(Tests):
    def test_texts_and_bytes(self):
        rows = list(maps.asked())
        self.assertGreater(len(rows), 2000)
        calls, wanted = [], []
        for row in rows:
            shape = f"'\\x{row.data.hex()}'::bytea"
            shape = f"convert_from({shape}, 'UTF8')" if row.form == "geojson" else shape
            for name, cells in (("outer", row.outer), ("inner", row.inner)):
                said = f"error: s2union: {row.error}" if row.error else tokens(cells)
                numbers = ", ".join(map(str, row.numbers))
                said += f": {numbers}" if row.numbers[0] > 30 else ""
                calls.append(f"s2_{row.edges}_{name}({shape}, {numbers})")
                wanted.append(said if row.form == "wkb" or is_text(row.data) else "error: invalid byte sequence")
        for call, said, answer in zip(calls, wanted, ask(calls), strict=True):
            self.assertEqual(answer[:len(said)] if "byte sequence" in said else answer, said, call)

    def test_what_is_refused(self):
        few = wkb_of([(0, 0), (9, 2), (5, 8), (0, 0)])
        said = {"''::bytea": "bytes are missing: " + PLACE, "''": "the text is not JSON: " + PLACE,
                f"{few}::text": "the text is not JSON: " + PLACE, "'{}'": "an object without a type: " + PLACE,
                f"{few} || '\\x00'": "bytes after the geometry: byte 77, part 1, ring 1, position 0",
                "'\\x7b7d'::bytea": "a geometry begins with the byte 0 or 1: " + PLACE}
        self.all_are([(f"{name}({shape}, 3)", f"error: s2union: {text}") for name in NAMES
                      for shape, text in said.items()])
        self.all_are([(f"{name}({few}, {level})", f"error: s2union: {text}: {level}") for name in NAMES
                      for level, text in ((-1, "argument out of range"), (31, "argument out of range"),
                                          (30, "too many cells"))])
        self.all_are([(f"{name}({shape}, {level})", "null") for name in NAMES
                      for shape, level in (("NULL::bytea", 3), ("NULL::text", 3), ("''", "NULL"), (few, "NULL"))])
        nothing = '\'{"type": "MultiPolygon", "coordinates": []}\''
        self.all_are([(f"{name}({shape}, {level}) = ''", "true") for name in NAMES for level in (0, 30)
                      for shape in (nothing, "'\\x010600000000000000'::bytea")])

    def test_a_number_of_cells(self):
        few = wkb_of([(0, 0), (9, 2), (5, 8), (0, 0)])
        for name in "s2_map_outer", "s2_map_inner":
            self.all_are([(f"{name}({few}, 9, {count})", f"error: s2union: argument out of range: 9, {count}")
                          for count in (-1, 1_000_001)])
            self.all_are([(f"{name}({few}, {numbers})", "null") for numbers in ("9, NULL", "NULL, 9")])
            self.all_are([(f"{name}({few}, max_cells => 1000000, max_level => 7) = {name}({few}, 7)", "true")])

    def test_the_beginnings_of_bytes(self):
        few = wkb_of([(0, 0), (9, 2), (5, 8), (0, 0)])
        said = ask([f"s2_map_outer(substr({few}, 1, {size}), 3)" for size in range(77)])
        for text in said:
            self.assertRegex(text, "^error: s2union: (bytes are missing|a count beyond the end of the bytes): byte ")

    def test_the_codes_of_errors(self):
        psql(STATE)
        point = "'\\x0101000000" + 32 * "0" + "'::bytea"
        self.all_are([(f"state_of($s$SELECT s2_map_inner({given})$s$)", code) for given, code in (
            (f"substr({point}, 2), 3", "22P03"), ("'[]', 3", "22P02"), (f"{point}, 3", "22023"), ("'{}', 31", "22023"),
            ("'{\"type\": \"Point\", \"coordinates\": [1, 2]}', 3", "22023"),
            (f"{wkb_of([(0, 0), (9, 2), (5, 8), (0, 0)])}, 30", "54000"))])
        spread = "'{\"type\": \"Polygon\", \"coordinates\": [[[0, 0], [120, 0], [-120, 0], [0, 0]]]}'"
        self.all_are([(f"state_of($s$SELECT s2_geodesic_inner({spread}, 3)$s$)", "22023")])
        with self.assertRaisesRegex(AssertionError, "HINT:  A text is GeoJSON. WKB has the type bytea."):
            psql(f"SELECT s2_map_outer('{point[1:-8]}', 3)")

    def test_more_cells_than_there_is_room_for_at_first(self):
        self.all_are([(f"(SELECT s2_count(o) + s2_count(i) > 4096 AND o @> i AND NOT i @> o FROM (SELECT "
                       f"s2_{edges}_outer({few}, 16) AS o, s2_{edges}_inner({few}, 16) AS i) v)", "true")
                      for edges in ("map", "geodesic")
                      for few in (wkb_of([(0, 0), (9, 2), (5, 8), (0, 0)]), f"'{SQUARE}'")])

    def test_a_database_of_another_encoding(self):
        """A text is taken as UTF-8, also where the server has it in Latin-1, or has bytes alone."""
        wanted = ask([f"s2_map_outer('{SQUARE}', 8)"])
        for encoding in ("LATIN1", "SQL_ASCII"):
            psql("SET client_min_messages = error; DROP DATABASE IF EXISTS encoded;")
            psql(f"CREATE DATABASE encoded ENCODING '{encoding}' LOCALE 'C' TEMPLATE template0;")
            psql("CREATE EXTENSION s2union;" + TRY, "encoded")
            before = "SET client_encoding = 'UTF8';"
            self.assertEqual(ask([f"s2_map_outer('{SQUARE}', 8)"], before, "encoded"), wanted, encoding)
        latin = "'{\"' || chr(252) || '\": 0}'"  # a byte that begins no character of UTF-8
        self.assertRegex(ask([f"s2_map_outer({latin}, 8)"], "", "encoded")[0], "invalid byte sequence")
        psql("DROP DATABASE encoded;")


@unittest.skipIf(SESSION, "it measures the time of a session of its own")
class Cancels(Tests):
    def test_one_shape(self):
        """The work is bounded, and a timeout ends it before."""
        ring = wkb_of([(0, 0), (30, 5), (40, 40), (10, 30), (-5, 20), (0, 0)])
        for call in (f"s2_map_outer({ring}, 17)", f"s2_map_inner({ring}, 17)", f"s2_geodesic_outer({ring}, 19)"):
            took, said = seconds_of(f"SELECT {call}", 100)
            self.assertIn("due to statement timeout", said, call)
            self.assertLess(took, 1, call)

    def test_many_polygons(self):
        """Each has fewer cells than a covering may have. All of them together take too much memory."""
        few = wkb_of([(0, 0), (9, 2), (5, 8), (0, 0)])
        many = f"'\\x010600000052030000'::bytea || decode(repeat(encode({few}, 'hex'), 850), 'hex')"
        self.all_are([(f"s2_geodesic_outer({many}, 15)", "error: s2union: too many cells: 15"),
                      (f"s2_geodesic_outer({many}, 8) = s2_geodesic_outer({few}, 8)", "true"),
                      (f"s2_count(s2_geodesic_outer({few}, 15)) > 5000", "true")])
