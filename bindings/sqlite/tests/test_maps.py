"""Coverings of polygons as they are written, in SQLite: the texts and bytes of tests/model/maps.py, in the file that
S2UNION_MAPS names, and what is refused."""

import sqlite3
import struct

from model import maps
from model import unions as model
from test_sqlite import EMPTY, TRIANGLE, Tests

NAMES = ("s2_map_outer", "s2_map_inner", "s2_geodesic_outer", "s2_geodesic_inner")
NO_POLYGONS = '{"type": "MultiPolygon", "coordinates": []}'


class Maps(Tests):
    def error(self, call, *values):
        with self.assertRaises(sqlite3.OperationalError) as caught:
            self.ask(call, *values)
        return str(caught.exception)

    def test_texts_and_bytes(self):
        rows = list(maps.asked())
        for row in rows:
            shape = "?1" if row.form == "wkb" else "CAST(?1 AS TEXT)"
            for name, cells in (("outer", row.outer), ("inner", row.inner)):
                call = f"s2_{row.edges}_{name}({', '.join([shape, '?2', '?3'][:1 + len(row.numbers)])})"
                if not row.error:
                    self.assertEqual(self.ask(call, row.data, *row.numbers), model.file(cells), row)
                elif row.numbers[0] > 30:
                    self.assertTrue(self.error(call, row.data, *row.numbers).startswith(f"s2: {row.error}: "), row)
                else:
                    self.assertEqual(self.error(call, row.data, *row.numbers), f"s2: {row.error}")
        self.assertGreater(len(rows), 2000)

    def test_what_is_refused(self):
        place = "byte 0, part 0, ring 0, position 0"
        for name in NAMES:
            for shape, said in ((b"", "bytes are missing: " + place), ("", "the text is not JSON: " + place),
                                ("\0", "the text is not JSON: " + place), ("{}", "an object without a type: " + place),
                                (TRIANGLE.hex(), "the text is not JSON: " + place),
                                (b"{}", "a geometry begins with the byte 0 or 1: " + place),
                                (1, "a shape is a BLOB of WKB, or a TEXT of GeoJSON: 1")):
                self.assertEqual(self.error(f"{name}(?, 3)", shape), f"s2: {said}")
            for level, said in ((31, f"'{NO_POLYGONS[:40]}', 31"), (-1, "-1"), (2**32 + 3, "4294967299")):
                self.assertEqual(self.error(f"{name}(?, ?)", NO_POLYGONS, level), f"s2: argument out of range: {said}")
            self.assertEqual(self.error(f"{name}(?, 30)", TRIANGLE),
                             f"s2: too many cells: a BLOB of length {len(TRIANGLE)}, 30")
            self.assertEqual(self.ask(f"{name}(?, 30)", NO_POLYGONS), EMPTY)

    def test_a_number_of_cells(self):
        for name in "s2_map_outer", "s2_map_inner":
            for count in -1, 1_000_001, 2**32 + 8:
                self.assertEqual(self.error(f"{name}(?, 9, ?)", TRIANGLE, count), f"s2: argument out of range: {count}")
            self.assertRegex(self.error(f"{name}(?, 9, 8.0)", TRIANGLE), "number of cells is an INTEGER: 8.0")
            self.assertIsNone(self.ask(f"{name}(?, 9, NULL)", TRIANGLE))
            self.assertEqual(self.ask(f"{name}(?, 7, 1000000)", TRIANGLE), self.ask(f"{name}(?, 7)", TRIANGLE))

    def test_each_beginning_of_bytes(self):
        for size in range(len(TRIANGLE)):
            self.assertRegex(self.error("s2_map_outer(?, 3)", TRIANGLE[:size]),
                             r"^s2: (bytes are missing|a count beyond the end of the bytes): byte \d+, part 0, ring 0")
        self.refused("s2: bytes after the geometry: ", "s2_map_outer(?, 3)", TRIANGLE + b"\0")

    def test_more_cells_than_there_is_room_for_at_first(self):
        for edges in "map", "geodesic":
            outer, inner = (self.ask(f"s2_{edges}_{name}(?, 13)", TRIANGLE) for name in ("outer", "inner"))
            self.assertGreater((len(outer) + len(inner)) // 8, 5000)
            self.assertEqual(self.ask("s2_contains(?1, ?2) + 2 * s2_contains(?2, ?1)", outer, inner), 1)
            self.assertEqual(self.ask("s2_is_union(?) + s2_is_union(?)", outer, inner), 2)

    def test_many_polygons(self):
        """Each has fewer cells than a covering may have. All of them together take too much memory."""
        many = b"\1" + struct.pack("<2I", 6, 850) + 850 * TRIANGLE
        self.assertGreater(len(self.ask("s2_geodesic_outer(?, 15)", TRIANGLE)), 50_000)
        self.assertEqual(self.error("s2_geodesic_outer(?, 15)", many),
                         f"s2: too many cells: a BLOB of length {len(many)}, 15")
        self.assertEqual(self.ask("s2_geodesic_outer(?, 8)", many), self.ask("s2_geodesic_outer(?, 8)", TRIANGLE))
