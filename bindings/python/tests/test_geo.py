"""The module s2union_geo: points to leaves and back, polygons to unions, cells to polygons, and what is refused.
tests/geo asks S2 about more."""

import contextlib
import ctypes
import io
import itertools
import json
import math
import os
import pty
import struct
import subprocess
import sys
import tempfile
import types
import unittest
import unittest.mock
from fractions import Fraction
from pathlib import Path
from random import Random

import numpy
import pytest
import s2union_geo
from s2union import CellUnion, Union, from_face_ij, from_token, level, parent, square, tokens
from s2union_geo import (area, boundary, bounds, circle, covering, coverings, edge_neighbors, expanded, interior, leaf,
                         leaves, neighbors, outline, points, read_geojson, to_geojson, vertex_neighbors)
from s2union_geo import coverer, geojson, interrupts, places, reading, sphere
from s2union_geo.__main__ import main, plain_points
from s2union_geo import outlines
from s2union_geo.geojson import rings
from s2union_geo.sphere import geographic, on_cube

import docstrings
from model import borders
from model.places import MIDDLES, POINTS

SIDE = 2**24  # of a cell of level 6, in leaves
SQUARE = [[0, 0], [10, 0], [10, 10], [0, 10], [0, 0]]


def polygon(*rings):
    return {"type": "Polygon", "coordinates": list(rings)}


class Points(unittest.TestCase):
    def test_points(self):
        longitude, latitude, wanted = zip(*POINTS)
        found = leaves(longitude, latitude)
        self.assertEqual((found.dtype, tokens(found)), ("uint64", list(wanted)))
        self.assertEqual(list(map(leaf, longitude, latitude)), found.tolist())
        self.assertEqual(leaves([[1, 2], [3, 4]], 5).tolist(), [[leaf(1, 5), leaf(2, 5)], [leaf(3, 5), leaf(4, 5)]])
        self.assertEqual(leaves([], []).tolist(), [])
        self.assertEqual(leaf(361, 1), leaf(1, 1))
        self.assertEqual([leaf(x, 1) >> 61 for x in (540, -540)], [3, 3])

    def test_middles(self):
        found = points([from_token(token) for token, _, _ in MIDDLES])
        for (token, *wanted), *middle in zip(MIDDLES, *found):
            for number, other in zip(wanted, middle):
                self.assertAlmostEqual(number, other, places=10, msg=token)

    def test_the_middle_of_a_leaf_lies_in_it(self):
        random = Random(47)
        places = numpy.array([[random.randrange(6), *random.choices(range(2**30), k=2)] for _ in range(2000)]).T
        longitude, latitude = geographic(*on_cube(places[0], places[1] + 0.5, places[2] + 0.5))
        cells = list(map(from_face_ij, *places.tolist()))
        self.assertEqual(leaves(longitude, latitude).tolist(), cells)
        numpy.testing.assert_allclose(points(cells), [longitude, latitude], rtol=1e-14)
        self.assertEqual(leaves(*points(cells)).tolist(), cells)

    def test_each_place_beside_plain_python(self):
        """Bit for bit: anywhere, and at poles, corners, and the borders of faces and cells with the numbers beside."""
        random = Random(1129)
        borders = [0.0, -0.0, *range(-540, 541, 45), 35.264389682754654, 89.99999999999999, 5e-324, 1e-300]
        borders += [math.nextafter(x, to) for x in borders for to in (-540, 540)] if sys.version_info >= (3, 9) else []
        heights = [y * sign for y in borders if y <= 90 for sign in (1, -1) if abs(y) <= 90]
        places = list(itertools.product(borders, heights))
        places += [(random.uniform(-540, 540), random.uniform(-90, 90)) for _ in range(70000)]
        places += [(random.randrange(-540, 541), random.randrange(-90, 91)) for _ in range(20000)]
        places += [(x / 2**40, y / 2**40) for x, y in places[-1000:]]
        wanted = [plain_leaf(*place) for place in places]
        self.assertEqual(leaves(*numpy.array(places).T).tolist(), wanted)
        self.assertEqual([leaf(*place) for place in places], wanted)
        two = numpy.asfortranarray(numpy.array(places[-12:]).T.reshape(2, 3, 4))
        self.assertEqual(leaves(two[0], two[1]).ravel().tolist(), wanted[-12:])
        self.assertEqual(leaves(two[0].astype(">f8"), two[1]).ravel().tolist(), wanted[-12:])
        for kind in (int, numpy.float64, numpy.int8, Fraction):
            self.assertEqual(leaf(kind(3), kind(4)), plain_leaf(3, 4))

    def test_points_of_each_kind(self):
        cells = [from_token(token) for token in ("1", "04", "1c", "89c25", "9f", "b")]
        wanted = numpy.array(points(cells)).tolist()
        union, numbers = Union(cells), numpy.array(cells, "uint64")
        for given in (iter(cells), tuple(cells), numbers, numbers.astype("int64"), numbers.astype(">u8"),
                      numpy.repeat(numbers, 2)[::2], numbers.astype(object)):
            self.assertEqual(numpy.array(points(given)).tolist(), wanted)
        self.assertEqual(numpy.array(points(union)).tolist(), numpy.array(points(list(union))).tolist())
        self.assertEqual([found.shape for found in points([])], [(0,), (0,)])
        longitude, _ = points(cells)
        longitude[0] = 1  # as an array of the caller's own


def plain_leaf(longitude, latitude):
    """The leaf of a place, by S2's steps in floats of Python."""
    turn, height = longitude * (math.pi / 180), latitude * (math.pi / 180)
    point = math.cos(turn) * math.cos(height), math.sin(turn) * math.cos(height), math.sin(height)
    axis = max(range(3), key=lambda k: (abs(point[k]), k))
    face = axis + 3 * (point[axis] < 0)
    x, y, z = point
    u, v = {0: (y, z), 1: (-x, z), 2: (-x, -y), 3: (z, y), 4: (z, -x), 5: (-y, -x)}[face]
    places = []
    for number in (u / point[axis], v / point[axis]):
        root = 0.5 * math.sqrt(1 + 3 * abs(number))
        places.append(min(round(2**30 * (root if number >= 0 else 1 - root) - 0.5), 2**30 - 1))
    return from_face_ij(face, *places)


LATITUDE = r"a latitude is from -90 to 90 \(the longitude comes first\): "


@pytest.mark.parametrize("x,y,said", [
    ([0, math.nan], [0, 0], "a longitude is from -540 to 540: nan at place 1$"),
    ([0, 0], [math.inf, 0], f"{LATITUDE}inf at place 0$"), (0, 91, f"{LATITUDE}91.0$"),
    ([1, 2], [1, 2, 3], "2 longitudes and 3 lat"), (35.68, 139.69, f"{LATITUDE}139.69$"),
    (541, 0, "a longitude is from -540 to 540: 541.0$")])
def test_places_that_are_refused(x, y, said):
    with pytest.raises(ValueError, match=said):
        leaves(x, y)


@pytest.mark.parametrize("given", [["1", "2"], [None, None], [True, False]], ids=str)
def test_what_is_no_number(given):
    with pytest.raises(TypeError, match="a longitude is a number, not"):
        leaves(given, [0, 0])


@pytest.mark.parametrize("given", ["1", "x", b"1", True, None], ids=repr)
def test_what_is_no_number_alone(given):
    for place in (given, 0), (0, given):
        with pytest.raises(TypeError):
            leaf(*place)
    with pytest.raises(ValueError, match="polygon 0, ring 0: a position is a longitude and a latitude"):
        covering(polygon([[0, 0], [1, 0], [1, given], [0, 0]]))


def test_a_number_that_is_no_float():
    with pytest.raises(OverflowError):
        leaf(10**400, 0)
    for wrong in math.nan, math.inf, 541, numpy.float64(-540.5):
        with pytest.raises(ValueError, match="a longitude is from -540 to 540: "):
            leaf(wrong, 91)


@pytest.mark.parametrize("cells,kind,said", [
    ([1, 2, "x"], ValueError, "not a cell: 0x2$"), ([1, "x", 2], TypeError, "a cell is an int, not str"),
    (numpy.array([1, 2], "uint64"), ValueError, "not a cell: 0x2$"), (numpy.array([1.0]), TypeError, "an int"),
    (numpy.array([[1]], "uint64"), TypeError, ""), (None, TypeError, ""), ([2**64], ValueError, "out of range")])
def test_points_of_no_cell(cells, kind, said):
    with pytest.raises(kind, match=said):
        points(cells)


class Polygons(unittest.TestCase):
    def test_coverings_bound_their_polygons(self):
        """Of 20,000 points around a polygon with a hole, an island in that, and a polygon that goes beyond: those in
        the interior are in one of them, and all in these are covered."""
        random = Random(3)
        x = numpy.array([random.uniform(-1, 12) for _ in range(20000)])
        y = numpy.array([random.uniform(-1, 12) for _ in range(20000)])
        hole = [[3, 3], [3, 7], [7, 7], [7, 3], [3, 3]]
        island, beyond = ([[low, low], [high, low], [high, high], [low, high], [low, low]]
                          for low, high in ((4, 5), (9, 11)))
        shape = {"type": "MultiPolygon", "coordinates": [[SQUARE, hole], [island], [beyond]]}
        inside = (x > 0) & (x < 10) & (y > 0) & (y < 10) & ~((x >= 3) & (x <= 7) & (y >= 3) & (y <= 7))
        for low, high in ((4, 5), (9, 11)):
            inside |= (x > low) & (x < high) & (y > low) & (y < high)
        cells = leaves(x, y)
        for most, deepest in ((0, 30), (1, 30), (8, 30), (200, 30), (5000, 30), (200, 6), (0, 0)):
            outer, inner = coverings(shape, most, deepest)
            self.assertFalse((inside & ~outer.contains_cells(cells)).any())
            self.assertFalse((inner.contains_cells(cells) & ~inside).any())
            self.assertTrue(inner <= outer)
            self.assertLessEqual(len(inner), most)
            self.assertLessEqual(len(outer), max(most, 6))
            self.assertLessEqual(max([level(cell) for cell in (*outer, *inner)], default=0), deepest)
        self.assertEqual((covering(shape), interior(shape)), coverings(shape))

    def test_edges_to_within_a_rounding(self):
        """Of two strips, whose long edges bend by 7 m to the north, and by 15 m from the chords between their points:
        what lies within a millimeter of them."""
        low, high, near = 60, 60.001, 1e-8
        strip = numpy.array([[0, low], [0.25, low], [0.25, high], [0, high], [0, low]])
        along = numpy.linspace(0.001, 0.249, 997)
        for turned in (False, True):
            outer, inner = coverings(polygon((strip[:, ::-1] if turned else strip).tolist()), 100000, 21)
            self.assertTrue(inner)
            for across, lies in ((low + near, True), (low - near, False), (high - near, True), (high + near, False)):
                cells = leaves(across, along) if turned else leaves(along, across)
                found = outer.contains_cells(cells) if lies else inner.contains_cells(cells)
                self.assertEqual(set(found.tolist()), {lies})

    def test_places_along_the_borders_of_triangles(self):
        """Of triangles with an edge along both axes, between the equator and 89.9 degrees: each place of one is in its
        coverings, and none outside is in an interior."""
        for corners in borders.triangles():
            x, y, lies = map(numpy.array, borders.places_of(corners, 40))
            cells = leaves(x, y)
            for most in (200, 2000):
                outer, inner = coverings(polygon(borders.ring_of(corners)), most)
                self.assertFalse((~outer.contains_cells(cells[lies >= 0])).any(), (corners, most))
                self.assertFalse(inner.contains_cells(cells[lies < 0]).any(), (corners, most))

    def test_edges_are_straight_on_the_map(self):
        """Between two points of the 49th parallel, 10 degrees apart, the shortest line lies 12 km to the north."""
        outer, inner = coverings(polygon([[0, 40], [10, 40], [10, 49], [0, 49], [0, 40]]), 100000)
        for height, lies in ((48.97, True), (49.03, False), (49.05, False)):
            self.assertEqual((leaf(5, height) in outer, leaf(5, height) in inner), (lies, lies))

    def test_the_date_line_and_the_poles(self):
        wide = polygon([[170, -5], [190, -5], [190, 5], [170, 5], [170, -5]])
        for x in (175, 180, -180, -175, 185):
            self.assertIn(leaf(x, 0), interior(wide))
        self.assertNotIn(leaf(-169, 0), covering(wide))
        self.assertEqual(interior(polygon([[x - 360, y] for x, y in wide["coordinates"][0]])), interior(wide))
        south = polygon([[-180, -90], [180, -90], [180, -60], [-180, -60], [-180, -90]])
        outer, inner = coverings(south, 2000)
        for x in range(-170, 171, 20):
            self.assertIn(leaf(x, -61), inner)
            self.assertIn(leaf(x, -90), outer)
            self.assertNotIn(leaf(x, -59), outer)

    def test_what_is_taken(self):
        """GeoJSON as objects and as a text, with features and collections; and what has a __geo_interface__."""
        class Shape:
            __geo_interface__ = polygon(SQUARE)

        feature = {"type": "Feature", "properties": {}, "geometry": polygon(SQUARE)}
        wanted = covering(polygon(SQUARE))
        for shape in (feature, json.dumps(feature), json.dumps(feature).encode(), Shape(),
                      {"type": "FeatureCollection", "features": [feature, {"type": "Feature", "geometry": None}]},
                      {"type": "GeometryCollection", "geometries": [polygon(SQUARE)]},
                      {"type": "MultiPolygon", "coordinates": [[SQUARE]]},
                      polygon([position + [7] for position in SQUARE]), polygon(SQUARE[::-1]),
                      polygon([position for position in SQUARE for _ in range(2)])):
            self.assertEqual(covering(shape), wanted)
        self.assertEqual(coverings({"type": "FeatureCollection", "features": []}), (Union(), Union()))
        outer, inner = coverings(polygon([[7, 7]] * 4))
        self.assertEqual((leaf(7, 7) in outer, len(outer) <= 4, inner), (True, True, Union()))
        for shape in (polygon(numpy.array(SQUARE)), polygon(numpy.array([[*place, 3] for place in SQUARE], "int8")),
                      wkb([SQUARE]), wkb([SQUARE], ">"), WithBytes(wkb([SQUARE]))):
            self.assertEqual(covering(shape), wanted)

    def test_lines_and_points(self):
        line = [[0, 0], [10, 5], [20, 0]]
        for shape, on in (({"type": "Point", "coordinates": [3, 4]}, [[3, 4]]),
                          ({"type": "MultiPoint", "coordinates": [[], *line, []]}, line),
                          ({"type": "LineString", "coordinates": line}, [*line, [4, 2], [16, 2]]),
                          ({"type": "MultiLineString", "coordinates": [line, [], [[40, 50], [40, 60]]]},
                           [[40, 55], [4, 2]]),
                          ({"type": "GeometryCollection", "geometries": [polygon(SQUARE), {
                              "type": "LineString", "coordinates": [[10, 5], [12, 5]]}]}, [[5, 5], [11, 5]])):
            outer, inner = coverings(shape)
            self.assertEqual({leaf(*place) in outer for place in on}, {True}, shape)
            self.assertEqual(bool(inner), shape["type"] == "GeometryCollection")
        for kind in ("Point", "MultiPoint", "LineString", "Polygon", "MultiPolygon"):
            self.assertEqual(coverings({"type": kind, "coordinates": []}), (Union(), Union()))

    def test_margins_and_levels(self):
        square, degrees = polygon(SQUARE), 10_000 / 6_371_010 * 180 / math.pi
        outer, inner = coverings(square, 5000, margin=10_000)
        self.assertEqual([leaf(x, 5) in outer for x in (10 + 0.99 * degrees, 10 + 2.5 * degrees)], [True, False])
        self.assertEqual([leaf(x, 5) in inner for x in (10 - 0.99 * degrees, 10 - 2.5 * degrees)], [False, True])
        near = covering(square, within=5000)
        self.assertTrue(leaf(10, 10) in near and leaf(10 + degrees / 2, 5) not in near)
        self.assertLessEqual(covering(square, 8, min_level=7), covering(square, 8))
        self.assertNotIn(leaf(10 + 3 * degrees, 5), covering(square, 8, min_level=9))

    def test_edges_on_the_sphere(self):
        wide = polygon([[0, 40], [10, 40], [10, 49], [0, 49], [0, 40]])
        for edges, lies in (("map", False), ("geodesic", True)):
            self.assertEqual(leaf(5, 49.05) in interior(wide, 20000, edges=edges), lies)
        back = polygon(wide["coordinates"][0][::-1])
        self.assertEqual([leaf(5, 45) in covering(back, edges=edges) for edges in ("geodesic", "left")], [True, False])

    def test_circles(self):
        for x, y, radius in ((2.3522, 48.8566, 1000), (180, -16.5, 30), (0, 90, 500_000)):
            outer, inner = circle(x, y, radius, 500)
            degrees = radius / 6_371_010 * 180 / math.pi
            self.assertTrue(inner < outer and leaf(x, y) in inner)
            south = y - degrees
            self.assertEqual([leaf(x, south + part * degrees) in outer for part in (-0.1, 1e-7)], [False, True])
            self.assertEqual([leaf(x, south + part * degrees) in inner for part in (-1e-7, 0.1)], [False, True])

    def test_options_that_are_refused(self):
        for options, said in (({"edges": "flat"}, "edges are one of 'map', 'geodesic', 'left': 'flat'"),
                              ({"margin": -1}, "a margin is from 0 to 300000 meters: -1"),
                              ({"margin": math.nan}, "a margin is from 0 to 300000 meters: nan"),
                              ({"within": 0}, "a number of meters is more than 0: 0"),
                              ({"min_level": 9, "max_level": 8},
                               "min_level is out of range: 9 is more than max_level")):
            with self.assertRaisesRegex(ValueError, said):
                covering(polygon(SQUARE), **options)
        with self.assertRaisesRegex(ValueError, "a radius is from 0 to 20000000 meters: -1"):
            circle(0, 0, -1)
        with self.assertRaisesRegex(ValueError, "a latitude is from -90 to 90"):
            circle(0, 91, 1)
        with self.assertRaises(TypeError):
            covering(polygon(SQUARE), within="9")

    def test_wkb_that_is_refused(self):
        whole = wkb([SQUARE])
        for bytes, said in ((whole[:-1], "the bytes are no WKB"), (whole + b"0", "the bytes are no WKB"),
                            (b"\1\x08\0\0\0\0\0\0\0", "the WKB has a geometry that is no point"),
                            (wkb([SQUARE[:-1]]), "a ring is open"),
                            (wkb([[[0, 91]] * 4]), "a latitude from -90 to 90")):
            with self.assertRaisesRegex(ValueError, said):
                covering(bytes)
        with self.assertRaisesRegex(ValueError, "polygon 0, ring 0 is open"):
            covering(WithBytes(wkb([SQUARE[:-1]]), polygon(SQUARE[:-1])))

    def test_without_numpy(self):
        done = subprocess.run([sys.executable, "-c", "import sys; sys.modules['numpy'] = None\n"
                               "from s2union_geo import covering, circle, leaf\n"
                               f"print(leaf(5, 5) in covering({polygon(SQUARE)}), leaf(1, 2) in circle(1, 2, 3)[0])"],
                              capture_output=True, text=True, check=True)
        self.assertEqual(done.stdout, "True True\n")

    def test_rings_that_need_care(self):
        """One that comes to within a rounding of itself and doesn't touch; and one with corners north and south of the
        middle of a face."""
        near = 0.0016666666666666668  # more than a third of 0.005, but three times it is 0.005 in floating point
        self.assertTrue(covering(polygon([[0, 0], [3, 1], [3, 2], [0.005, near], [-1, 2], [0, 0]])))
        wide = polygon([[-60, -60], [0, -70], [60, -60], [60, 60], [0, 70], [-60, 60], [-60, -60]])
        self.assertIn(from_token("1"), interior(wide, 100, 3))

    def test_rings_that_touch_themselves(self):
        """At a corner, and at a place of an edge: what lies within is what a way to the north says."""
        for ring, within, without in (
                ([[0, 0], [5, 5], [0, 10], [10, 10], [5, 5], [10, 0], [0, 0]], [(5, 2), (5, 8)], [(2, 5), (8, 5)]),
                ([[0, 0], [10, 0], [10, 10], [5, 0], [0, 10], [0, 0]], [(1, 5), (9, 5)], [(5, 5), (5, -1)])):
            outer, inner = coverings(polygon(ring), 200)
            self.assertEqual([[leaf(*place) in it for place in (*within, *without)] for it in (outer, inner)],
                             [[True, True, False, False]] * 2)

    def test_rings_by_a_plain_walk(self):
        """Of rings over few places, which may cross, touch and repeat themselves: inside is what an odd number of edges
        to the north says."""
        random = Random(5)
        counts = [0, 0]
        for _ in range(300):
            side = random.randrange(2, 6)
            ring = [(random.randrange(side), random.randrange(side)) for _ in range(random.randrange(3, 9))]
            closed = numpy.array([*ring, ring[0]], float)
            outer, inner = coverings(polygon(closed.tolist()), 100)
            for _ in range(20):
                place = random.uniform(-0.5, side), random.uniform(-0.5, side)
                is_inside = lies_within([closed], *place)
                counts[is_inside] += 1
                self.assertTrue(leaf(*place) in outer if is_inside else leaf(*place) not in inner, (ring, place))
        self.assertGreater(min(counts), 300, counts)

    def test_many_polygons_by_a_plain_walk(self):
        """Of polygons, some of which go over the date line, and places near their corners, some of which have the
        longitude of one: the same."""
        random = Random(8)
        counts = [0, 0]
        for _ in range(300):
            x, y, size = random.choice([0, 179.9, -400, 530]), random.uniform(-80, 80), random.choice([1e-6, 0.5, 9])
            rings = [[(x + random.random() * size, y + random.random() * size) for _ in range(random.randrange(3, 9))]
                     for _ in range(random.choice([1, 1, 2]))]
            rings = [numpy.array([*ring, ring[0]]) for ring in rings]
            outer, inner = coverings(polygon(*(ring.tolist() for ring in rings)), 50)
            for _ in range(20):
                corner = random.choice(random.choice(rings).tolist())
                east, north = random.choice([0, 0, 1e-7, 0.01]), random.uniform(-0.3, 0.3) * size
                place = (corner[0] + east * size + 540) % 360 - 180, min(90, corner[1] + north)
                is_inside = lies_within(rings, *place)
                counts[is_inside] += 1
                self.assertTrue(leaf(*place) in outer if is_inside else leaf(*place) not in inner, (rings, place))
        self.assertGreater(min(counts), 300, counts)

    def test_polygons_may_overlap(self):
        other = [[x + 5, y] for x, y in SQUARE]
        found = interior({"type": "MultiPolygon", "coordinates": [[SQUARE], [SQUARE], [other]]}, 100000, 7)
        self.assertEqual(found, interior(polygon(SQUARE), 100000, 7) | interior(polygon(other), 100000, 7))

    def test_too_much(self):
        ring = numpy.stack([numpy.linspace(0, 300, 500001), numpy.zeros(500001)], axis=1).tolist()
        with self.assertRaisesRegex(ValueError, "more than 1000000 positions"):
            coverings({"type": "MultiPolygon", "coordinates": [[ring + ring[:1]], [ring + ring[:1]]]})
        comb = [[539 if k % 2 else -539, k / 100 - 60] for k in range(6000)]
        with self.assertRaisesRegex(ValueError, "polygon 0, ring 0: the edges are too long for so few positions"):
            covering(polygon([*comb, [-540, 60], [-540, -60], comb[0]]))
        flower = [place for k in range(9) for place in ([0, 0], [9, k], [9, k + 0.5])]
        self.assertTrue(covering(polygon([*flower, flower[0]]), 0))
        with tempfile.NamedTemporaryFile() as file:
            file.truncate(s2union_geo.MOST_BYTES + 1)
            with self.assertRaisesRegex(ValueError, "has more than 268435456 bytes"):
                read_geojson(file.name)


class Work(unittest.TestCase):
    def test_short_texts_near_a_pole(self):
        """Rings of few positions whose edges go around a pole."""
        turn = [[45, 90], [85, 89.9999985], [205, 89.9999985], [345, 89.9999985], [45, 90]]
        rings = [turn, *(around(4 * turns, south) for turns in (1, 4, 22) for south in (89, 89.9999, 90 - 1e-6))]
        for ring in rings:
            outer, inner = coverings(polygon(ring))
            self.assertTrue(inner <= outer and all(leaf(*place) in outer for place in ring), ring)

    def test_the_server_may_end_it(self):
        """Inside PL/Python a flag of the server makes long work tell the client something, which raises its error."""
        class Ended(Exception):
            pass

        server, flag = types.ModuleType("plpy"), ctypes.c_int(0)
        server.info = unittest.mock.Mock(side_effect=Ended)
        union = covering(polygon(SQUARE))
        with unittest.mock.patch.dict(sys.modules, {"plpy": server}), unittest.mock.patch.object(
                interrupts, "FLAGS_OF_SERVER", [flag]):
            self.assertEqual(covering(polygon(SQUARE)), union)
            flag.value = 1
            for work in lambda: covering(polygon(SQUARE)), lambda: to_geojson(union):
                self.assertRaises(Ended, work)
            self.assertEqual(interrupts._flags(), [])  # this process has no such flags


def around(count, south):
    """A ring of edges that go three times around the pole, to the east and back, and a little to the north."""
    edges = [[539 if k % 2 else -539, south + (90 - south) * k / count / 100] for k in range(count)]
    return [*edges, [-540, edges[-1][1]], [-540, south - (90 - south) / 100], edges[0]]


ENDLESS = {"type": "GeometryCollection", "geometries": []}  # and has itself a hundred times
ENDLESS["geometries"] += [ENDLESS] * 100
REFUSED = [
    (polygon(SQUARE[:-1]), "polygon 0, ring 0 is open: its last position is not its first"),
    (polygon(SQUARE[:2] + SQUARE[:1]), "polygon 0, ring 0 has fewer than four positions"),
    (polygon([[0, 0], [1, 91], [1, 0], [0, 0]]), r"ring 0: position 1 is out of range: a "
     r"latitude is from -90 to 90 \(the longitude comes first\): \[1.0, 91.0\]"),
    (polygon([[0, 0], [math.nan, 1], [1, 0], [0, 0]]), "ring 0: position 1 is out of range: a "
     "longitude is from -540 to 540"),
    (polygon([[0, 0], ["x", 1], [1, 0], [0, 0]]), "a position is a longitude and a latitude"),
    (polygon([[0, 0], [10**400, 1], [1, 0], [0, 0]]), "a position is a longitude and a"),
    ({"type": "Circle", "coordinates": [0, 0]}, "it is no shape: 'Circle'"),
    ({"type": "Point", "coordinates": [0]}, "line 0: a position is a longitude and a latitude"),
    ('{"type": "MultiPoint", "coordinates": [1, 2]}',
     "a list of coordinates, geometries or features is missing: byte 0"),
    ({"type": "LineString", "coordinates": [0, 1]}, "line 0: a position is a longitude and a latitude"),
    ({"type": "MultiLineString", "coordinates": [{"x": 1}]}, "line 0: a position is a longitude and a latitude"),
    ({"type": "MultiLineString", "coordinates": [{}]}, "line 0: a position is a longitude and a latitude"),
    ({"type": "MultiPoint", "coordinates": [""]}, "line 0: a position is a longitude and a latitude"),
    ({"type": "LineString", "coordinates": [[], [0, 1], [2, 3]]}, "line 0: a position is a longitude and a latitude"),
    ({"type": "LineString", "coordinates": [[0, 0], [0, 91]]}, "line 0: position 1 is out of range: a latitude"),
    (polygon(numpy.zeros((4, 1))), "a position is a longitude and a latitude"),
    ({"type": "Polygon"}, "a Polygon has a list of coordinates"), (7, "it is no shape: int"),
    ({"type": "Point", "coordinates": numpy.float64(3)}, "a Point has a list of coordinates"),
    ({"type": "MultiPolygon", "coordinates": [3]}, "polygon 0 has a list of rings"),
    ({"type": "MultiPolygon", "coordinates": [[], {}]}, "polygon 1 has a list of rings"),
    (polygon({}), "polygon 0, ring 0: a position is a longitude and a latitude"),
    (ENDLESS, "there are more than 4000000 parts"),
    ({"type": []}, 'it is no shape: a dict whose "type" is no text'), ({}, 'it is no shape: a dict without "type"'),
    ({"type": "polygon", "coordinates": []}, r"it is no shape: 'polygon'; did you mean 'Polygon'\?"),
    ("POLYGON ((0 0, 1 0, 1 1, 0 0))", "the text is no GeoJSON: WKT isn't taken, but shapely.wkt.loads makes a shape"),
    (" srid=4326;multipoint z (0 0 1)", "WKT isn't taken"), ("POLYGONS", "the text is not JSON"),
    (None, "it is no shape: NoneType"), ("{", "the text is not JSON"),
    ("[" * 100000, "the text is not JSON"),
    ({"type": "GeometryCollection", "geometries": ['{"type": "Point", "coordinates": [1, 2]}']}, "it is no shape: str"),
    ('{"type": "Feature", "geometry": "{\\"type\\": \\"MultiPoint\\", \\"coordinates\\": []}"}',
     "an object without a type"),
]


@pytest.mark.parametrize("shape,said", REFUSED, ids=[said for _, said in REFUSED])
def test_shapes_that_are_refused(shape, said):
    with pytest.raises(ValueError, match=said):
        coverings(shape)


@pytest.mark.parametrize("most,deepest,error", [(-1, 30, ValueError), (10**7, 30, ValueError), (9, 31, ValueError),
                                                (True, 3, TypeError), ("9", 3, TypeError)])
def test_limits_that_are_refused(most, deepest, error):
    with pytest.raises(error):
        covering(polygon(SQUARE), most, deepest)


def lies_within(rings, x, y):
    """Whether ways to the north from a place, on each turn of the map, cross rings an odd number of times."""
    edges = [sorted((start, end)) for ring in rings for start, end in itertools.pairwise(ring.tolist())]
    return sum(west <= x + turn < east and south + (x + turn - west) / (east - west) * (north - south) > y
               for turn in (-720, -360, 0, 360, 720) for (west, south), (east, north) in edges) % 2 == 1


def wkb(rings, order="<"):
    """A polygon as WKB."""
    lines = [struct.pack(f"{order}I", len(ring)) + struct.pack(f"{order}{2 * len(ring)}d", *sum(map(list, ring), []))
             for ring in rings]
    return bytes([order == "<"]) + struct.pack(f"{order}II", 3, len(rings)) + b"".join(lines)


class WithBytes:
    """What has WKB, as shapely's objects do."""

    def __init__(self, bytes, interface=None):
        self.wkb = bytes
        if interface:
            self.__geo_interface__ = interface


@pytest.mark.parametrize("token,count", [("04", 5), ("0000000000000001", 5), ("64", 5), ("5c", 6), ("b4", 6)])
def test_rings(token, count):
    """Closed, counterclockwise, not torn at the date line; at a pole there are two corners."""
    ring, = rings([from_token(token)])
    assert (len(ring), ring[0]) == (count, ring[-1])
    assert sum(x * to_y - to_x * y for (x, y), (to_x, to_y) in zip(ring, ring[1:])) >= 0
    assert max(abs(corner[0] - ring[0][0]) for corner in ring) <= 180


# What S2 says: GetAllNeighbors of a cell at a level; the same of GetEdgeNeighbors; and of GetVertexNeighbors.
AROUND = """
1 0 3,5,9,b b,3,5,9 -
1 1 24,3c,44,4c,8c,94,b4,bc b,3,5,9 -
b 2 01,03,1d,1f,21,27,29,2b,6b,6d,73,75,95,97,99,9f 7,3,1,9 -
14 1 04,0c,1c,24,3c,44,4c 1c,3c,44,0c 1,3,5
04 2 09,0f,11,1b,1d,8d,93,95,b7,b9,bf bc,1c,0c,94 1,9,b
3c 2 15,17,19,23,25,2f,31,37,41,43,5d 24,34,44,14 3,1,5
54 3 454,4d4,4dc,4e4,4fc,584,59c,5a4,5ac,62c,7d4,7dc,7e4,7fc,804,80c,874,87c,884 5c,7c,84,4c 5,7,9
5c 1 34,3c,44,4c,54,64,7c 34,64,54,44 5,7,3
84 2 4d,53,55,77,79,7f,89,8f,91,9b,9d 7c,9c,8c,54 9,5,7
89c25 8 89c21,89c23,89c27,89c29,89c2f,89c31,89c3b,89c3d 89c3b,89c23,89c27,89c2f 89c24,89c2c,89c3c,89c34
"""


class Around(unittest.TestCase):
    def test_cells_that_s2_has(self):
        for line in AROUND.strip().splitlines():
            cell, at, around, edges, corner = line.split()
            cell = from_token(cell)
            self.assertEqual(tokens(list(neighbors(cell, int(at)))), around.split(","))
            self.assertEqual(tokens(edge_neighbors(cell)), edges.split(","))
            if corner != "-":
                self.assertEqual(tokens(vertex_neighbors(cell, level(cell) - 1)), corner.split(","))

    def test_who_is_whose_neighbor(self):
        """Along and across faces, of each level: a neighbor's neighbors have the cell, and a ring of them is around."""
        random = Random(9)
        for turn in range(300):
            cell = parent(random.choice([leaf(random.choice((45, -135, 0)) + random.uniform(-1e-7, 1e-7), random.choice(
                (35.264389682754654, 0, -45))), from_face_ij(turn % 6, random.randrange(2**30), 0)]), turn % 31)
            around = neighbors(cell)
            self.assertIn(len(around), (7, 8) if turn % 31 else (4,))
            for other in around:
                self.assertIn(cell, neighbors(other))
                self.assertEqual(level(other), turn % 31)
            self.assertEqual(expanded(Union([cell]), turn % 31), around | Union([cell]))
            self.assertTrue(set(edge_neighbors(cell)) <= set(around))
            if turn % 31 < 25:
                deep = neighbors(cell, turn % 31 + 3)
                self.assertTrue(deep < around and not deep & Union([cell]) and len(deep) >= 4 * 8)

    def test_boxes(self):
        random = Random(4)
        for turn in range(200):
            cells = [from_token(f"{random.randrange(192):02x}1") for _ in range(1 + turn % 3)]
            west, south, east, north = bounds(Union(cells))
            for x, y in zip(*points(list(Union(cells).denormalised(6)))):
                self.assertTrue(south <= y <= north and (west <= x <= east if west <= east else x >= west or x <= east))
        for union, box in (("1", [-45, -45, 45, 45]), ("7", [135, -45, -135, 45]), ("b", [-180, -90, 180, -35.264390]),
                           ("1 3 7 9", [-180, -45, 180, 45]), ("3 7", [45, -45, -135, 45])):
            self.assertEqual([round(side, 6) for side in bounds(Union.from_tokens(union))], box)
        self.assertIsNone(bounds(Union()))
        self.assertEqual(expanded(Union(), 30), Union())
        self.assertEqual(expanded(Union.from_tokens("3 9"), 0), Union.from_tokens("1 3 5 7 9 b"))

    def test_what_is_refused(self):
        face, every = from_token("1"), CellUnion.from_tokens("1")
        for call, error in ((lambda: neighbors(2), "NotACellError: not a cell: 0x2"),
                            (lambda: neighbors(face, 18), "TooManyCellsError: too many cells: level 18"),
                            (lambda: neighbors(1, 29), "OutOfRangeError: argument out of range: level 29"),
                            (lambda: neighbors(face, 31), "OutOfRangeError: level is out of range: 31"),
                            (lambda: edge_neighbors(0), "NotACellError: not a cell: 0x0"),
                            (lambda: vertex_neighbors(face, 0), "OutOfRangeError: argument out of range: level 0"),
                            (lambda: vertex_neighbors(6, 0), "NotACellError: not a cell: 0x6"),
                            (lambda: expanded(every, -1), "OutOfRangeError: level is out of range: -1"),
                            (lambda: expanded(every, 30), "TooManyCellsError: too many cells: level 30"),
                            (lambda: neighbors("1"), "TypeError: a cell is an int, not str")):
            with self.assertRaises(Exception) as caught:
                call()
            self.assertTrue(f"{type(caught.exception).__name__}: {caught.exception}".startswith(error), error)


class Maps(unittest.TestCase):
    def test_there_and_back(self):
        """The polygons of a union's cells, read again, lie in it and are covered by it and its neighbors."""
        union = Union.from_tokens("47e7 47e1 64")
        made = to_geojson(union, name="three")
        self.assertEqual([feature["properties"] for feature in made["features"]],
                         [{"name": "three", "cell": token} for token in union.tokens()])
        for feature, cell in zip(made["features"], union):
            x, y = points([cell])
            self.assertIn(leaf(x[0], y[0]), interior(feature, 5000))

    def test_faces_are_cut(self):
        found = to_geojson(Union.from_tokens("1 5"))["features"]
        self.assertEqual([feature["properties"]["cell"] for feature in found], "04 0c 14 1c 44 4c 54 5c".split())

    def test_areas(self):
        """A face is a sixth of the sphere, and the area of a union is that of its parts."""
        sphere = 4 * math.pi * 6371.01**2
        self.assertAlmostEqual(area(Union.from_tokens("3")) * 6 / sphere, 1, places=13)
        random = Random(11)
        for _ in range(20):
            union = Union(parent(from_face_ij(random.randrange(6), *random.choices(range(2**30), k=2)), k)
                          for k in range(2, 30))
            self.assertAlmostEqual((area(union) + area(~union)) / sphere, 1, places=13)
        cell = from_token("47e66e1d9")  # small enough to be flat
        parts = [area(Union([part])) for part in Union([cell]).denormalised(20)]
        self.assertAlmostEqual(area(Union([cell])) / sum(parts), 1, places=12)

    def test_boundaries(self):
        """The sides of squares that have no square beside them, with the square on the left; and the boundary of the
        complement, which goes the other way."""
        random = Random(12)
        for turn in range(40):
            union = Union(parent(from_face_ij(4, *random.choices(range(2**28, 3 * 2**28), k=2)), random.randrange(3, 7))
                          for _ in range(random.randrange(1, 40)))
            if turn % 2:  # half of all squares, of which many touch in corners
                union = Union(parent(from_face_ij(4, 2**28 + SIDE * i, 2**28 + SIDE * j), 6)
                              for i in range(8) for j in range(8) if random.random() < 0.5)
            squares = {(i // SIDE, j // SIDE) for _, i, j, _ in map(square, union.denormalised(6))}
            wanted = {((i + a, j + b), (i + c, j + d)) for i, j in squares
                      for (x, y), a, b, c, d in (((0, -1), 0, 0, 1, 0), ((1, 0), 1, 0, 1, 1), ((0, 1), 1, 1, 0, 1),
                                                 ((-1, 0), 0, 1, 0, 0)) if (i + x, j + y) not in squares}
            found = sides(union)
            self.assertEqual({tuple((32 - z // (2 * SIDE), 32 + x // (2 * SIDE)) for x, _, z in side)
                              for side in found}, wanted)
            self.assertEqual({side[::-1] for side in sides(~union)}, found)
            lines = boundary(union)["coordinates"]
            self.assertTrue(all(line[0] == line[-1] and len(line) == 1 + len({*map(tuple, line)})
                                for line in lines))

    def test_boundaries_around_poles_and_the_whole_sphere(self):
        self.assertEqual(boundary(Union.from_tokens("1 3 5 7 9 b"))["coordinates"], [])
        line, = boundary(Union.from_tokens("5"))["coordinates"]
        self.assertEqual((line[-1][0] - line[0][0], line[-1][1] - line[0][1]), (360, 0))
        line, = boundary(Union.from_tokens("5c"))["coordinates"]
        ring, = rings([from_token("5c")])
        self.assertEqual({(round(x % 360, 9), round(y, 9)) for x, y in line},
                         {(round(x % 360, 9), round(y, 9)) for x, y in ring})

    def test_outlines(self):
        """Parts that hang together by their sides, the holes of each, and the middles of all squares."""
        random = Random(13)
        for turn in range(20):
            squares = {(i, j) for i in range(1, 9) for j in range(1, 9) if random.random() < turn / 20}
            place = random.choice([2**28, 2**29 - 4 * SIDE])  # or around the middle of a face
            cells = {(i, j): parent(from_face_ij(turn % 6, place + SIDE * i, place + SIDE * j), 6)
                     for i in range(10) for j in range(10)}
            union = Union(cells[it] for it in squares)
            polygons = outline(union)["coordinates"]
            if place == 2**28 or turn % 6 in (0, 1, 4):  # not cut by the date line
                self.assertEqual(sorted(map(len, polygons)),
                                 sorted(len(parts_of(set(cells) - part)) for part in parts_of(squares)))
            found = points(cells.values())
            for it, *middle in zip(cells, *found):
                self.assertEqual([sum(is_in(ring, *middle) for ring in polygon) % 2 for polygon in polygons].count(1),
                                 it in squares)
            for polygon in polygons:
                for k, ring in enumerate(polygon):
                    self.assertEqual((ring[0], len(ring)), (ring[-1], 1 + len({*map(tuple, ring)})))
                    twice = sum(x * b - a * y for (x, y), (a, b) in zip(ring, ring[1:]))
                    self.assertEqual(twice < 0, k > 0)

    def test_outlines_around_poles_and_the_whole_sphere(self):
        def ends(token):
            polygons = outline(Union.from_tokens(token))["coordinates"]
            positions = [position for polygon in polygons for ring in polygon for position in ring]
            return [[len(it) for it in polygons], *([pick(it) for it in zip(*positions)] for pick in (min, max))]

        self.assertEqual(ends("1 3 5 7 9 b"), [[1], [-180, -90], [180, 90]])
        (parts, (west, south), (east, north)) = ends("5")
        self.assertEqual((parts, west, east, north), ([1], -180, 180, 90))
        self.assertAlmostEqual(south, 35.2643896827546)
        self.assertEqual([ends(token)[0] for token in ("7", "1 9", "5c", "2c 5c")], [[1, 1], [1], [1], [1, 1]])
        self.assertEqual(outline(Union()), {"type": "MultiPolygon", "coordinates": []})
        self.assertEqual(to_geojson(Union.from_tokens("14 1c"), dissolve=True, name="x")["features"],
                         [{"type": "Feature", "properties": {"name": "x"},
                           "geometry": outline(Union.from_tokens("14 1c"))}])

    def test_lines_that_are_read_at_once(self):
        plain = ["1,2", "3 4", "-540,-90", "540 90", "+.5,5.", "1e-3 2E1", "0.1,0.30000000000000004", "-0 0"]
        self.assertEqual(plain_points("".join(f"{line}\n" for line in plain)).reshape(-1, 2).tolist(),
                         [[*map(float, line.replace(",", " ").split())] for line in plain])
        self.assertEqual(plain_points("1,2\n3,4").tolist(), [1, 2, 3, 4])
        for line in ("", "1", "1,2 3", "1,,2", "1, 2", " 1 2", "1,2,", "1e 2", "1-2 3", "541 0", "0 90.5", "1e400 0",
                     "1\t2", "nan 1", "1_0 2", "1,2 name", "+ 1", "1 ,2"):
            self.assertIsNone(plain_points(f"0,0\n{line}\n0,0\n"), line)

    def test_the_command_line(self):
        self.assertEqual(said("leaves", text="2.3522 48.8566 Paris\n\n0 90 North Pole\n").stdout,
                         "47e66e1d8f8be23b\n5000000000000001\n")
        with tempfile.TemporaryDirectory() as folder:
            file, other = Path(folder, "pond"), Path(folder, "lake")
            file.write_bytes(CellUnion.from_tokens("14 1c").to_bytes())
            other.write_bytes(CellUnion.from_tokens("04").to_bytes())
            both = [to_geojson(CellUnion.from_tokens(text), name=name)["features"]
                    for name, text in (("lake", "04"), ("pond", "14 1c"))]
            for words, wanted in ((("geojson", file), to_geojson(CellUnion.from_tokens("14 1c"), name="pond")),
                                  (("geojson", other, file), {"type": "FeatureCollection", "features": sum(both, [])}),
                                  (("geojson", "--dissolve", file), to_geojson(CellUnion.from_tokens("14 1c"),
                                                                               dissolve=True, name="pond"))):
                self.assertEqual(json.loads(said(*words).stdout), json.loads(json.dumps(wanted)))
        for nothing in ("", "\n \n"):
            done = said("leaves", text=nothing)
            self.assertEqual((done.returncode, done.stdout, done.stderr), (0, "", ""))
        for words, text, wanted in ((("leaves",), "2 3\n\n2,35 4\n", "line 3 has no longitude .*: '2,35 4'\n"),
                                    (("leaves",), "7\n", "s2union_geo: line 1 has no longitude and latitude at .*'7'"),
                                    (("leaves",), "1 91\n", r"s2union_geo: line 1: a latitude .*comes first\): 91.0\n"),
                                    (("leaves",), "1 1_0\n", "s2union_geo: line 1 has no longitude and .*'1 1_0'"),
                                    (("leaves",), "1 2\n" * 100_000 + "1,2\n3 91\n", "line 100002: a latitude is"),
                                    (("leaves",), "\nnan 1\n", "line 2: a longitude is from -540 to 540: nan\n"),
                                    (("geojson", "none"), "", "s2union_geo: .*'none'\n"), ((), "", "Points, polygons"),
                                    (("leaves", "more"), "", "Points, polygons")):
            done = said(*words, text=text)
            self.assertEqual((done.returncode, done.stdout), (1, ""))
            self.assertRegex(done.stderr, wanted)


def sides(union):
    """The steps of the boundary of a union, in parts as long as the side of a cell of level 6, on a cube whose faces
    are 2**30 from its middle."""
    found = set()
    for line in boundary(union)["coordinates"]:
        corners = [on_the_cube(*position) for position in line]
        for start, end in zip(corners, corners[1:]):
            count = max(abs(b - a) for a, b in zip(start, end)) // (2 * SIDE)
            stops = [tuple(a + (b - a) * k // count for a, b in zip(start, end)) for k in range(count + 1)]
            found |= set(zip(stops, stops[1:]))
    return found


def on_the_cube(longitude, latitude):
    """Where a corner of a cell of level 6 lies on a cube whose faces are 2**30 from its middle."""
    turn, height = math.radians(longitude), math.radians(latitude)
    point = math.cos(turn) * math.cos(height), math.sin(turn) * math.cos(height), math.sin(height)
    far = max(map(abs, point))
    return tuple(SIDE * round(math.copysign(64 * (math.sqrt(1 + 3 * abs(x / far)) - 1), x)) for x in point)


def parts_of(squares):
    """The parts of squares that hang together by their sides."""
    left, parts = set(squares), []
    while left:
        waiting = [left.pop()]
        parts.append(set(waiting))
        while waiting:
            i, j = waiting.pop()
            beside = {(i + 1, j), (i - 1, j), (i, j + 1), (i, j - 1)} & left
            left -= beside
            waiting += beside
            parts[-1] |= beside
    return parts


def is_in(ring, longitude, latitude):
    """Whether a ring goes around a place, by the sides that lie north of it."""
    return sum((x < longitude) != (a < longitude) and latitude < y + (b - y) * (longitude - x) / (a - x)
               for (x, y), (a, b) in zip(ring, ring[1:])) % 2 == 1


def said(*words, text="", **options):
    return subprocess.run([sys.executable, "-m", "s2union_geo", *words], input=text, text=True,
                          **{"stdout": subprocess.PIPE, "stderr": subprocess.PIPE, **options})


class Cover(unittest.TestCase):
    """`cover` of the command line, in a folder of its own."""

    def setUp(self):
        above = tempfile.TemporaryDirectory()
        self.addCleanup(above.cleanup)
        self.above, self.folder, self.file = (os.path.join(above.name, name) for name in ("", "cells", "some.geojson"))
        os.mkdir(self.folder)

    def words(self, features, folder=None, limits=("20", "12")):
        """The words that cover features: pairs of a file name and a ring, or what stands in their place."""
        features = [{"type": "Feature", "properties": {"file": it[0]}, "geometry": polygon(it[1])}
                    if isinstance(it, tuple) else it for it in features]
        with open(self.file, "w") as it:
            json.dump({"type": "FeatureCollection", "features": features}, it)
        return "cover", self.file, folder or self.folder, *limits

    def test_files(self):
        flat = {"type": "MultiPolygon", "coordinates": [3]}
        done = said(*self.words([("good", SQUARE), (7, SQUARE), ("open\n", SQUARE[:-1]), (True, SQUARE),
                                 {"type": "Feature", "properties": {"file": "flat"}, "geometry": flat}]))
        outer, inner = coverings(polygon(SQUARE), 20, 12)
        self.assertEqual((done.returncode, done.stderr), (0, ""))
        self.assertEqual(done.stdout, f"5 features, {3 * len(outer)} and {3 * len(inner)} cells; left: 2\n"
                         "'open\\n': polygon 0, ring 0 is open: its last position is not its first\n"
                         "'flat': polygon 0 has a list of rings\n")
        self.assertEqual(sorted(os.listdir(self.folder)), ["7.inner", "7.outer", "True.inner", "True.outer",
                                                           "good.inner", "good.outer"])
        with open(os.path.join(self.folder, "good.outer"), "rb") as it:
            self.assertEqual(Union.from_bytes(it.read()), outer)
        made = json.loads(said("geojson", os.path.join(self.folder, "good.outer")).stdout)
        self.assertEqual(made, to_geojson(outer, name="good.outer"))
        self.assertRegex(said(*self.words([("good", SQUARE)])).stdout, "^1 features, .*; left: none\n$")

    def test_nothing_is_written_if_a_name_is_wrong(self):
        """A name that is missing, that comes twice, that the system refuses, or that leads out of the folder."""
        os.mkdir(os.path.join(self.folder, "there.inner"))
        for names, wanted in ((["a", None], "feature 1 has no property 'file'"),
                              (["a", "b", "a"], "features 0 and 2 have the same name of files: 'a'"),
                              ([1, "1"], "features 0 and 1 have the same name of files: '1'"),
                              ([True, "True"], "features 0 and 1 have the same name of files: 'True'"),
                              (["true", True], "features 0 and 1 have the same name of files: 'True'"),
                              (["a", "A"], "features 0 and 1 have the same name of files: 'A'"),
                              (["\u00e9", "E\u0301"], "features 0 and 1 have the same name of files: 'E\u0301'"),
                              (["a", {"x": 1}], "feature 1: its property 'file' is a name, not a dict"),
                              (["a", ["x"]], "feature 1: its property 'file' is a name, not a list")):
            self.is_refused(wanted, [(name, SQUARE) for name in names])
        for name, why in (("b" * 300, "File name too long"), ("\0", "embedded null byte"), ("\ud800", "'utf-8' codec"),
                          ("there", "'there.inner' is there, and is no file"),
                          *((name, "it is no name of a file in this folder")
                            for name in ("", ".", "..", "../good", "more/good", "more/", f"{self.above}good"))):
            self.is_refused(f"feature 1: its files can't be called {name[:99]!r}: {why}",
                            [("a", SQUARE), (name, SQUARE)])
        for other in ({"type": "Feature", "properties": {}}, {"type": "Feature", "properties": None}, 7):
            self.is_refused("feature 1 has no property 'file'", [("a", SQUARE), other])
        self.is_refused(f"{self.file} is no folder", [("a", SQUARE)], folder=self.file)
        self.is_refused("max_level is out of range: 31", [("a", SQUARE)], limits=("20", "31"))
        self.is_refused("invalid literal for int", [("a", SQUARE)], limits=("x", "3"))

    def is_refused(self, wanted, features, **options):
        with contextlib.redirect_stdout(io.StringIO()) as out:
            error = main(self.words(features, **options))
            self.assertEqual((error[:len(f"s2union_geo: {wanted}")], out.getvalue()), (f"s2union_geo: {wanted}", ""))
            self.assertEqual((sorted(os.listdir(self.above)), os.listdir(self.folder)),
                             (["cells", "some.geojson"], ["there.inner"]))

    def test_no_collection(self):
        with open(self.file, "w") as it:
            json.dump({"type": "FeatureCollection", "features": None}, it)
        self.assertEqual(main(["cover", self.file, self.folder, "20", "12"]),
                         f"s2union_geo: {self.file} is no collection of features")

    def test_progress_on_a_terminal(self):
        ours, theirs = pty.openpty()
        with os.fdopen(ours, "rb", buffering=0) as terminal, os.fdopen(theirs, "wb", buffering=0) as ends:
            done = said(*self.words([("a", SQUARE), ("b", SQUARE)]), stderr=ends)
            ends.write(b".")  # that is the end
            shown = b"".join(iter(lambda: terminal.read(1), b"."))
        self.assertEqual((done.returncode, shown), (0, b"\r0 of 2 features\r1 of 2 features\r\x1b[K"))
        self.assertRegex(done.stdout, "^2 features, .*; left: none\n$")


Examples = docstrings.tests_of(s2union_geo, coverer, geojson, outlines, places, reading, sphere)
