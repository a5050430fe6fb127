"""The index of s2union_geo beside a plain loop over all edges of all polygons, its file, and what is refused; `join`
and `index` of the command line."""

import concurrent.futures
import contextlib
import copy
import csv
import io
import itertools
import json
import os
import pickle
import pty
import random
import re
import stat
import struct
import subprocess
import sys
import tempfile
import unittest
import unittest.mock

import numpy
import pytest
import s2union_geo
import shapely.geometry
import shapely.ops
from s2union import CellUnion
from s2union_geo import Index, boxes, covering, coverings, index, tables
from s2union_geo.__main__ import COMMANDS, main

import docstrings
from model import borders
from model.pairs import exact_pairs, parts_of
from model.zones import box, plain_pairs, polygon, some_points, some_zones


def pairs(found):
    return list(zip(*(it.tolist() for it in found)))


class Joins(unittest.TestCase):
    def test_pairs_beside_a_plain_loop(self):
        """All pairs, exactly, by coverings of few and of many cells, and one by one; by coverings alone none is
        missing, and with more cells fewer are too many."""
        chance = random.Random(105)
        zones = some_zones(chance)
        x, y = some_points(chance, 2000)
        wanted = plain_pairs(zones, x, y)
        self.assertGreater(len(wanted), 1500)
        too_many = []
        for most in (0, 8, 50, 200):
            made = Index(zones, max_cells=most)
            self.assertEqual(pairs(made.join(x, y)), sorted(wanted))
            covered = set(pairs(made.join(x, y, exact=False)))
            self.assertTrue(wanted <= covered)
            too_many.append(len(covered - wanted))
        self.assertEqual(too_many, sorted(too_many, reverse=True))
        self.assertLess(too_many[-1], len(wanted) / 5)
        for point in range(0, len(x), 17):
            self.assertEqual([(point, zone) for zone in made.find(x[point], y[point])],
                             sorted(pair for pair in wanted if pair[0] == point))
            self.assertLessEqual(set(made.find(x[point], y[point])), set(made.find(x[point], y[point], exact=False)))

    def test_places_along_borders(self):
        """By each predicate, beside whole numbers: places inside, on the border and outside of triangles."""
        for corners in borders.triangles():
            made = Index([polygon(borders.ring_of(corners))])
            x, y, lies = map(numpy.array, borders.places_of(corners, 10))
            for predicate, least in (("within", 1), ("intersects", 0)):
                found, _ = made.join(x, y, predicate=predicate)
                self.assertEqual(found.tolist(), numpy.flatnonzero(lies >= least).tolist(), (corners, predicate))
                self.assertEqual([len(made.find(*place, predicate=predicate)) for place in zip(x[:60], y[:60])],
                                 (lies[:60] >= least).tolist())
        around = Index([polygon(box(175, -10, 185, 10))])
        for at in ([-175, 10], [185, 10], [-185, -10], [535, 0]):
            self.assertEqual((around.find(*at), around.find(*at, predicate="intersects")), ([], [0]))
        for work in (around.find, around.join):
            self.assertRaisesRegex(ValueError, "^a predicate is 'within' or 'intersects', not 'covers'$", work, 1, 1,
                                   predicate="covers")

    def test_zones_wider_than_the_map(self):
        """What a polygon has on an even number of turns is outside; each polygon counts by itself."""
        chance = random.Random(360)
        x = numpy.array([chance.uniform(-180, 180) for _ in range(1500)])
        y = numpy.array([chance.uniform(-11, 11) for _ in range(1500)])
        for ends in ([(-200, 200)], [(-270, 300)], [(-500, 100)], [(-540, 540)], [(-200, -170), (160, 220)]):
            shape = {"type": "MultiPolygon", "coordinates": [[box(west, -10, east, 10)] for west, east in ends]}
            wanted = numpy.zeros(len(x), bool)
            for west, east in ends:
                wanted |= sum((west < x + 360 * turn) & (x + 360 * turn < east) for turn in (-1, 0, 1)) % 2 == 1
            wanted &= abs(y) < 10
            for most in (0, 8, 200):
                made = Index([shape], max_cells=most)
                for predicate in ("within", "intersects"):
                    self.assertEqual(made.join(x, y, predicate=predicate)[0].tolist(),
                                     numpy.flatnonzero(wanted).tolist(), (ends, most))
        made = Index([polygon(box(-200, -10, 200, 10))])
        self.assertEqual([len(made.join([160, -160], [5, 10], predicate=it)[0]) for it in index.PREDICATES], [0, 2])

    def test_a_zone_a_hundred_times(self):
        """All have the same cells, and a point in one is in each."""
        made = Index([polygon(box(0, 0, 1, 1))] * 100, max_cells=8)
        self.assertEqual(pairs(made.join([0.5, 2.0, 0.25], [0.5, 0.5, 0.999])),
                         [(point, zone) for point in (0, 2) for zone in range(100)])

    def test_nothing(self):
        for made in (Index([]), Index([None]), Index({"type": "FeatureCollection", "features": []})):
            self.assertEqual((made.find(1, 2), pairs(made.join([1], [2]))), ([], []))
        made = Index([polygon(box(0, 0, 1, 1))])
        self.assertEqual([(it.dtype, it.shape) for it in made.join([], [])], [("int64", (0,))] * 2)

    def test_names(self):
        features = [{"type": "Feature", "properties": {"id": name}, "geometry": polygon(box(0, 0, 1, 1))}
                    for name in ("a", 7, None)]
        collection = {"type": "FeatureCollection", "features": features}
        for given in (collection, json.dumps(collection), json.dumps(collection).encode(), features, iter(features)):
            self.assertEqual(Index(given, "id").find(0.5, 0.5), ["a", 7, None])
        self.assertEqual(Index(collection).names, [0, 1, 2])
        self.assertEqual((len(Index(collection)), repr(Index([None]))), (3, "<Index of 1 zones>"))
        square = box(0, 0, 1, 1)
        for shapes, names, wanted in ((features, ["a"], "3 shapes and 1 names"),
                                      (collection, "name", "feature 0 has no"),
                                      (polygon(square), None, "a list takes others"),
                                      (["x"], ["bad"], "zone 'bad': "), ([polygon(square[1:])], None, "zone 0: p")):
            with self.assertRaisesRegex(ValueError, wanted):
                Index(shapes, names)

    def test_zones_in_wkb(self):
        """As objects of shapely, whose corners may have heights, and as bytes in either order, which may have the
        system of coordinates in degrees."""
        from shapely import geos
        chance = random.Random(7)
        zones = [zone for zone in some_zones(chance) if zone["type"] == "Polygon"]
        x, y = some_points(chance, 300)
        wanted = sorted(plain_pairs(zones, x, y))
        self.assertGreater(len(wanted), 100)
        shapes = [shapely.geometry.shape(zone) for zone in zones]
        in_degrees = [geos.WKBWriter(geos.lgeos, include_srid=True, big_endian=True).write(shape) for shape in shapes]
        high = [shapely.ops.transform(lambda x, y: (x, y, y), shape) for shape in shapes]
        for given in (shapes, high, [shape.wkb for shape in high], in_degrees):
            self.assertEqual(pairs(Index(given).join(x, y)), wanted)
        with self.assertRaisesRegex(ValueError, "^zone 0: the bytes are no WKB$"):
            Index([shapes[0].wkb[:-1]])
        with self.assertRaisesRegex(ValueError, "^zone 0: polygon 0, ring 0: position 2 is out of range: "):
            Index([shapely.geometry.Polygon([(0, 89), (1, 89), (1, 91)])])

    def test_zones_that_are_left(self):
        made = Index([polygon(box(0, 0, 1, 1)), polygon(box(0, 0, 9, 9)[1:]), polygon(box(0, 0, 2, 2))], leave=True)
        self.assertEqual(made.find(0.5, 0.5), [0, 2])
        self.assertEqual(made.left, [(1, "polygon 0, ring 0 is open: its last position is not its first")])

    def test_points_that_are_refused(self):
        made = Index([polygon(box(0, 0, 1, 1))])
        for x, y, error in (([0], [91], ValueError), ([numpy.nan], [0], ValueError), ([1, 2], [1], ValueError),
                            (["1"], [0], TypeError)):
            self.assertRaises(error, made.join, x, y)
        for place, error in (((0, 91), ValueError), ((numpy.nan, 0), ValueError), (("1", 0), TypeError)):
            self.assertRaises(error, made.find, *place)

    def test_without_shapely(self):
        """Zones of GeoJSON need nothing else; those in WKB are an error in words."""
        zone = polygon(box(0, 0, 1, 1))
        with unittest.mock.patch.dict(sys.modules, {"shapely": None}):
            made = Index([zone])
            self.assertEqual((made.find(0.9999999, 0.5), made.find(1.0000001, 0.5, exact=False)), ([0], [0]))
            self.assertEqual(pairs(made.join([0.5, 1.5], [0.5, 0.5])), [(0, 0)])
            self.assertRaisesRegex(ModuleNotFoundError, "^zones in WKB need shapely", Index,
                                   [shapely.geometry.shape(zone).wkb])

    def test_copies_and_threads(self):
        """A copy, from a pickle too, has the same answers, and so have threads that ask at once."""
        chance = random.Random(12)
        zones = some_zones(chance)
        x, y = some_points(chance, 400)
        made = Index(zones)
        wanted = pairs(Index(zones).join(x, y))
        for other in (pickle.loads(pickle.dumps(made)), copy.copy(made), copy.deepcopy(made)):
            self.assertEqual(pairs(other.join(x, y)), wanted)
        with concurrent.futures.ThreadPoolExecutor(8) as threads:
            self.assertEqual([pairs(it) for it in threads.map(lambda _: made.join(x, y), range(16))], [wanted] * 16)
        self.assertEqual(pairs(pickle.loads(pickle.dumps(made)).join(x, y)), wanted)

    def test_points_by_parts(self):
        chance = random.Random(13)
        zones = some_zones(chance)
        x, y = some_points(chance, 300)
        wanted = pairs(Index(zones).join(x, y))
        for many in (1, 7, len(x), len(x) + 1):
            with unittest.mock.patch.object(index, "AT_ONCE", many):
                self.assertEqual(pairs(Index(zones).join(x, y)), wanted)


class Hostile(unittest.TestCase):
    """Zones that cross themselves, overlap, touch, have no area, or lie around the map more than once."""

    ZONES = [polygon(box(*it)) for it in (
        (-540, -90, 540, 90), (-200, -10, 200, 10), (170, 60, 260, 90), (-10, -90, 80, -89.9999999), (0, 80, 359.9, 90),
        (-540, 3, -530, 4), (530, -4, 540, -3), (359.9999, 0, 360, 1), (5, 5, 5, 5), (-95, 0, 0, 2),
        (-180, -90, 180, -60))]
    ZONES += [polygon(*rings) for rings in (
        [[[0, 0], [10, 10], [10, 0], [0, 10], [0, 0]]],  # a bow
        [[[0, 0], [7, 7], [3, 3], [0, 0]]], [[[3, 0], [3, 5], [3, 9], [3, 0]]],  # no area
        [[[0, 0], [10, 0], [10, 0], [10, 10], [5, 10], [5, 15], [5, 10], [0, 10], [0, 0]]],  # a spike, a position twice
        [box(-5, -5, 15, 15), box(0, 0, 5, 5), box(5, 5, 9, 9)], [box(-5, -5, 5, 5), box(-5, -5, 0, 0)],  # holes touch
        [[[0, 0], [1, 3], [2, 0], [3, 3], [4, 0], [5, 3], [6, 0], [6, 4], [0, 4], [0, 0]]],
        [[[1 / 3, 0.1], [10.1, 1 / 7], [9.7, 10 / 3], [0.3, 9.9], [1 / 3, 0.1]]], [])]
    ZONES += [{"type": "MultiPolygon", "coordinates": [[ring] for ring in rings]} for rings in (
        [box(0, 0, 6, 6), box(4, 4, 9, 9)], [box(0, 0, 5, 5), box(5, 0, 9, 5)], [box(0, 0, 3, 3), box(3, 3, 6, 6)],
        [box(-300, -7, 100, 7), box(60, -9, 70, 9)])]
    ZONES += [None, {"type": "GeometryCollection", "geometries": []},
              {"type": "GeometryCollection", "geometries": [{"type": "Point", "coordinates": [50, 50]},
                                                            polygon(box(0, 0, 1, 1))]}]

    def places(self, chance):
        """Corners, places on edges, between corners, at the ends of the map, and a turn away."""
        x, y = some_points(chance, 40)
        x, y = x.tolist(), y.tolist()
        rings = [ring for zone in self.ZONES for rings in parts_of(zone) for ring in rings]
        for ring in rings:
            for (a, b), (c, d) in zip(ring, ring[1:]):
                part = chance.choice((0.5, 0.25, chance.random()))
                x += [a, (a + c) / 2, a + part * (c - a), chance.uniform(-1, 11), c]
                y += [b, (b + d) / 2, b + part * (d - b), b, chance.uniform(-1, 11)]
        x += [at + 360 if at < 180 else at - 360 for at in x[::3]]
        y += y[::3]
        ends = [*itertools.product((-540, -360, -180, -0.0, 5, 179.9999999, 180, 360, 360.0000001, 535, 540),
                                   (-90, -89.99999, 0, 3.5, 60, 89.9999999, 90))]
        return [*x, *(at for at, _ in ends)], [*y, *(at for _, at in ends)]

    def test_beside_fractions(self):
        """All pairs by each predicate, together, one by one, and of a file; by coverings alone none is missing."""
        x, y = self.places(random.Random(57))
        made = Index(self.ZONES, max_cells=8)
        with tempfile.TemporaryDirectory() as folder:
            made.save(f"{folder}/zones")
            loaded = Index.load(f"{folder}/zones")
        self.assertEqual(pairs(made.join(x, y, exact=False)), pairs(loaded.join(x, y, exact=False)))
        covered = set(pairs(made.join(x, y, exact=False)))
        for borders, predicate in enumerate(index.PREDICATES):
            wanted = exact_pairs(self.ZONES, x, y, borders == 1)
            self.assertGreater(len(wanted), 2500)
            self.assertEqual(pairs(made.join(x, y, predicate=predicate)), wanted)
            self.assertEqual(pairs(loaded.join(x, y, predicate=predicate)), wanted)
            self.assertLessEqual(set(wanted), covered)
            for point in range(0, len(x), 11):
                self.assertEqual(made.find(x[point], y[point], predicate=predicate),
                                 [zone for at, zone in wanted if at == point])
                self.assertEqual(made.find(x[point], y[point], exact=False),
                                 [zone for at, zone in sorted(covered) if at == point])

    def test_few_numbers(self):
        """Rings of few whole numbers, which touch and cross themselves and each other, beside fractions."""
        chance = random.Random(58)
        for _ in range(60):
            zones = []
            for _ in range(chance.randrange(1, 6)):
                rings = [[[chance.randrange(-2, 3) * 60, chance.randrange(-2, 3)]
                          for _ in range(chance.randrange(3, 9))] for _ in range(chance.randrange(1, 4))]
                rings = [[*ring, ring[0]] for ring in rings]
                zones.append(polygon(*rings) if chance.random() < 0.5 else
                             {"type": "MultiPolygon", "coordinates": [[ring] for ring in rings]})
            x, y = zip(*itertools.product([k * 30 for k in range(-7, 8)], [k / 2 for k in range(-5, 6)]))
            made = Index(zones)
            for borders, predicate in enumerate(index.PREDICATES):
                self.assertEqual(pairs(made.join(x, y, predicate=predicate)), exact_pairs(zones, x, y, borders == 1),
                                 zones)

    def test_coverings_by_need(self):
        """No join of polygons makes a covering; coverings alone need each, once."""
        zones = [polygon(box(x, y, x + 10, y + 10)) for x in range(-180, 180, 10) for y in range(-90, 90, 10)]
        made = Index(zones)
        with unittest.mock.patch.object(index, "covering", wraps=index.covering) as asked:
            made.join([5, 6, -535], [5, 6, 55])
            made.find(5, 5)
            self.assertEqual(asked.call_count, 0)
            for _ in range(2):
                made.join([5], [5], exact=False)
            self.assertEqual(asked.call_count, 648)

    def test_boxes_of_polygons(self):
        """Beside shapely's bounds, with holes, several parts and heights."""
        zones = [shapely.geometry.shape(zone) for zone in some_zones(random.Random(3)) if zone["type"] != "Feature"]
        for zone in zones:
            high = shapely.ops.transform(lambda x, y: (x, y, [-700] * len(x)), zone)
            for shape in (zone, high):
                self.assertEqual(boxes.box_of(shape.wkb), zone.bounds)
        self.assertEqual(boxes.box_of(shapely.geometry.MultiPolygon().wkb), (0, 0, 0, 0))

    def test_the_same_errors(self):
        """A shape that `covering` refuses is an error with the same message when the index is made; or it is left."""
        good, long = polygon(box(0, 0, 1, 1)), [[500 * (k % 2), k % 3] for k in range(3000)]
        bad = [polygon(box(0, 0, 1, 1)[1:]), polygon(box(0, 0, 1, 1)[2:]), polygon(box(0, 0, 541, 1)), 7, "{", b"\1",
               polygon(box(0, 0, 1, 91)), polygon(box(0, 0, 1, float("nan"))), polygon([[0, 0], [1], [1, 1], [0, 0]]),
               polygon(long + long[:1]), {"type": "polygon"}, {"type": "Polygon"}, {"type": "LineString"},
               shapely.geometry.Polygon(box(0, 0, 541, 1)), polygon(box(0, 0, 1, 1), [])]
        for shape in bad:
            with self.assertRaises(ValueError) as wanted:
                index._asked(covering, index._read(shape))
            with self.assertRaises(ValueError) as caught:
                Index([good, shape, 8])
            self.assertEqual(str(caught.exception), f"zone 1: {wanted.exception}")
            self.assertEqual(Index([good, shape, good], leave=True).left, [(1, str(wanted.exception))])
        for most in (-1, 1_000_001, "8"):
            self.assertRaises((ValueError, TypeError), Index, [], max_cells=most)

    def test_degrees_of_few_bits(self):
        """Those of arrays in float32 and float16 are taken a turn away without being rounded again."""
        made = Index([polygon(box(355, 0, 359.99999, 1))])
        for kind in ("float16", "float32", "float64"):
            x = numpy.array([-0.000008, -0.000012, -3], kind)
            self.assertEqual(made.join(x, x * 0 + 0.5)[0].tolist(), [1, 2], kind)


class Files(unittest.TestCase):
    def setUp(self):
        folder = tempfile.TemporaryDirectory()
        self.addCleanup(folder.cleanup)
        self.path = os.path.join(folder.name, "zones")

    def test_saved_and_loaded(self):
        chance = random.Random(5)
        zones = some_zones(chance)
        x, y = some_points(chance, 500)
        for names in (None, [f"zone {k}\n" for k in range(len(zones))], list(numpy.arange(len(zones)) / 2)):
            made = Index(zones, names)
            made.save(self.path)
            found = Index.load(self.path)
            self.assertEqual((found.names, pairs(found.join(x, y)), os.listdir(os.path.dirname(self.path))),
                             (made.names, pairs(made.join(x, y)), ["zones"]))
        with numpy.load(self.path) as arrays:
            cells = numpy.repeat(arrays["cell"], numpy.diff(arrays["begin"]))
            for zone, shape in enumerate(zones):
                inner, outer = (cells[(arrays["zone"] == zone) & (arrays["sure"] == it)] for it in (True, False))
                wanted = coverings(shape, 50)
                self.assertEqual((CellUnion(inner), CellUnion(inner) | CellUnion(outer)), (wanted[1], wanted[0]))
        self.assertRaises(TypeError, Index([None], [object()]).save, self.path)
        with unittest.mock.patch.object(numpy, "savez", side_effect=OSError):  # no space is left
            self.assertRaises(OSError, made.save, self.path)
        self.assertEqual((Index.load(self.path).names, os.listdir(os.path.dirname(self.path))),
                         (found.names, ["zones"]))  # the file is as it was, and no part of another is beside it

    def test_saved_twice_at_once(self):
        """A save that begins while another one writes the same file takes nothing of it away: the last to end stays."""
        first, other = (Index([polygon(box(0, 0, 1, 1))], [name]) for name in ("first", "other"))

        def writes(*args, **arrays):
            with unittest.mock.patch.object(numpy, "savez", write):
                other.save(self.path)
            write(*args, **arrays)

        write = numpy.savez
        with unittest.mock.patch.object(numpy, "savez", writes):
            first.save(self.path)
        self.assertEqual((Index.load(self.path).names, os.listdir(os.path.dirname(self.path))), (["first"], ["zones"]))

    def test_damaged(self):
        """Cut anywhere, or with one byte changed, it is no index, or it is one, and a join ends well."""
        Index([polygon(box(0, 0, 1, 1)), polygon(box(0.5, 0.5, 2, 2))], ["a", "b"], max_cells=4).save(self.path)
        with open(self.path, "rb") as it:
            whole = it.read()
        chance = random.Random(8)
        refused = 0
        for turn in range(200):
            damaged = bytearray(whole[:chance.randrange(len(whole))] if turn % 4 == 0 else whole)
            if turn % 4 and damaged:
                damaged[chance.randrange(len(damaged))] = chance.randrange(256)
            with open(self.path, "wb") as it:
                it.write(damaged)
            try:
                Index.load(self.path).join([0.7, 1.0, 3.0], [0.7, 0.99, 3.0])
            except ValueError as error:
                self.assertRegex(str(error), "is no index: ")
                refused += 1
        self.assertGreater(refused, 100)

    def test_what_does_not_fit(self):
        """Arrays of an index, one of them wrong."""
        Index([polygon(box(0, 0, 1, 1)), polygon(box(0.5, 0.5, 2, 2))], max_cells=4).save(self.path)
        arrays = dict(numpy.load(self.path))

        def changed(name, change):
            other = {**arrays, name: change(arrays[name].copy())}
            with open(self.path, "wb") as it:
                numpy.savez(it, **other)
            with self.assertRaisesRegex(ValueError, "is no index: "):
                Index.load(self.path)

        for name, array in arrays.items():
            changed(name, lambda it: it[:-1])
            changed(name, lambda it: it.astype(object if name == "sure" else "float32" if name != "spans" else "int8"))
            changed(name, lambda it: it.reshape(1, -1))
        changed("cell", lambda it: it[::-1].copy())
        changed("cell", lambda it: it * 0)
        changed("begin", lambda it: it[::-1].copy())
        changed("zone", lambda it: it + 1)
        changed("zone", lambda it: it - 1)
        changed("ends", lambda it: it[::-1].copy())
        changed("spans", lambda it: it * numpy.nan)
        changed("spans", lambda it: it + 541)
        changed("names", lambda it: numpy.frombuffer(b"[]", "uint8"))
        changed("names", lambda it: numpy.frombuffer(b'["other", 0, 1]', "uint8"))
        with open(self.path, "wb") as it:
            numpy.savez_compressed(it, **arrays)
        with self.assertRaisesRegex(ValueError, "compressed"):
            Index.load(self.path)
        self.assertRaises(OSError, Index.load, self.path + "none")

    def test_a_strangers_shapes(self):
        """What `Index` refuses of a shape, or its own files don't have, is refused before anything reads it further."""
        def with_shape(shape):
            Index([polygon(box(0, 0, 1, 1)), polygon(box(2, 2, 3, 3))], ["a", "b"]).save(self.path)
            arrays = dict(numpy.load(self.path))
            begin = arrays["ends"][0]
            arrays["shape"] = numpy.concatenate([arrays["shape"][:begin], numpy.frombuffer(shape, "uint8")])
            arrays["ends"][1] = begin + len(shape)
            with open(self.path, "wb") as it:
                numpy.savez(it, **arrays)

        nested = struct.pack("<BII", 1, 7, 1)
        point = struct.pack("<BIdd", 1, 1, 2.5, 2.5)
        ring = struct.pack("<BIII8d", 1, 3, 1, 4, 0, 0, 1, 0, 1, 1, 0, 0)
        numbers = numpy.frombuffer(ring[13:], "<f8")
        no_polygon = "it has no polygons as `save` writes them"
        for shape, reason in (
                (nested * 50_000 + point, no_polygon), (nested + ring, no_polygon), (point, no_polygon),
                (b"", no_polygon), (b"\0" + struct.pack(">II", 6, 0), no_polygon), (ring[:4], no_polygon),
                (struct.pack("<BIII", 1, 3 | 1 << 29, 4326, 0), no_polygon),
                (struct.pack("<BII", 1, 1003, 0), no_polygon),
                (struct.pack("<BII", 1, 6, 1) + nested * 50_000 + point, "the bytes are no WKB"),
                (ring[:-1], "the bytes are no WKB"), (ring + b"x", "the bytes are no WKB"),
                (ring[:13] + (numbers[:-2]).tobytes() + struct.pack("<dd", 0, 1), "a ring is open"),
                (ring[:13] + (numbers * 541).tobytes(), "a longitude is from -540 to 540"),
                (ring[:13] + (numbers * numpy.nan).tobytes(), "a longitude is from -540 to 540")):
            with_shape(shape)
            with self.assertRaises(ValueError) as found:
                Index.load(self.path)
            self.assertRegex(str(found.exception), f"^{re.escape(self.path)} is no index: zone 'b': {reason}")
            status, out, error = said("join", "-", self.path, text=b"2.5,2.5\n")
            self.assertEqual((status, out, error), (1, "", f"s2union_geo: {found.exception}\n"))
        with_shape(ring)
        self.assertEqual(Index.load(self.path).find(0.5, 0.5), ["a"])

    def test_what_is_no_regular_file(self):
        """A link stays, and the file that it leads to is replaced; a pipe or a device gets the bytes."""
        made, folder = Index([polygon(box(0, 0, 1, 1))], ["a"]), os.path.dirname(self.path)
        os.mkdir(os.path.join(folder, "there"))
        for target in "there/zones", "there/zones", os.path.join(folder, "there", "others"):  # the second is there
            with contextlib.suppress(FileNotFoundError):
                os.remove(self.path)
            os.symlink(target, self.path)
            made.save(self.path)
            self.assertEqual((os.readlink(self.path), Index.load(self.path).names), (target, ["a"]))
        self.assertEqual(sorted(os.listdir(os.path.join(folder, "there"))), ["others", "zones"])
        os.remove(self.path)
        os.mkfifo(self.path)
        with open(self.path, "r+b", 0) as pipe:
            made.save(self.path)
            wanted = os.read(pipe.fileno(), 65536)
        self.assertTrue(stat.S_ISFIFO(os.stat(self.path).st_mode))
        self.assertRaisesRegex(IsADirectoryError, "there", made.save, os.path.join(folder, "there"))
        self.assertEqual(sorted(os.listdir(folder)), ["there", "zones"])
        os.remove(self.path)
        with open(self.path, "wb") as it:
            it.write(wanted)
        self.assertEqual(Index.load(self.path).names, ["a"])
        zones, number = zones_file(folder), os.stat("/dev/null").st_rdev
        for path, reason in ("/dev/null", None), ("/dev/full", "No space left on device"):
            if reason is None:
                made.save(path)
            else:
                self.assertRaisesRegex(OSError, reason, made.save, path)
        self.assertEqual(os.stat("/dev/null").st_rdev, number)
        done = subprocess.run([sys.executable, "-m", "s2union_geo", "index", zones, "/dev/stdout"], capture_output=True,
                              check=False)
        self.assertEqual((done.returncode, done.stdout[:2], done.stdout[-8:]), (0, b"PK", b"2 zones\n"))

    def test_objects_of_python_are_not_made(self):
        """What a file says to call is not called."""
        made = self.path + ".made"

        class Call:
            def __reduce__(self):
                return os.mkdir, (made,)

        Index([polygon(box(0, 0, 1, 1))]).save(self.path)
        arrays = {**numpy.load(self.path), "sure": numpy.array([Call()], object)}
        with open(self.path, "wb") as it:
            numpy.savez(it, **arrays)
        self.assertRaisesRegex(ValueError, "is no index: ", Index.load, self.path)
        self.assertFalse(os.path.exists(made))


def zones_file(folder, by_line=False):
    features = [{"type": "Feature", "properties": {"zone_id": name, "area": k}, "geometry": polygon(box(*corners))}
                for k, (name, corners) in enumerate((("a", (0, 0, 10, 10)), ("b", (5, 5, 15, 15))))]
    path = os.path.join(folder, "zones")
    with open(path, "w") as it:
        if by_line:
            it.writelines(f"\x1e{json.dumps(feature)}\n" for feature in features)
        else:
            json.dump({"type": "FeatureCollection", "features": features}, it, indent=1)
    return path


@pytest.fixture
def zones(tmp_path):
    return zones_file(tmp_path)


def said(*words, text=b""):
    done = subprocess.run([sys.executable, "-m", "s2union_geo", *words], input=text, stdout=subprocess.PIPE,
                          stderr=subprocess.PIPE)
    return done.returncode, done.stdout.decode("utf-8", "surrogateescape"), done.stderr.decode()


ROWS = [("1", 2, 3, "a"), ("2", 6, 6, "a"), ("2", 6, 6, "b"), ("7", 9.99999, 9, "a"), ("7", 9.99999, 9, "b")]
TABLES = [
    ("id,lon,lat\n1,2,3\n2,6,6\n3,20,20\n7,9.99999,9\n", []),
    ("\ufeffID;Latitude;Longitude\r\n1;3;2\r\n2;6;6\r\n3;20;20\r\n7;9;9,99999\r\n", []),
    ("id\tx\ty\n1\t2\t3\n2\t6\t6\n3\t20\t20\n7\t9.99999\t9\n", []),
    ("id|here|there\n1|3|2\n2|6|6\n3|20|20\n7|9|9.99999\n", ["--longitude", "there", "--latitude", "here"]),
    ("1 2 3\n2 6 6\n\n3 20 20\n7  9.99999   9\n", ["--longitude", "2", "--latitude", "3"]),
    ("1/2/3\n2/6/6\n3/20/20\n7/9.99999/9\n", ["--longitude", "2", "--latitude", "3", "--separator", "/"]),
    ("i\u2028d\x85\x0c\x1e,lon,lat\n1,2,3\n2,6,6\n3,20,20\n7,9.99999,9\n", []),
    ('"i\nd",lon,lat\n1,2,3\n2,6,6\n3,20,20\n7,9.99999,9\n', ["--separator", ","]),
]


@pytest.mark.parametrize("text,options", TABLES, ids=range(len(TABLES)))
def test_tables_of_each_kind(zones, text, options):
    status, out, error = said("join", "-", zones, "--name", "zone_id", *options, text=text.encode())
    assert (status, error) == (0, "")
    rows = list(csv.reader(io.StringIO(out)))
    rows = rows if options and "2" in options else rows[1:]
    assert [(row[0], row[-1]) for row in rows] == [(row[0], row[-1]) for row in ROWS]
    assert all(len(row) == 4 for row in rows)


def test_points_on_borders(zones):
    text = b"lon,lat\n0,4\n5,5\n6,6\n10,6\n"
    for words, wanted in ([], ["5,5,0", "6,6,0", "6,6,1", "10,6,1"]), \
            (["--borders"], ["0,4,0", "5,5,0", "5,5,1", "6,6,0", "6,6,1", "10,6,0", "10,6,1"]):
        assert said("join", "-", zones, *words, text=text) == (0, "\n".join(["lon,lat,zone", *wanted, ""]), "")


def test_a_join_without_shapely(zones, tmp_path):
    code = ("import sys; sys.modules['shapely'] = None\nfrom s2union_geo.__main__ import main\n"
            "sys.exit(main(sys.argv[1:]))")
    points = tmp_path / "points.csv"
    points.write_text("lon,lat\n6,6\n")
    for more in [], ["--coverings"]:
        done = subprocess.run([sys.executable, "-c", code, "join", str(points), zones, *more], capture_output=True,
                              text=True)
        assert (done.returncode, done.stdout, done.stderr) == (0, "lon,lat,zone\n6,6,0\n6,6,1\n", "")


@pytest.mark.parametrize("by_line", [False, True])
def test_features_as_points_and_zones(tmp_path, by_line):
    places = ("o\u2028ne", [2, 3]), ("t\"w,o", [6, 6.5, 0]), ("three", [20, 20])
    features = [{"type": "Feature", "properties": {"id": name, "n": k, "more": None if k else [1]},
                 "geometry": {"type": "Point", "coordinates": place}} for k, (name, place) in enumerate(places)]
    text = ("\n".join(json.dumps(feature, ensure_ascii=False) for feature in features) if by_line else
            json.dumps({"type": "FeatureCollection", "features": features}, indent=2))
    zones = zones_file(tmp_path, by_line)
    status, out, error = said("join", "-", zones, "--name", "zone_id", "--all", text=text.encode())
    assert (status, error) == (0, "")
    assert list(csv.reader(io.StringIO(out))) == [
        ["longitude", "latitude", "id", "n", "more", "zone_id"], ["2", "3", "o\u2028ne", "0", "[1]", "a"],
        ["6", "6.5", "t\"w,o", "1", "", "a"], ["6", "6.5", "t\"w,o", "1", "", "b"], ["20", "20", "three", "2", "", ""]]


def test_an_index_as_zones(zones, tmp_path):
    kept = str(tmp_path / "kept")
    assert said("index", zones, kept, "--name", "zone_id") == (0, "2 zones\n", "")
    assert said("join", "-", kept, text=b"x,y\n6,6\n") == (0, "x,y,zone\n6,6,a\n6,6,b\n", "")
    assert said("join", "-", kept, text=b"") == (0, "", "")
    assert said("join", "-", kept, text=b"caf\xe9,lon,lat\n\xff,1,1\n")[:2] == (
        0, "caf\udce9,lon,lat,zone\n\udcff,1,1,a\n")


POINT = '{"type": "Feature", "geometry": {"type": "Point", "coordinates": [2, 3]}'
WRONG = [
    ("id,lon,lat\n1,2,3\n4,x,3\n", "line 3 has no degrees: 'x' and '3'"),
    ("id,lon,lat\n1,2,3\n4,,\n", "line 3 has no degrees: '' and ''"),
    ("id,lon,lat\n1,2,3\n\n5,3,99\n", "line 4: a latitude is from -90 to 90 (the longitude comes first): 99"),
    ("id,lon,lat\n1,2,3\n5,nan,9\n", "line 3: a longitude is from -540 to 540: nan"),
    ("id,lon,lat\n1,2,3\n5,1_0,9\n", "line 3 has no degrees: '1_0' and '9'"),
    ("id,lon,lat\n1,2, 3\u00a0\n5,1,\u0663\n", "line 3 has no degrees: '1' and '\u0663'"),
    ("id,lon,lat\n1,2,3\n5,\"3\n3\"\n", "line 4 has 2 columns, and the first has 3"),
    ('{"type": "FeatureCollection", "features": [{"type": "Feature", "properties": {"lon": 5}, "geometry": '
     '{"type": "Point", "coordinates": [2, 3]}}, {"type": "Feature", "geometry": null}]}', "feature 1 has no point"),
    (f'{POINT}, "properties": {{"k": "\\ud83d\\ude00"}}}}\n{POINT}, "properties": {{"k": "\\ud800"}}}}',
     "line 2 has a property with half of a pair of surrogates"),
    (f'{POINT}}}\n{POINT}, "properties": {{"k": ["\\udc80"], "l": "\\udc80"}}}}',
     "line 2 has a property with half of a pair of surrogates"),
    ('\x1e{"type": "Feature", "geometry": null}\n'
     '\x1e{"type": "Feature", "geometry": {"type": "Point", "coordinates": [2, 3]}}\n', "line 1 has no point"),
]


@pytest.mark.parametrize("text,wanted", WRONG, ids=range(len(WRONG)))
def test_rows_that_are_wrong(zones, text, wanted):
    """The first ends the command, or it is left out; the others come."""
    status, out, error = said("join", "-", zones, text=text.encode())
    assert (status, error) == (1, f"s2union_geo: {wanted}; --skip leaves it out\n")
    status, out, error = said("join", "-", zones, "--skip", text=text.encode())
    assert (status, error, out.count("\n")) == (0, f"s2union_geo: left out: {wanted}\n", 2)


def test_half_of_a_pair_of_surrogates(tmp_path, zones):
    """In a name it ends the command, with the place; no file in UTF-8 has it."""
    half = "half of a pair of surrogates"
    features = '{"type": "Feature", "geometry": null, "properties": {"k": "a"}}\n'
    path, kept = tmp_path / "halves", tmp_path / "kept"
    path.write_text(features + features.replace("a\"}", "\\ud800\"}"))
    Index([None], ["\ud800"]).save(kept)
    for words, text, reason in (
            (["-", zones], f'{POINT}, "properties": {{"\\ud800": 1}}}}',
             f"line 1 has {half} in the name of a property: '\\ud800'"),
            (["-", str(path), "--name", "k"], "1,1\n",
             f"line 2 of the zones has {half} in its property 'k': '\\ud800'"),
            (["-", str(kept)], "1,1\n", f"{kept}: a zone has {half} in its name: '\\ud800'")):
        assert said("join", *words, "--skip", text=text.encode()) == (1, "", f"s2union_geo: {reason}\n")


def test_a_command_without_memory(monkeypatch):
    monkeypatch.setitem(COMMANDS, "geojson", lambda files, dissolve: [0] * sys.maxsize)
    assert main(["geojson", "x"]) == "s2union_geo: there is no memory"


def test_what_a_terminal_shows(zones):
    """At the end, how many rows there were, and how many were left out."""
    ours, its = pty.openpty()
    done = subprocess.run([sys.executable, "-m", "s2union_geo", "join", "-", zones, "--skip"],
                          input=b"x,y\n6,6\n1,99\n1,1\n", stdout=subprocess.PIPE, stderr=its)
    os.close(its)
    shown = b""
    with contextlib.suppress(OSError):  # at the end of a terminal
        while more := os.read(ours, 4096):
            shown += more
    os.close(ours)
    assert (done.returncode, done.stdout.count(b"\n")) == (0, 4)
    assert shown.endswith(b"2 points, 3 pairs; left out: 1\r\n")


def test_more_rows_than_are_read_at_once(zones, monkeypatch, capsys, tmp_path):
    monkeypatch.setattr(tables, "AT_ONCE", 3)
    for name, text in (("rows", "x,y\n" + "1,1\n" * 7),
                       ("features", '{"type": "Feature", "geometry": {"type": "Point", "coordinates": [1, 1]}}\n' * 7)):
        path = tmp_path / name
        path.write_text(text)
        assert main(["join", str(path), zones]) is None
        assert capsys.readouterr().out.splitlines()[1:] == ["1,1,0"] * 7
    point = '{"type": "Feature", "geometry": {"type": "Point", "coordinates": [1, 1]}'
    path.write_text(f'{point}}}\n' * 4 + f'{point}, "properties": {{"k": 1}}}}\n')
    wanted = "s2union_geo: line 5 has a property that no earlier one has: 'k'"
    assert main(["join", str(path), zones]).startswith(wanted)


@pytest.mark.parametrize("separator", ",;\t|")
def test_blocks_beside_the_module_csv(zones, monkeypatch, capsys, tmp_path, separator):
    """Tables with quotes, blank lines, lines of each kind and fields of all sorts, whatever is read at once."""
    chance = random.Random(separator)
    fields = ["", "a", " b ", '"x"', '"a,b;c"', '"two\nlines"', '"it""s"', 'a"b', "\u2028", "5,5", "'", "\u00e4"]
    path = tmp_path / "points"
    for turn in range(60):
        kinds = fields[:3] if turn % 2 else [it for it in fields if separator not in it or it[0] == '"']
        end = chance.choice(["\n", "\r\n", "\r"])
        rows = [[chance.choice(kinds), chance.choice(["1", "5.5", "6", "1e1", " 7", "+3", "20"]),
                 str(chance.uniform(3, 7)), chance.choice(kinds)] for _ in range(chance.randrange(30))]
        lines = ["id,x,y,more".replace(",", separator), *map(separator.join, rows)]
        text = "".join(line + end * chance.choice([1, 1, 1, 2]) for line in lines)
        path.write_bytes((text if chance.random() < 0.5 else text.rstrip("\r\n")).encode())
        with open(path, encoding="utf-8", newline="") as it:
            given = [row for row in csv.reader(it, delimiter=separator) if row]
        wanted = io.StringIO()
        csv.writer(wanted, lineterminator="\n").writerows([*given[0], "zone"] if k == 0 else [*row, zone] for k, row in
            enumerate(given) for zone in ((0, 1) if k else (0,)) if k == 0 or inside(row, zone))
        for many in (1, 40, 2**22):
            monkeypatch.setattr(tables, "BLOCK", many)
            assert main(["join", str(path), zones]) is None
            assert capsys.readouterr().out == wanted.getvalue()


def inside(row, zone):
    """Whether the point of a row lies in one of the two squares of `zones`."""
    x, y = float(row[1]), float(row[2])
    return 0 < x < 10 and 0 < y < 10 if zone == 0 else 5 < x < 15 and 5 < y < 15


@pytest.mark.parametrize("bad,reason", [
    ("1,2", "has 2 columns, and the first has 3"), ("1,2,3,4", "has 4 columns, and the first has 3"),
    ("a,1,z", "has no degrees: '1' and 'z'"), ("a,541,1", ": a longitude is "),
    ("a,1,91", ": a latitude is "), ("a,nan,1", ": a longitude is "),
    ("a,1_0,1", "has no degrees: '1_0' and '1'"), ("a,\u0661,1", "has no degrees: "),
    ("a,1e999,1", ": a longitude is ")])
def test_wrong_rows_among_plain_ones(zones, monkeypatch, capsys, tmp_path, bad, reason):
    """The line is named, whatever is read at once; with --skip the others are there."""
    path = tmp_path / "points"
    path.write_text("id,x,y\n" + "p,1,1\n\n" * 5 + f"{bad}\n" + "p,1,1\n" * 5)
    for many in (1, 9, 2**22):
        monkeypatch.setattr(tables, "BLOCK", many)
        said = main(["join", str(path), zones])
        assert said.startswith("s2union_geo: line 12") and reason in said
        capsys.readouterr()
        assert main(["join", str(path), zones, "--skip"]) is None
        out, error = capsys.readouterr()
        assert out == "id,x,y,zone\n" + "p,1,1,0\n" * 10 and error.startswith("s2union_geo: left out: line 12")


@pytest.mark.parametrize("words,wanted", [
    (["join", "-"], "the following arguments are required: ZONES"),
    (["join", "-", "-"], "points and zones can't both be standard input"),
    (["join", "-", "{zones}", "--name", "none"], "feature 0 of the zones has no property 'none'"),
    (["join", "-", "{zones}", "--longitude", "q"], "there is no column 'q'"),
    (["join", "-", "{zones}", "--max-cells", "-1"], "max_cells is out of range: -1"),
    (["join", "-", "/dev/null"], "/dev/null: the text is no GeoJSON"),
    (["join", "-", "none"], "[Errno 2] No such file or directory: 'none'"),
    (["join", "-", "{zones}", "--separator", "ab"], "\"delimiter\" must be a 1-character string"),
    (["cover", "x"], "the following arguments are required: folder, max_cells, max_level"),
    (["geojson"], "the following arguments are required: files")])
def test_words_that_are_wrong(zones, words, wanted):
    words = [word.format(zones=zones) for word in words]
    status, out, error = said(*words, text=b"here,there\n1,2\n")
    assert (status, out) == (1, "")
    assert error.startswith(f"s2union_geo: {wanted}".replace("ZONES", "zones"))


def test_a_pipe_whose_reader_has_ended(zones):
    for rows in (1, 100_000):
        words = [sys.executable, "-m", "s2union_geo", "join", "-", zones]
        with subprocess.Popen(words, stdin=subprocess.PIPE, stdout=subprocess.PIPE, stderr=subprocess.PIPE) as run:
            run.stdout.close()
            _, error = run.communicate(b"x,y\n" + b"1,1\n" * rows)
        assert (run.returncode, error) == (141, b"")


def test_columns_that_are_not_known(zones):
    assert said("join", "-", zones, text=b"here,there\n1,2\n")[2] == (
        "s2union_geo: no column is known as longitude, and --longitude names it: here, there\n")
    assert said("join", "-", zones, "--longitude", "1", "--latitude", "3", text=b"1,2\n")[2] == (
        "s2union_geo: there is no column '3'\n")


@pytest.mark.parametrize("text", ["{long},lon,lat\n", "{long} 1 2\n", "id,lon,lat\n{long},1,2\n"])
def test_fields_that_are_too_long(zones, text):
    status, _, error = said("join", "-", zones, text=text.format(long="x" * 2**18).encode())
    assert (status, error) == (1, "s2union_geo: it is no CSV: field larger than field limit (131072)\n")


def test_zones_that_are_refused(tmp_path):
    path = tmp_path / "zones"
    good, bad = ({"type": "Feature", "geometry": polygon(ring), "properties": {"name": name}}
                 for name, ring in (("good", box(0, 0, 1, 1)), ("bad", box(0, 0, 1, 1)[1:])))
    path.write_text(json.dumps({"type": "FeatureCollection", "features": [bad, good]}))
    status, out, error = said("join", "-", str(path), "--name", "name", text=b"0.5,0.5\n")
    assert (status, out) == (1, "") and error.startswith("s2union_geo: zone 'bad': polygon 0, ring 0 is open")
    status, out, error = said("join", "-", str(path), "--name", "name", "--skip", text=b"0.5,0.5\n")
    assert (status, out) == (0, "0.5,0.5,good\n") and error.startswith("s2union_geo: left out: zone 'bad': polygon 0")


def test_parquet(zones):
    """Over a stand-in for pyarrow, which Debian doesn't have; and without it, an error in words."""
    class Column(list):
        to_pylist = list.copy

    class File:
        schema_arrow = unittest.mock.Mock(names=["id", "lon", "lat"])

        def __init__(self, file):
            pass

        def iter_batches(self, count):
            yield unittest.mock.Mock(column={"id": Column([1, None]), "lon": Column([2.0, 20.0]),
                                             "lat": Column([3, 3])}.__getitem__)

    made, wrong = Index([polygon(box(0, 0, 10, 10))]), []
    with unittest.mock.patch.dict(sys.modules, {"pyarrow": unittest.mock.Mock(),
                                                "pyarrow.parquet": unittest.mock.Mock(ParquetFile=File)}):
        columns, parts = tables.read_points(io.BufferedReader(io.BytesIO(b"PAR1")), tables.Options(), wrong.append)
        part, = parts
    assert (columns, part.lines, wrong) == (["id", "lon", "lat"], ["1,2.0,3", ",20.0,3"], [])
    assert pairs(made.join(part.x, part.y)) == [(0, 0)]
    with unittest.mock.patch.dict(sys.modules, {"pyarrow": None, "pyarrow.parquet": None}):
        with pytest.raises(ModuleNotFoundError, match="a file of parquet needs pyarrow"):
            tables.read_points(io.BufferedReader(io.BytesIO(b"PAR1")), tables.Options(), wrong.append)


def test_cover_by_another_property(zones, tmp_path):
    assert said("cover", zones, str(tmp_path), "8", "9", "--name", "zone_id")[0] == 0
    assert {"a.outer", "a.inner", "b.outer", "b.inner"} <= {*os.listdir(tmp_path)}


Examples = docstrings.tests_of(s2union_geo.index)
