"""The functions of the module in C: what they refuse, what they leave behind, and the interpreter around them."""

import ctypes
import gc
import inspect
import os
import pickle
import re
import struct
import subprocess
import sys
import tempfile
import threading
import time
import tracemalloc
import unittest
from array import array
from pathlib import Path

import pytest
import s2union
from s2union import Union, UnionFile

calls = s2union._library
FACE = 0x1000000000000000
CELL = s2union.from_token("14")
LAST = 2**30 - 1
CELLS = Union.from_tokens("04 0c 14 5")._ids
FILE = Union.from_tokens("04 0c").to_bytes()
RECT = (0, 0, 9, 0, 9)
POINTS = memoryview(array("I", [0, 1, 2]))
TRIANGLE = struct.pack("<BIII8d", 1, 3, 1, 4, 0, 0, 2, 0, 2, 2, 0, 0)
ZONES = calls.zones((TRIANGLE, TRIANGLE))
# What each function answers, by the names of what it takes, which _library.pyi has; a file is called as a list is.
WORDS = {
    "what": "", "room": 1, "bounds": RECT, "level": 0, "most": 99, "child": 3, "face": 5, "i": 1, "j": LAST, "k": 1,
    "min": 3, "modulus": 1, "text": "14", "bytes": memoryview(FILE), "points": POINTS, "each": [CELL, 1],
    "ends": memoryview(array("Q", [4])), "number": 5, "name": "n", "longitude": 2.5, "latitude": 48.5,
    "longitudes": memoryview(array("d", [2.5, 999])), "latitudes": memoryview(array("d", [48, 0])),
    "positions": memoryview(array("d", [0, 0, 1, 0, 1, 1, 0, 0])), "rings": memoryview(array("Q", [4, 0])),
    "shapes": (TRIANGLE,), "zones": ZONES, "borders": 1, "wkb": bytes([1, 1, 0, 0, 0]) + bytes(16),
    "radius": 9.0, "meters": 9.0, "options": (9, 0, 30, 0, 0.0), "which": 3,
    **dict.fromkeys(("id", "cell", "a", "b", "whole", "part", "first", "last"), CELL),
    **dict.fromkeys(("ids", "xs", "ys", "cells"), CELLS),
}
NO_TEXT = "a cell is an int, not str: from_token reads a token, and from_tokens several"
DEGREES = "from_face_ij takes one point, and s2union_geo.leaves longitudes and latitudes"
POLYGON = (memoryview(array("q", [10, 1, 1, 10, 9, 1, 10, 1, 9])), memoryview(array("Q", [3])),
           s2union.from_face_ij(3, 0, 0), 0)  # a triangle: corners, ends, a leaf outside, and no margin
SQUARE = b'{"type": "Polygon", "coordinates": [[[0, 0], [2, 0], [2, 2], [0, 2], [0, 0]]]}'
TYPES = (Path(calls.__file__).parent / "_library.pyi").read_text()
READERS = re.findall(r"^def (\w+)\(__what: str, __room: int, __(text|wkb): List,", TYPES, re.M)  # of shapes
OTHERS = {"from_debug": ("0/2",), "neighbors": (CELL, 4), "shape_of_geojson": (SQUARE,),
          **{name: ("", 1, SQUARE if given == "text" else TRIANGLE, 2, 2**24) for name, given in READERS},
          "pairs": (ZONES, memoryview(array("d", [1.5, 9, 1])), memoryview(array("d", [0.5, 9, 1])), 1),
          **dict.fromkeys(("file_contains", "file_intersects"), (FILE, FILE)),
          **dict.fromkeys(("polygon_outer", "polygon_inner"), ("", 1, *POLYGON, 3, 99)),
          **dict.fromkeys(("polygon_outer_up_to", "polygon_inner_up_to"), ("", 1, *POLYGON, 0, 3, 9))}


def each_call(words, others):
    """What each function is given: these words by the names of what it takes, or others of its own."""
    return {name: others.get(name) or tuple(words[word] for word in re.findall(r"\b__(\w+):", takes))
            for name, takes in re.findall(r"^def (\w+)\((.*?)\) -> ", TYPES, re.M | re.S) if name != "refuse"}


TAKEN = each_call(WORDS, OTHERS)
# Calls that are refused after they have taken memory, or while they look at what they are given.
REFUSED = {
    "level": (0,), "parent": (CELL, 31), "cell_contains": (CELL, 2), "from_token": ("x",), "from_tokens": ("14 xy",),
    "tokens": (bytes(8),), "normalise": (CELLS + bytes(8),), "list_of": ([CELL, "x"],), "number": (10, 9, "n"),
    "range_": ("what", 1, CELL, 1), "outer": ("what", 1, RECT, 30, 1), "inner_in": ("what", 1, CELLS, RECT[:4], 30, 99),
    "outer_of": ("what", 1, CELLS, 9, 1), "decode": ("what", 1, FILE[:-1]), "file_cell": (FILE, 2),
    "union": ("", -1, CELLS, CELLS), "contains_cell": (CELLS, 0), "file_ancestors": ("what", 1, b""),
    "union_of_many": (CELLS, memoryview(array("Q", [3]))),
    "coverings": (bytes(16), memoryview(array("Q", [4, 0])), (9, 0, 30, 0, 0.0), 3),
    "coverings_of_wkb": (b"", (9, 0, 31, 0, 0.0), 3), "coverings_of_circle": (0, 0, 1, (9, 0, 30, 0, "x"), 3),
    "neighbors": (CELL, 0), "vertex_neighbors": (CELL, 1), "expanded": (CELLS, 30), "edge_neighbors": (2,),
    "complement": ("", 2**62, CELLS), "refuse": (-5, "what"), "token": (object(),),
    "map_geojson": ("what", 1, SQUARE[:-1], 3, 9), "map_wkb": ("what", 1, TRIANGLE, 30, 9),
    "shape_of_geojson": (SQUARE[:-1],),
    "zones": ((TRIANGLE, TRIANGLE[:-1]),), "pairs": (ZONES, WORDS["longitudes"], WORDS["latitudes"], 1),
}


MAKES_LIST = {name for name, words in TAKEN.items() if words[:2] == ("", 1)}


def is_refused(name, words):
    try:
        getattr(calls, name)(*words)
    except (TypeError, ValueError, MemoryError, BufferError):
        return True
    return False


OTHER_TYPES = (None, 1.5, object(), [None], 2**64, -1, "xyz", b"123", bytes(16), (), memoryview(bytes(24)))


@pytest.mark.parametrize("name", TAKEN)
def test_each_wrong_word(name):
    """A word too few or too many, and each word in turn of another type, is an error; and whatever a word is, the call
    comes back."""
    words = TAKEN[name]
    for wrong in [(*words, 1), words[:-1]] if words else [(1,)]:
        assert is_refused(name, wrong)
    for place in range(len(words)):
        for other in OTHER_TYPES:
            was_refused = is_refused(name, (*words[:place], other, *words[place + 1:]))
            is_said = name in MAKES_LIST and place == 0  # what a refusal would say may be anything
            if name == "leaf":  # 0 where Python's side says what is wrong
                found = calls.leaf(*words[:place], other, *words[place + 1:])
                assert bool(found) == (other in (1.5, -1))
            elif other is None or type(other) in (float, object):
                is_number = isinstance(other, float) and isinstance(words[place], float)  # meters, say
                assert was_refused or is_said or is_number


def test_zones_and_pairs():
    """Places in two triangles, on their borders and outside; and what is refused of shapes and places."""
    x, y = (memoryview(array("d", it)) for it in ([1.5, 9, 1, 2], [0.5, 9, 1, 1]))
    for borders, wanted in ((1, [0, 0, 0, 1, 2, 0, 2, 1, 3, 0, 3, 1]), (0, [0, 0, 0, 1])):
        assert array("Q", calls.pairs(ZONES, x, y, borders)).tolist() == wanted
    assert calls.pairs(calls.zones(()), x, y, 1) == calls.pairs(ZONES, memoryview(b""), memoryview(b""), 1) == b""
    with pytest.raises(ValueError, match="^zone 1: the bytes are no WKB$"):
        calls.zones((TRIANGLE, TRIANGLE[:-1]))
    with pytest.raises(ValueError, match="^the place 1 is out of range$"):
        calls.pairs(ZONES, *(memoryview(array("d", it)) for it in ([1, 541], [1, 1])), 1)
    for wrong in (TRIANGLE,), ([TRIANGLE],), (("x",),):
        with pytest.raises(TypeError):
            calls.zones(*wrong)


def test_places_in_degrees():
    """Paris, a place that is none, and one on the date line; and the middles of cells."""
    x, y = array("d", [2.3522, 999, 180]), array("d", [48.8566, 0, -16.5])
    paris, other = 5180949494577750587, 7935343058781468041
    assert array("Q", calls.leaves(memoryview(x), memoryview(y))).tolist() == [paris, 0, other]
    assert [calls.leaf(*place) for place in zip(x, y)] == [paris, 0, other]
    assert array("d", calls.middles(memoryview(array("Q", [FACE, CELL])))).tolist()[::2] == [0.0, 0.0]
    assert [len(it) // 8 for it in calls.boundary(memoryview(array("Q", [FACE])))] == [10, 1, 0]
    for call in calls.boundary, calls.outline:
        with pytest.raises(ValueError, match="not a normalized list"):
            call(memoryview(array("Q", [FACE, CELL])))
    with pytest.raises(ValueError, match="not a cell: 0x2$"):
        calls.middles(memoryview(array("Q", [FACE, 2])))


SAID = [
    (lambda: s2union.level(2), "not a cell: 0x2"), (lambda: s2union.contains(CELL, 0), "not a cell: 0x0"),
    (lambda: s2union.contains(2, 0), "not a cell: 0x2"),
    (lambda: s2union.contains(0, 2), "not a cell: 0x0"),
    (lambda: s2union.common_ancestor(6, 2), "not a cell: 0x6"),
    (lambda: s2union.level(True), "a cell is an int, not a bool"),
    (lambda: s2union.level("1"), NO_TEXT), (lambda: "1" in Union([FACE]), NO_TEXT),
    (lambda: Union("04 0c"), NO_TEXT), (lambda: Union(["04"]), NO_TEXT),
    (lambda: s2union.tokens("04"), NO_TEXT), (lambda: Union([FACE]).contains_cells(["04"]), NO_TEXT),
    (lambda: Union([FACE])["a"], "the place of a cell is an int or a slice, not str"),
    (lambda: UnionFile(FILE)[1.5], "the place of a cell is an int or a slice, not float"),
    (lambda: Union([FACE])[9], "there is no cell 9: the union has 1"),
    (lambda: Union([FACE])[-2**70], f"there is no cell {-2**70}: the union has 1"),
    (lambda: UnionFile(FILE)[9], "there is no cell 9: the union has 2"),
    (lambda: Union.of(Union([FACE])), "of takes an iterable of unions, and this is one union, of 1 cells"),
    (lambda: s2union.from_points(2.35, 48.85, 0),
     f"a face of each point is wanted: 'float' object is not iterable. {DEGREES}"),
    (lambda: s2union.from_points([2.35], [48.85], [0]),
     f"a face of each point is wanted: a face is an int, not float. {DEGREES}"),
    (lambda: s2union.level(2**64), f"a cell is out of range: {2**64}"),
    (lambda: s2union.child(CELL, 4), "a child's number is out of range: 4"),
    (lambda: s2union.from_face_ij(0, 0, 2**30), f"j is out of range: {2**30}"),
    (lambda: s2union.from_face_ij(6, 0, 0), "a face is out of range: 6"),
    (lambda: Union.covering(6, 0, 0, 0, 0, 3), "a face is out of range: 6"),
    (lambda: s2union.parent(2, "x"), "a level is an int, not str"),
    (lambda: s2union.parent(2, 31), "not a cell: 0x2"),
    (lambda: s2union.parent(FACE), "a face has no parent: 0x1000000000000000"),
    (lambda: s2union.parent(FACE, 1), "level 1 is deeper than the cell 1, which is of level 0"),
    (lambda: s2union.child(1, 0), "a leaf has no children: 0x1"),
    (lambda: s2union.child(1 - 2**63, 0), "a leaf has no children: 0x8000000000000001"),
    (lambda: s2union.from_token("é"), "not a cell: 'é'"),
    (lambda: s2union.from_tokens("1 " + 40 * "x"), f"not a cell: '{32 * 'x'}' at place 2"),
    (lambda: s2union.from_tokens("1, Málaga"), "not a cell: 'Málaga' at place 3"),
    (lambda: s2union.from_tokens(31 * "x" + "á"), f"not a cell: '{31 * 'x'}' at place 0"),
    (lambda: s2union.from_tokens(40 * b"\x80"), "not a cell: '" + 29 * "\\\\x80" + "' at place 0"),
    (lambda: s2union.from_tokens(b"\xff 1"), "not a cell: '\\\\xff' at place 0"),
    (lambda: s2union.levels(5000 * [FACE] + [2]), "not a cell at place 5000: 0x2"),
    (lambda: s2union.from_points([0, 0], [1], [2]), "there are not as many of each: 2, 1, 1"),
    (lambda: s2union.from_token("\ud800"), "not a cell: '\\ud800'"),
    (lambda: Union([1, 9, 17]).outer(30, most=1), "too many cells: level 30, at most 1 cells"),
    (lambda: Union.covering(0, 0, 9, 0, 9, 31), "a level is out of range: 31"),
    (lambda: Union.covering(0, 0, 2**30, 0, 9, 3), f"a coordinate is out of range: {2**30}"),
    (lambda: Union([FACE]).outer(3, rectangle=(0, 1, 2)), "a rectangle has 5 numbers, not 3"),
    (lambda: Union.from_range(CELL, 1), f"argument out of range: {CELL:#x} comes after 0x1"),
    (lambda: Union.from_range(CELL, 2), "not a cell: 0x2"),
    (lambda: Union([FACE, 2]), "not a cell at place 1: 0x2"),
    (lambda: Union([FACE]).contains_cells([FACE, 0]), "not a cell at place 1: 0x0"),
    (lambda: Union([FACE]).denormalised(3, 0), "a modulus is out of range: 0"),
    (lambda: Union([FACE]).denormalised(3, 4), "a modulus is out of range: 4"),
    (lambda: calls.coverings_of_circle(0, 0, 1, [9, 0, 30, 0, 0.0], 3), "options is a tuple, not list"),
    (lambda: calls.coverings_of_circle(0, 0, 1, (9, 0, 30, 0), 3), "5 arguments are wanted, not 4"),
]


@pytest.mark.parametrize("call,message", SAID, ids=[message for _, message in SAID])
def test_what_a_refusal_says(call, message):
    with pytest.raises((ValueError, TypeError, IndexError)) as refusal:
        call()
    assert str(refusal.value) == message


def test_what_out_of_memory_says():
    with pytest.raises(MemoryError, match="^s2union: out of memory: what$"):
        calls.refuse(-2, "what")


class Taken(unittest.TestCase):
    def test_each_function_is_asked(self):
        there = {name for name, it in vars(calls).items() if inspect.isbuiltin(it)}
        self.assertEqual(there, {*TAKEN, "refuse"})
        for name, words in TAKEN.items():
            getattr(calls, name)(*words)

    def test_lists_that_are_none(self):
        released, unaligned = memoryview(bytes(8)), memoryview(bytes(17))[1:]
        released.release()
        for wrong, error in ((bytes(7), TypeError), (unaligned, TypeError), (memoryview(bytes(32))[::2], BufferError),
                             (released, ValueError), (bytearray(8), TypeError), (array("Q", [1]), TypeError)):
            with self.assertRaises(error):
                calls.is_union(wrong)
        for text in ("is bytes or a memoryview, not int", "is bytes or a memoryview, not bytearray"):
            with self.assertRaisesRegex(TypeError, f"a list {text}$"):
                calls.is_union(3 if "int" in text else bytearray())

    def test_an_index_that_raises(self):
        class Wrong:
            def __index__(self):
                raise KeyError("mine")

        class WrongType:
            def __index__(self):
                return FACE

            @property
            def dtype(self):
                raise KeyError("mine")

        for wrong in (Wrong(), WrongType()):
            for call in (s2union.level, lambda it: it in Union([FACE]), lambda it: Union([FACE, it])):
                self.assertRaises(KeyError, call, wrong)

    def test_an_index_that_releases_the_lists_beside_it(self):
        """Numbers are read before lists are looked at: what was released by then is an error, and isn't read."""
        asked = 0
        for name, words in TAKEN.items():
            for place, word in enumerate(words):
                views = [memoryview(bytes(it)) if isinstance(it, (bytes, memoryview)) else it for it in words]
                lists = [it for it in views if isinstance(it, memoryview)]
                if lists and word == RECT:
                    views[place] = (Releasing(RECT[0], lists), *RECT[1:])
                elif lists and type(word) is int:
                    views[place] = Releasing(word, lists)
                else:
                    continue
                asked += 1
                with self.assertRaisesRegex(ValueError, "released", msg=(name, place)):
                    getattr(calls, name)(*views)
        self.assertGreater(asked, 30)

    def test_an_iterable_that_raises(self):
        def cells():
            yield from range(1, 2001, 2)
            raise KeyError("mine")

        self.assertRaises(KeyError, Union, cells())
        self.assertEqual(len(Union(range(1, 2**14, 4))), 2**12)


class Indexed:
    """No int, but what gives a new one each time that its number is wanted."""

    def __init__(self, number):
        self.number = number

    def __index__(self):
        return self.number + 0


class Releasing(Indexed):
    """A number that releases memoryviews when it is wanted."""

    def __init__(self, number, views):
        super().__init__(number)
        self.views = views

    def __index__(self):
        for view in self.views:
            view.release()
        return super().__index__()


class LeftBehind(unittest.TestCase):
    """No call keeps memory or a reference, whether it answers or refuses: not 8 bytes of each of 400 calls."""

    def grown(self, call):
        for _ in range(40):
            call()
        gc.collect()
        before = tracemalloc.get_traced_memory()[0]
        for _ in range(400):
            call()
        gc.collect()
        return tracemalloc.get_traced_memory()[0] - before

    def test_memory(self):
        tracemalloc.start()
        try:
            for name, given in TAKEN.items():
                call = getattr(calls, name)
                for words in (given, [Indexed(it) if type(it) is int else it for it in given]):
                    self.assertLess(self.grown(lambda: call(*words)), 3200, name)
            for name, words in REFUSED.items():
                self.assertTrue(is_refused(name, words), name)
                self.assertLess(self.grown(lambda: is_refused(name, words)), 3200, name)
        finally:
            tracemalloc.stop()

    def test_references(self):
        for table in (TAKEN, REFUSED):
            for name, words in table.items():
                within = [it for word in words if isinstance(word, list) for it in word]
                watched = [*words, *within, None, True, calls, calls.is_cell]
                before = [sys.getrefcount(word) for word in watched]
                for _ in range(400):
                    is_refused(name, words)
                for word, were in zip(watched, before):
                    self.assertLess(abs(sys.getrefcount(word) - were), 200, (name, word))


@unittest.skipUnless("S2UNION_REFUSE" in os.environ, "tests/refuse.c is not loaded before the C library")
class WithoutMemory(unittest.TestCase):
    def test_each_allocation_refused_in_turn(self):
        """Python's own too: a call answers what it would have, or raises MemoryError, and keeps nothing."""
        library = ctypes.CDLL(os.environ["S2UNION_REFUSE"])
        asked = 0

        def answer(call, words, turn, wanted):
            found = wanted
            try:
                library.refuse_memory(turn)
                found = call(*words)
            except MemoryError:
                pass
            allocations = library.refuse_memory(0)
            self.assertTrue(found == wanted or call is calls.zones and type(found) is type(wanted), (call, turn))
            return allocations

        for name, words in TAKEN.items():
            call = getattr(calls, name)
            wanted = call(*words)
            allocations = answer(call, words, 0, wanted)
            asked += allocations
            for turn in range(1, allocations + 1):
                for _ in range(3):  # these may fill what Python keeps
                    answer(call, words, turn, wanted)
                before = library.blocks_taken()
                for _ in range(10):
                    answer(call, words, turn, wanted)
                self.assertLess(library.blocks_taken() - before, 10, (name, turn))
        self.assertGreater(asked, 100)


class Around(unittest.TestCase):
    def test_other_threads_run_during_a_call(self):
        """One that is asleep wakes while the library works: none is asked to hand over the lock. Each call that may
        take long is made until it did. The thread that wakes can release nothing that the call reads."""
        xs, ys = (memoryview(array("Q", range(first, 2**21, 8))) for first in (1, 5))
        points = memoryview(array("I", 3 * len(xs) * [1]))
        data, degrees = [memoryview(calls.encode("", 9, ids)) for ids in (xs, ys)], memoryview(array("d", xs))
        words = {
            **WORDS, **dict.fromkeys(("ids", "xs", "cells"), xs), "ys": ys, "bytes": data[0], "points": points,
            "bounds": (0, 0, 999, 0, 999), "level": 30, "min": 30, "most": 10**6, "text": calls.tokens(xs),
            "each": range(1, 2**19, 2), "ends": memoryview(array("Q", [len(xs)])),
            **dict.fromkeys(("longitudes", "latitudes"), degrees),
        }
        corners = memoryview(array("q", 2**17 * POLYGON[0].tolist()))
        rings = memoryview(array("Q", [len(corners) // 3])), *POLYGON[2:]
        zeros = memoryview(array("d", bytes(8 * 2**18)))
        shapes = {"text": memoryview(SQUARE), "wkb": memoryview(TRIANGLE)}
        way = memoryview(b'{"type": "LineString", "coordinates": [' + 2**17 * b"[0,0]," + b"[0,0]]}")
        others = {"pairs": (ZONES, zeros, zeros, 1), "shape_of_geojson": (way,), "contains": (xs, xs),
                  "compare": (xs, xs), "file_contains": data[:1] * 2, "file_intersects": data,
                  **{name: ("", 1, shapes[given], 12, 2**24) for name, given in READERS},
                  **dict.fromkeys(("polygon_outer", "polygon_inner"), ("", 1, corners, *rings, 2, 9)),
                  **dict.fromkeys(("polygon_outer_up_to", "polygon_inner_up_to"), ("", 1, corners, *rings, 0, 2, 9))}
        large = [xs, ys, points, degrees, zeros, corners, way, *data, *shapes.values(), words["bounds"], words["text"]]
        quick = {"contains_cell", "intersects_cell", "cells_at", "file_count", "file_cell", "file_contains_cell",
                 "file_intersects_cell", "from_token", "from_debug"}
        ticks, read, released, ends = [0], [], [], threading.Event()

        def tick():
            while not ends.wait(0.0005):
                ticks[0] += 1
                for place, view in enumerate(read):
                    try:
                        view.release()
                        released.append(place)
                    except BufferError:
                        pass

        def is_seen(call, given):
            before, deadline = ticks[0], time.monotonic() + 300
            while ticks[0] == before and not released and time.monotonic() < deadline:
                views = [memoryview(it) if isinstance(it, memoryview) else it for it in given]
                read[:] = [it for it in views if isinstance(it, memoryview)]
                call(*views)
                read.clear()
            return ticks[0] > before and not released

        interval, thread = sys.getswitchinterval(), threading.Thread(target=tick)
        sys.setswitchinterval(1000)
        try:
            thread.start()
            long = {name: given for name, given in each_call(words, others).items()
                    if name not in quick and any(it is one for it in given for one in large)}
            wrong = [(name, released.copy()) for name, given in long.items()
                     if released.clear() or not is_seen(getattr(calls, name), given)]
        finally:
            sys.setswitchinterval(interval)
            ends.set()
            thread.join()
        self.assertEqual((wrong, len(long) > 35), ([], True))

    def test_a_file_that_another_thread_closes(self):
        """Whoever asks it gets the answer, or the ValueError of a closed file, and whoever closes it the BufferError of
        one that is read, whenever that is."""
        union = Union(range(1, 800001, 8))
        cells = array("Q", range(1, 50001, 2))
        with tempfile.TemporaryDirectory() as folder:
            path, other = Path(folder, "many"), Union.from_tokens("04")
            path.write_bytes(union.to_bytes())
            with UnionFile.open(path) as file, UnionFile(other.to_bytes()) as one:
                asked = {
                    "contains_cells": lambda it: it.contains_cells(cells), "leaf_count": UnionFile.leaf_count,
                    "union": UnionFile.union, "ancestors": UnionFile.ancestors, "contains": lambda it: it.contains(it),
                    "intersects": lambda it: one.intersects(it), "in": lambda it: 1 in it, "len": len,
                    "cells": lambda it: it[99_990:], "pickle": lambda it: pickle.loads(pickle.dumps(it)).union(),
                }
                answers = {name: question(file) for name, question in asked.items()}
            for name, question in asked.items():
                for sources in (lambda: UnionFile.open(path, checked=True),
                                lambda: UnionFile(bytearray(path.read_bytes()), checked=True)):
                    for turn in range(8):
                        self.ask_and_close(sources(), question, turn * 0.0004, answers[name], name)

    def ask_and_close(self, file, question, delay, wanted, name):
        said, begun = [], threading.Event()

        def ask():
            begun.set()
            try:
                while len(said) < 40:
                    said.append(question(file) == wanted)
            except ValueError as error:
                said.append("released memoryview" in str(error))

        thread = threading.Thread(target=ask)
        thread.start()
        begun.wait()
        time.sleep(delay)
        try:
            while thread.is_alive():
                try:
                    file.close()
                    break
                except BufferError as error:
                    self.assertIn("exported buffer", str(error))
        finally:
            thread.join()
        self.assertEqual((name, set(said)), (name, {True}))

    def test_one_union_in_many_threads(self):
        a, b = Union(range(1, 20001, 8)), Union(range(5, 20001, 16))
        want, wrong = (a | b, a & b, a - b, a ^ b), []

        def asked():
            for _ in range(200):
                if (a | b, a & b, a - b, a ^ b) != want or not all(cell in a for cell in a[:50]):
                    wrong.append(1)

        threads = [threading.Thread(target=asked) for _ in range(8)]
        for thread in threads:
            thread.start()
        for thread in threads:
            thread.join()
        self.assertEqual(wrong, [])

    def test_other_interpreters(self):
        """Each has a module of its own; from 3.12 on also those with a lock of their own."""
        folder = str(Path(s2union.__file__).parents[1])
        script = f"import sys; sys.path.insert(0, {folder!r}); import s2union; " \
            "assert s2union.Union.from_tokens('04 0c 14 1c').tokens() == ['1'] and s2union.level(1) == 30"
        program = f"""
try:
    import _interpreters as interpreters
except ImportError:
    import _xxsubinterpreters as interpreters
for _ in range(3):
    one = interpreters.create()
    failed = interpreters.run_string(one, {script!r})
    assert not failed, failed
    interpreters.destroy(one)
import s2union
print(s2union.level(1))
"""
        done = subprocess.run([sys.executable, "-c", program], text=True, stdout=subprocess.PIPE,
                              stderr=subprocess.PIPE, env={**os.environ, "PYTHONPATH": folder}, check=False)
        if "No module named" in done.stderr and "s2union" not in done.stderr:
            self.skipTest("this Python has no module for interpreters")
        self.assertEqual((done.stdout, done.stderr), ("30\n", ""))

    def test_a_file_whose_bytes_are_gone(self):
        file = UnionFile(Union.from_tokens("04").to_bytes())
        file._bytes.release()
        for question in (lambda: CELL in file, file.union, file.leaf_count, lambda: file[0]):
            self.assertRaises(ValueError, question)
