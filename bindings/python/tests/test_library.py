"""Every call of the library, through the Python module, against the plain model; and the module itself."""

import ast
import contextlib
import copy
import ctypes
import gc
import inspect
import mmap
import operator as operators
import os
import pickle
import re
import resource
import shutil
import subprocess
import sys
import tempfile
import tracemalloc
import unittest
from array import array
from collections.abc import Set
from itertools import accumulate
from pathlib import Path
from types import SimpleNamespace
from unittest import mock

import docstrings
import pytest
from model import unions as model
import s2union
from model.random_cells import FACE, Random
from s2union import Union, UnionFile
from model.worked import CUT, HELD, LEAF, NORMAL

try:
    import numpy
except ImportError:
    numpy = None
try:
    import pandas
except ImportError:
    pandas = None

peer_model = model.plain


class AgainstTheModel(unittest.TestCase):
    def setUp(self):
        self.random = Random(20261122)

    def test_cells(self):
        for _ in range(5000):
            number = self.random.number()
            cell = model.cell(number)
            self.assertEqual(s2union.is_cell(number), cell is not None)
            if cell is None:
                for name in "level face range_min range_max size token debug square next_cell".split():
                    self.assertRaises(ValueError, getattr(s2union, name), number)
                continue
            level, place = cell
            first, end = model.run(number)
            self.assertEqual((s2union.level(number), s2union.face(number)), (level, place // 4**level))
            self.assertEqual((s2union.range_min(number), s2union.range_max(number)), (2 * first + 1, 2 * end - 1))
            self.assertEqual(s2union.size(number), end - first)
            for above in range(level + 1):
                self.assertEqual(s2union.parent(number, above), model.identifier(above, place // 4 ** (level - above)))
            for k in range(4 if level < 30 else 0):
                self.assertEqual(s2union.child(number, k), model.identifier(level + 1, 4 * place + k))
            after = model.identifier(level, place + 1) if place + 1 < 6 * 4**level else None
            before = model.identifier(level, place - 1) if place else None
            self.assertEqual((s2union.next_cell(number), s2union.previous_cell(number)), (after, before))
            self.assertEqual((s2union.token(number), s2union.debug(number)), (model.token(number), model.debug(number)))
            self.assertEqual(s2union.from_token(model.token(number).upper()), number)
            self.assertEqual(s2union.from_debug(model.debug(number)), number)
            face, i, j, side = s2union.square(number)
            leaf = s2union.from_face_ij(face, self.random.randrange(i, i + side), self.random.randrange(j, j + side))
            self.assertTrue(first <= leaf // 2 < end)

    def test_two_cells(self):
        for _ in range(5000):
            a = self.random.cell()
            b = self.random.near(a)
            (a0, a1), (b0, b1) = model.run(a), model.run(b)
            self.assertEqual(s2union.contains(a, b), a0 <= b0 and b1 <= a1)
            self.assertEqual(s2union.intersects(a, b), max(a0, b0) < min(a1, b1))
            both = [k for k in range(31) if len({leaf // 4 ** (30 - k) for leaf in (a0, a1 - 1, b0, b1 - 1)}) == 1]
            want = model.identifier(both[-1], a0 // 4 ** (30 - both[-1])) if both else None
            self.assertEqual(s2union.common_ancestor(a, b), want)

    def test_squares_and_places(self):
        """The model of the calculator follows the curve digit by digit, the library four levels at a time."""
        last = 2**30 - 1
        corners = [s2union.from_face_ij(face, i, j) for face in range(6) for i in (0, last) for j in (0, last)]
        leaves = [self.random.cell(30) for _ in range(10000)]
        cells = corners + leaves + [self.random.cell() for _ in range(10000)]
        cells += [s2union.parent(corner, level) for corner in corners for level in range(30)]
        for number in cells:
            face, i, j, side = square = s2union.square(number)
            self.assertEqual(square, peer_model.square(model.cell(number)))
            for x, y in ((i, j), (i + self.random.randrange(side), j + self.random.randrange(side))):
                leaf = s2union.from_face_ij(face, x, y)
                self.assertEqual(leaf, peer_model.identifier(peer_model.leaf_at(face, x, y)))
                self.assertEqual(s2union.square(leaf), (face, x, y, 1))

    def test_texts_that_name_no_cell(self):
        for text in ("", "X", "c", "2", "0", "0" * 17, "1" + "0" * 15 + "1", "1 ", "0x1", "g", "0/4", "6/", "/",
                     "0/" + "0" * 31, "\ud800", "1\ud800", "é"):
            self.assertRaises(ValueError, s2union.from_token, text)
        for text in ("", "0", "/", "0/4", "0/a", "00/", "6/", "0-1", "0/" + "0" * 31):
            self.assertRaises(ValueError, s2union.from_debug, text)
        for number in (0, 0x2000000000000000, 0xd000000000000000):
            self.assertFalse(s2union.is_cell(number))

    def test_lists_as_texts(self):
        for _ in range(1500):
            cells = self.random.cells()
            a = Union(cells)
            self.assertEqual(a.tokens(), [model.token(cell) for cell in model.normal(model.runs(cells))])
            text = "".join(self.random.choice((model.token, model.debug, lambda cell: model.token(cell).upper()))(cell)
                           + self.random.choice((" ", ",", "\t", "\n", "\r\n", ", ")) for cell in cells)
            self.assertEqual(Union.from_tokens(text), a)
            self.assertEqual(Union.from_tokens((" " + text.replace(" ", ",")).encode()), a)
            wrong = self.random.choice(("x", "0c;", "2", "0/4", "6/", "\0", "0" * 17, "é"))
            with self.assertRaisesRegex(ValueError, f"not a cell: .* at place {len(text)}$"):
                Union.from_tokens(text + wrong + self.random.choice(("", " 04", ",y")))
        self.assertEqual((Union.from_tokens(""), Union().tokens()), (Union(), []))
        many = Union([self.random.cell(20, 30) for _ in range(20000)])
        self.assertEqual(Union.from_tokens(" ".join(many.tokens())), many)

    def test_sets(self):
        for _ in range(3000):
            xs, ys = self.random.cells(), self.random.cells()
            if self.random.random() < 0.7 and xs:
                ys = [self.random.near(self.random.choice(xs)) for _ in range(self.random.randrange(9))]
            a, b = Union(xs), Union(ys)
            x, y = model.runs(xs), model.runs(ys)
            self.assertEqual(list(a), model.normal(x))
            self.assertEqual((s2union.is_union(xs), s2union.is_union(a)), (xs == model.normal(x), True))
            self.assertEqual(list(a | b), model.normal(x + y))
            self.assertEqual(list(a & b), model.normal(model.common(x, y)))
            self.assertEqual(list(a - b), model.normal(model.common(x, model.rest(y))))
            self.assertEqual(list(a ^ b), model.normal(model.common(x, model.rest(y)) + model.common(y, model.rest(x))))
            self.assertEqual((list(~a), a.complement()), (model.normal(model.rest(x)), ~a))
            self.assertEqual(a >= b, not model.common(y, model.rest(x)))
            self.assertEqual(a.intersects(b), bool(model.common(x, y)))
            self.assertEqual(a.isdisjoint(b), not model.common(x, y))
            self.assertEqual((a == b, hash(a) == hash(b) or a != b), (x == y, True))
            self.assertEqual((a < b, a > b, a <= b), (b >= a and a != b, a >= b and a != b, b >= a))
            self.assertEqual(a.leaf_count(), model.count(x))
            for cell in (self.random.cell(), self.random.near(self.random.choice(xs or [FACE]))):
                one = [model.run(cell)]
                self.assertEqual(cell in a, not model.common(one, model.rest(x)))
                self.assertEqual(a.intersects_cell(cell), bool(model.common(one, x)))
                self.assertEqual(list(a.contains_cells([cell, cell])), 2 * [cell in a])
                self.assertEqual(list(a.intersects_cells([cell])), [a.intersects_cell(cell)])
                self.assertEqual(a.cells_at(cell), [c for c in a if model.common(one, [model.run(c)])])

    def test_ranges_and_cuts(self):
        for _ in range(1500):
            first, last = self.random.cell(), self.random.cell()
            if self.random.random() < 0.5:
                last = self.random.near(first)
            a, b = model.run(first)[0], model.run(last)[1]
            if a < b:
                self.assertEqual(list(Union.from_range(first, last)), model.normal([(a, b)]))
            else:
                self.assertRaises(ValueError, Union.from_range, first, last)
            xs = Union(self.random.cells())
            least = self.random.level_from(xs)
            modulus = self.random.randint(1, 3)
            cells = [c for c in xs if model.cell(c)[0] > least - 5]
            self.assertEqual(Union(cells).denormalised(least, modulus), model.cut(Union(cells), least, modulus))
        self.assertRaises(ValueError, Union([FACE]).denormalised, 30, 1, most=1000)

    def test_coverings(self):
        for _ in range(400):
            xs = Union(self.random.cells(6))
            level = self.random.randint(0, 30)
            runs = model.runs(xs)
            for made, want in ((xs.outer, model.around), (xs.inner, model.within)):
                self.assertEqual(list(made(level)), model.normal(want(runs, level)))
            side = 2 ** self.random.randint(0, 5)
            i, j = self.random.randrange(2**30 - side), self.random.randrange(2**30 - side)
            face = self.random.randrange(6)
            leaves = [(s2union.from_face_ij(face, i + k % side, j + k // side) // 2,) for k in range(side * side)]
            square = model.joined([(leaf, leaf + 1) for leaf, in leaves])
            level = self.random.randint(20, 30)
            place = (face, i, i + side - 1, j, j + side - 1, level)
            self.assertEqual(list(Union.covering(*place)), model.normal(model.around(square, level)))
            self.assertEqual(list(Union.covering(*place, inner=True)), model.normal(model.within(square, level)))
            part = Union(self.random.cells(9, [2 * self.random.choice(leaves)[0] + 1]) + list(xs))
            both = model.common(model.runs(part), square)
            for made, want in ((part.outer, model.around), (part.inner, model.within)):
                self.assertEqual(list(made(level, rectangle=place[:5])), model.normal(want(both, level)))
        self.assertRaises(ValueError, Union.covering, 0, 0, 2**30 - 1, 3, 3, 30, most=1000)
        # Too many cells, answered as out of memory, would be proved: every contract allows that.
        self.assertRaises(ValueError, Union.covering, 0, 0, 2**30 - 1, 3, 3, 30, inner=True, most=1000)
        self.assertRaises(ValueError, Union([FACE, 5 * FACE]).outer, 3, most=1)
        self.assertRaises(ValueError, Union([FACE, 5 * FACE]).inner, 3, most=1)
        for made in (Union([FACE]).outer, Union([FACE]).inner):
            self.assertRaises(ValueError, made, 30, most=1000, rectangle=(0, 0, 2**30 - 1, 3, 3))
        self.assertRaises(ValueError, Union.covering, 0, 5, 4, 0, 0, 30)

    def test_ancestors(self):
        for _ in range(1500):
            xs, ys = self.random.cells(), self.random.cells()
            if self.random.random() < 0.7 and xs:
                ys = [self.random.near(self.random.choice(xs)) for _ in range(self.random.randrange(9))]
            a, b = Union(xs), Union(ys)
            self.assertEqual(a.ancestors(), model.ancestors(a))
            self.assertEqual(UnionFile(a.to_bytes()).ancestors(), a.ancestors())
            found = bool(set(a) & set(b.ancestors()) or set(b) & set(a.ancestors()))
            self.assertEqual(a.intersects(b), found)
        many = Union([self.random.cell(20, 30) for _ in range(20000)])
        self.assertEqual(many.ancestors(), model.ancestors(many))
        for wrong in ([3 * FACE, FACE], [2], [FACE, FACE + 1]):  # no union: the list means nothing, and is not too long
            self.assertRaises(ValueError, UnionFile, model.file(wrong))
            self.assertLessEqual(len(UnionFile(model.file(wrong), checked=True).ancestors()), 31 * len(wrong))

    def test_files(self):
        for _ in range(1500):
            cells = self.random.cells()
            a = Union(cells)
            data = model.file(model.normal(model.runs(cells)))
            self.assertEqual(a.to_bytes(), data)
            self.assertEqual(Union.from_bytes(data), a)
            self.assertEqual(Union.from_bytes(model.file(cells)), a)
            shift = self.random.randrange(8)
            file = UnionFile(memoryview(bytes(shift) + data)[shift:])
            self.assertEqual((len(file), file.leaf_count()), (len(a), a.leaf_count()))
            self.assertEqual([file[k] for k in range(len(file))], list(a))
            self.assertEqual(file.union(), a)
            other = UnionFile(Union(self.random.cells() + cells[:1]).to_bytes())
            self.assertEqual(file.contains(other), a >= other.union())
            self.assertEqual(file.intersects(other), a.intersects(other.union()))
            for cell in (self.random.cell(), self.random.near(cells[0] if cells else FACE)):
                self.assertEqual(cell in file, cell in a)
                self.assertEqual(file.intersects_cell(cell), a.intersects_cell(cell))
            place = self.random.randrange(len(data))
            other_version = bytes([self.random.randint(2, 255)]) + data[1:]
            for wrong in (data[:place], data + b"\0", other_version, data[:1] + b"\xff" * 8 + data[9:]):
                self.assertRaises(ValueError, Union.from_bytes, wrong)
                self.assertRaises(ValueError, UnionFile, wrong)
        self.assertRaises(ValueError, UnionFile, model.file([FACE + 2 * FACE, FACE]))
        self.assertRaises(ValueError, Union.from_bytes, model.file([2]))

    def test_more_than_a_million_cells(self):
        step = 2 ** (2 * (30 - 12) + 1)
        ids = array("Q", (k * step + step // 2 for k in range(1_400_000) if k % 4 != 3))
        a = Union(ids)
        self.assertEqual(len(a), len(ids))
        self.assertEqual(Union.from_bytes(a.to_bytes()), a)


cell_of, union_of = s2union.from_token, Union.from_tokens
LAST = 2**30 - 1
FIRST_FOUR = "0000000000000004"  # the parent of the first four leaves of face 0
FIRST_AND_LAST = FIRST_FOUR + " 000000000000001c"  # and the last of its siblings


# Worked examples: rows with S2's answers for cells, and rows of unions. Sets are named by their tokens.


@pytest.mark.parametrize("token,debug,level,face,first,last", [
    ("1", "0/", 0, 0, 0, 1152921504606846975),
    ("3", "1/", 0, 1, 1152921504606846976, 2305843009213693951),
    ("5", "2/", 0, 2, 2305843009213693952, 3458764513820540927),
    ("7", "3/", 0, 3, 3458764513820540928, 4611686018427387903),
    ("9", "4/", 0, 4, 4611686018427387904, 5764607523034234879),
    ("b", "5/", 0, 5, 5764607523034234880, 6917529027641081855),
    ("0c", "0/1", 1, 0, 288230376151711744, 576460752303423487),
    ("64c", "3/021", 3, 3, 3620894100405878784, 3638908498915360767),
    ("000000000000003", "0/0000000000000000000000000001", 28, 0, 16, 31),
    ("0000000000000003", "0/000000000000000000000000000001", 30, 0, 1, 1),
    ("1fffffffffffffff", "0/333333333333333333333333333333", 30, 0, 1152921504606846975, 1152921504606846975),
])
def test_texts_and_leaves_of_cells(token, debug, level, face, first, last):
    cell = cell_of(token)
    assert (s2union.token(cell), s2union.debug(cell), s2union.from_debug(debug)) == (token, debug, cell)
    assert (s2union.level(cell), s2union.face(cell)) == (level, face)
    assert (s2union.range_min(cell), s2union.range_max(cell)) == (2 * first + 1, 2 * last + 1)
    assert (s2union.size(cell), s2union.is_cell(cell)) == (last - first + 1, True)


def test_a_token_in_upper_case_with_zeros():
    assert cell_of("0C00") == cell_of("0c")


@pytest.mark.parametrize("whole,children", [("1", "04 0c 14 1c"), ("04", "01 03 05 07")])
def test_children(whole, children):
    cell = cell_of(whole)
    for place, child in enumerate(map(cell_of, children.split())):
        assert (s2union.child(cell, place), s2union.parent(child)) == (child, cell)
        assert (s2union.contains(cell, child), s2union.contains(child, cell)) == (True, False)
        assert (s2union.intersects(cell, child), s2union.intersects(child, cell)) == (True, True)
        sibling = s2union.child(cell, (place + 1) % 4)
        assert (s2union.contains(child, sibling), s2union.intersects(child, sibling)) == (False, False)


@pytest.mark.parametrize("before,after", [("1c", "24"), ("04", "0c"), ("1", "3")])
def test_next_cells(before, after):
    assert s2union.next_cell(cell_of(before)) == cell_of(after)
    assert s2union.previous_cell(cell_of(after)) == cell_of(before)


def test_the_first_and_the_last_cell():
    assert s2union.next_cell(cell_of("b")) is None
    assert s2union.previous_cell(cell_of("1")) is None


@pytest.mark.parametrize("one,other,ancestor", [("05", "07", "04"), ("04", "05", "04"), ("04", "0c", "1"),
                                                ("1", "3", None)])
def test_common_ancestors(one, other, ancestor):
    one, other = cell_of(one), cell_of(other)
    want = cell_of(ancestor) if ancestor else None
    assert (s2union.common_ancestor(one, other), s2union.common_ancestor(other, one)) == (want, want)


@pytest.mark.parametrize("face,places", [
    (0, "00 10 11 01 02 03 13 12 22 23 33 32 31 21 20 30"), (1, "00 01 11 10 20 30 31 21 22 32 33 23 13 12 02 03")])
def test_the_first_leaves_of_an_even_and_of_an_odd_face(face, places):
    for number, (i, j) in enumerate(map(int, place) for place in places.split()):
        leaf = 2 * (face * 4**30 + number) + 1
        assert (s2union.square(leaf), s2union.from_face_ij(face, i, j)) == ((face, i, j, 1), leaf)


def test_the_last_leaf_of_a_face():
    assert s2union.from_face_ij(0, LAST, 0) == cell_of("1fffffffffffffff")


@pytest.mark.parametrize("token,square", [
    ("04", (0, 0, 0, 536870912)), ("0c", (0, 0, 536870912, 536870912)),
    ("14", (0, 536870912, 536870912, 536870912)), ("1c", (0, 536870912, 0, 536870912)),
    ("24", (1, 0, 0, 536870912)), ("2c", (1, 536870912, 0, 536870912)),
    ("34", (1, 536870912, 536870912, 536870912)), ("3c", (1, 0, 536870912, 536870912)),
    ("1", (0, 0, 0, 1073741824)), ("64c", (3, 268435456, 402653184, 134217728)),
    ("bfffffffffffffff", (5, 0, 1073741823, 1)),
])
def test_squares(token, square):
    assert s2union.square(cell_of(token)) == square


@pytest.mark.parametrize("given,normal", NORMAL)
def test_siblings_merge_again_and_faces_never(given, normal):
    assert union_of(given).tokens() == normal.split()


@pytest.mark.parametrize("tokens", ["", "1 3 5 7 9 b", "04 0c 14"])
def test_normalized_lists(tokens):
    cells = [cell_of(token) for token in tokens.split()]
    assert list(UnionFile(model.file(cells))) == cells


@pytest.mark.parametrize("tokens", ["04 0c 14 1c", "0c 04", "04 04", "04 1"])
def test_lists_that_are_not_normalized(tokens):
    with pytest.raises(ValueError):
        UnionFile(model.file([cell_of(token) for token in tokens.split()]))


@pytest.mark.parametrize("a,b,either,both,less", [
    ("04 0c", "0c 14", "04 0c 14", "0c", "04"), ("0c 14", "0c", "0c 14", "0c", "14"),
    ("04 0c 14", "1c", "1", "", "04 0c 14"), ("1", "04 05", "1", "04", "0c 14 1c"), ("", "1", "1", "", ""),
])
def test_sets_of_leaves(a, b, either, both, less):
    a, b = union_of(a), union_of(b)
    assert (a | b, a & b, a - b) == (union_of(either), union_of(both), union_of(less))


def test_a_leaf_leaves_a_face_and_returns():
    face, leaf = union_of("1"), union_of(LEAF)
    rest = face - leaf
    assert (len(rest), rest.leaf_count()) == (90, 4**30 - 1)
    assert (rest | leaf, leaf | rest, rest & leaf) == (face, face, Union())


def test_six_faces_without_a_hundred_leaves():
    faces = union_of("1 3 5 7 9 b")
    leaves = Union(2 * k * 69175290276410818 + 1 for k in range(100))
    rest = faces - leaves
    assert (len(leaves), rest.leaf_count()) == (100, 6917529027641081756)
    assert len(rest) > 1000
    assert list(rest) == model.normal(model.rest(model.runs(leaves)))


@pytest.mark.parametrize("a,b,contains,intersects", HELD)
def test_inclusion_and_shared_leaves(a, b, contains, intersects):
    a, b = union_of(a), union_of(b)
    assert (a >= b, a.intersects(b)) == (contains, intersects)
    if len(b) == 1:
        assert (b[0] in a, a.intersects_cell(b[0])) == (contains, intersects)


@pytest.mark.parametrize("first,last,tokens,leaves", [
    ("1", "b", "1 3 5 7 9 b", 6 * 4**30), ("1c", "24", "1c 24", 4**30 // 2),
    ("0000000000000003", "0000000000000009",
     "0000000000000003 0000000000000005 0000000000000007 0000000000000009", 4),
])
def test_ranges_across_faces(first, last, tokens, leaves):
    made = Union.from_range(cell_of(first), cell_of(last))
    assert (made.tokens(), made.leaf_count()) == (tokens.split(), leaves)


@pytest.mark.parametrize("tokens,least,modulus,want", CUT)
def test_levels_that_are_wanted(tokens, least, modulus, want):
    assert list(map(s2union.token, union_of(tokens).denormalised(least, modulus))) == want.split()


def test_as_many_cells_as_are_wanted():
    face = union_of("1")
    assert (len(face.denormalised(9)), len(face.denormalised(10))) == (4**9, 4**10)
    assert len(face.denormalised(3, most=64)) == 64
    for level, most, count in ((30, 0, 4**30), (3, 63, 64)):
        with pytest.raises(ValueError, match=f"too many cells: {count}$"):
            face.denormalised(level, most=most)


@pytest.mark.parametrize("rectangle,level,inner,most,want", [
    ((0, 0, 2, 0, 0), 29, False, 9, FIRST_AND_LAST), ((0, 0, 2, 0, 0), 29, True, 9, ""),
    ((0, 0, 1, 0, 1), 30, True, 9, FIRST_FOUR),
    ((0, 0, LAST, 0, LAST), 1, False, 1, "1"),  # the limit is that of merged cells
])
def test_coverings(rectangle, level, inner, most, want):
    assert Union.covering(*rectangle, level, inner, most).tokens() == want.split()


@pytest.mark.parametrize("wrong", [(6, 0, 0, 0, 0), (0, 1, 0, 0, 0), (0, 0, 0, 3, 2), (0, 0, LAST + 1, 0, 0),
                                   (0, 0, 0, 0, LAST + 1)])
def test_rectangles_that_are_refused(wrong):
    with pytest.raises(ValueError):
        Union.covering(*wrong, 30)
    with pytest.raises(ValueError):
        union_of("0000000000000003").outer(30, rectangle=wrong)


@pytest.mark.parametrize("wrong,error", [((0, 0, 0, 0), ValueError), (7, TypeError), ((0, 0, 0, 0, 0.5), TypeError)])
def test_rectangles_that_are_none(wrong, error):
    with pytest.raises(error):
        union_of("0000000000000003").outer(30, rectangle=wrong)
    with pytest.raises(error):
        union_of("0000000000000003").inner(30, rectangle=wrong)


def test_coverings_of_a_leaf():
    leaf = union_of("0000000000000003")
    assert (leaf.outer(29).tokens(), leaf.inner(29).tokens()) == ([FIRST_FOUR], [])
    assert leaf.outer(29, rectangle=(0, 0, 2, 0, 2)).tokens() == [FIRST_FOUR]
    assert leaf.outer(29, rectangle=[0, 0, 0, 0, 0]).tokens() == []
    with pytest.raises(ValueError):
        Union.covering(0, 0, LAST, 0, 0, 1, most=1)


@contextlib.contextmanager
def address_space(more):
    """Lets the process have this many bytes of memory more than it has."""
    pages = int(Path("/proc/self/statm").read_text().split()[0])
    before = resource.getrlimit(resource.RLIMIT_AS)
    resource.setrlimit(resource.RLIMIT_AS, (pages * mmap.PAGESIZE + more, before[1]))
    try:
        yield
    finally:
        resource.setrlimit(resource.RLIMIT_AS, before)


class Park(Union):
    """A subclass that is made from other things than cells."""

    def __new__(cls, name, tokens):
        return cls.from_tokens(tokens)

    def __init__(self, name, tokens):
        super().__init__(name, tokens)
        self.__dict__["name"] = name


TRIANGLE = [(10, 1, 1), (10, 9, 1), (10, 1, 9)], [3], s2union.from_face_ij(3, 0, 0)  # corners, ends, a leaf outside


class TheModule(unittest.TestCase):
    def test_a_file_that_is_opened(self):
        """It answers until it is closed, also by another name of its path, and what can't be opened is an error."""
        union = Union.from_tokens("04 1c")
        with tempfile.TemporaryDirectory() as folder:
            path = Path(folder, "it")
            path.write_bytes(union.to_bytes())
            for name in (path, str(path)):
                with UnionFile.open(name) as file:
                    self.assertEqual((len(file), file.union(), type(file)), (2, union, UnionFile))
                for question in (file.union, file.leaf_count, file.ancestors, lambda: union[0] in file,
                                 lambda: file.contains(file), lambda: file.contains_cells(union), lambda: len(file),
                                 lambda: bool(file), lambda: file[0], lambda: file[9], lambda: file[:0],
                                 lambda: list(file), lambda: pickle.dumps(file)):
                    self.assertRaisesRegex(ValueError, "released memoryview", question)
                file.close()
            for wrong in (b"", b"\1", union.to_bytes()[:-1]):
                path.write_bytes(wrong)
                self.assertRaisesRegex(ValueError, "union file: bytes are missing", UnionFile.open, path)
            path.write_bytes(model.file([FACE + 2 * FACE, FACE]))
            self.assertRaises(ValueError, UnionFile.open, path)
            self.assertEqual(len(UnionFile.open(path, checked=True)), 2)
            self.assertRaises(FileNotFoundError, UnionFile.open, Path(folder, "none"))
            self.assertRaises(OSError, UnionFile.open, folder)

    def test_as_a_collection(self):
        a = Union.from_tokens("04 0c 14")
        self.assertEqual((len(a), bool(a), bool(Union())), (3, True, False))
        self.assertEqual((a[0], a[-1]), (s2union.from_token("04"), s2union.from_token("14")))
        self.assertEqual((a[1:], list(reversed(a))), (list(a)[1:], list(a)[::-1]))
        self.assertRaises(IndexError, lambda: a[3])
        self.assertEqual(repr(a), "<CellUnion of 3 cells: 04 0c 14>")
        tokens = [model.token(model.identifier(2, 5 * k)) for k in range(9)]
        eight = Union.from_tokens(" ".join(tokens[:8]))
        self.assertEqual(repr(eight), f"<CellUnion of 8 cells: {' '.join(tokens[:8])}>")
        shown = f"<CellUnion of 9 cells: {' '.join(tokens[:8])} and 1 more>"
        self.assertEqual(repr(Union.from_tokens(" ".join(tokens))), shown)
        self.assertEqual((a.issubset(Union([FACE])), Union([FACE]).issubset(a)), (True, False))
        self.assertEqual((a.issuperset(Union([FACE])), Union([FACE]).issuperset(a)), (False, True))
        self.assertEqual((a.issubset(a), a.issuperset(a)), (True, True))
        self.assertEqual({a: 1}[Union(list(a))], 1)
        self.assertEqual(a.tokens(), ["04", "0c", "14"])
        with self.assertRaises(AttributeError):
            a._ids = b""

    def test_texts_for_a_person(self):
        few = Union(range(1, 4 * 8 + 1, 4))
        self.assertEqual(repr(few), "<CellUnion of 8 cells: " + " ".join(few.tokens()) + ">")
        more = Union(range(1, 4 * 9 + 1, 4))
        self.assertEqual(repr(more), "<CellUnion of 9 cells: " + " ".join(few.tokens()) + " and 1 more>")
        self.assertEqual(repr(Union()), "<CellUnion of 0 cells: >")

    def test_no_map_where_something_is_missing(self):
        with mock.patch.dict(sys.modules, {"s2union_geo": None}):
            self.assertIsNone(Union.from_tokens("04")._repr_html_())
        if numpy is None:
            self.assertIsNone(Union.from_tokens("04")._repr_html_())

    def test_subsets_both_ways(self):
        part, whole, other = Union.from_tokens("04"), Union.from_tokens("04 0c"), Union.from_tokens("14")
        for a, b, is_subset in ((part, whole, True), (whole, part, False), (part, part, True), (part, other, False),
                                (Union(), part, True), (part, Union(), False)):
            self.assertEqual((a.issubset(b), b.issuperset(a)), (is_subset, is_subset))
            self.assertEqual((a <= b, b >= a), (is_subset, is_subset))

    def test_just_as_many_cells_as_are_allowed(self):
        face = Union([FACE])
        for level, count in ((1, 4), (3, 64)):
            self.assertEqual(len(face.denormalised(level, most=count)), count)
            self.assertEqual(len(face.denormalised(level, most=count + 1)), count)
            with self.assertRaisesRegex(ValueError, f"too many cells: {count}$"):
                face.denormalised(level, most=count - 1)
        self.assertEqual(Union().denormalised(3, most=0), [])
        for level in (30, 29, 25):
            with self.assertRaisesRegex(MemoryError, f"out of memory: {4**level} numbers are wanted$"):
                face.denormalised(level)

    def test_many_unions(self):
        faces = [Union([(2 * k + 1) * FACE]) for k in range(6)]
        a, b, c = (Union.from_tokens(text) for text in ("04 0c", "0c 14", "04 0c 3"))
        sphere = Union.from_range(faces[0][0], faces[5][0])
        self.assertEqual((Union.of(faces), Union.of(iter(faces)), Union.of([])), (sphere, sphere, Union()))
        self.assertEqual((Union.of([a, b, a]), a.union(b, c), a.union(b), a.union()), (a | b, a | b | c, a | b, a))
        self.assertEqual((a.intersection(b, c), a.intersection(b), a.intersection()), (a & b & c, a & b, a))
        self.assertEqual((a.difference(b, c), a.difference(b), a.difference()), (a - b - c, a - b, a))
        self.assertEqual(a.symmetric_difference(b), a ^ b)
        self.assertEqual(len({id(a.of([a, b])), id(a)}), 2)
        for other in (list(b), set(b), iter(b), b.ids):
            self.assertEqual(a.union(other), a | b)
        cells = list(b)
        self.assertEqual((a.intersection(cells, c), a.difference(cells, c), a.symmetric_difference(cells)),
                         (a & b & c, a - b - c, a ^ b))
        self.assertEqual((a.intersects(cells), a.isdisjoint(cells), a.issubset(cells), a.issuperset(cells[:1])),
                         (True, False, False, True))
        self.assertEqual((Union.of([a, cells]), isinstance(a, Set)), (a | b, True))
        for wrong in (None, 3, "1"):
            for call in (a.union, a.intersection, a.difference, a.symmetric_difference):
                self.assertRaises(TypeError, call, wrong)
            for call in (a.union, a.intersection, a.difference):
                self.assertRaises(TypeError, call, b, wrong)
            self.assertRaises(TypeError, Union.of, [a, wrong])
        random = Random(20261125)
        for _ in range(200):
            lists = [random.cells() for _ in range(random.randrange(5))]
            self.assertEqual(Union.of(map(Union, lists)), Union(sum(lists, [])))

    def test_many_long_lists(self):
        """In turns, apart, a long one among short ones, each twice as long, all the same, and cells of any size; also
        with the lists in another order, and with their cells in any order."""
        random = Random(20261127)
        turns = [[2 * (k + 100 * n) + 1 for n in range(100)] for k in range(0, 80, 2)]
        apart = [[2 * (1000 * k + 3 * n) + 1 for n in range(100 + k)] for k in range(40)]
        long = [[4 * n + 1 for n in range(8000)], *([random.randrange(1, 40000, 2)] for _ in range(50)), []]
        twice = [sorted(random.sample(range(1, 40000, 2), 2**k)) for k in range(13)]
        cells = [list(Union(random.cell(0, 12) for _ in range(random.randrange(200)))) for _ in range(40)]
        for lists in (turns, apart, long, twice, turns[:1] * 40, cells, []):
            want = array("Q", model.normal(model.runs(sum(lists, [])))).tobytes()
            for given in (lists, lists[::-1], [random.sample(one, len(one)) for one in lists]):
                ids, ends = array("Q", sum(given, [])), array("Q", accumulate(map(len, given)))
                self.assertEqual(bytes(s2union._library.union_of_many(ids.tobytes(), memoryview(ends))), want)

    def test_room_is_taken_for_the_shorter_of_two(self):
        many, one, none = Union(range(1, 8 * 1000, 8)), Union([1]), Union()
        for operation, name, x, y, room, want in (
                (operators.and_, "intersection", many, one, 2, one),
                (operators.and_, "intersection", one, many, 2, one),
                (operators.sub, "difference", one, many, 92, none),
                (operators.sub, "difference", many, one, 1091, Union(many[1:]))):
            with mock.patch.object(s2union._library, name, wraps=getattr(s2union._library, name)) as called:
                self.assertEqual(operation(x, y), want)
            called.assert_called_once_with("", room, x._ids, y._ids)
        whole = Union([FACE])
        self.assertEqual((whole & many, many & whole), (many, many))  # more than twice the shorter one

    def test_what_is_only_read_is_not_copied(self):
        a, park = Union(range(1, 8 * 10_000, 8)), Park("High Line", "89c259c")
        self.assertTrue(Union(a)._ids is a._ids and copy.deepcopy(park)._ids is park._ids)
        self.assertEqual((type(Union(park)), Union(park)), (Union, park))
        # In bytes: a list of 8 for each answer of 1; and room for 20,000 cells.
        for ask, most in ((s2union.is_union, 0), (s2union.levels, 90_000), (a.contains_cells, 90_000),
                          (a.__or__, 160_000)):
            tracemalloc.start()
            try:
                ask(a)
                self.assertLess(tracemalloc.get_traced_memory()[1], most + 8000, ask)
            finally:
                tracemalloc.stop()

    def test_numbers_with_a_sign(self):
        cells = [cell_of(text) for text in ("1", "7", "9", "b", "89c25", "bfffffffffffffff", LEAF)]
        signed = [s2union.to_signed(cell) for cell in cells]
        self.assertEqual([number < 0 for number in signed], [False, False, True, True, True, True, False])
        self.assertEqual(signed, [cell - 2**64 if cell >= 2**63 else cell for cell in cells])
        self.assertEqual([s2union.to_signed(number) for number in signed], signed)
        a = Union(cells)
        self.assertEqual((Union(signed), Union(array("q", signed)), Union(set(signed))), (a, a, a))
        for kind in "qlnQLN":
            self.assertEqual(Union(a.ids.cast("B").cast(kind)), a)
        for cell, number in zip(cells, signed):
            self.assertEqual((s2union.level(number), s2union.token(number)), (s2union.level(cell), s2union.token(cell)))
            self.assertTrue(s2union.is_cell(number) and number in a and s2union.contains(number, cell))
            self.assertEqual(s2union.range_min(number), s2union.range_min(cell))
        for wrong in (-1, -2**63 - 1, -2**63, 2**64):
            self.assertRaises(ValueError, s2union.level, wrong)
            self.assertRaises(ValueError, s2union.to_signed, wrong)
        self.assertFalse(s2union.is_cell(-1))

    def test_texts_of_many_cells(self):
        cells = [cell_of(text) for text in ("1c", "04", "04", LEAF, "b")]
        words = ["1c", "04", "04", LEAF, "b"]
        self.assertEqual((s2union.tokens(cells), s2union.tokens(iter(cells)), s2union.tokens([])), (words, words, []))
        self.assertEqual(s2union.tokens(array("Q", cells)), words)
        self.assertEqual(s2union.tokens(Union(cells)), Union(cells).tokens())
        self.assertEqual((s2union.from_tokens("1c,04 04 " + LEAF + "\n5/"), s2union.from_tokens(words)), (cells, cells))
        self.assertEqual((s2union.from_tokens(""), s2union.from_tokens([])), ([], []))
        with self.assertRaisesRegex(ValueError, "not a cell at place 1: 0x2$"):
            s2union.tokens([FACE, 2, 0])
        self.assertRaises(ValueError, s2union.from_tokens, "04 x")

    def test_many_cells(self):
        cells = [cell_of(text) for text in ("1c", "04", "1", LEAF, "9", "04")]
        for part in (cells, tuple(cells), iter(cells), array("Q", cells), array("q", map(s2union.to_signed, cells))):
            part = list(part) if not hasattr(part, "__len__") else part
            for name, one in (("levels", s2union.level), ("range_mins", s2union.range_min),
                              ("range_maxes", s2union.range_max)):
                self.assertEqual(getattr(s2union, name)(part), [one(cell) for cell in cells])
                self.assertEqual(getattr(s2union, name)([]), [])
            self.assertEqual(s2union.parents(part, 0), [s2union.parent(cell, 0) for cell in cells])
            self.assertEqual(s2union.token_fields(part), [s2union.token(cell).encode() for cell in cells])
        self.assertEqual(s2union.levels(iter(cells)), [1, 1, 0, 30, 0, 1])
        self.assertEqual(s2union.parents(Union(cells[:2]), 1), Union(cells[:2])[:])
        for name, more in (("levels", ()), ("parents", (0,)), ("range_mins", ()), ("range_maxes", ()),
                           ("token_fields", ())):
            with self.assertRaisesRegex(ValueError, "not a cell at place 1: 0x2$"):
                getattr(s2union, name)([FACE, 2, 0], *more)
            self.assertRaises(TypeError, getattr(s2union, name), ["x"], *more)
        with self.assertRaisesRegex(ValueError, "level 1 is deeper than the cell 1, which is of level 0, at place 2$"):
            s2union.parents(cells, 1)
        for level, error in ((31, ValueError), (-1, ValueError), ("1", TypeError), (True, TypeError)):
            self.assertRaises(error, s2union.parents, [], level)

    def test_many_points(self):
        points = [(0, 0, 0), (5, LAST, 1), (3, 2, LAST)]
        face, i, j = zip(*points)
        self.assertEqual(s2union.from_points(face, i, j), [s2union.from_face_ij(*point) for point in points])
        self.assertEqual(s2union.from_points([], iter(()), ()), [])
        for wrong in (((6,), (0,), (0,)), ((0,), (2**30,), (0,)), ((0,), (0,), (-1,)), ((0, 0), (0,), (0, 0))):
            self.assertRaises(ValueError, s2union.from_points, *wrong)
        self.assertRaises(TypeError, s2union.from_points, [0.5], [0], [0])

    @unittest.skipUnless(numpy, "numpy is not installed")
    def test_many_cells_for_numpy(self):
        cells = [cell_of(text) for text in ("1c", "04", "1", LEAF, "9")]
        unsigned = numpy.array(cells, numpy.uint64)
        for part in (unsigned, unsigned.view(numpy.int64), unsigned.astype(object), numpy.repeat(unsigned, 2)[::2]):
            own = "int64" if part.dtype == "int64" else "uint64"
            for found, kind, wanted in (
                    (s2union.levels(part), "uint8", [1, 1, 0, 30, 0]),
                    (s2union.parents(part, 0), own, [s2union.parent(cell, 0) for cell in cells]),
                    (s2union.range_mins(part), own, list(map(s2union.range_min, cells))),
                    (s2union.range_maxes(part), own, list(map(s2union.range_max, cells))),
                    (s2union.token_fields(part), "S16", [s2union.token(cell).encode() for cell in cells])):
                found_bits = found.view("uint64") if found.dtype == "int64" else found
                self.assertEqual((type(found), found.dtype, found_bits.tolist()), (numpy.ndarray, kind, wanted))
            self.assertEqual(s2union.parents(part[:0], 0).tolist(), [])
        points = numpy.array([(0, 0, 0), (5, LAST, 1), (3, 2, LAST)])
        for kind in ("int64", "uint64", "int32", "uint32"):
            found = s2union.from_points(*points.T.astype(kind))
            self.assertEqual((found.dtype, found.tolist()), ("uint64", [s2union.from_face_ij(*p) for p in points]))
        for wrong in (2**32, -1, 2**30):
            with self.assertRaisesRegex(ValueError, f"i is out of range at place 1: {wrong}$"):
                s2union.from_points(*numpy.array([(0, 0, 0), (0, wrong, 0)]).T)
        self.assertRaises(TypeError, s2union.from_points, *points.T.astype(float))
        self.assertRaises(TypeError, s2union.from_points, *3 * [points])

    def test_lists_that_are_unions(self):
        a = Union.from_tokens("04 0c 9")
        for cells in (a, list(a), iter(a), tuple(a), a.ids, array("q", map(s2union.to_signed, a)), [], Union()):
            self.assertIs(s2union.is_union(cells), True)
        for cells in (a[::-1], [*a, a[2]], [FACE, a[0]], Union([FACE]).denormalised(1), [2], [0], [FACE, -1]):
            self.assertIs(s2union.is_union(cells), False)
        for wrong in (None, 3, ["1"], "04"):
            self.assertRaises(TypeError, s2union.is_union, wrong)
        self.assertRaises(ValueError, s2union.is_union, [2**64])

    def test_answers_are_a_mask(self):
        a, cells = Union.from_tokens("04 0c"), [cell_of(text) for text in ("04", "14", "01", "1")]
        file = UnionFile(a.to_bytes())
        for part in (cells, array("Q", cells), tuple(cells), Union(cells[:2])):
            inside, shared = [cell in a for cell in part], [a.intersects_cell(cell) for cell in part]
            for asked in (a, file):
                answers = asked.contains_cells(part), asked.intersects_cells(part)
                self.assertEqual(answers, (inside, shared))
                self.assertEqual({type(answer) for answer in answers[0]}, {bool})
        self.assertRaises(ValueError, file.contains_cells, [FACE, 0])
        self.assertRaises(TypeError, file.contains_cells, ["x"])
        self.assertEqual((file.contains_cells([]), file.intersects_cells(())), ([], []))
        for question in (file.contains, file.intersects):
            self.assertRaisesRegex(TypeError, "a UnionFile is wanted, not CellUnion", question, file.union())

    @unittest.skipUnless(numpy, "numpy is not installed")
    def test_answers_are_a_mask_for_numpy(self):
        class Column:
            """As a column of pandas: made an array of numpy, and otherwise only iterable."""

            def __init__(self, numbers):
                self.numbers = numbers

            def __array__(self):
                return self.numbers

            def __iter__(self):
                return iter(self.numbers.tolist())

        a, cells = Union.from_tokens("04 0c 9"), [cell_of(text) for text in ("04", "14", "01", "1", "94")]
        signed = numpy.array(cells, numpy.uint64).view(numpy.int64)
        self.assertLess(signed.min(), 0)
        for asked in (a, UnionFile(a.to_bytes())):
            for part in (signed, Column(signed), Column(signed.view(numpy.uint64)), Column(signed.astype(object))):
                mask = asked.contains_cells(part)
                self.assertEqual((type(mask), mask.dtype, mask.tolist()),
                                 (numpy.ndarray, numpy.bool_, [True, False, True, False, True]))
                self.assertEqual(signed[mask].tolist(), signed[[0, 2, 4]].tolist())
            self.assertEqual(asked.contains_cells(signed[:0]).tolist(), [])
        for part in (signed, list(signed), Column(signed), Column(signed.astype(object))):
            self.assertEqual(Union(part), Union(cells))

    @unittest.skipUnless(pandas, "pandas is not installed")
    def test_pandas(self):
        a, cells = Union.from_tokens("04 0c 9"), [cell_of(text) for text in ("04", "14", "01", "1", "94")]
        frame = pandas.DataFrame({"leaf": [s2union.to_signed(cell) for cell in cells], "name": list("abcde")})
        for column in (frame.leaf, frame.leaf.tolist(), frame.leaf.to_numpy(), frame.leaf.astype("Int64")):
            self.assertEqual("".join(frame[a.contains_cells(column)].name), "ace")
            self.assertEqual("".join(frame[a.intersects_cells(column)].name), "acde")
        self.assertEqual((Union(frame.leaf), Union(pandas.Series(cells, dtype="uint64"))), (Union(cells), Union(cells)))
        for kind in ("float64", "Int64", "object"):
            missing = pandas.Series([FACE, 3 * FACE, None], dtype=kind, name="leaf", index=list("abc"))
            for name, column in ((" 'leaf'", missing), ("", missing.rename(None)), ("", missing.to_numpy())):
                for call in (Union, a.contains_cells, s2union.tokens):
                    with self.assertRaises(TypeError) as refusal:
                        call(column)
                    self.assertEqual(str(refusal.exception).partition(": ")[0],
                                     f"the column{name} has a missing value at place 2")

    @unittest.skipUnless(numpy, "numpy is not installed")
    def test_columns_without_a_copy(self):
        """A stand-in for a Series of polars and an Array of pyarrow, which Debian lacks: both hand out their memory by
        `__array__`, if they have no missing values, and floats if they have."""
        class Series:
            def __init__(self, values):
                self.values = values

            def __array__(self, *_):
                return self.values

        cells = numpy.array([0x0400000000000000, 0x0c00000000000000], numpy.uint64)
        for values in (cells, cells.view(numpy.int64)):
            self.assertTrue(numpy.shares_memory(numpy.asarray(s2union._ids_of(Series(values))), values))
            self.assertEqual(Union(Series(values)).tokens(), ["04", "0c"])
            self.assertEqual(s2union.parents(Series(values), 0).dtype, values.dtype)
        with self.assertRaisesRegex(TypeError, "drop or fill missing values"):
            s2union.levels(Series(cells.astype(float)))

    def test_errors_by_their_kinds(self):
        file = Union.from_tokens("04").to_bytes()
        for kind, base, call in (
                (s2union.NotACellError, ValueError, lambda: s2union.level(2)),
                (s2union.NotACellError, ValueError, lambda: s2union.level(2**64)),
                (s2union.OutOfRangeError, ValueError, lambda: s2union.parent(FACE, 1)),
                (s2union.OutOfRangeError, ValueError, lambda: s2union.child(FACE, 4)),
                (s2union.TooManyCellsError, ValueError, lambda: Union([FACE]).denormalised(3, most=1)),
                (s2union.NotNormalizedError, ValueError, lambda: UnionFile(model.file([3, 1]))),
                (s2union.OutOfMemoryError, MemoryError, lambda: Union([FACE]).denormalised(30)),
                (s2union.FileShortError, ValueError, lambda: UnionFile(file[:-1])),
                (s2union.FileVersionError, ValueError, lambda: Union.from_bytes(b"x" + file)),
                (s2union.FileTrailingError, ValueError, lambda: Union.from_bytes(file + b"x")),
                (s2union.FileCellError, ValueError, lambda: Union.from_bytes(model.file([2]))),
                (s2union.UnknownStatusError, ValueError, lambda: s2union._refuse(-99))):
            with self.assertRaises(s2union.S2UnionError) as refusal:
                call()
            found = refusal.exception
            self.assertEqual((type(found), isinstance(found, base)), (kind, True))
            self.assertEqual(issubclass(kind, s2union.UnionFileError), kind.__name__.startswith("File"))
            self.assertEqual((kind.__module__, type(pickle.loads(pickle.dumps(found)))), ("s2union", kind))

    def test_other_names(self):
        self.assertIs(s2union.Union, s2union.CellUnion)
        self.assertIs(Union.denormalized, Union.denormalised)

    def test_ids_hand_out_nothing_that_can_be_changed(self):
        a = Union.from_tokens("04 0c 14")
        for view in (a.ids, a.ids[1:], a.__array_interface__["data"]):
            self.assertTrue(view.readonly)
            self.assertIs(type(view.obj), bytes)
            with self.assertRaises(TypeError):
                view[0] = 1

    def test_files_are_copied_and_pickled(self):
        a = Union.from_tokens("04 0c 14")
        data = bytearray(a.to_bytes())
        file = UnionFile(data)
        made = [pickle.loads(pickle.dumps(file, protocol)) for protocol in range(pickle.HIGHEST_PROTOCOL + 1)]
        made.append(copy.deepcopy(file))
        self.assertIs(copy.copy(file), file)
        data[0] = 2
        self.assertRaises(ValueError, file.union)
        for again in made:
            self.assertEqual((type(again), again.union(), len(again)), (UnionFile, a, 3))
        data[0], data[9:17] = 1, bytes(8)
        self.assertRaises(ValueError, pickle.loads, pickle.dumps(UnionFile(data, checked=True)))

    def test_copies_and_pickles(self):
        a = Union.from_tokens("04 0c 14")
        for protocol in range(pickle.HIGHEST_PROTOCOL + 1):
            self.assertEqual(pickle.loads(pickle.dumps(a, protocol)), a)
        self.assertEqual((copy.copy(a), copy.deepcopy(a), Union(a), bytes(a)), (a, a, a, a.to_bytes()))
        self.assertEqual(s2union._unpickled(a.to_bytes()), a)

    def test_a_union_never_changes(self):
        a, b = Union.from_tokens("04 0c"), Union.from_tokens("14")
        known = {a: "a"}
        for again in (a.__init__, lambda cells=(): Union.__init__(a, cells)):
            for cells in (b, [FACE], [2], "text"):
                again(cells)
            again()
        self.assertEqual((a.tokens(), known[a], hash(a)), (["04", "0c"], "a", hash(Union(list(a)))))
        for name in ("_ids", "_hash", "other"):
            self.assertRaises(AttributeError, setattr, a, name, None)
            self.assertRaises(AttributeError, delattr, a, name)
        self.assertEqual(Union.__new__(Union), Union())
        self.assertRaises(TypeError, Union, [FACE], [FACE])
        self.assertRaises(TypeError, Union, cell=[FACE])

    def test_subclasses(self):
        class Named(Union):
            def __init__(self, cells=()):
                super().__init__(cells)
                object.__setattr__(self, "name", f"of {len(self)}")

        a = Named(cell for cell in Union.from_tokens("04 0c"))
        self.assertEqual((a.tokens(), a.name, Named().name), (["04", "0c"], "of 2", "of 0"))
        self.assertEqual((a, hash(a)), (Union(a), hash(Union(a))))
        self.assertIs(copy.copy(a), a)

    def test_each_union_that_a_subclass_answers(self):
        """It is of the subclass, whatever method or operator answers it."""
        given, other = Union.from_tokens("04 0c"), Union.from_tokens("0c 14")
        a, none, cell = Park("High Line", given.tokens()), Union(), given[0]
        rectangle = (0, 0, 2**30 - 1, 0, 2**30 - 1)
        calls = {
            "of": [([given],), ([],), ([given, other, a],)], "from_tokens": [("04",), (["04"],)],
            "from_range": [(cell, cell)], "from_bytes": [(given.to_bytes(),)],
            "covering": [(*rectangle, 1), (*rectangle, 1, True)],
            "of_polygon": [(*TRIANGLE, 3), (*TRIANGLE, 3, True)],
            "outer": [(0,), (0, 9, rectangle), (30,)], "inner": [(1,), (1, 9, rectangle), (0,)],
            "union": [(), (other,), (other, none), (none, other, given)],
            "intersection": [(), (other,), (other, given), (none,)],
            "difference": [(), (other,), (other, given), (none,)],
            "symmetric_difference": [(other,), (none,), (given,)], "complement": [()], "__invert__": [()],
            **dict.fromkeys(("__or__", "__and__", "__sub__", "__xor__"), [(other,), (none,), (given,), (a,)]),
            "__copy__": [()], "__deepcopy__": [({},)],
        }
        for name, arguments in calls.items():
            for each in arguments:
                found, plain = getattr(a, name)(*each), getattr(given, name)(*each)
                self.assertEqual((type(found), type(plain), found), (Park, Union, plain), (name, each))
        hidden = {"_normalised", "_made", "_holding", "_covered", "_with", "__new__"}
        members = {name: getattr(member, "__func__", member) for name, member in vars(Union).items()}
        answering = {name for name, member in members.items()
                     if getattr(member, "__annotations__", {}).get("return") == "Self"}
        self.assertEqual(answering - hidden, set(calls))

    def test_polygons(self):
        corners, ends, outside = TRIANGLE
        rows = array("q", [number for corner in corners for number in corner])
        for inner, tokens in ((False, ["11", "13", "144", "17"]), (True, ["114"])):
            found = Union.of_polygon(corners, ends, outside, 3, inner)
            self.assertEqual((found.tokens(), found), (tokens, Union.of_polygon(rows, ends, outside, 3, inner)))
        few = Union.few_of_polygon(corners, ends, outside, 4)
        self.assertEqual(s2union.tokens(few), ["11", "13", "144", "17"])
        cut = Union.few_of_polygon(corners, ends, outside, 4, least=3)
        self.assertEqual((Union(cut), {s2union.level(cell) for cell in cut}), (Union(few), {3}))
        inside = Union(Union.few_of_polygon(corners, ends, outside, 50, inner=True, deepest=9))
        self.assertTrue(inside < Union.of_polygon(corners, ends, outside, 9) and inside)
        for error, given in ((s2union.CornerError, ([(0, 0, 0), *corners[1:]], ends, outside, 3)),
                             (s2union.CornerError, ([(2**70, 0, 0), *corners[1:]], ends, outside, 3)),
                             (s2union.CornerError, ([*corners, (-10, -1, -1)], [4], outside, 3)),
                             (s2union.RingError, (corners, [2], outside, 3)),
                             (s2union.RingError, (corners, [], outside, 3)),
                             (s2union.RingError, (corners, [-1], outside, 3)),
                             (s2union.OutOfRangeError, (corners, ends, outside, 31)),
                             (s2union.OutOfRangeError, (corners, ends, s2union.parent(outside, 9), 3)),
                             (s2union.TooManyCellsError, (corners, ends, outside, 3, False, 0, 3)),
                             (TypeError, (array("d", [1, 2, 3]), ends, outside, 3))):
            self.assertRaises(error, Union.of_polygon, *given)
        self.assertRaises(s2union.OutOfRangeError, Union.few_of_polygon, *TRIANGLE, 9, least=4, deepest=3)

    def test_deep_copies(self):
        a = Union.from_tokens("04 0c")
        self.assertIs(copy.deepcopy([a])[0], a)
        park = Park(["High Line", {}], "89c259c")
        park.name[1]["itself"] = park
        copied = copy.deepcopy([park, park])
        self.assertIs(copied[0], copied[1])
        again = copied[0]
        self.assertEqual((type(again), again, hash(again)), (Park, park, hash(park)))
        self.assertIs(again.name[1]["itself"], again)
        again.name[0] = "another"
        self.assertEqual(park.name[0], "High Line")

    def test_subclasses_are_pickled_as_they_are(self):
        for protocol in range(pickle.HIGHEST_PROTOCOL + 1):
            again = pickle.loads(pickle.dumps(Park("High Line", "89c259c"), protocol))
            self.assertEqual((type(again), again.name, again.tokens()), (Park, "High Line", ["89c259c"]))

    def test_a_refused_word_ends_only_where_the_library_ends_it(self):
        others = set(range(128)) - set(b" \t\n\r,")
        for word in [b"\f", b"\v"] + [shape % byte for byte in others for shape in (b"%cx", b"x%cy", b"x%c")]:
            for text, place in ((word, 0), (b"04 " + word + b",0c", 3), (b"04\n" + word + b"\t", 3), (word + b"\r", 0)):
                with self.assertRaises(ValueError) as refusal:
                    Union.from_tokens(text)
                self.assertEqual(str(refusal.exception), f"not a cell: {word.decode()!r} at place {place}")

    def test_buffers(self):
        a = Union.from_tokens("04 0c 14")
        self.assertEqual(Union(a.ids), a)
        given = array("Q", [3, *a, 1])
        self.assertEqual((Union(given), given), (a, array("Q", [3, *a, 1])))
        self.assertTrue(a.ids.readonly)
        square = memoryview(array("Q", [1, 2, 3, 4])).cast("B").cast("Q", (2, 2))
        for wrong in (b"12345678", array("d", [1.0]), array("I", [1]), square):
            self.assertRaises(TypeError, Union, wrong)
        self.assertEqual(Union(memoryview(array("Q", [1, 0, 3, 0]))[::2]), Union([1, 3]))
        for kind in (ctypes.c_uint64, ctypes.c_size_t, ctypes.c_uint64.__ctype_le__, ctypes.c_int64, ctypes.c_ssize_t):
            self.assertEqual((Union((kind * 2)(3, 1)), Union((kind * 0)())), (Union([1, 3]), Union()))
        for kind in (ctypes.c_uint64.__ctype_be__, ctypes.c_uint32, ctypes.c_int32, ctypes.c_double):
            self.assertRaises(TypeError, Union, (kind * 1)(1))
        with tempfile.TemporaryFile() as stored:
            stored.write(b"x" + a.to_bytes())
            stored.flush()
            with mmap.mmap(stored.fileno(), 0, access=mmap.ACCESS_READ) as mapped:
                file = UnionFile(memoryview(mapped)[1:])
                self.assertEqual((file.union(), a[0] in file), (a, True))
                del file

    def test_functions_that_all_modules_share_are_left_as_they_are(self):
        for function in (ctypes.pythonapi.PyObject_GetBuffer, ctypes.pythonapi.PyBuffer_Release):
            self.assertEqual((function.argtypes, function.restype), (None, ctypes.c_int))

    def test_refused_buffers_are_dropped_without_a_complaint(self):
        with mock.patch("sys.unraisablehook") as complain:
            for wrong in ("text", 3, memoryview(b"abcd")[::2]):
                self.assertRaises(TypeError, Union.from_bytes, wrong)
                self.assertRaises(TypeError, UnionFile, wrong)
        complain.assert_not_called()

    def test_bytes_of_2_gib_and_more_are_copied_whole(self):
        for size in (2**31 + 1, 2**32 + 17):
            with tempfile.TemporaryFile() as stored:  # of one page: nobody reads the others
                stored.truncate(size)
                with mmap.mmap(stored.fileno(), size) as mapped:
                    mapped[:9] = (1).to_bytes(1, "little") + ((size - 9) // 8).to_bytes(8, "little")
                    file = UnionFile(mapped, checked=True)
                    self.assertEqual(len(file), (size - 9) // 8)
                    with address_space(2**30):  # too little for a copy of them all, and enough for any other
                        self.assertRaises(MemoryError, pickle.dumps, file)
                        self.assertRaises(MemoryError, file.union)
                        self.assertRaises(MemoryError, Union.from_bytes, mapped)
                    del file

    def test_a_file_as_a_collection(self):
        a = Union.from_tokens("04 0c 1c 24 31")
        file, none = UnionFile(a.to_bytes()), UnionFile(Union().to_bytes())
        self.assertEqual((list(file), list(none), none[:]), (list(a), [], []))
        for place in (0, 4, -1, -5, slice(None), slice(1, 3), slice(None, None, -2), slice(-2, 2**70), slice(9, 3)):
            self.assertEqual(file[place], a[place])
        for place in (5, -6, 2**64, 2**64 + 1, -2**64, 2**100):
            self.assertRaises(IndexError, lambda: file[place])
            self.assertRaises(IndexError, lambda: none[place])
        for place in ("x", None, 1.0, (0, 1), slice("x"), slice(0, 1, "x")):
            self.assertRaises(TypeError, lambda: file[place])
        self.assertRaises(ValueError, lambda: file[::0])

    def test_a_file_that_is_taken_as_checked(self):
        """Only its size and its version are looked at, before anything is asked of it."""
        for wrong, fault in model.faults_of_files():
            if fault != "a number that is not a cell":
                with self.assertRaisesRegex(ValueError, f"^union file: {fault}$"):
                    UnionFile(wrong, checked=True)
        self.assertEqual(len(UnionFile(model.file([2, 2, 2]), checked=True)), 3)

    def test_a_file_is_made_once(self):
        a, other = Union.from_tokens("04 0c"), Union.from_tokens("14").to_bytes()
        file = UnionFile(a.to_bytes())

        class Cell:
            def __index__(self):
                file.__init__(other)  # the bytes that the question is about to read would go
                return a[0]

        for again in (lambda: file.__init__(other), lambda: UnionFile.__init__(file, b"", checked=True),
                      lambda: Cell() in file, lambda: file.intersects_cell(Cell())):
            self.assertRaises(TypeError, again)
            self.assertEqual((len(file), file.union(), file.ancestors()), (2, a, a.ancestors()))
        unmade = UnionFile.__new__(UnionFile)
        self.assertRaises(ValueError, unmade.__init__, other[:-1])
        unmade.__init__(other)
        self.assertEqual(unmade.union().tokens(), ["14"])

    def test_a_file_that_is_damaged_after_it_was_opened(self):
        data = bytearray(Union.from_tokens("04").to_bytes())
        whole, damaged = UnionFile(bytes(data)), UnionFile(data)
        data[0] = 2
        questions = [damaged.leaf_count, damaged.ancestors, damaged.union, lambda: damaged[0], lambda: list(damaged)]
        for text in ("04", "14"):
            cell = s2union.from_token(text)
            questions += [lambda cell=cell: cell in damaged, lambda cell=cell: damaged.intersects_cell(cell)]
        for a, b in ((whole, damaged), (damaged, whole)):
            questions += [lambda a=a, b=b: a.contains(b), lambda a=a, b=b: a.intersects(b)]
        for question in questions:
            with self.assertRaisesRegex(ValueError, "unknown version"):
                question()

    def test_bytes_that_are_written_during_a_call(self):
        a = Union.from_tokens("04 0c 1c")
        for name, ask, want in (("decode", Union.from_bytes, a),
                                ("decode", lambda data: UnionFile(data).union(), a),
                                ("file_ancestors", lambda data: UnionFile(data).ancestors(), a.ancestors())):
            data, call = bytearray(a.to_bytes()), getattr(s2union._library, name)

            def call_after_a_write(*arguments):
                data[9:] = bytes(len(data) - 9)
                return call(*arguments)

            with mock.patch.object(s2union._library, name, call_after_a_write):
                self.assertEqual(ask(data), want)
            self.assertRaises(ValueError, ask, data)
        self.assertRaises(ValueError, Union.from_bytes, bytearray())

    def test_the_array_interface_holds_the_cells(self):
        for cells in ([], [FACE], [1, 3, 9]):
            interface = Union(cells).__array_interface__  # the union itself is gone
            shown = interface.pop("data")
            self.assertEqual(interface, {"shape": (len(cells),), "typestr": "<u8", "version": 3})
            self.assertEqual((shown.readonly, list(shown)), (True, cells))

    @unittest.skipUnless(numpy, "numpy is not installed")
    def test_numpy_shows_the_cells_and_keeps_them(self):
        for cells in ([], [FACE], list(range(1, 40001, 4))):
            a = Union(cells)
            view, interface = numpy.asarray(a), a.__array_interface__
            self.assertTrue(numpy.shares_memory(view, numpy.asarray(a.ids)) or not cells)
            del a
            held = numpy.asarray(SimpleNamespace(__array_interface__=interface))
            del interface
            gc.collect()
            others = [Union(range(3, 40003, 4)) for _ in range(9)]  # takes memory that was given back
            for found in (view, held):
                self.assertEqual((found.dtype, found.shape, found.tolist()), (numpy.uint64, (len(cells),), cells))
                self.assertFalse(found.flags.writeable)
                self.assertRaises(ValueError, found.setflags, write=True)
                self.assertRaises(ValueError, found.fill, 7)
                self.assertEqual(Union(found), Union(cells))
            del others

    @unittest.skipUnless(numpy, "numpy is not installed")
    def test_numpy(self):
        ids = numpy.array([s2union.from_token(text) for text in ("14", "04", "0c", "04")], numpy.uint64)
        a = Union(ids)
        view = numpy.asarray(a)
        self.assertEqual((view.dtype, view.tolist()), (numpy.uint64, list(a)))
        self.assertFalse(view.flags.writeable)
        self.assertEqual(Union(ids[::2]), Union(list(ids[::2])))
        unaligned = numpy.frombuffer(b"x" + ids.tobytes(), numpy.uint64, offset=1)
        column = numpy.array([(0, cell) for cell in ids], [("byte", "u1"), ("cell", "<u8")])["cell"]
        for cells in (unaligned, unaligned[::-1], column, ids.astype("<u8")):
            self.assertEqual((Union(cells), Union(cells[:0])), (a, Union()))
        self.assertTrue(ids[0] in a)
        self.assertEqual(UnionFile(a.to_bytes())[numpy.int64(1)], a[1])
        for kind in (numpy.float64, numpy.uint32, numpy.int32, ">u8", ">i8", numpy.bool_):
            self.assertRaises(TypeError, Union, ids.astype(kind))
        self.assertRaises(TypeError, Union, ids.reshape(2, 2))

    def test_wrong_types_and_numbers(self):
        a = Union([FACE])
        class Index:
            def __index__(self):
                return 1.5

        for wrong in (None, "1", 1.0, b"1", [], object(), True, Index(), *([numpy.bool_(True)] if numpy else [])):
            self.assertRaises(TypeError, s2union.level, wrong)
            self.assertRaises(TypeError, lambda: wrong in a)
        for wrong in (-1, 2**64, 2**100, 0):
            self.assertRaises(ValueError, s2union.level, wrong)
            self.assertRaises(ValueError, Union, [wrong])
        for wrong in (None, 3, [None], ["1"], [1.5], "04"):
            self.assertRaises((TypeError, ValueError), Union, wrong)
        for wrong in (None, 3, [FACE], {FACE}, "1"):
            for operator in ("or_", "and_", "sub", "xor", "le", "lt", "ge", "gt"):
                self.assertRaises(TypeError, getattr(operators, operator), a, wrong)
            for call in (a.intersects, a.isdisjoint, a.issubset, a.issuperset):
                if isinstance(wrong, (list, set)):
                    self.assertEqual(call(wrong), call(a))
                else:
                    self.assertRaises(TypeError, call, wrong)
            self.assertNotEqual(a, wrong)
        for wrong in (None, 3, "text", ["x"]):
            self.assertRaises(TypeError, Union.from_bytes, wrong)
            self.assertRaises(TypeError, UnionFile, wrong)
            self.assertRaises(TypeError, s2union.from_token, None)
        self.assertRaises(TypeError, UnionFile(a.to_bytes()).contains, a)
        self.assertRaises(ValueError, a.contains_cells, [FACE, 0])
        self.assertRaises(TypeError, a.contains_cells, ["x"])
        self.assertEqual((a.contains_cells([]), a.intersects_cells([])), ([], []))
        self.assertRaises(ValueError, a.denormalised, 31)
        self.assertRaises(ValueError, a.denormalised, 0, 0)
        self.assertRaises(ValueError, a.denormalised, 0, 4)
        self.assertRaises(ValueError, s2union.parent, FACE)
        self.assertRaises(ValueError, s2union.child, 1, 0)

    def test_the_oldest_python_that_it_is_for_can_read_it(self):
        project = (Path(__file__).parents[1] / "pyproject.toml").read_text()
        oldest = re.search(r'^requires-python = ">=3\.(\d+)"$', project, re.M)[1]
        for file in Path(s2union.__file__).parent.glob("*.py"):
            ast.parse(file.read_text(), feature_version=(3, int(oldest)))

    def test_version(self):
        self.assertEqual(s2union.version(), tuple(map(int, model.VERSION.split("."))))
        self.assertEqual(s2union.__version__, model.VERSION)

    def test_each_parameter_and_answer_has_a_type(self):
        offered = [getattr(s2union, name) for name in s2union.__all__]
        members = [*vars(Union).values(), *vars(UnionFile).values()]
        calls = [getattr(call, "fget", getattr(call, "__func__", call)) for call in offered + members]
        calls = [call for call in calls if inspect.isfunction(call)]
        self.assertGreater(len(calls), 80)
        for call in calls:
            signature = inspect.signature(call)
            kinds = [given.annotation for name, given in signature.parameters.items() if name not in ("self", "cls")]
            self.assertNotIn(inspect.Parameter.empty, kinds + [signature.return_annotation], call.__qualname__)
        self.assertTrue((Path(s2union.__file__).parent / "py.typed").exists())

    def test_a_library_that_is_not_found(self):
        with tempfile.TemporaryDirectory() as folder:
            shutil.copytree(Path(s2union.__file__).parent, Path(folder) / "s2union")
            where = Path(folder) / "s2union" / "_where.py"  # by a name that is installed nowhere
            where.write_text(where.read_text().replace('NAME = "libs2union.so.1"', 'NAME = "libs2union.so.none"'))
            given = {"PATH": os.environ["PATH"], "PYTHONPATH": folder, "PYTHONDONTWRITEBYTECODE": "1"}
            (Path(folder) / "other.so").write_bytes(b"")
            for more, message in (({}, "libs2union.so.none is not beside the module.*set S2UNION_LIBRARY"),
                                  ({"S2UNION_LIBRARY": "/no/such"}, "S2UNION_LIBRARY is '/no/such'"),
                                  ({"S2UNION_LIBRARY": folder + "/other.so"}, "can't load it .*other.so"),
                                  ({"S2UNION_LIBRARY": "libc.so.6"}, "libc.so.6 has no call s2u_\\w+")):
                said = subprocess.run([sys.executable, "-c", "import s2union"], env={**given, **more}, text=True,
                                      cwd=folder, stderr=subprocess.PIPE).stderr
                self.assertRegex(said, f"\nImportError: .*{message}")

    def test_a_library_beside_the_module_and_in_the_two_folders_above(self):
        library = s2union._where.path()
        if not os.path.exists(library):
            self.skipTest("the system has found the library")
        with tempfile.TemporaryDirectory() as folder:
            home = Path(folder) / "lib" / "python" / "s2union"
            shutil.copytree(Path(s2union.__file__).parent, home, ignore=shutil.ignore_patterns("libs2union*"))
            given = {"PATH": os.environ["PATH"], "PYTHONPATH": str(home.parent), "PYTHONDONTWRITEBYTECODE": "1"}
            for place in (home, home.parent, home.parent.parent):
                there = shutil.copy(library, place / "libs2union.so.1")
                done = subprocess.run([sys.executable, "-c", "import s2union; print(s2union.level(1))"], env=given,
                                      cwd=folder, text=True, stdout=subprocess.PIPE, stderr=subprocess.PIPE)
                self.assertEqual((done.stdout, done.stderr), ("30\n", ""), place)
                os.remove(there)


Examples = docstrings.tests_of(s2union)
