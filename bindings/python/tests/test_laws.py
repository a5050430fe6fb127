"""Laws of sets and of lists, which hypothesis tries on cells that it makes up and shortens."""

import unittest

import pytest
from model import unions as model
from s2union import Union

hypothesis = pytest.importorskip("hypothesis")
given, settings, made = hypothesis.given, hypothesis.settings, hypothesis.strategies

LEAVES = 6 * 4**30
EVERY = settings(max_examples=300, deadline=None, database=None, derandomize=True)


@made.composite
def cells(draw):
    """A cell anywhere, or one of few that are siblings, parents and neighbors of each other."""
    level = draw(made.integers(0, 30))
    if draw(made.booleans()):
        return model.identifier(level, draw(made.integers(0, 6 * 4**level - 1)))
    level = draw(made.integers(26, 30))
    return model.identifier(level, 11 * 4 ** (level - 2) + draw(made.integers(0, 4 ** (level - 26) - 1)))


lists = made.lists(cells(), max_size=12)
unions = made.builds(Union, lists)


class Laws(unittest.TestCase):
    @EVERY
    @given(lists, made.randoms(use_true_random=False))
    def test_a_union_is_the_normal_form_of_its_cells(self, given_cells, random):
        union = Union(given_cells)
        self.assertEqual(list(union), model.normal(model.runs(given_cells)))
        random.shuffle(given_cells)
        self.assertEqual((Union(given_cells + given_cells[:3]), Union(union)), (union, union))

    @EVERY
    @given(unions, unions, unions)
    def test_the_algebra_of_sets(self, a, b, c):
        self.assertEqual((~(a | b), ~(a & b), ~~a), (~a & ~b, ~a | ~b, a))
        self.assertEqual((a - b, a ^ b), (a & ~b, (a | b) - (a & b)))
        self.assertEqual((a & (b | c), (a ^ b) ^ c, a ^ b ^ b), ((a & b) | (a & c), a ^ (b ^ c), a))
        self.assertEqual((a <= b, a.isdisjoint(b)), (a | b == b, a & b == Union()))
        self.assertEqual(Union.of([a, b, c]), a | b | c)

    @EVERY
    @given(unions, unions)
    def test_counts_and_keys(self, a, b):
        self.assertEqual(a.leaf_count() + (~a).leaf_count(), LEAVES)
        self.assertEqual((a | b).leaf_count() + (a & b).leaf_count(), a.leaf_count() + b.leaf_count())
        meet = set(a) & set(b.ancestors()) or set(b) & set(a.ancestors())
        self.assertEqual(a.intersects(b), bool(meet))

    @EVERY
    @given(unions, cells())
    def test_one_cell_is_a_union_of_one(self, a, cell):
        one = Union([cell])
        self.assertEqual((cell in a, a.intersects_cell(cell)), (a >= one, a.intersects(one)))
        self.assertEqual(Union(a.cells_at(cell)) & one, a & one)

    @EVERY
    @given(unions)
    def test_files_and_texts(self, a):
        self.assertEqual((Union.from_bytes(a.to_bytes()), Union.from_tokens(a.tokens())), (a, a))
