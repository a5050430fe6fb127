"""The coverings of every rectangle in a corner of eight by eight leaves, and of what a union shares with it.

What they have is found leaf by leaf, at the places where the plain model (tests/model/calculator.py) has the leaves."""
import functools
import itertools
import unittest

from model.calculator import joined, leaf_at, normal_form, token
from process import ran

SPANS = [(low, high) for low in range(8) for high in range(low, 8)]
RECTANGLES = list(itertools.product(SPANS, SPANS))
LEVELS = range(27, 31)
LEAVES = [[[leaf_at(face, i, j)[1] for j in range(8)] for i in range(8)] for face in range(2)]
# The rectangle whose 24 leaves register b has.
SQUARE = ((1, 6), (2, 5))


def leaves_in(face, rectangle):
    (i0, i1), (j0, j1) = rectangle
    return {leaf for row in LEAVES[face][i0 : i1 + 1] for leaf in row[j0 : j1 + 1]}


@functools.cache
def listed(level, places):
    """The normal form of cells of a level, as tokens."""
    size = 4 ** (30 - level)
    return [token(cell) for cell in normal_form(joined((place * size, (place + 1) * size) for place in places))]


def covering(kind, level, leaves):
    """The cells of the level that share a leaf with these, or the cells all of whose leaves are among these."""
    size = 4 ** (30 - level)
    places = {leaf // size for leaf in leaves}
    if kind == "inner":
        places = {place for place in places if leaves.issuperset(range(place * size, (place + 1) * size))}
    return listed(level, frozenset(places))


def words_of(face, rectangle):
    (i0, i1), (j0, j1) = rectangle
    return f"{face} {i0} {i1} {j0} {j1}"


class Coverings(unittest.TestCase):
    """The coverings of every rectangle in a corner of eight by eight leaves, and of what a union shares with it."""

    def compare(self, lists):
        """After each line, of which none is refused, register a has the list that goes with it."""
        script, answers, before = [f"outer b 30 {words_of(0, SQUARE)}"], ["ok 0 12"], []
        for line, tokens in lists:
            script += [line, "show a"]
            out, put = set(before) - set(tokens), set(tokens) - set(before)
            answers += [f"ok {len(out)} {len(put)}", *tokens, "end"]
            before = tokens
        found = ran("run", script="\n".join(script).encode())[1].decode().splitlines()
        self.assertIsNone(next((pair for pair in itertools.zip_longest(found, answers) if pair[0] != pair[1]), None))

    def test_rectangles(self):
        for kind, face in itertools.product(("outer", "inner"), range(2)):
            self.compare(
                (f"{kind} a {level} {words_of(face, each)}", covering(kind, level, leaves_in(face, each)))
                for level in LEVELS for each in RECTANGLES
            )

    def test_a_union_and_a_rectangle(self):
        square = leaves_in(0, SQUARE)
        for kind in ("outer", "inner"):
            whole = [(f"{kind}of a b {level}", covering(kind, level, square)) for level in LEVELS]
            clipped = [
                (f"{kind}of a b {level} {words_of(0, each)}", covering(kind, level, square & leaves_in(0, each)))
                for level in LEVELS for each in RECTANGLES
            ]
            elsewhere = [(f"{kind}of a b {level} {words_of(1, SQUARE)}", []) for level in LEVELS]
            self.compare(whole + clipped + elsewhere)
