#!/usr/bin/env python3
"""Small polygons, leaf by leaf, by the proved calls and by a plain program: tests/run polygons -- [POLYGONS [SEED]].

Each polygon has its corners in or beside a cell of level 26 to 28, on its borders, its corners and its middles too. It
crosses itself, repeats corners, and may have a margin. A few have a hundred corners, or rings that are listed twice, or
reach over all of the sphere but a few leaves. Of three levels the cells of the outer covering on the cell's face have
to be those of the leaves that tests/model/polygon.py finds there, one by one, and so those of the inner one; and so
have the answers about a leaf and about a cell. The proved calls are asked by test_library, a program of rows, which the
gate has built; S2CALC_ROWS names another. The last line is 'N passed, M failed'.
"""
import math
import os
import random
import re
import subprocess
import sys

sys.path.append(os.path.dirname(os.path.dirname(os.path.realpath(__file__))))
from model.calculator import joined, leaf_at, normal_form, token
from model.polygon import FRAMES, WHOLE, Polygon

TOP = os.path.dirname(os.path.dirname(os.path.dirname(os.path.realpath(__file__))))
PROGRAM = os.environ.get("S2CALC_ROWS", os.path.join(TOP, "crates/test_library/out/test_library"))
MOST = 1_000_000
REACH = 8  # leaves: a corner is up to 1 beside the cell, a margin up to 5


def back(face, w, u, v):
    """The direction with these coordinates in the frame of a face."""
    axes = [FRAMES[face](*unit) for unit in ((1, 0, 0), (0, 1, 0), (0, 0, 1))]
    return tuple(sum(a * c for a, c in zip(axis, (w, u, v))) for axis in axes)


def direction(face, s, t):
    """The nearest direction of 32 bits to a place on a face, in numbers of borders and middles; s and t may be
    fractions."""
    u, v = (x * x - 2**60 if x >= 2**30 else 2**60 - (2**31 - x) ** 2 for x in (s, t))
    length = math.sqrt(float(WHOLE) ** 2 + float(u) ** 2 + float(v) ** 2)
    return back(face, *(round((2**31 - 1) * float(x) / length) for x in (WHOLE, u, v)))


class Small:
    """A random polygon near a small cell."""

    def __init__(self, chance):
        self.size = 2 ** chance.choice([2, 3, 3, 4])
        self.face = chance.randrange(6)
        at = [chance.choice([0, 2**29, 2**29, 2**30 - self.size, chance.randrange(2**30)]) for _ in range(2)]
        self.i, self.j = (x // self.size * self.size for x in at)
        kind = chance.choice([0, 1, 1, 2, 2, 3])

        def place(first):
            steps = {
                0: chance.randrange(-1, 2 * self.size + 2),
                1: 2 * chance.randrange(self.size + 1),
                2: chance.randrange(2) * 2 * self.size,
                3: chance.uniform(-2, 2 * self.size + 2),
            }
            return 2 * first + steps[kind]

        self.rings = []
        for _ in range(chance.choice([1, 1, 1, 2])):
            corners = chance.randrange(3, 9) if chance.randrange(50) else 100
            ring = [direction(self.face, place(self.i), place(self.j)) for _ in range(corners)]
            self.rings.append(ring + ring[:1] * chance.randrange(2))
        self.rings *= 1 + (chance.randrange(10) == 0)  # listed twice, they have no inside
        self.margin = chance.choice([0, 0, 2**29, 2**31, 2**33])
        # half a face away, on the face: in no ring
        self.outside = self.face, (self.i + 2**29) % 2**30, (self.j + 2**29) % 2**30

    def window(self):
        """A square that has all leaves on the face that the polygon can reach."""
        i, j = max(0, self.i - REACH), max(0, self.j - REACH)
        ends = (min(2**30, first + self.size + REACH) for first in (self.i, self.j))
        return self.face, range(i, next(ends)), range(j, next(ends))


def blocks(leaves, level, whole):
    """The leaves of all cells of the level that have one of the leaves, or that have them all."""
    size = 4 ** (30 - level)
    counts = {}
    for leaf in leaves:
        counts[leaf // size] = counts.get(leaf // size, 0) + 1
    return joined([(n * size, n * size + size) for n, count in counts.items() if count == size or not whole])


def part_of(leaves, outer, inner):
    """How a cell with these leaves lies."""
    if not outer.intersection(leaves):
        return "out"
    return "in" if inner.issuperset(leaves) else "cross"


def tokens_on(face, line):
    """The tokens of a line of cells that lie on a face."""
    words = line.split()
    if words[:1] != ["cells"]:
        return line
    return [word for word in words[1:] if int(word.ljust(16, "0"), 16) >> 61 == face]


class Questions:
    """What the program is asked, with the answers of the plain one."""

    def __init__(self):
        self.rows, self.wanted = [], []

    def ask(self, small, question, face, wanted):
        rings = " / ".join(" ".join(str(x) for corner in ring for x in corner) for ring in small.rings)
        outside = token(leaf_at(*small.outside))
        self.rows.append(f"## {len(self.rows)}\n? polygon {question} / {small.margin} {outside} / {rings}\n")
        self.wanted.append((face, wanted))

    def ask_about(self, small, chance):
        window = small.window()
        everywhere = chance.randrange(10) == 0
        if everywhere:  # a leaf beside the corners, or between them, is known to be outside
            small.outside = small.face, chance.choice(window[1]), chance.choice(window[2])
        polygon = Polygon(small.rings, small.outside, small.margin)
        outer, inner = polygon.leaves(*window)
        if not everywhere:
            self.ask_for_cells(small, chance, outer, inner)
        place = small.face, chance.choice(window[1]), chance.choice(window[2])
        level = 30 if everywhere else chance.randrange(27, 31)
        size = 4 ** (30 - level)
        cell = leaf_at(*place)[1] // size
        leaves = range(cell * size, cell * size + size)
        self.ask(small, f"part {token((level, cell))}", None, part_of(leaves, outer, inner))
        self.ask(small, f"holds {token(leaf_at(*place))}", None, "yes" if polygon.is_inside(*place) else "no")

    def ask_for_cells(self, small, chance, outer, inner):
        for level in (30, 29, chance.randrange(26, 29)):
            for name, leaves, whole in (("outer", outer, False), ("inner", inner, True)):
                cells = normal_form(blocks(leaves, level, whole))
                self.ask(small, f"{name} {level} {MOST}", small.face, [token(cell) for cell in cells])

    def differing(self):
        """The rows that have another answer. A row with no answer in it has its answer printed."""
        text = "$ rows 0\n\n" + "\n".join(self.rows)
        said = subprocess.run([PROGRAM], input=text, stdout=subprocess.PIPE, text=True, check=True).stdout
        found = dict(re.findall(r"^other answers: (\d+)\n(.*)$", said, re.M))
        for number, (face, wanted) in enumerate(self.wanted):
            line = found.get(str(number), "nothing")
            if (line if face is None else tokens_on(face, line)) != wanted:
                yield f"{self.rows[number]}found {line}\nwanted {wanted}"


def main(polygons=60, seed=1):
    chance = random.Random(int(seed))
    questions = Questions()
    for _ in range(int(polygons)):
        questions.ask_about(Small(chance), chance)
    differing = list(questions.differing())
    for text in differing[:5]:
        print(text, file=sys.stderr)
    print(f"{len(questions.rows) - len(differing)} passed, {len(differing)} failed")
    return len(differing)


if __name__ == "__main__":
    sys.exit(1 if main(*sys.argv[1:]) else 0)
