"""The areas of cells that the prompt shows."""
import math
import random
import unittest

from process import ran
import areas  # which process finds

# The answers of `area` of s2union_geo, which sums by Gauss and Legendre's rule.
KNOWN = {"1": 85011012.18633153, "04": 21252753.04658288, "64c": 1500640.039959948, "89c25": 1117.6612798249637,
         "47e66e1d8f8be23b": 5.3513651228111726e-11}
NUMBERS = random.Random(41)


def cell(level):
    """A random cell of a level."""
    path = NUMBERS.getrandbits(2 * level) if level else 0
    return NUMBERS.randrange(6) << 61 | path << 61 - 2 * level | 1 << 60 - 2 * level


def tokens(cells):
    return [f"{one:016x}".rstrip("0") for one in cells]


class Areas(unittest.TestCase):
    def test_known_ones(self):
        for token, value in KNOWN.items():
            self.assertAlmostEqual(areas.area_of_cell(int(token.ljust(16, "0"), 16)) / value, 1, delta=2e-7)
        self.assertEqual([areas.area([token]) for token in ("1", "64c", "89c25", "47e66e1d8f8be23b")],
                         ["85011012 km2", "1500640 km2", "1117.66 km2", "5.35137e-11 km2"])
        self.assertEqual(areas.area([]), "0 km2")

    def test_the_sphere_and_children(self):
        """Each cell is as large as its children, also where the formula changes."""
        whole = 4 * math.pi * 6371.01**2
        self.assertEqual(areas.area("13579b"), f"{whole:.0f} km2")
        for level in range(30):
            for _ in range(20):
                one = cell(level)
                child = (one & -one) >> 2
                children = [one + turn * child for turn in (-3, -1, 1, 3)]
                self.assertAlmostEqual(sum(map(areas.area_of_cell, children)) / areas.area_of_cell(one), 1, delta=2e-7)

    def test_squares(self):
        """Those of the script's command."""
        cells = [cell(level) for level in range(31)]
        answers = ran("run", script="".join(f"square {token}\n" for token in tokens(cells)).encode())[1].decode()
        wanted = [tuple(map(int, line.split()[3::2])) for line in answers.splitlines()]
        self.assertEqual([areas.square(one) for one in cells], wanted)

    def test_many_cells(self):
        """Beside the sum of each: nearer than 2 percent also where all lie in the corner of one cell of level 7, and
        much nearer where they lie anywhere."""
        anywhere = {cell(NUMBERS.randrange(5, 20)) for _ in range(areas.MANY + 1000)}
        corner = [1 + 2 * place for place in range(areas.MANY + 1)]
        for cells, delta in (anywhere, 1e-3), (corner, 2e-2):
            about, number, unit = areas.area(tokens(cells)).split()
            self.assertEqual((about, unit), ("about", "km2"))
            self.assertAlmostEqual(float(number) / sum(map(areas.area_of_cell, cells)), 1, delta=delta)
