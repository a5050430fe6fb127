"""Edits of a few cells in a register of two thousand, which the plain model answers too."""
import os
import random
import tempfile
import unittest

from model.calculator import Calculator, file_text, joined, run_of, token
from process import ran

# Cells of these parents are in the register, but for one descendant: so one that is added merges with its siblings, one
# level up for each level that the descendant lies below its parent.
FIRST, MIDDLE, LAST = (6, 0), (6, 3 * 4**6), (6, 6 * 4**6 - 1)
APART = [(6, 4**6 + 2 * n) for n in range(620)]
DEPTHS = (1, 2, 3)


def below(cell, depth, child):
    """The descendant that many levels below, always by the same child."""
    for _ in range(depth):
        cell = cell[0] + 1, 4 * cell[1] + child
    return cell


def all_but(cell, depth, child):
    """The cells that cover a cell but for that descendant."""
    parents = [below(cell, n, child) for n in range(depth)]
    return [(level + 1, 4 * place + n) for level, place in parents for n in range(4) if n != child]


def spots(depth):
    """The missing descendants at the first index, in the middle and at the last index, with their parents."""
    return [(below(parent, depth, child), parent, child) for parent, child in ((FIRST, 0), (MIDDLE, 2), (LAST, 3))]


def line(verb, *cells):
    return f"{verb} a {' '.join(token(cell) for cell in cells)}"


class FewCells(unittest.TestCase):
    """Edits of a few cells in a register of two thousand, which the plain model answers too."""

    def check(self, cells, lines, limit):
        """The lines are answered alike if the register has these cells, and the whole list is shown after each."""
        files = {"f": file_text(joined(run_of(cell) for cell in cells))}
        script = "".join(f"{it}\nshow a\n" for it in ["load a f", *lines, "history"]).encode()
        wanted, refused = Calculator(limit, 1000, dict(files)).run(script)
        with tempfile.TemporaryDirectory() as folder:
            with open(os.path.join(folder, "f"), "wb") as it:
                it.write(files["f"])
            status, out, _ = ran("run", "--limit", str(limit), "--depth", "1000", "--dir", folder, script=script)
        self.assertEqual((status, out), (int(refused), wanted))
        return out

    def register(self, depth):
        apart = [cell for parent in APART for cell in all_but(parent, 1, 2)]
        return apart + [cell for _, parent, child in spots(depth) for cell in all_but(parent, depth, child)]

    def test_one_cell_merges_and_is_cut_out_again_at_the_first_index_in_the_middle_and_at_the_last(self):
        for depth in DEPTHS:
            lines = []
            for missing, parent, _ in spots(depth):
                lines += [line("add", missing), "undo", "redo", line("remove", missing), "undo", line("remove", parent)]
            self.check(self.register(depth), [*lines, *["undo"] * 10, *["redo"] * 4], 10_000)

    def test_a_handful_of_cells_and_one_more(self):
        gaps = [below(parent, 1, 2) for parent in APART]
        here = [below(parent, 1, 0) for parent in APART]
        free = [(9, 4**3 * (4**6 + 2 * n + 1)) for n in range(600)]
        both = [cell for pair in zip(gaps[::3], free[1::3]) for cell in pair]
        lines = []
        for count in (1, 2, 3, 5):
            for verb, cells in (("add", gaps), ("add", free), ("add", both), ("remove", here)):
                for chosen in (cells[:count], cells[-count:], cells[:: len(cells) // count][:count]):
                    lines += [line(verb, *chosen), "undo", "redo", "undo"]
        lines += [line("add", gaps[0], free[300]), line("add", free[300], gaps[-1]), line("remove", here[9], free[300])]
        self.check(self.register(1), [*lines, *["undo"] * 3], 10_000)

    def test_the_whole_register_is_taken_out(self):
        faces = [(0, n) for n in range(6)]
        self.check(self.register(1), [line("remove", *faces), "undo", "redo", line("add", *faces[:2])], 10_000)

    def test_a_refused_edit_at_the_limit_leaves_all(self):
        cells = self.register(1)
        free, missing = (9, 4**3 * (4**6 + 1)), below(MIDDLE, 1, 2)
        lines = [line("add", free), line("remove", below(FIRST, 2, 1)), line("add", missing), line("add", free), "undo"]
        out = self.check(cells, lines, len(cells))
        self.assertEqual(out.count(b"error too-many"), 2)

    def test_random_edits_one_after_another(self):
        draw = random.Random(7)
        lines = []
        for _ in range(60):
            parents = draw.choices([FIRST, MIDDLE, LAST, *APART[:3], *APART[-3:]], k=draw.choice([1, 1, 1, 2, 3]))
            cells = [below(parent, draw.randrange(4), draw.randrange(4)) for parent in parents]
            added = line("add", *cells)
            lines.append(draw.choice([added, added, line("remove", *cells), "undo", "redo"]))
        self.check(self.register(2), lines, 10_000)
