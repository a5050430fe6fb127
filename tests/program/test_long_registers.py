"""Every command over registers of fifteen hundred cells and over a hundred states, which the plain model answers too.
Contracts allow out of memory at any time, so a body that answers it for a long list is refused here alone."""
import itertools
import os
import tempfile
import unittest

from model.calculator import LONGEST_LINE, Calculator, identifier, token
from process import ran

# Cells of level 6, none beside three siblings: each third one, and each second one.
THIRDS = [(6, 3 * n) for n in range(1500)]
SECONDS = [(6, 2 * n) for n in range(1500)]
LONGEST_NAME = "n" * 64
SQUARE = "0 5000 700000000 1000000 900000000"


def line(words, cells):
    """The words and as many of the cells as the longest line holds."""
    text = words
    for cell in cells:
        longer = f"{text} {token(cell)}"
        if len(longer) > LONGEST_LINE:
            break
        text = longer
    return text


def file_of(cells):
    """The file with these cells in this order."""
    numbers = [identifier(cell) for cell in cells]
    return b"\x01" + b"".join(number.to_bytes(8, "little") for number in [len(numbers), *numbers])


def first_difference(answers, wanted):
    """The first two lines that differ, or None. To show all of them takes unittest minutes."""
    pairs = itertools.zip_longest(answers.splitlines(), wanted.splitlines())
    return next((pair for pair in pairs if pair[0] != pair[1]), None)


class LongRegisters(unittest.TestCase):
    def check(self, lines, **files):
        """The lines are answered alike, and leave the same files."""
        model = Calculator(10_000, 1000, dict(files))
        script = "".join(f"{it}\n" for it in lines).encode()
        answers, refused = model.run(script)
        self.assertFalse(refused, model.notes)
        with tempfile.TemporaryDirectory() as folder:
            for name, text in files.items():
                with open(os.path.join(folder, name), "wb") as it:
                    it.write(text)
            words = ["run", "--limit", "10000", "--depth", "1000", "--dir", folder]
            status, out, error = ran(*words, script=script)
            self.assertIsNone(first_difference(out, answers))
            self.assertEqual((status, error), (0, b""))
            for name, text in model.files.items():
                with open(os.path.join(folder, name), "rb") as it:
                    self.assertTrue(it.read() == text, name)

    def test_edits_of_a_long_register_by_another(self):
        lines = ["load a thirds", "load b seconds", "load b thirds", "undo"]
        for verb in ("copy", "union", "intersect", "subtract"):
            lines += ["copy c a", f"{verb} c b", "count c", "undo", "redo", f"{verb} d b"]
        lines += ["show c", "covers a c", "meets a c"]
        self.check(lines, thirds=file_of(THIRDS[::-1]), seconds=file_of(SECONDS))

    def test_as_many_cells_as_a_line_holds(self):
        between = [(6, 3 * n + 1) for n in range(1500)]
        lines = ["load a thirds", line("add b", [(0, 0)] * 4000)]
        for verb, cells in (("add", between), ("remove", THIRDS), ("remove", between), ("keep", THIRDS[::2])):
            lines += [line(f"{verb} a", cells), "count a", "undo"]
        self.check([*lines, "redo", "show a"], thirds=file_of(THIRDS))

    def test_coverings_of_a_long_register(self):
        lines = ["load a thirds"]
        for verb in ("outerof", "innerof"):
            lines += [f"{verb} b a 5", "count b", f"{verb} b a 6 {SQUARE}", "count b"]
        for verb in ("outer", "inner"):
            lines += [f"{verb} b 9 {SQUARE}", "count b"]
        self.check([*lines, "denorm a 7 1"], thirds=file_of(THIRDS[:1200]))

    def test_leaves_of_several_faces(self):
        self.check([f"range a {1:016x} {identifier((30, 6 * 4**30 - 1)):016x}", "show a"])

    def test_files_of_long_registers(self):
        lines = ["load a thirds", "load b seconds", f"save a {LONGEST_NAME}", f"load c {LONGEST_NAME}", "undo"]
        lines += ["dump s", "clear a", "clear b", "restore s", "history", "redo", "count c", "undo", "undo", "count b"]
        lines += [f"dump {LONGEST_NAME}", "restore seconds", "count a", f"restore {LONGEST_NAME}", "history"]
        files = {"thirds": file_of(THIRDS), "seconds": file_of([it for cell in SECONDS for it in [cell] * 6])}
        self.check(lines, **files)

    def test_a_history_of_many_states(self):
        lines = ["add a 1", "clear a"] * 80 + ["undo"] * 40 + ["dump s", "add b 1", "restore s", "history"]
        self.check([*lines, *["redo"] * 40, *["undo"] * 160, "dump s", "restore s", "history"])
