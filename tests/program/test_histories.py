"""Undo and redo at the greatest depth, and edits that leave the history as it is."""
import unittest

from model.calculator import REGISTERS
from process import ran


class Histories(unittest.TestCase):
    """Undo and redo at the greatest depth, and edits that leave the history as it is."""

    def test_ten_thousand_changes_of_registers_in_turn(self):
        registers = len(REGISTERS)
        letters = [REGISTERS[n % registers] for n in range(10000)]
        faces = "".join(f"range {r} {'1 1' if n // registers % 2 == 0 else '3 3'}\n" for n, r in enumerate(letters))
        first = b"ok 0 1\n" * registers
        later = b"ok 1 1\n" * (10000 - registers)
        shows = b"show p\nshow q\n"
        counts = b"".join(b"count %c\n" % letter for letter in REGISTERS.encode())
        script = faces.encode() + shows + b"undo\n" * 10001 + counts
        script += b"redo\n" * 10001 + shows + b"range z 5 5\nhistory\n"
        status, out, error = ran("run", "--limit", "4", "--depth", "10000", script=script)
        shown = b"1\nend\n3\nend\n"
        undone = later + b"ok 1 0\n" * registers + b"error nothing\n" + b"cells 0 leaves 0\n" * registers
        redone = first + later + b"error nothing\n"
        self.assertEqual((status, error), (1, b""))
        self.assertEqual(out, first + later + shown + undone + redone + shown + b"ok 1 1\nundo 10000 redo 0\n")

    def test_only_an_edit_with_effect_touches_the_history(self):
        rows = [
            (b"add a 1", b"ok 0 1"), (b"add a 04", b"ok 0 0"), (b"history", b"undo 1 redo 0"), (b"undo", b"ok 1 0"),
            (b"add a 3 5", b"error too-many"), (b"redo", b"ok 0 1"), (b"undo", b"ok 1 0"), (b"clear a", b"ok 0 0"),
            (b"redo", b"ok 0 1"), (b"undo", b"ok 1 0"), (b"add a 3", b"ok 0 1"), (b"redo", b"error nothing"),
        ]
        out = ran("run", "--limit", "1", script=b"".join(line + b"\n" for line, _ in rows))[1]
        self.assertEqual(out, b"".join(answer + b"\n" for _, answer in rows))
