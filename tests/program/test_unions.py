"""Worked unions: normal forms, sets, questions and cuts. Sets are named by their tokens."""
import unittest

from process import ran
from model.worked import CUT, HELD, LEAF, NORMAL


def said(a, b, *lines):
    """The answers to the lines, without those of edits, if registers a and b have these sets."""
    made = [f"add {register} {tokens}" for register, tokens in (("a", a), ("b", b)) if tokens]
    out = ran("run", script="\n".join([*made, *lines]).encode())[1].decode().splitlines()
    return [answer for answer in out if not answer.startswith("ok ")]


def shown(tokens):
    return [*tokens.split(), "end"]


class Unions(unittest.TestCase):
    """Worked unions: normal forms, sets, questions and cuts."""

    def test_siblings_merge_again_and_faces_never(self):
        for given, normal in NORMAL:
            self.assertEqual(said(given, "", "show a"), shown(normal))

    def test_a_leaf_leaves_a_face_and_returns(self):
        there_and_back = ("subtract a b", "count a", "union a b", "show a")
        answers = ["cells 90 leaves 1152921504606846975", "1", "end"]
        self.assertEqual(said("1", LEAF, *there_and_back), answers)

    def test_inclusion_and_shared_leaves(self):
        for a, b, *are_held in HELD:
            answers = ["yes" if is_held else "no" for is_held in are_held]
            self.assertEqual(said(a, b, "covers a b", "meets a b"), answers)
            if " " not in b:
                self.assertEqual(said(a, b, f"has a {b}", f"touches a {b}"), answers)

    def test_levels_that_are_wanted(self):
        for tokens, least, modulus, want in CUT:
            self.assertEqual(said(tokens, "", f"denorm a {least} {modulus}"), shown(want))

    def test_a_million_cells_are_listed_and_one_more_is_refused(self):
        for leaves in (1_000_000, 1_000_001):
            script = f"range a {1:016x} {2 * leaves - 1:016x}\ndenorm a 30 1\n"
            out = ran("run", script=script.encode())[1].decode().splitlines()[1:]
            cells = [f"{2 * leaf + 1:016x}" for leaf in range(leaves)]
            self.assertTrue(out == ([*cells, "end"] if leaves == 1_000_000 else ["error too-many"]), out[:3])

    def test_how_many_cells_of_a_level(self):
        self.assertEqual(len(said("1", "", "denorm a 7 1")), 4**7 + 1)
        for level in (10, 30):
            self.assertEqual(said("1", "", f"denorm a {level} 1"), ["error too-many"])
