"""Session files that were not made by the program, and a run that is killed between dump and restore."""
import array
import os
import random
import shutil
import subprocess
import tempfile
import unittest

import pytest

from model.calculator import REGISTERS
from process import PROGRAM, ran


def number(n):
    return n.to_bytes(8, "little")


def cells(*tokens):
    """The text of a list: how many cells, and their identifiers."""
    return number(len(tokens)) + b"".join(number(int(token.ljust(16, "0"), 16)) for token in tokens)


def change(letter, out, put):
    return bytes([REGISTERS.index(letter)]) + cells(*out) + cells(*put)


def session(registers=(), past=(), future=()):
    """A session file: lists by their letters, and the changes of both sides."""
    lists = b"".join(cells(*dict(registers).get(letter, ())) for letter in REGISTERS)
    return b"\x73\x01" + lists + number(len(past)) + b"".join(past) + number(len(future)) + b"".join(future)


def most_resident_after(program, line, answer):
    """The most bytes that a program has held in memory once it has answered a line, which it answers by these bytes."""
    return size_after(program, line, answer, "VmHWM")


def size_after(program, line, answer, name):
    """A size of a program by the system's name for it, once it has answered a line, which it answers by these bytes."""
    program.stdin.write(line)
    program.stdin.flush()
    if program.stdout.read(len(answer)) != answer:
        raise AssertionError(line)
    with open(f"/proc/{program.pid}/status") as it:
        return next(int(entry.split()[1]) for entry in it if entry.startswith(f"{name}:")) * 1024


# After face 0 was added to register a, one of its children removed, and this undone.
EXAMPLE = session({"a": ["1"]}, [change("a", [], ["1"])], [change("a", ["1"], ["0c", "14", "1c"])])


def refuses(folder, text, name, *words):
    """A session is refused with this name, and what was there before is still there."""
    with open(os.path.join(folder, "s"), "wb") as it:
        it.write(text)
    script = b"add b 3\nadd b 5\nundo\nrestore s\nhistory\nshow b\n"
    _, out, error = ran("run", "--dir", folder, *words, script=script)
    assert (out, error) == (b"ok 0 1\nok 0 1\nok 1 0\nerror " + name + b"\nundo 1 redo 1\n3\nend\n", b"")


OTHER_FORMS = {
    "a byte too few": EXAMPLE[:-1], "a byte too many": EXAMPLE + b"\0", "empty": b"", "a head alone": b"\x73\x01",
    "a union file without its cell": b"\x01" + number(1),
}


@pytest.mark.parametrize("text", OTHER_FORMS.values(), ids=OTHER_FORMS)
def test_texts_of_another_form(text, tmp_path):
    refuses(tmp_path, text, b"session")


EMPTY, ONE = session(), session(past=[change("a", ["1"], [])])
COUNTS = {**{f"empty, at {place}": (EMPTY, place) for place in range(2, len(EMPTY), 8)},
          "of the change, out": (ONE, len(ONE) - 32), "of the change, in": (ONE, len(ONE) - 16)}


@pytest.mark.parametrize("text,place", COUNTS.values(), ids=COUNTS)
def test_counts_that_no_file_holds(text, place, tmp_path):
    refuses(tmp_path, text[:place] + number(2 ** 64 - 1) + text[place + 8 :], b"session")


@pytest.mark.parametrize("register", [len(REGISTERS), 255])
def test_registers_that_are_none(register, tmp_path):
    refuses(tmp_path, session({"a": ["1"]}, [bytes([register]) + cells() + cells("1")]), b"session")


THREE = ["0c", "14", "1c"]
WRONG = {
    "put what is not there": session({}, [change("a", [], ["1"])]),
    "take what is not there": session({}, [], [change("a", ["1"], [])]),
    "put what is there": session({"a": ["1"]}, [], [change("a", [], ["1"])]),
    "a fourth sibling": session({"a": THREE}, [], [change("a", [], ["04"])]),
    "a cell inside another": session({"a": ["1"]}, [], [change("a", [], ["04"])]),
    "taken out twice": session({"a": ["1", "3"]}, [], [change("a", ["1"], []), change("a", ["1"], [])]),
    "put in twice": session({}, [], [change("a", [], ["1"]), change("a", [], ["1"])]),
    "nothing": session({}, [], [change("a", [], [])]),
    "the same out and in": session({"a": ["1"]}, [], [change("a", ["1"], ["1"])]),
    "not normalised": session({"a": ["04"] + THREE}),
    "one fits and one does not": session({"a": ["1"]}, [change("b", [], ["1"]), change("a", [], ["1"])]),
}


@pytest.mark.parametrize("text", WRONG.values(), ids=WRONG)
def test_changes_that_cannot_be_made(text, tmp_path):
    refuses(tmp_path, text, b"session")


THERE_AND_BACK = [change("a", [], ["04", "24", "44"]), change("a", ["04", "24", "44"], [])]


@pytest.mark.parametrize("side", ["past", "future"])
def test_a_list_on_the_way_exceeds_the_limit(side, tmp_path):
    refuses(tmp_path, session(**{side: THERE_AND_BACK}), b"too-many", "--limit", "2")
    assert ran("run", "--dir", tmp_path, "--limit", "3", script=b"restore s\n") == (0, b"ok\n", b"")


class Sessions(unittest.TestCase):
    def setUp(self):
        self.folder = tempfile.mkdtemp()
        self.addCleanup(shutil.rmtree, self.folder)

    def write(self, name, text):
        with open(os.path.join(self.folder, name), "wb") as it:
            it.write(text)

    def answers(self, script, *words):
        status, out, error = ran("run", "--dir", self.folder, *words, script=script)
        self.assertEqual(error, b"")
        return out

    def dumped(self, script, answers, *words):
        """The file that a script writes, whose answers are given and then `ok` and how far undo and redo reach."""
        self.assertEqual(self.answers(script + b"dump s\nhistory\n", *words), answers)
        with open(os.path.join(self.folder, "s"), "rb") as it:
            return it.read()

    def test_what_was_restored_is_dumped_alike(self):
        self.write("e", EXAMPLE)
        text = self.dumped(b"restore e\n", b"ok\nok\nundo 1 redo 1\n", "--limit", "3", "--depth", "2")
        self.assertEqual(text, EXAMPLE)

    def test_absent_misnamed_and_not_a_file(self):
        os.mkdir(os.path.join(self.folder, "folder"))
        refused = {
            b"restore absent": b"missing", b"restore .s": b"name", b"restore": b"syntax", b"restore s s": b"syntax",
            b"dump": b"syntax", b"dump s s": b"syntax", b"dump ../s": b"name", b"restore folder": b"file",
            b"dump folder": b"file",
        }
        script = b"add a 3\n" + b"".join(line + b"\n" for line in refused) + b"show a\nhistory\n"
        answers = b"ok 0 1\n" + b"".join(b"error %s\n" % name for name in refused.values())
        self.assertEqual(self.answers(script), answers + b"3\nend\nundo 1 redo 0\n")
        self.assertEqual(os.listdir(self.folder), ["folder"])

    def test_ten_thousand_changes_and_one_more(self):
        changes = [change("z", [], ["1"]), change("z", ["1"], [])] * 5000
        self.write("most", session(past=changes))
        restored = b"restore most\nhistory\n" + b"undo\n" * 10001
        answers = b"ok\nundo 10000 redo 0\n" + b"ok 0 1\nok 1 0\n" * 5000 + b"error nothing\n"
        self.assertEqual(self.answers(restored, "--depth", "10000"), answers)
        refuses(self.folder, session(past=changes), b"too-deep", "--depth", "9999")
        refuses(self.folder, session({"z": ["1"]}, changes + [change("z", [], ["1"])]), b"session", "--depth", "10000")
        refuses(self.folder, session(past=changes, future=[change("z", [], ["1"])]), b"session", "--depth", "10000")

    def test_killed_between_dump_and_restore(self):
        words = [PROGRAM, "run", "--dir", self.folder]
        program = subprocess.Popen(words, stdin=subprocess.PIPE, stdout=subprocess.PIPE, stderr=subprocess.PIPE)
        program.stdin.write(b"add a 1\nremove a 04\nundo\ndump s\nadd a 3\n")
        program.stdin.flush()
        for answer in [b"ok 0 1\n", b"ok 1 3\n", b"ok 3 1\n", b"ok\n", b"ok 0 1\n"]:
            self.assertEqual(program.stdout.readline(), answer)
        program.kill()
        program.communicate()
        self.assertEqual(os.listdir(self.folder), ["s"])
        script = b"restore s\nhistory\nredo\nshow a\nundo\nundo\nundo\n"
        answers = b"ok\nundo 1 redo 1\nok 1 3\n0c\n14\n1c\nend\nok 3 1\nok 1 0\nerror nothing\n"
        self.assertEqual(self.answers(script), answers)

    def test_many_changes_of_a_long_list(self):
        tokens = ["%010x" % (4 * n + 1) for n in range(20000)]
        changes = [change("a", [], [tokens[2 * (n * 7919 % 10000)]]) for n in range(10000)]
        self.write("s", session({"a": tokens}, changes))
        most = ["--limit", "20000", "--depth", "10000"]
        out = self.answers(b"restore s\nhistory\n" + b"undo\n" * 10000 + b"count a\n", *most)
        answers = b"ok\nundo 10000 redo 0\n" + b"ok 1 0\n" * 10000 + b"cells 10000 leaves "
        self.assertEqual(out[: len(answers)], answers)
        self.write("s", session({"a": tokens[::2]}, [], changes))
        self.assertEqual(self.answers(b"restore s\n", *most), b"error session\n")
        self.write("s", session({"a": tokens[1::2]}, [], changes))
        self.assertEqual(self.answers(b"restore s\n", *most), b"ok\n")
        self.assertEqual(self.answers(b"restore s\n", "--limit", "19999", "--depth", "10000"), b"error too-many\n")

    def test_large_and_small_changes(self):
        draw = random.Random(3)
        tokens = ["%010x" % (4 * n + 1) for n in range(20000)]
        held, changes = set(), []
        for _ in range(60):
            moved = sorted(draw.sample(tokens, draw.choice([1, 10, 100, 3000])))
            changes.append(change("a", *([it for it in moved if (it in held) == there] for there in (True, False))))
            held ^= set(moved)
        done = session({"a": sorted(held)}, changes)
        self.write("done", done)
        self.write("undone", session({}, [], changes))
        most = ["--limit", "20000"]
        self.assertEqual(self.dumped(b"restore done\n", b"ok\nok\nundo 60 redo 0\n", *most), done)
        script = b"restore undone\n" + b"redo\n" * 60 + b"dump redone\nrestore done\n" + b"undo\n" * 60 + b"dump s\n"
        out = self.answers(script, *most)
        self.assertNotIn(b"error", out)
        for name, text in (("redone", done), ("s", session({}, [], changes))):
            with open(os.path.join(self.folder, name), "rb") as it:
                self.assertEqual(it.read(), text, name)
        here = sorted(held)[0]
        absent = sorted(set(tokens) - held)[0]
        for wrong in (change("a", [absent], []), change("a", [], [here]), change("a", sorted(held) + ["5"], [])):
            refuses(self.folder, session({}, [], changes + [wrong]), b"session", *most)
            refuses(self.folder, session({"a": sorted(held)}, changes, [wrong]), b"session", *most)

    def test_a_session_of_large_changes_is_held_twice_at_most(self):
        these, others = (["%010x" % (4 * n + face) for n in range(50000)] for face in (1, 2 ** 37 + 1))
        there, back = change("a", these, others), change("a", others, these)
        text = session({"a": these}, [there, back], [there, back])
        self.write("s", text)
        words = [PROGRAM, "run", "--dir", self.folder, "--limit", "50000"]
        with subprocess.Popen(words, stdin=subprocess.PIPE, stdout=subprocess.PIPE) as program:
            before = most_resident_after(program, b"history\n", b"undo 0 redo 0\n")
            after = most_resident_after(program, b"restore s\n", b"ok\n")
            program.stdin.close()
        self.assertLess(after - before, 2 * len(text))

    def test_a_dump_takes_room_for_the_file_alone(self):
        # Changes of a million cells each, three that can be undone and four that can be made again.
        identifiers = array.array("Q", range(1, 4_000_000, 4))
        self.write("f", b"\x01" + number(len(identifiers)) + identifiers.tobytes())
        made = b"".join(b"load %c f\n" % letter for letter in b"abcdefg"), b"ok 0 1000000\n" * 7
        undone = b"undo\n" * 4, b"ok 1000000 0\n" * 4
        words = [PROGRAM, "run", "--dir", self.folder, "--limit", "1000000"]
        with subprocess.Popen(words, stdin=subprocess.PIPE, stdout=subprocess.PIPE) as program:
            before = size_after(program, made[0] + undone[0], made[1] + undone[1], "VmSize")
            most = size_after(program, b"dump s\n", b"ok\n", "VmPeak")
            size_after(program, b"restore s\nhistory\ncount c\n", b"ok\nundo 3 redo 4\ncells 1000000 leaves", "VmPeak")
            program.stdin.close()
            program.stdout.read()
        size = os.path.getsize(os.path.join(self.folder, "s"))
        self.assertGreater(size, 10 * 8_000_000)
        self.assertLess(most - before, size + 1_000_000)
