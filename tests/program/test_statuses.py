"""Statuses, usage faults, help, and limits of memory."""
import os
import resource
import struct
import tempfile
import unittest

import pytest

from process import FACE, TOP, first_line, ran

with open(os.path.join(TOP, "VERSION"), "rb") as it:
    VERSION = it.read()
# Nearly as long as the system lets a word be.
LONG_WORD = "x" * 100_000


USAGE = {
    b"invalid value": ["run --limit 1000001", "run --limit 12345678901234567890123", "run --limit x", "run --limit=",
                       "run --depth 0"],
    b"a value is required": ["run --limit", "run --dir", "run --dir=", "check --dir", "draw --cells"],
    b"cannot be used": ["run --limit 5 --limit 5", "draw f --cells 1", "draw --fit --cells 1", "draw --fit f --curve",
                        "draw --cells 1 -- f", "draw --dir d --cells 1"],
    b"unexpected argument": ["run --limit -5", "run --lim 5", "--limit 5 run", "run --colour", "run run", "run x",
                             "-- run", "cell 1 2", "check f g", "check --limit f", "draw -f", "draw --curves f",
                             f"run {LONG_WORD}"],
    b"unrecognized subcommand": ["ru", "RUN", "walk", "", "help foo"],
    b"requires a subcommand": ["--"],
    b"required arguments": ["cell", "cell --", "check", "draw", "draw --curve"],
}


@pytest.mark.parametrize("line,reason", [(line, reason) for reason, lines in USAGE.items() for line in lines],
                         ids=lambda it: it[:50] if isinstance(it, str) else "")
def test_usage(line, reason):
    status, out, error = ran(*line.split(" "))
    assert (status, out, first_line(error)) == (2, b"", b"s2calc: usage")
    assert reason in error


def test_usage_without_a_word():
    assert ran()[:2] == (2, b"")


@pytest.mark.parametrize("words,said", [
    (["run", "--depth", "10001"], b"invalid value '10001' for '--depth <N>': 10001 is not in 1..=10000"),
    (["run", "--limit", " 5"], b"invalid value ' 5' for '--limit <N>'"),
    (["run", "--colour"], b"unexpected argument '--colour'"),
    (["walk"], b"unrecognized subcommand 'walk'"),
    (["check"], b"<FILE>"),
    (["check", b"\xff"], b"invalid UTF-8 was detected in one or more arguments"),
    (["draw"], b"<FILE|--cells <CELL>...>"),
    (["draw", "f", "--cells", "1"], b"'[FILE]...' cannot be used with '--cells <CELL>...'"),
    (["draw", "--dir", "d", "--cells", "1"], b"'--dir <PATH>' cannot be used with '--cells <CELL>...'"),
])
def test_usage_faults_name_the_word(words, said):
    status, out, error = ran(*words)
    assert (status, out) == (2, b"") and said in error


@pytest.mark.parametrize("line,limit,depth,folder,is_explained", [
    ("run", 10000, 100, ".", False),
    ("run --limit 5 --depth=7 --dir x", 5, 7, "x", False),
    ("run --limit 1000000 --depth 10000 --dir -x", 1000000, 10000, "-x", False),
    ("run --dir x --limit=1 --explain --depth 1", 1, 1, "x", True),
    ("run --prompt --dir x --limit=2", 2, 100, "x", True),
    ("run --limit +5 --depth 007 --dir --limit", 5, 7, "--limit", False),
    ("run --dir --explain", 10000, 100, "--explain", False),
])
def test_options_of_a_run(line, limit, depth, folder, is_explained, tmp_path):
    (tmp_path / folder).mkdir(exist_ok=True)
    # As many leaves in a row as a register may have, and one more; more states than are kept.
    rows = [f"outer b 30 0 0 {length - 1} 0 0\n" for length in (limit, limit + 1)]
    script = "".join(rows) + "add a 1\nclear a\n" * depth + "history\nsave b f\n"
    status, out, notes = ran(*line.split(), script=script.encode(), cwd=tmp_path)
    lines = out.decode().split("\n")
    assert (status, lines[:2]) == (1, [f"ok 0 {limit}", "error too-many"])
    assert lines[-3:] == [f"undo {depth} redo 0", "ok", ""]
    assert {it.name: it.stat().st_size for it in (tmp_path / folder).iterdir()} == {"f": 9 + 8 * limit}
    assert bool(notes) == is_explained


class Statuses(unittest.TestCase):
    def test_no_line_was_refused(self):
        described = b"cell 1 0/ level 0 face 0 leaves 0 1152921504606846975\n"
        self.assertEqual(ran("run", script=b"cell 1\n"), (0, described, b""))
        self.assertEqual(ran("cell", "3/021")[0], 0)

    def test_a_line_was_refused(self):
        self.assertEqual(ran("run", script=b"cell X\nadd a 1\n"), (1, b"error cell\n" + FACE, b""))
        self.assertEqual(ran("cell", "X"), (1, b"error cell\n", b""))
        self.assertEqual(ran("check", "absent"), (1, b"error missing\n", b""))
        self.assertEqual(ran("draw", "absent"), (1, b"error missing\n", b""))
        self.assertEqual(ran("draw", "--cells", "1", "X", "3"), (1, b"error cell\n", b""))

    def test_words_that_name_a_cell_or_a_file(self):
        refused = (1, b"error cell\n", b"")
        for word in ("-1", "", " 3/021 ", "--x", "-hello", LONG_WORD):
            self.assertEqual(ran("cell", word), refused)
        self.assertEqual(ran("cell", "--", "--help"), refused)
        self.assertEqual(ran("draw", "--cells=X"), refused)
        with tempfile.TemporaryDirectory() as room:
            os.mkdir(os.path.join(room, "-d"))
            with open(os.path.join(room, "-d", "f"), "wb") as file:
                file.write(b"\x01" + bytes(8))
            for words in (["check", "f", "--dir", "-d"], ["check", "--dir", "-d", "--", "f"]):
                self.assertEqual(ran(*words, cwd=room), (0, b"cells 0 leaves 0\n", b""))
            self.assertEqual(ran("draw", "--dir", "-d", "--", "f", cwd=room)[0], 0)
            for words in (["check", "-x"], ["check", ""], ["check", "--dir", "-d", "--", "-f"], ["draw", ""],
                          ["check", LONG_WORD]):
                self.assertEqual(ran(*words, cwd=room)[:2], (1, b"error name\n"))

    def test_greatest_options(self):
        self.assertEqual(ran("run", "--limit", "1000000", "--depth", "10000", script=b"add z 1\n"), (0, FACE, b""))

    def test_help(self):
        for words in (["--help"], ["-h"], ["help"]):
            status, out, error = ran(*words)
            self.assertEqual((status, error), (0, b""))
            self.assertIn(b"Usage: s2calc <COMMAND>", out)
        for command in ("run", "cell", "check", "draw"):
            self.assertIn(f"Usage: s2calc {command}".encode(), ran(command, "--help")[1])
            self.assertEqual(ran("help", command), ran(command, "--help"))
            self.assertEqual(ran(command, "-h"), ran(command, "--help"))

    def test_version(self):
        for words in (["--version"], ["-V"]):
            self.assertEqual(ran(*words), (0, b"s2calc " + VERSION, b""))

    def test_out_of_memory(self):
        def little_memory():
            resource.setrlimit(resource.RLIMIT_AS, (64 << 20, 64 << 20))

        status, out, error = ran("run", "--limit", "1000000", script=b"add a 1\n", preexec_fn=little_memory)
        self.assertEqual((status, out, first_line(error)), (3, b"", b"s2calc: memory"))

    def test_a_difference_of_too_many_cells_takes_memory_for_the_limit_alone(self):
        def some_memory():
            resource.setrlimit(resource.RLIMIT_AS, (320 << 20, 320 << 20))

        # A million leaves all over the faces: what is left has tens of millions of cells.
        spread = range(1, 2 * 6 * 4**30, 2 * (6 * 4**30 // 10**6) + 2)
        script = b"add a 1 3 5 7 9 b\nload b spread\nsubtract a b\ncount a\n"
        answers = b"ok 0 6\nok 0 %d\nerror too-many\ncells 6 leaves %d\n" % (len(spread), 6 * 4**30)
        with tempfile.TemporaryDirectory() as folder:
            with open(os.path.join(folder, "spread"), "wb") as file:
                file.write(struct.pack("<BQ%dQ" % len(spread), 1, len(spread), *spread))
            words = ["run", "--limit", "1000000", "--dir", folder]
            self.assertEqual(ran(*words, script=script, preexec_fn=some_memory), (1, answers, b""))
