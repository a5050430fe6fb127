"""Why lines are refused, on standard error."""
import os
import resource
import signal
import subprocess
import tempfile
import unittest

import pytest

from model.calculator import LONGEST_LINE
from process import FACE, PROGRAM, SECONDS, ran, ran_in_pieces
from test_sessions import change, session


SCRIPT = b"cell zz\n\nadd a 1\n" + b"undo\n" * 1000
ANSWERS = b"error cell\n" + FACE + b"ok 1 0\n" + b"error nothing\n" * 999
FIRST = b"line 1: error cell: 'zz' is not a cell (a token or a debug text)\n"
NOTES = FIRST + b"".join(b"line %d: error nothing: there is nothing to undo or redo\n" % n for n in range(5, 1004))


def explained(script, **how):
    """The status, the answers and what standard error got, which is a pipe unless another is given."""
    how.setdefault("stderr", subprocess.PIPE)
    words = [PROGRAM, "run", "--explain"]
    done = subprocess.run(words, input=script, stdout=subprocess.PIPE, timeout=SECONDS, **how)
    return done.returncode, done.stdout, done.stderr


LONG = b"line: the line has more than %d bytes: write several shorter lines\n" % LONGEST_LINE
ODD = {
    "bytes that don't print": (b"add a " + bytes(range(1, 9)),
                               b"cell: '" + b"".join(b"\\x%02x" % n for n in range(1, 9)) + b"' is not a cell"),
    "quotes, a backslash and a CR": (b"add a \xff'\"\\\r", b"cell: '\\xff\\'\\\"\\\\' is not a cell"),
    "4,090 such bytes": (b"add a " + b"\xff" * 4090, b"cell: '" + b"\\xff" * 4090 + b"' is not a cell"),
    "the longest line": (b"x" * LONGEST_LINE, b"syntax: '" + b"x" * LONGEST_LINE + b"' is not a command\n"),
    "a byte more": (b"x" * (LONGEST_LINE + 1), LONG),
    "a long comment": (b"#" * 70000, LONG),
}


@pytest.mark.parametrize("line,reason", ODD.values(), ids=ODD)
def test_lines_of_odd_bytes_and_lengths(line, reason):
    status, _, notes = explained(line)
    assert (status, notes.count(b"\n")) == (1, 1)
    assert notes[: len(reason) + 14] == b"line 1: error " + reason


@pytest.mark.parametrize("size", [*range(0, 200, 13), 1000, 10000])
def test_standard_error_fills_up(size, tmp_path):
    def small_files():
        signal.signal(signal.SIGXFSZ, signal.SIG_IGN)
        resource.setrlimit(resource.RLIMIT_FSIZE, (size, size))

    file = tmp_path / "notes"
    with open(file, "wb") as notes:
        status, answers, _ = explained(SCRIPT, stderr=notes, preexec_fn=small_files)
    assert (status, answers, file.read_bytes()) == (1, ANSWERS, NOTES[:size])


class Explanations(unittest.TestCase):
    # A line for each refusal that needs no failure, lines without an answer, and answered lines.
    EACH = {
        b"# a comment": (),
        b"add a zz": (b"error cell", b"'zz' is not a cell (a token or a debug text)"),
        b"": (),
        b"add a 1": (b"ok 0 1",),
        b"load a none": (b"error missing", b"there is no file of that name"),
        b"load a bad": (b"error format", b"the file is not a union file"),
        b"load a folder": (b"error file", b"the file could not be read or written"),
        b"restore bad": (b"error session", b"the file is not a session file"),
        b"add b 3 5": (
            b"error too-many",
            b"too many cells: a register has up to 10000 (regions of the Earth: --limit 1000000), denorm lists 1000000",
        ),
        b"redo": (b"error nothing", b"there is nothing to undo or redo"),
        b"save a .x": (
            b"error name",
            b"'.x' is not a file name (1 to 64 letters, digits, '.', '_' or '-'; it must not begin with '.' or '-'; "
            b"--dir names the folder): byte 1 is '.'",
        ),
        b"add a '\\\x01": (b"error cell", b"'\\'\\\\\\x01' is not a cell (a token or a debug text)"),
        b"count a b": (b"error syntax", b"'b' is a word too many"),
        b"add\r": (b"error syntax", b"a register (a to z) is missing"),
        b"restore deep": (b"error too-deep", b"the session has more states than the depth"),
        b"undo": (b"ok 1 0",),
        b"undo ": (b"error nothing", b"there is nothing to undo or redo"),
    }

    def test_each_refusal_has_its_note(self):
        script = b"".join(line + b"\n" for line in self.EACH)
        answers = b"".join(said[0] + b"\n" for said in self.EACH.values() if said)
        notes = b"".join(
            b"line %d: %s: %s\n" % (number, *said) for number, said in enumerate(self.EACH.values(), 1) if len(said) > 1
        )
        with tempfile.TemporaryDirectory() as folder:
            os.mkdir(os.path.join(folder, "folder"))
            with open(os.path.join(folder, "bad"), "wb") as file:
                file.write(b"\x02")
            with open(os.path.join(folder, "deep"), "wb") as file:
                file.write(session(past=[change("a", [], ["1"]), change("a", ["1"], [])]))
            words = ["run", "--explain", "--limit", "1", "--depth", "1", "--dir", folder]
            self.assertEqual(ran(*words, script=script), (1, answers, notes))
            for size in (1, 7):
                self.assertEqual(ran_in_pieces(script, size, *words[1:]), (1, answers, notes))

    def test_each_refused_line_has_a_note(self):
        self.assertEqual(explained(SCRIPT), (1, ANSWERS, NOTES))
        self.assertEqual(ran("run", script=SCRIPT), (1, ANSWERS, b""))

    def test_nothing_is_said_if_nothing_is_refused(self):
        self.assertEqual(explained(b"# a comment\nadd a 1\n"), (0, FACE, b""))

    def test_a_note_is_there_before_the_next_line_is_typed(self):
        words = [PROGRAM, "run", "--explain"]
        program = subprocess.Popen(words, stdin=subprocess.PIPE, stdout=subprocess.PIPE, stderr=subprocess.PIPE)
        program.stdin.write(b"cell zz\n")
        program.stdin.flush()
        self.assertEqual(program.stderr.readline(), FIRST)
        program.kill()
        program.communicate()

    def test_standard_error_is_closed(self):
        status, answers, _ = explained(SCRIPT, stderr=None, preexec_fn=lambda: os.close(2))
        self.assertEqual((status, answers), (1, ANSWERS))

    def test_standard_error_is_full(self):
        with open("/dev/full", "wb") as full:
            status, answers, _ = explained(SCRIPT, stderr=full)
        self.assertEqual((status, answers), (1, ANSWERS))

    def test_the_reader_of_the_notes_goes_away(self):
        reader, writer = os.pipe()
        os.close(reader)
        with os.fdopen(writer, "wb") as gone:
            status, answers, _ = explained(SCRIPT, stderr=gone)
        self.assertEqual((status, answers), (1, ANSWERS))

    def test_the_name_of_a_failed_stream_comes_after_the_notes(self):
        with open("/dev/full", "wb") as full:
            words = [PROGRAM, "run", "--explain"]
            done = subprocess.run(words, input=b"cell zz\n", stdout=full, stderr=subprocess.PIPE, timeout=SECONDS)
        self.assertEqual((done.returncode, done.stderr), (2, FIRST + b"s2calc: output\n"))
