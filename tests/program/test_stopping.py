"""Runs that stop at their first error, by `run --stop`."""
import os
import subprocess
import tempfile
import unittest

from process import PROGRAM, SECONDS, ran, ran_in_pieces

GOOD = b"\x01" + (1).to_bytes(8, "little") + (0x1000000000000000).to_bytes(8, "little")
EMPTY = b"\x01" + bytes(8)
SCRIPT = b"add a 04 0c\nadd a zz\nadd a 1\nundo\nundo\nundo\n"
ANSWERS = b"ok 0 2\nerror cell\n"


class Stopping(unittest.TestCase):
    def test_a_file_stays_that_a_later_line_would_have_replaced(self):
        script = b"load a zonse\nload b lakes\nsubtract a b\nsave a zones\n"
        for words, answers, zones in ([], b"error missing\nok 0 1\nok 0 0\nok\n", EMPTY), (
                ["--stop"], b"error missing\n", GOOD):
            with tempfile.TemporaryDirectory() as folder:
                for name in ("zones", "lakes"):
                    with open(os.path.join(folder, name), "wb") as file:
                        file.write(GOOD)
                self.assertEqual(ran("run", *words, script=script, cwd=folder), (1, answers, b""))
                with open(os.path.join(folder, "zones"), "rb") as file:
                    self.assertEqual(file.read(), zones)

    def test_the_answer_to_the_first_error_is_the_last(self):
        for size in (1, 7, 20, 4096):
            self.assertEqual(ran_in_pieces(SCRIPT, size, "--stop"), (1, ANSWERS, b""))

    def test_nothing_is_read_after_an_error(self):
        with subprocess.Popen([PROGRAM, "run", "--stop"], stdin=subprocess.PIPE, stdout=subprocess.PIPE) as run:
            run.stdin.write(b"add a zz\n")
            run.stdin.flush()
            self.assertEqual((run.wait(timeout=SECONDS), run.stdout.read()), (1, b"error cell\n"))

    def test_other_options_mean_the_same(self):
        words = ["run", "--stop", "--limit", "1", "--depth", "1", "--explain"]
        status, answers, notes = ran(*words, script=b"undo\n" + SCRIPT)
        self.assertEqual((status, answers), (1, b"error nothing\n"))
        self.assertEqual(notes, b"line 1: error nothing: there is nothing to undo or redo\n")
        status, answers, notes = ran(*words, script=SCRIPT)
        self.assertEqual((status, answers), (1, b"error too-many\n"))
        self.assertIn(b"--limit 1000000", notes)
        status, answers, _ = ran("run", "--stop", "--prompt", script=SCRIPT)
        self.assertEqual((status, answers), (1, ANSWERS))

    def test_a_script_without_an_error_is_answered_as_without_the_option(self):
        for script in (b"", b"# a comment\n\n", b"add a 04 0c\ncount a\nundo\n", b"add a 04 0c\nundo\nredo"):
            self.assertEqual(ran("run", "--stop", script=script), ran("run", script=script))
            self.assertEqual(ran("run", "--stop", script=script)[0], 0)

    def test_an_error_in_a_last_line_without_a_newline(self):
        self.assertEqual(ran("run", "--stop", script=b"add a 04 0c\nundo\nundo"),
                         (1, b"ok 0 2\nok 2 0\nerror nothing\n", b""))

    def test_the_help_says_that_a_script_goes_on_without_it(self):
        self.assertIn(b"--stop", ran("run", "--help")[1])
