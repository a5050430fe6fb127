"""A run of the program with its own prompt, over a pseudo-terminal, and the keys that end one. tests/prompt is about
the prompt that the launcher shows."""
import errno
import fcntl
import os
import pty
import select
import signal
import subprocess
import termios
import time
import unittest

from process import PROGRAM, SECONDS, ran

PROMPT = b"s2calc> "


LINES = [
    ("add a 04 0c 14", "ok 0 3\n"),
    ("cuont a", "line 2: error syntax: 'cuont' is not a command; did you mean 'count'?\nerror syntax\n"),
    ("count a", "cells 3 leaves 864691128455135232\n"),
]


class Session:
    """The program, with its three streams at a terminal of its own."""

    def __init__(self, *words):
        self.ours, its = pty.openpty()

        def take_terminal():
            signal.signal(signal.SIGINT, signal.SIG_DFL)  # it is ignored in what a shell has put into the background
            fcntl.ioctl(0, termios.TIOCSCTTY, 0)

        self.process = subprocess.Popen([PROGRAM, *words], stdin=its, stdout=its, stderr=its, start_new_session=True,
                                        preexec_fn=take_terminal)
        os.close(its)

    def shown(self, end):
        """What is shown from here on up to these bytes, or to the end of the program."""
        text, until = b"", time.monotonic() + SECONDS
        while end is None or not text.endswith(end):
            assert select.select([self.ours], [], [], max(0, until - time.monotonic()))[0], text
            try:
                more = os.read(self.ours, 4096)
            except OSError as error:  # the terminal is closed
                assert error.errno == errno.EIO and end is None, (error, text)
                more = b""
            if not more:
                break
            text += more
        return text.replace(b"\r\n", b"\n")

    def typed(self, keys):
        os.write(self.ours, keys)

    def ended(self):
        status = self.process.wait(timeout=SECONDS)
        os.close(self.ours)
        return status


class Terminal(unittest.TestCase):
    def test_a_session(self):
        session = Session("run", "--prompt")
        self.assertEqual(session.shown(PROMPT), PROMPT)
        for line, answer in LINES:
            session.typed(line.encode() + b"\n")
            self.assertEqual(session.shown(PROMPT), f"{line}\n{answer}".encode() + PROMPT)
        session.typed(b"\x04")  # Ctrl-D
        self.assertEqual(session.shown(None).strip(b"^D\b"), b"\n")
        self.assertEqual(session.ended(), 1)

    def test_a_session_without_a_refusal(self):
        session = Session("run", "--prompt")
        session.shown(PROMPT)
        session.typed(b"\x04")
        session.shown(None)
        self.assertEqual(session.ended(), 0)

    def test_an_interrupt(self):
        """Ctrl-C ends the program, as it does without a prompt."""
        for words in (["run", "--prompt"], ["run"]):
            session = Session(*words)
            if len(words) > 1:
                session.shown(PROMPT)
            else:
                session.typed(b"count a\n")
                session.shown(b"leaves 0\r\n")
            session.typed(b"\x03")
            session.shown(None)
            self.assertEqual(session.ended(), -signal.SIGINT)

    def test_standard_output_is_that_of_any_run(self):
        script = b"add a 04 zz\ncount a\n\nadd a 04\nshow a"
        status, out, error = ran("run", "--prompt", script=script)
        self.assertEqual((status, out), ran("run", script=script)[:2])
        notes = ran("run", "--explain", script=script)[2]
        self.assertEqual(error, PROMPT + notes + PROMPT + b"\n")

    def test_a_prompt_that_can_not_be_written(self):
        script = b"add a 04\nshow a\n"
        with open("/dev/full", "wb") as full:
            done = subprocess.run([PROGRAM, "run", "--prompt"], input=script, stdout=subprocess.PIPE, stderr=full,
                                  timeout=SECONDS)
        self.assertEqual((done.returncode, done.stdout), (0, ran("run", script=script)[1]))
