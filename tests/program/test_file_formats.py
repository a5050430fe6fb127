"""Union files and session files: refused bytes, all beginnings, and all texts that differ from a file in one byte.

What each text stands for is read by the plain model. None is too deep or has too many cells."""
import os
import shutil
import tempfile
import unittest

from model.calculator import MOST_CHANGES, MOST_IN_A_FILE, file_text, read_file, read_session, session_text
from process import ran
from test_sessions import cells, change, number, session

BATCH = 4_000
THREE = ["0c", "14", "1c"]
EMPTY = session()
TWO_CELLS = b"\x01" + cells("04", "0c")
# Face 0 in register a, which came there in one change, and an undone change from it to three of its children.
MOVED_ON = session({"a": ["1"]}, [change("a", [], ["1"])], [change("a", ["1"], THREE)])

NO_SESSIONS = {
    "nothing": b"",
    "half of the head": b"\x73",
    "the head alone": b"\x73\x01",
    "another version": b"\x73\x02",
    "no first byte of a file": b"\0",
    "another head": b"\x72\x01",
    "a union file and a byte": b"\x01" + number(0) + b"\0",
    "a list is not normalized: four siblings": session({"a": ["04"] + THREE}),
    "a list descends": session({"a": ["0c", "04"]}),
    "a number is no cell": session({"a": ["0"]}),
    "1,000,001 cells": EMPTY[:2] + number(MOST_IN_A_FILE + 1) + EMPTY[10:],
    "a register is missing": EMPTY[:2] + EMPTY[10:],
    "a byte follows": EMPTY + b"\0",
    "the future is missing": EMPTY[:-8],
    "10,001 changes": EMPTY[:-16] + number(MOST_CHANGES + 1) + number(0),
    "a list of a change descends": session(future=[change("a", [], ["0c", "04"])]),
}


def union_again(text):
    """The union file that is written of what a text stands for, or None if that is no union."""
    runs = read_file(text)
    return None if runs is None else file_text(runs)


def session_again(text):
    """The same for sessions."""
    state = read_session(text)
    return None if state is None else session_text(*state)


def beginnings(text):
    return [text[:length] for length in range(len(text))]


def changed_in_one_byte(text):
    others = [(place, other) for place, byte in enumerate(text) for other in range(256) if other != byte]
    return [text[:place] + bytes([other]) + text[place + 1 :] for place, other in others]


def answers(folder, lines):
    return ran("run", "--dir", folder, script="".join(line + "\n" for line in lines).encode())[1].splitlines()


def read_from(folder, name):
    with open(os.path.join(folder, name), "rb") as it:
        return it.read()


def write_to(folder, name, text):
    """A file that is there is overwritten in place: to make another of each would cost most of the time."""
    with open(os.open(os.path.join(folder, name), os.O_WRONLY | os.O_CREAT), "wb") as it:
        it.write(text)
        it.truncate()


class FileFormats(unittest.TestCase):
    """Union files and session files: refused bytes, all beginnings, and all texts that differ in one byte."""

    def setUp(self):
        self.folder = tempfile.mkdtemp()
        self.addCleanup(shutil.rmtree, self.folder)

    def written(self, texts, reads, writes, refusal):
        """What the program writes of each text after it has read it, or None for those that it refuses."""
        for n, text in enumerate(texts):
            write_to(self.folder, f"{n}", text)
        said = answers(self.folder, [f"{reads} {n}" for n in range(len(texts))])
        self.assertEqual(len(said), len(texts))
        self.assertLessEqual({answer for answer in said if not answer.startswith(b"ok")}, {refusal})
        taken = {n for n, answer in enumerate(said) if answer != refusal}
        said = answers(self.folder, [line for n in taken for line in (f"{reads} {n}", f"{writes} again{n}")])
        self.assertEqual(said[1::2], [b"ok"] * len(taken))
        return [read_from(self.folder, f"again{n}") if n in taken else None for n in range(len(texts))]

    def compare(self, texts, again, *how):
        """The program accepts the texts that the model accepts, and writes of them what the model writes. It answers
        the texts that are accepted, with what is written."""
        taken = {}
        for first in range(0, len(texts), BATCH):
            batch = texts[first : first + BATCH]
            for text, found in zip(batch, self.written(batch, *how)):
                self.assertEqual(found, again(text), text)
                if found is not None:
                    taken[text] = found
        return taken

    def compare_unions(self, texts):
        return self.compare(texts, union_again, "load a", "save a", b"error format")

    def compare_sessions(self, texts):
        return self.compare(texts, session_again, "restore", "dump", b"error session")

    def test_refused_bytes(self):
        self.assertEqual(self.compare_sessions(list(NO_SESSIONS.values())), {})

    def test_every_beginning(self):
        self.assertEqual(self.compare_unions(beginnings(TWO_CELLS)), {})
        self.assertEqual(self.compare_sessions(beginnings(MOVED_ON)), {})

    def test_every_union_file_with_another_byte(self):
        texts = changed_in_one_byte(TWO_CELLS)
        self.assertEqual(len(texts), 25 * 255)
        self.assertGreater(len(self.compare_unions(texts)), 2000)

    def test_every_session_file_with_another_byte(self):
        texts = changed_in_one_byte(MOVED_ON)
        self.assertEqual(len(texts), 308 * 255)
        taken = self.compare_sessions(texts)
        self.assertGreater(len(taken), 3000)
        self.assertEqual(taken, {text: text for text in taken})

    def test_a_union_file_is_a_session_of_register_a(self):
        texts = [b"\x01" + cells("0c", "04", "04"), b"\x01" + cells("1"), b"\x01" + cells()]
        found = self.written(texts, "restore", "dump", b"error session")
        self.assertEqual(found, [session({"a": ["04", "0c"]}), session({"a": ["1"]}), EMPTY])

    def test_the_oldest_change_first_and_of_those_undone_the_nearest(self):
        to_face, to_three = change("a", [], ["1"]), change("a", ["1"], THREE)
        answers(self.folder, "add a 1,remove a 04,dump 0,undo,dump 1,undo,dump 2".split(","))
        found = [read_from(self.folder, name) for name in "012"]
        past = session({"a": THREE}, [to_face, to_three])
        future = session({}, [], [to_face, to_three])
        self.assertEqual(found, [past, MOVED_ON, future])
