"""Union files that are absent or too long, and files that may not be touched."""
import array
import os
import shutil
import subprocess
import tempfile
import unittest

from process import FACE, PROGRAM, SECONDS, answered, ran
from test_sessions import most_resident_after, number

NOBODY = 65534


class UnionFiles(unittest.TestCase):
    def setUp(self):
        self.folder = tempfile.mkdtemp()
        self.addCleanup(shutil.rmtree, self.folder)

    def path(self, name):
        return os.path.join(self.folder, name)

    def write(self, name, content):
        with open(self.path(name), "wb") as it:
            it.write(content)

    def answers(self, script, answers):
        self.assertEqual(ran("run", "--dir", self.folder, script=script.encode())[1].decode(), answers)

    def checks(self, name, answer):
        status = int(answer.startswith("error "))
        self.assertEqual(answered("check", "--dir", self.folder, name), (status, answer.encode() + b"\n"))

    def test_absent_misnamed_and_not_a_file(self):
        os.mkdir(self.path("folder"))
        self.answers("add a 3\nload a h\nload a folder\nsave a folder\nshow a\nhistory\nundo\n",
                     "ok 0 1\nerror missing\nerror file\nerror file\n3\nend\nundo 1 redo 0\nok 1 0\n")
        for name, refusal in (("h", "missing"), ("folder", "file"), ("../f", "name"), ("", "name")):
            self.checks(name, f"error {refusal}")
        self.folder = self.path("absent")
        self.answers("add a 3\nsave a f\nload a f\n", "ok 0 1\nerror file\nerror missing\n")
        self.checks("f", "error missing")

    def test_the_longest_name_and_one_byte_more(self):
        longest = "n" * 64
        self.write(longest, b"\x01" + number(0))
        self.checks(longest, "cells 0 leaves 0")
        self.checks(longest + "n", "error name")
        for words in ([longest], [longest, longest], ["--fit", longest]):
            self.assertEqual(answered("draw", "--dir", self.folder, *words)[0], 0)

    def test_a_folder_at_a_long_path(self):
        self.folder = self.path("/".join(["d" * 250] * 15))
        os.makedirs(self.folder)
        name = "n" * 64
        lines = f"add a 3\nsave a {name}\nload b {name}\ndump {name}\nrestore {name}\n"
        self.answers(lines, "ok 0 1\nok\nok 0 1\nok\nok\n")
        self.checks(name, "error format")

    def test_a_device_is_not_opened_and_a_link_is_followed(self):
        os.symlink("/dev/zero", self.path("zero"))
        os.mkfifo(self.path("fifo"))
        os.symlink("file", self.path("link"))
        for name in ("zero", "fifo"):
            lines = f"add a 3\nload a {name}\nrestore {name}\nsave a {name}\ndump {name}\nshow a\n"
            self.answers(lines, "ok 0 1\n" + "error file\n" * 4 + "3\nend\n")
            self.checks(name, "error file")
        self.answers("add a 3\nload b link\nsave a link\nload b file\n", "ok 0 1\nerror missing\nok\nok 0 1\n")
        self.assertTrue(os.path.islink(self.path("link")))

    def test_a_file_of_which_each_read_fails(self):
        os.symlink("/proc/self/mem", self.path("f"))  # A regular file, whose first bytes can't be read.
        script = b"add a 3\nload a f\nrestore f\nshow a\n"
        done = ran("run", "--dir", self.folder, script=script)
        self.assertEqual(done, (1, FACE + b"error file\n" * 2 + b"3\nend\n", b""))
        self.checks("f", "error file")

    def test_a_file_in_the_place_of_the_folder(self):
        self.folder = self.path("f")
        open(self.folder, "wb").close()
        self.answers("load a g\nrestore g\nsave a g\ndump g\n", "error file\n" * 4)
        self.checks("g", "error file")

    def test_the_longest_union_file_and_one_byte_more(self):
        content = b"\x01" + number(1_000_000) + array.array("Q", range(1, 4_000_000, 4)).tobytes()
        self.write("f", content)
        self.write("g", content + b"\0")
        self.checks("f", "cells 1000000 leaves 1000000")
        self.checks("g", "error format")
        script = b"load a f\nload a g\nrestore g\n"
        answers = b"ok 0 1000000\nerror format\nerror session\n"
        self.assertEqual(ran("run", "--limit", "1000000", "--dir", self.folder, script=script), (1, answers, b""))

    def test_edits_of_as_many_cells_as_a_register_may_have(self):
        # Every second leaf, and the leaves between them. Both together are eleven cells.
        for name, first in (("f", 1), ("g", 3)):
            self.write(name, b"\x01" + number(1_000_000) + array.array("Q", range(first, 4_000_000, 4)).tobytes())
        all_leaves = "30 0 0 1073741823 0 1073741823"
        steps = (
            ("load a f", "ok 0 1000000"), ("copy b a", "ok 0 1000000"), ("union b a", "ok 0 0"),
            ("intersect b a", "ok 0 0"), ("keep b 1", "ok 0 0"), ("remove b 0000000000000001", "ok 1 0"),
            ("add b 0000000000000001", "ok 0 1"), ("remove b 0000000000000001 0000000000000005", "ok 2 0"),
            ("add b 0000000000000001 0000000000000005", "ok 0 2"), ("remove b 1", "ok 1000000 0"),
            ("undo", "ok 0 1000000"), ("outerof c b 30", "ok 0 1000000"), (f"outerof c b {all_leaves}", "ok 0 0"),
            ("innerof d b 30", "ok 0 1000000"), (f"innerof d b {all_leaves}", "ok 0 0"),
            ("subtract b a", "ok 1000000 0"), ("save a h", "ok"), ("load b h", "ok 0 1000000"), ("dump s", "ok"),
            ("restore s", "ok"), ("undo", "ok 1000000 0"), ("load e g", "ok 0 1000000"), ("union e a", "ok 1000000 11"),
        )
        script = "".join(f"{line}\n" for line, _ in steps).encode()
        answers = "".join(f"{answer}\n" for _, answer in steps).encode()
        self.assertEqual(ran("run", "--limit", "1000000", "--dir", self.folder, script=script), (0, answers, b""))

    def test_a_file_longer_than_any_union_is_not_read_whole(self):
        # 3 GB without a block on the disk, which begin as a union file does.
        self.write("long", b"\x01")
        os.truncate(self.path("long"), 3_000_000_000)
        self.checks("long", "error format")
        words = [PROGRAM, "run", "--dir", self.folder]
        lines = ((b"add a 3\n", FACE), (b"load a long\n", b"error format\n"), (b"restore long\n", b"error session\n"),
                 (b"show a\n", b"3\nend\n"))
        with subprocess.Popen(words, stdin=subprocess.PIPE, stdout=subprocess.PIPE) as program:
            held = [most_resident_after(program, line, answer) for line, answer in lines]
            program.stdin.close()
        self.assertLess(max(held), 200_000_000)

    def test_a_file_that_merges_leaves_no_room_in_the_history(self):
        # A million times face 0: a list of 8 MB becomes one of a cell.
        self.write("f", b"\x01" + number(1_000_000) + number(1 << 60) * 1_000_000)
        words = [PROGRAM, "run", "--dir", self.folder]
        with subprocess.Popen(words, stdin=subprocess.PIPE, stdout=subprocess.PIPE) as program:
            for _ in range(40):
                held = most_resident_after(program, b"load a f\nclear a\n", FACE + b"ok 1 0\n")
            program.stdin.close()
        self.assertLess(held, 100_000_000)


class Permissions(unittest.TestCase):
    """Files and folders without permissions, as a user who has none."""

    def setUp(self):
        self.room = tempfile.mkdtemp()
        self.addCleanup(shutil.rmtree, self.room)
        os.chmod(self.room, 0o755)
        self.program = shutil.copy(PROGRAM, os.path.join(self.room, "program"))
        os.chmod(self.program, 0o755)
        self.folder = os.path.join(self.room, "folder")
        os.mkdir(self.folder)

    def run_as_nobody(self, script):
        user = {"user": NOBODY, "group": NOBODY, "extra_groups": []} if os.getuid() == 0 else {}
        done = subprocess.run(
            [self.program, "run", "--dir", self.folder], input=script, capture_output=True, timeout=SECONDS, **user
        )
        return done.stdout

    def test_a_file_without_the_right_to_read(self):
        file = os.path.join(self.folder, "f")
        with open(file, "wb") as it:
            it.write(b"\x01" + bytes(8))
        os.chmod(file, 0)
        self.assertEqual(self.run_as_nobody(b"load a f\n"), b"error file\n")

    def test_a_folder_without_the_right_to_write(self):
        os.chmod(self.folder, 0o555)
        self.assertEqual(self.run_as_nobody(b"add a 1\nsave a f\nhistory\n"), FACE + b"error file\nundo 1 redo 0\n")
        self.assertEqual(os.listdir(self.folder), [])

    def test_a_folder_in_the_place_of_a_file(self):
        os.mkdir(os.path.join(self.folder, "f"))
        self.assertEqual(self.run_as_nobody(b"load a f\nsave a f\n"), b"error file\nerror file\n")

    def test_saved_and_loaded(self):
        os.chmod(self.folder, 0o777)
        script = b"add a 04 0c\nsave a f\nload b f\nshow b\n"
        self.assertEqual(self.run_as_nobody(script), b"ok 0 2\nok\nok 0 2\n04\n0c\nend\n")
        with open(os.path.join(self.folder, "f"), "rb") as it:
            self.assertEqual(it.read().hex(), "01" + "0200000000000000" + "0000000000000004" + "000000000000000c")
