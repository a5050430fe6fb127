"""Runs of thousands of lines, which hold as much memory and as many open files at the end as after the first of them.
No contract says that anything is given back, so a body that keeps what it took is refused here alone."""
import os
import subprocess
import tempfile
import unittest

from model.calculator import Calculator
from test_long_registers import SECONDS, SQUARE, THIRDS, file_of, line
from process import PROGRAM
from test_sessions import size_after

FILES = {"thirds": file_of(THIRDS), "seconds": file_of(SECONDS), "cut": file_of(THIRDS)[:-1]}
DEPTH = 10
# How often the lines are given before the program is waited for. They fit into a pipe.
BATCH = 5
# The most that the memory may grow: some pages, which the system counts late, and which the heap takes once.
SPARE = 1 << 18


def script_of(lines):
    return "".join(f"{it}\n" for it in lines).encode()


def held_after(program, script, answers):
    """The bytes of memory and the open files that a program holds once it has given these answers."""
    memory = size_after(program, script, answers, "RssAnon")
    return memory, len(os.listdir(f"/proc/{program.pid}/fd"))


class GivenBack(unittest.TestCase):
    def check(self, lines, times):
        """The lines over two long registers, which have the same answers each time, leave nothing behind."""
        model = Calculator(10_000, DEPTH, dict(FILES))
        before = script_of(["load a thirds", "load b seconds", *lines])
        first, once, again = [model.run(script)[0] for script in (before, script_of(lines), script_of(lines))]
        self.assertEqual(again, once)
        with tempfile.TemporaryDirectory() as folder:
            for name, text in FILES.items():
                with open(os.path.join(folder, name), "wb") as it:
                    it.write(text)
            words = [PROGRAM, "run", "--explain", "--limit", "10000", "--depth", str(DEPTH), "--dir", folder]
            pipe = subprocess.PIPE
            with subprocess.Popen(words, stdin=pipe, stdout=pipe, stderr=subprocess.DEVNULL) as program:
                held_after(program, before, first)
                held = [held_after(program, script_of(lines) * BATCH, once * BATCH) for _ in range(times // BATCH)]
                program.stdin.close()
        (memory, files), (last_memory, last_files) = held[len(held) // 10], held[-1]
        self.assertEqual(last_files, files)
        self.assertLess(last_memory, memory + SPARE)

    def test_files_and_states_leave_nothing_behind(self):
        self.check(["save a f", "load b f", "dump s", "restore s", "undo", "redo", "undo"], 2000)

    def test_other_commands_leave_nothing_behind(self):
        lines = ["copy c a", "union c b", "undo", "intersect c b", "subtract c a", "undo", "redo", "show c"]
        lines += [line("add c", THIRDS[:100]), line("remove c", SECONDS[:100]), line("keep c", THIRDS[:50]), "undo"]
        lines += [f"outer d 9 {SQUARE}", f"inner d 9 {SQUARE}", "outerof e a 5", f"innerof e b 6 {SQUARE}"]
        lines += ["range d 0000000000000001 bfffffffffffffff", "denorm a 7 1", "covers a c", "meets a c"]
        lines += ["load c cut", "restore cut", "load c none", "restore none", "add c none", "save a ../f", "a line"]
        self.check([*lines, "history", "clear c", "clear d", "clear e", "undo"], 250)
