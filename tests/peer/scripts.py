#!/usr/bin/env python3
"""Random scripts, answered by the program and by a plain model: tests/run scripts -- [SCRIPTS [SEED]].

The program is the one that the tests of tests/program ask. The last line is 'N passed, M failed'.
"""
import os
import random
import subprocess
import sys
import tempfile

TESTS = os.path.dirname(os.path.dirname(os.path.realpath(__file__)))
sys.path += [TESTS, os.path.join(TESTS, "program")]
from model.calculator import COMMANDS, COMPARISONS, EDITS_BY_REGISTER, LONGEST_LINE, REGISTERS, SIDE
from model.calculator import Calculator, debug, identifier, joined, file_text, run_of, square, token
from process import PROGRAM

FILES = ["f", "g", "h.s2"]
FOLDER = "folder"
NAMES = FILES * 3 + [FOLDER, "absent", "../x", "-f", ".f", "x" * 65]


class Writer:
    """Writes random scripts whose cells lie close to one another, so that they merge, overlap and share leaves.

    In some scripts all cells are small, and clips may have sides as long as a face. With larger cells the model would
    walk along such a side, leaf by leaf, so these scripts have no line that may make one.
    """

    def __init__(self, chance):
        self.chance = chance
        level = chance.choice([0, 1, 3, 12, 26, 28])
        self.base = (level, chance.randrange(6 * 4**level))
        self.is_small = level >= 26 and chance.random() < 0.5

    def cell(self):
        """A cell near the base: below it, beside it or above it."""
        chance = self.chance
        if chance.random() < 0.05 and not self.is_small:
            level = chance.randrange(31)
            return level, chance.randrange(6 * 4**level)
        level, place = self.base
        place = (place + chance.choice([0, 0, 0, 0, 1, 2, -1])) % (6 * 4**level)
        if chance.random() < 0.06 and level > 0:
            return level - 1, place // 4
        for _ in range(chance.choice([0, 1, 1, 2, 2, 2, 3, 30])):
            if level < 30:
                level, place = level + 1, 4 * place + chance.choice([0, 1, 2, 3, 3, 0])
        return level, place

    def cell_word(self):
        cell, chance = self.cell(), self.chance
        text = chance.choice([token, token, token, debug])(cell)
        if chance.random() < 0.1 and "/" not in text:
            text = text.upper() + "0" * chance.randrange(17 - len(text))
        if chance.random() < 0.01:
            text = chance.choice(["X", "zz", "c", "2", "6/", "0/4", "1" * 17, "0", "g", "/", "", "0/" + "0" * 31])
        return text

    def register(self):
        if self.chance.random() < 0.97:
            return self.chance.choice("aaabbc")
        return self.chance.choice([REGISTERS[-1], chr(ord(REGISTERS[-1]) + 1), "A", "ab", "{", "`"])

    def number(self, most):
        """A number up to the greatest that is accepted, or slightly above it."""
        chance = self.chance
        if chance.random() < 0.02:
            return chance.choice([str(most + 1), "-1", "+1", "007", "0" * 11, "4294967296", "1e3", ""])
        return str(chance.randint(0, most))

    def level(self):
        """The level of a covering."""
        return str(self.chance.randint(26, 30)) if self.is_small else self.number(30)

    def span(self, low, side):
        """The coordinates of a clip: mostly they cut what has this side, and some go along the whole face."""
        chance = self.chance
        if chance.random() < 0.3:
            return chance.choice([(0, SIDE - 1), (1, SIDE - 2), (low, SIDE - 1), (0, low)])
        first = min(max(low + chance.randint(-side, side), 0), SIDE - 1)
        return first, min(first + chance.choice([0, 0, 1, 2, side]), SIDE - 1)

    def clip(self):
        """A rectangle at the base, which may be long and thin."""
        face, i, j, side = square(self.base)
        return f"{face} {' '.join(str(end) for low in (i, j) for end in self.span(low, side))}"

    def rectangle(self, level):
        """A rectangle some cells of the level wide, mostly where the base is."""
        chance = self.chance
        grid = 2 ** (30 - int(level)) if level.isdigit() and int(level) <= 30 else 1
        corners = []
        for _ in range(2):
            low = min(chance.choice([0, chance.randrange(SIDE), SIDE - 1, SIDE // 2]), SIDE - 1)
            high = low + chance.randrange(5 * grid)
            corners += [str(low), str(min(high, SIDE - 1) if chance.random() < 0.95 else high)]
        return " ".join([self.number(5)] + corners)

    def line(self):
        chance, register = self.chance, self.register
        level = self.level()
        kind = chance.randrange(32)
        cells = " ".join(self.cell_word() for _ in range(chance.choice([1, 1, 2, 3, 4, 8, 20])))
        if kind < 9:
            return f"{chance.choice(['add', 'add', 'remove', 'keep'])} {register()} {cells}"
        if kind < 13:
            verb = chance.choice([*EDITS_BY_REGISTER, *COMPARISONS])
            return f"{verb} {register()} {register()}"
        if kind < 16:
            return chance.choice(["undo", "undo", "redo", "redo", "history"])
        if kind < 18:
            return f"{chance.choice(['show', 'count', 'clear'])} {register()}"
        if kind < 20:
            return f"{chance.choice(['has', 'touches'])} {register()} {self.cell_word()}"
        if kind == 20 and not self.is_small:
            return f"range {register()} {self.cell_word()} {self.cell_word()}"
        if kind == 21 and not self.is_small:
            return f"{chance.choice(['outer', 'inner'])} {register()} {level} {self.rectangle(level)}"
        if kind in (20, 21, 22):
            clip = " " + (self.clip() if self.is_small else self.rectangle(level)) if chance.random() < 0.6 else ""
            return f"{chance.choice(['outerof', 'innerof'])} {register()} {register()} {level}{clip}"
        if kind == 23:
            return f"denorm {register()} {self.number(min(30, self.base[0] + 6))} {self.number(3)}"
        if kind == 24:
            return f"{chance.choice(['load', 'save'])} {register()} {chance.choice(NAMES)}"
        if kind > 29:
            return f"{chance.choice(['dump', 'restore'])} {chance.choice(NAMES)}"
        if kind == 25:
            return f"{chance.choice(['cell', 'square'])} {self.cell_word()}"
        if kind == 26:
            return f"at {self.number(5)} {self.number(SIDE - 1)} {self.number(SIDE - 1)}"
        if kind == 27:
            too_long = "x" * (LONGEST_LINE + 1)
            name = chance.choice(COMMANDS)
            near = name[: chance.randrange(1, len(name) + 1)] + chance.choice(["", "", "a", "s", "é"])
            odd = ["# a comment", " # no comment", "", " \t ", "Add a 1", "cells", "add", "add a", too_long, near]
            return chance.choice(odd)
        return f"show {register()}"

    def spoilt(self, line):
        """The line with a word too many, one too few, other blanks, a CR or an odd byte."""
        chance = self.chance
        kind = chance.randrange(6)
        if kind == 0:
            return line + b" 1"
        if kind == 1:
            return line.rsplit(b" ", 1)[0]
        if kind == 2:
            return b"\t" + line.replace(b" ", b" \t ") + b" "
        if kind == 3:
            return line + b"\r" * chance.randint(1, 2)
        at = chance.randrange(len(line) + 1)
        return line[:at] + bytes([chance.choice([0, 11, 12, 32, 47, 48, 128, 255])]) + line[at:]

    def script(self):
        lines = []
        for _ in range(self.chance.randint(1, 40)):
            line = self.line().encode()
            lines.append(self.spoilt(line) if self.chance.random() < 0.04 and not self.is_small else line)
        return b"\n".join(lines) + self.chance.choice([b"", b"\n", b"\r\n", b"\n\n"])

    def file(self):
        """The bytes of a file: a good one, unsorted or normalised, or a damaged one."""
        chance = self.chance
        cells = [self.cell() for _ in range(chance.randrange(8))]
        text = b"\x01" + len(cells).to_bytes(8, "little")
        text += b"".join(identifier(cell).to_bytes(8, "little") for cell in cells)
        if chance.random() < 0.3:
            text = file_text(joined(run_of(cell) for cell in cells))
        if chance.random() < 0.5:
            text = self.session()
        if chance.random() < 0.4:
            at = chance.randrange(len(text) + 1)
            text = text[:at] + chance.choice([b"", b"\x00", b"\x01"]) + text[at + chance.randrange(3) :]
        return text

    def session(self):
        """The bytes of the session that a script of edits leaves."""
        left = Calculator(10_000, self.chance.choice([2, 100]), {})
        for _ in range(self.chance.randrange(8)):
            verb = self.chance.choice(["add", "add", "remove", "undo", "undo", "redo"])
            words = "" if verb in ("undo", "redo") else f" {self.chance.choice('aab')} {token(self.cell())}"
            left.run((verb + words).encode())
        left.run(b"dump s")
        return left.files["s"]


def left_by_the_program(script, limit, depth, files, *flags):
    """What the program answers and notes, how it ends, and the files that it leaves."""
    with tempfile.TemporaryDirectory() as folder:
        os.mkdir(os.path.join(folder, FOLDER))
        for name, text in files.items():
            with open(os.path.join(folder, name), "wb") as file:
                file.write(text)
        ended = subprocess.run(
            [PROGRAM, "run", "--limit", str(limit), "--depth", str(depth), "--dir", folder, *flags],
            input=script,
            capture_output=True,
            timeout=600,
        )
        left = {name: bytes_in(os.path.join(folder, name)) for name in os.listdir(folder)}
    return ended.stdout, ended.stderr, ended.returncode, left


def bytes_in(path):
    """What a file holds; None for a folder."""
    if os.path.isdir(path):
        return None
    with open(path, "rb") as file:
        return file.read()


def is_answered_alike(seed):
    """Whether both give the same answers and notes to a script, leave the same files, and end with the right status."""
    chance = random.Random(seed)
    writer = Writer(chance)
    script = writer.script()
    limit, depth = chance.choice([1, 2, 4, 10, 100, 10_000, 1_000_000]), chance.choice([1, 2, 3, 10, 1000, 10_000])
    files = {name: writer.file() for name in FILES}
    ways = [[], ["--explain"], chance.choice([["--stop"], ["--stop", "--explain"]])]
    for flags in ways:
        model = Calculator(limit, depth, {**files, FOLDER: None})
        answers, refused = model.run(script, "--stop" in flags)
        notes = model.notes if "--explain" in flags else b""
        got = left_by_the_program(script, limit, depth, files, *flags)
        wanted = answers, notes, int(refused), model.files
        if got != wanted:
            print(f"seed {seed}: limit {limit} depth {depth} flags {flags} status {got[2]}\n{script!r}")
            first_differences(got, wanted)
            return False
    return True


def first_differences(got, wanted):
    """Prints the first answer and the first note that differ."""
    for ours, theirs in zip(got[:2], wanted[:2]):
        for line, other in zip(ours.split(b"\n"), theirs.split(b"\n")):
            if line != other:
                print(f"the program: {line!r}\nthe model:   {other!r}")
                break


def main():
    count = int(sys.argv[1]) if len(sys.argv) > 1 else 2000
    seed = int(sys.argv[2]) if len(sys.argv) > 2 else 1
    if not os.path.exists(PROGRAM):
        sys.exit("tests/run scripts: the program is not built; tools/prove proves and builds it")
    for number in range(count):
        if not is_answered_alike(f"{seed}.{number}"):
            print(f"{number} passed, 1 failed")
            sys.exit(1)
    print(f"{count} passed, 0 failed")


main()
