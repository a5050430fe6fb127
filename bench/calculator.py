#!/usr/bin/env python3
"""The calculator's lines beside a plain C++ loop over S2, and one over hand-written lists: bench/run calculator [WORD
[ROUNDS]], rows whose names contain WORD.

The three answer the same scripts, in turn, and a row counts only if the answers are the same, byte for byte. The loops
(plain.cc) have no undo and refuse nothing. A number is the nanoseconds of processor time of a line, reading and writing
included, the least of the rounds, without what the beginning of the script takes. S2 is Debian's package, or with
S2_RELEASE=1 without its checks. Rows that no loop has are the calculator's alone.
"""
import filecmp
import os
import subprocess
import sys
from typing import NamedTuple

HERE = os.path.dirname(os.path.realpath(__file__))
OUT = os.path.join(HERE, "out")
PROGRAM = os.path.join(HERE, "../crates/calculator/out/calculator")
sys.path.insert(0, os.path.join(HERE, "../tools"))
import usage  # noqa: E402

SIZES = (1000, 10_000, 100_000)


class Row(NamedTuple):
    """Lines of one kind about registers of that number of cells; none for lines that load no file of cells."""

    kind: str
    lines: int
    cells: int = 0

    @property
    def name(self):
        return f"{self.kind}_{self.cells}" if self.cells else self.kind


ROWS = [
    *(Row(kind, 1_000_000) for kind in ("cell", "at", "square", "add")),
    Row("range", 100_000), Row("outer", 10_000),
    *(Row(kind, 1_000_000, 10_000) for kind in ("has", "touches")),
    *(Row(kind, lines, cells) for kind in ("apart", "inside")
      for cells, lines in ((1000, 400_000), (10_000, 100_000), (100_000, 20_000))),
    Row("keep", 10_000, 10_000),
    *(Row(kind, 40_000_000 // (cells + 1000), cells) for cells in (1000, 100_000)
      for kind in ("copy", "union", "intersect", "subtract", "half_copy", "half_union", "half_intersect",
                   "half_subtract", "covers", "within", "meets", "count", "outerof")),
    Row("show", 10_000, 1000), Row("show", 100, 100_000), Row("denorm", 1000, 1000),
]
ALONE = [Row("large_covers", 300_000), Row("large_meets", 300_000), Row("large_undo", 300), Row("large_outerof", 5)]


def path(name):
    return os.path.join(OUT, name)


def made(name, *words):
    """A file that the program of script.cc prints."""
    with open(path(name), "wb") as it:
        subprocess.run([path("script"), *map(str, words)], stdout=it, check=True)
    return path(name)


def ways():
    """The three programs, by name."""
    calculator = [PROGRAM, "run", "--limit", "1000000", "--dir", OUT]
    return {"s2calc": calculator, "S2": [path("plain"), "s2", OUT], "hand": [path("plain"), "hand", OUT]}


def processor_time(command, script, answers):
    """The seconds of processor time that a program takes to answer a script."""
    with open(script, "rb") as given, open(answers, "wb") as said:
        process = subprocess.Popen(command, stdin=given, stdout=said)
        _, status, used = os.wait4(process.pid, 0)
        process.returncode = os.waitstatus_to_exitcode(status)
    if process.returncode != 0:
        sys.exit(f"{' '.join(command)}: status {process.returncode} for {script}")
    return used.ru_utime + used.ru_stime


def nanoseconds(row, commands, rounds):
    """What a line takes each program, and whether all have the same answers."""
    words = [row.cells] if row.cells else []
    begin = made("begin.txt", row.kind, 0, *words)
    script = made("script.txt", row.kind, row.lines, *words)
    least = {}
    for _ in range(rounds):
        for name, command in commands.items():
            spent = [processor_time(command, it, path(f"answers.{name}")) for it in (begin, script)]
            least[name] = [min(pair) for pair in zip(spent, least.get(name, spent))]
    first, *others = (path(f"answers.{name}") for name in commands)
    is_equal = all(filecmp.cmp(first, it, shallow=False) for it in others)
    return {name: 1e9 * (whole - begun) / row.lines for name, (begun, whole) in least.items()}, is_equal


def prepare():
    build = ["bash", os.path.join(HERE, "build.sh"), "plain.cc"]
    subprocess.run(build, check=True, env={**os.environ, "PEER_ALONE": "1"})
    subprocess.run(["g++", "-std=c++17", "-O2", "-Wall", "-o", path("script"), os.path.join(HERE, "script.cc")],
                   check=True)
    subprocess.run([os.path.join(HERE, "../tools/prove")], check=True)
    for cells in SIZES:
        made(f"first_{cells}", "cells", cells, 4)
        made(f"second_{cells}", "cells", cells, 5)
        made(f"half_{cells}", "half", cells)
    made("large", "large", 1_000_000)


def wanted(rows, word):
    """The rows whose names contain a word; or with a minus sign before it, don't."""
    return [it for it in rows if (word[1:] not in it.name if word.startswith("-") else word in it.name)]


def main():
    usage.print_if_asked(__doc__)
    word, rounds = (sys.argv[1:] + ["", "3"][len(sys.argv[1:]):])[:2]
    if not wanted(ROWS + ALONE, word):
        sys.exit(f"bench/run calculator: no row's name contains {word}")
    prepare()
    all_equal = True
    print(f"{'':18} {'s2calc':>12} {'S2':>12} {'by hand':>12} {'S2/ours':>8} {'ours/hand':>9}")
    for row in wanted(ROWS, word):
        took, is_equal = nanoseconds(row, ways(), int(rounds))
        ours, peer, hand = took.values()
        all_equal = all_equal and is_equal
        print(f"{row.name:18} {ours:12,.0f} {peer:12,.0f} {hand:12,.0f} {peer / ours:8.2f} {ours / hand:9.2f}"
              f"{'' if is_equal else '  DIFFERS'}", flush=True)
    for row in wanted(ALONE, word):
        took, _ = nanoseconds(row, {"s2calc": ways()["s2calc"]}, int(rounds))
        print(f"{row.name:18} {took['s2calc']:12,.0f}", flush=True)
    return 0 if all_equal else 1


if __name__ == "__main__":
    sys.exit(main())
