#!/usr/bin/env python3
"""What it costs to restore and dump sessions, also such whose changes are many or large beside their lists: sessions.

Prints for each the size of its file; the nanoseconds a cell that `restore` takes, beside a C++ program that reads the
file, copies its lists and checks nothing (reader.cc); and the memory that it holds at most, also as copies of the file.
Then the same of `dump`, beside one that only writes the file. What is dumped has to be what was restored. The program
is the one that the gate or tools/prove has built, unless its sources are newer; PROGRAM names another one."""
import array
import os
import random
import subprocess
import sys
import tempfile
import time

TOP = os.path.dirname(os.path.dirname(os.path.realpath(__file__)))
PROGRAM = os.environ.get("PROGRAM", os.path.join(TOP, "crates/calculator/out/calculator"))
READER = os.path.join(TOP, "bench/out/reader")
sys.path.insert(0, os.path.join(TOP, "tools"))
import usage  # noqa: E402


def cell(face, level, place):
    return face << 61 | (2 * place + 1) << 2 * (30 - level)


def row(face, count, first=0, step=4, level=20):
    """Cells of a face, no two of them siblings."""
    return [cell(face, level, first + step * n) for n in range(count)]


def listed(cells):
    return len(cells).to_bytes(8, "little") + array.array("Q", cells).tobytes()


def changed(changes):
    """Changes as a file has them: the register of each, and the cells that it takes out and puts in."""
    return len(changes).to_bytes(8, "little") + b"".join(
        bytes([register]) + listed(sorted(out)) + listed(sorted(put)) for register, out, put in changes)


def written(registers, done, undone):
    """A session file: the lists of the first registers, and changes."""
    lists = registers + [[]] * (26 - len(registers))
    return b"\x73\x01" + b"".join(map(listed, lists)) + changed(done) + changed(undone)


def session(cells, *changes):
    """A session file of one register, with undone changes of it."""
    return written([cells], [], [(0, *change) for change in changes])


def of_all_registers(count, changes):
    """Each register has two of the four children of every other cell of level 19. Each change is of the next register,
    and moves the second child of five of those cells."""
    draw, second, done = random.Random(22), [[1] * (count // 2) for _ in range(26)], []
    for number in range(changes):
        of, out, put = second[number % 26], [], []
        for family in draw.sample(range(count // 2), 5):
            out.append(cell(0, 20, 8 * family + of[family]))
            of[family] = 3 - of[family]
            put.append(cell(0, 20, 8 * family + of[family]))
        done.append((number % 26, out, put))
    lists = [[cell(0, 20, 8 * family + place) for family, at in enumerate(of) for place in (0, at)] for of in second]
    return written(lists, done, [])


def to_and_fro(out, put, times):
    return [(out, put), (put, out)] * (times // 2)


def in_hundreds(cells):
    return [([], cells[n : n + 100]) for n in range(0, len(cells), 100)]


def sessions():
    yield "26 registers of 100,000 cells, 10,000 changes", of_all_registers(100_000, 10_000)
    long, other = row(0, 1_000_000), row(1, 1_000_000)
    yield "1,000,000 cells taken out and put back", session(long, *to_and_fro(long, [cell(1, 5, 0)], 2))
    yield "1,000,000 cells exchanged for others, and back", session(long, *to_and_fro(long, other, 2))
    yield "1,000,000 new cells, a hundred at a time", session([], *in_hundreds(long))
    yield "the same in another order", session([], *in_hundreds(random.Random(5).sample(long, len(long))))
    yield "90 cells exchanged 10,000 times", session(long[:90], *to_and_fro(long[:90], row(0, 90, 1), 10_000))
    quarter = cell(0, 1, 0)
    whole_face = to_and_fro([], [quarter], 2)
    single = [([], [it]) for it in row(0, 9_998, 0, 80, 14)]
    yield "a face as a whole, and then single cells", session(row(0, 990_000, 4**11, 3, 12), *whole_face, *single)
    draw = random.Random(4)
    changes = []
    for _ in range(5_000):
        first = draw.randrange(len(long) - 100)
        changes += to_and_fro(long[first : first + 100], [], 2)
    yield "runs of 100 cells taken out and put back", session(long, *changes)


def asked(program, line):
    program.stdin.write(line)
    program.stdin.flush()
    return program.stdout.readline()


def asked_timed(program, line):
    """The seconds that a line takes, and the most bytes that the program holds in memory meanwhile."""
    with open(f"/proc/{program.pid}/clear_refs", "w") as it:
        it.write("5")
    start = time.perf_counter()
    answer = asked(program, line)
    took = time.perf_counter() - start
    if answer != b"ok\n":
        raise AssertionError(answer)
    with open(f"/proc/{program.pid}/status") as it:
        return took, next(int(entry.split()[1]) for entry in it if entry.startswith("VmHWM:")) * 1024


def seconds_of(work):
    start = time.perf_counter()
    work()
    return time.perf_counter() - start


def restored_and_dumped(folder, text):
    """The seconds and the bytes of memory of `restore` and `dump`, and the seconds of reader.cc and of writing."""
    file, dumped = (os.path.join(folder, name) for name in "st")
    for name in os.listdir(folder):
        os.remove(os.path.join(folder, name))

    def write():
        with open(file, "wb") as it:
            it.write(text)
    took = seconds_of(write)
    begun, read = (seconds_of(lambda: subprocess.run(words, check=True)) for words in (["true"], [READER, file]))
    words = [PROGRAM, "run", "--limit", "1000000", "--depth", "10000", "--dir", folder]
    with subprocess.Popen(words, stdin=subprocess.PIPE, stdout=subprocess.PIPE) as program:
        asked(program, b"history\n")
        costs = [asked_timed(program, line) for line in (b"restore s\n", b"dump t\n")]
        program.stdin.close()
    with open(dumped, "rb") as it:
        if it.read() != text:
            raise AssertionError("what is dumped is not what was restored")
    return [(*cost, plain) for cost, plain in zip(costs, (read - begun, took))]


def main():
    usage.print_if_asked(__doc__)
    if "PROGRAM" not in os.environ and subprocess.call([os.path.join(TOP, "tools/prove")]) != 0:
        sys.exit(1)
    os.makedirs(os.path.dirname(READER), exist_ok=True)
    subprocess.run(["g++", "-std=c++17", "-O2", "-Wall", "-o", READER, os.path.join(TOP, "bench/reader.cc")],
                   check=True)
    for name, text in sessions():
        with tempfile.TemporaryDirectory() as folder:
            runs = [restored_and_dumped(folder, text) for _ in range(5)]
        print(f"{name:48} {len(text) / 1e6:5.1f} MB", end="")
        for command, costs in zip(("restore", "dump"), zip(*runs)):
            took, plain = (min(cost[k] for cost in costs) for k in (0, 2))
            most, cells = max(cost[1] for cost in costs), len(text) / 8e9
            print(f"  {command} {took / cells:6.1f} ns a cell, plainly {plain / cells:5.1f}, {most / 1e6:6.1f} MB, "
                  f"{most / len(text):5.2f} copies", end="")
        print(flush=True)


if __name__ == "__main__":
    main()
