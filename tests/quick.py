#!/usr/bin/env python3
"""The tests that need no proof, for who just came: tests/run --tier quick.

The calculator and both programs of rows are built unproved, side by side. The rows have to have their answers, and the
program has to pass its tests and SCRIPTS random scripts (tests/quick.py SCRIPTS). The gate asks all of this again of
the programs that are proved. Without Rattle's kit nothing can be built: then the release's program is asked, and no
rows. The last line is 'N passed, M failed'.
"""
import os
import re
import shutil
import subprocess
import sys
import tempfile
from concurrent.futures import ThreadPoolExecutor

TOP = os.path.dirname(os.path.dirname(os.path.realpath(__file__)))
sys.path.append(os.path.join(TOP, "tests", "program"))
from process import RELEASED  # noqa: E402
ROWS = ("test_library", "test_script")


def built(crate, room):
    """The program of a crate."""
    program = os.path.join(room, crate)
    subprocess.run([os.path.join(TOP, "tools", "unproved"), program, crate], stdin=subprocess.DEVNULL, check=True)
    return program


def rows(crate, room):
    """How many rows of a crate's table passed, and whether they are not all."""
    program, folder = built(crate, room), os.path.join(TOP, "crates", crate)
    with open(os.path.join(folder, "stdin"), "rb") as it:
        table = it.read()
    done = subprocess.run([program], input=table, cwd=room, capture_output=True, check=False)
    said = done.stdout.decode(errors="replace")
    if said == "all rows have their answers\n":
        return len(re.findall(rb"^## ", table, re.M)), 0
    print(f"{crate}: {said[-2000:]}{done.stderr.decode(errors='replace')[-2000:]}")
    return 0, 1


def counted(command, program):
    """How many checks a command counts that passed and failed, of this program."""
    done = subprocess.run(command, cwd=TOP, env={**os.environ, "S2CALC": program},
                          stdin=subprocess.DEVNULL, capture_output=True, text=True, errors="replace", check=False)
    last = done.stdout.rstrip().rpartition("\n")[2]
    found = re.fullmatch(r"(\d+) passed, (\d+) failed", last)
    passed, failed = map(int, found.groups()) if found else (0, 1)
    if failed or done.returncode:
        print(done.stdout[-4000:] + done.stderr[-4000:])
    return passed, max(failed, int(done.returncode != 0))


def main():
    with tempfile.TemporaryDirectory() as room, ThreadPoolExecutor(4) as pool:
        has_kit = shutil.which("rt")
        if not has_kit:
            print(f"without Rattle's kit no rows are asked, and the release's program, {RELEASED}")
        counts = {crate: pool.submit(rows, crate, room) for crate in ROWS if has_kit}
        try:
            program = built("calculator", room) if has_kit else RELEASED
            counts["the program"] = pool.submit(counted, ["bash", "tests/pytest.sh", "tests/program"], program)
            counts["random scripts"] = pool.submit(
                counted, [sys.executable, "tests/peer/scripts.py", *sys.argv[1:2]], program)
            counts = {name: it.result() for name, it in counts.items()}
        except subprocess.CalledProcessError as error:
            print(f"{' '.join(error.cmd)}: not built")
            counts = {"the builds": (0, 1)}
    for name, (passed, failed) in counts.items():
        print(f"{name}: {passed} passed, {failed} failed")
    passed, failed = map(sum, zip(*counts.values()))
    print(f"{passed} passed, {failed} failed")
    return failed > 0


if __name__ == "__main__":
    sys.exit(main())
