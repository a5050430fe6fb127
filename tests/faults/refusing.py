"""Runs of the script with every command in which some calls of the program fail: tests/refuse.c, which the loader puts
in front of the C library, makes them fail. The same run over a shelf in memory is a row of crates/test_script."""
import collections
import os
import shutil
import subprocess
import sys
import tempfile

from every_command import DEPTH, FILES, LIMIT, LINES, PROGRAM, STEPS, TOP, arguments, files_of, fill
from process import SECONDS

ROWS = os.path.join(TOP, "crates/test_script/out/test_script")
SCRIPT = b"".join(line + b"\n" for line in LINES)
TITLE = "Every command."
NAMES = sorted({name for step in STEPS for name in step.model.files})
Call = collections.namedtuple("Call", "kind file answer")


class Ended(collections.namedtuple("Ended", "status answers error files calls")):
    """What a run left, and its calls."""

    def read(self):
        """How many bytes of the script were read."""
        return sum(call.answer for call in self.calls if call[:2] == ("read", 0) and call.answer > 0)

    def reads_script(self):
        """Whether the script was asked for."""
        return any(call[:2] == ("read", 0) for call in self.calls)


class Refusing:
    """Runs the program with refuse.c in a room of its own."""

    def __init__(self, room):
        self.room, self.library = room, os.path.join(room, "refuse.so")
        source = os.path.join(TOP, "tests/refuse.c")
        if not shutil.which("cc"):
            raise SystemExit("tests/faults: there is no C compiler: Debian's package gcc has one")
        subprocess.run(["cc", "-O2", "-shared", "-fPIC", "-o", self.library, source], check=True)

    def run(self, refused="", piece=0, options=(), before=None, has_calls=True, script=SCRIPT, swapped=""):
        """A run in which the calls fail that REFUSED in refuse.c names. `piece` is the most bytes of a read of the
        script and of a write of answers, if it isn't 0. If `swapped` is a path, each file becomes a link to it."""
        with tempfile.TemporaryDirectory(dir=self.room) as place:
            folder = os.path.join(place, "folder")
            fill(folder)
            words = [*arguments(folder), *options]
            done, calls = self.started(words, script, refused, piece, before, has_calls, swapped)
            return Ended(done.returncode, done.stdout, done.stderr, files_of(folder), calls)

    def run_in_memory(self, refused=""):
        """The same for a run over a shelf in memory, by test_script. It counts as a run that ends with 3 and
        `s2calc: memory` if `run` answers so, or if there is no memory for the row or the editor; then it has no calls,
        since the reads of the table are not those of a run."""
        done, calls = self.started([ROWS], row(), refused)
        answers, is_begun, rest = done.stdout.partition(f"other answers: {TITLE}\n".encode())
        if not is_begun and done.returncode == 1:
            return Ended(3, answers, b"s2calc: memory\n", FILES, [])
        end, *contents = rest.decode().split("\n")[: 1 + len(NAMES)]
        files = {name: bytes.fromhex(text) for name, text in zip(NAMES, contents) if text != "no file"}
        if end == "memory":
            return Ended(3, answers, b"s2calc: memory\n", files, [])
        return Ended(int(not end.endswith(" 0")) or done.returncode, answers, b"", files, calls)

    def started(self, words, script, refused, piece=0, before=None, has_calls=True, swapped=""):
        """How a program ended in which the calls fail that REFUSED in refuse.c names, and its calls."""
        with tempfile.NamedTemporaryFile(dir=self.room, mode="r", encoding="ascii") as log:
            how = {"LD_PRELOAD": self.library, "REFUSED": refused, "PIECE": str(piece or sys.maxsize)}
            how.update({"CALLS": log.name} if has_calls else {})
            how.update({"SWAPPED": swapped} if swapped else {})
            done = subprocess.run(words, input=script, capture_output=True, timeout=SECONDS, env=how, preexec_fn=before)
            calls = [Call(kind, int(file), int(answer)) for kind, file, answer in map(str.split, log)]
            return done, calls


def row():
    """A table for test_script with one row: it has the script, the files, and calls for how the run ended and for each
    file."""
    options = [f"$ limit {LIMIT}", f"$ depth {DEPTH}", "$ shown 1"]
    files = [f"@ {name} {content.hex()}" for name, content in FILES.items()]
    lines = ["> " + line.decode().replace("\r", "\\r") for line in LINES]
    calls = ["? ended", *(f"? file {name}" for name in NAMES)]
    return "\n".join([f"## {TITLE}", *options, *files, *lines, *calls, ""]).encode()


def lines_in(size):
    """How many whole lines the first bytes of the script have."""
    return SCRIPT[:size].count(b"\n")


def has_program(name, program=PROGRAM, built_by="tools/prove"):
    """Stops if a program is not there."""
    if not os.path.exists(program):
        raise SystemExit(f"{name}: {os.path.basename(program)} is not built; {built_by} proves and builds it")

