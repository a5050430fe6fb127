"""The script with every command, and what a run of it may do in which some call failed. The plain model says what all
other lines do."""
import copy
import os
import struct
import sys

TOP = os.path.dirname(os.path.dirname(os.path.dirname(os.path.abspath(__file__))))
sys.path[:0] = [os.path.join(TOP, "tests"), os.path.join(TOP, "tests/program")]
from model import calculator as model
from process import PROGRAM

LIMIT, DEPTH = 10_000, 3  # the oldest states are dropped
# The commands that may be answered `error memory`, the 13 edits and those with a file, and no others: the page that the
# model reads isn't asked.
TAKES_MEMORY = ["add", "remove", "keep", "union", "subtract", "intersect", "copy", "clear", "range", "outer", "inner",
                "outerof", "innerof", "load", "save", "dump", "restore"]
assert sorted(TAKES_MEMORY) == sorted(name for name, errors in model.ERRORS.items() if "memory" in errors)
READERS = [name for name, errors in model.ERRORS.items() if "missing" in errors]
WRITERS = [name for name, errors in model.ERRORS.items() if "file" in errors and name not in READERS]


def remembered(function):
    """The function, which computes each answer once."""
    answers = {}

    def answer(*given):
        key = tuple(tuple(value) if isinstance(value, list) else value for value in given)
        if key not in answers:
            answers[key] = function(*given)
        return answers[key]

    return answer


for name in ("cell_of", "normal_form", "covering", "read_session"):
    setattr(model, name, remembered(getattr(model, name)))


def every_command():
    """The lines of every_command.txt, in which a backslash begins an escape, and others with larger registers."""
    with open(os.path.join(TOP, "tests/faults/every_command.txt"), encoding="ascii") as it:
        lines = [line.encode().decode("unicode_escape").encode() for line in it.read().splitlines()]
    lines += [b"outer %c 30 %d 0 0 0 999" % (letter, letter % 6) for letter in b"tuvwxyz"]
    return lines + [b"dump s", b"copy a z", b"undo", b"clear y", b"union z x", b"restore s", b"save z z", b"load b z"]


# Every command, with edits that merge, undos and redos between them, and each refusal except those for a long line and
# for a failing call.
LINES = every_command()

# A line that is refused, whose bytes its note shows with four characters each.
ESCAPED = b"add a " + b"\xff" * (model.LONGEST_LINE - 6)

# The files that the script finds: one with the identifiers of 0c and of 04, the latter so often that the list of the
# union has much spare room, and one of another version.
IDENTIFIERS = [0x0C << 56] + [0x04 << 56] * 100
FILES = {"f": b"\x01" + struct.pack("<102Q", len(IDENTIFIERS), *IDENTIFIERS), "w": b"\x02" + bytes(8)}


def arguments(folder):
    """The program and its words for a run over the files of a folder."""
    return [PROGRAM, "run", "--limit", str(LIMIT), "--depth", str(DEPTH), "--dir", folder]


def fill(folder):
    """Makes the folder with the files that the script finds."""
    os.mkdir(folder)
    for name, content in FILES.items():
        with open(os.path.join(folder, name), "wb") as it:
            it.write(content)


def files_of(folder):
    """The files of a folder, by their names."""
    files = {}
    for name in os.listdir(folder):
        with open(os.path.join(folder, name), "rb") as it:
            files[name] = it.read()
    return files


class Way:
    """What the lines so far may have done: the model, how many lines there were, the notes on refused ones, where the
    next answer begins, and how many lines failed.

    `begun` has the bytes that a failed write of a file may have left a beginning of, by the name of the file.
    """

    def __init__(self):
        self.model, self.at, self.failed, self.begun = model.Calculator(LIMIT, DEPTH, dict(FILES)), 0, 0, {}
        self.lines, self.notes = 0, b""

    def copy(self):
        other = copy.copy(self)
        other.model, other.begun = copy.copy(self.model), dict(self.begun)
        other.model.files = dict(self.model.files)
        return other

    def carry_out(self, line):
        """The answer to the line if nothing fails."""
        try:
            answers = "".join(answer + "\n" for answer in self.model.answer(line)).encode()
        except model.Refused as refusal:
            return self.refuse(refusal)
        self.lines += 1
        return answers

    def refuse(self, refusal):
        """The answer to a line that is refused."""
        self.lines += 1
        self.notes += f"line {self.lines}: error {refusal}: {refusal.reason}\n".encode()
        return f"error {refusal}\n".encode()

    def refused(self, name):
        """The answer to a line that is refused and changes nothing, with the way that it leads."""
        other = self.copy()
        return other.refuse(model.Refused(name)), other

    def failures(self, line, memory, disk):
        """The other answers that the line may have if memory or the disk fails, each with the way that it leads."""
        command = line.split()[0].decode() if line.split() else ""
        if memory and command in TAKES_MEMORY or command in WRITERS:
            yield self.refused("memory")
        if disk and command in READERS:
            yield self.refused("file")
            yield self.refused("missing")
        if disk and command in WRITERS:
            name = line.split()[-1].decode()
            done = self.copy()
            if done.carry_out(line) == b"ok\n":
                made = done.model.files[name]
                for left in (None, b"", made[:1], made):
                    answer, way = self.refused("file")
                    if left is not None:
                        way.model.files[name], way.begun[name] = left, made
                    yield answer, way

    def leaves(self, files):
        """Whether these may be the files that are left."""
        if files.keys() != self.model.files.keys():
            return False
        return all(
            content == self.model.files[name] or name in self.begun and self.begun[name].startswith(content)
            for name, content in files.items()
        )


def without_failures():
    """The way through the script if nothing fails: after each line, and the answers."""
    way, answers = Way(), b""
    steps = [way.copy()]
    for line in LINES:
        answers += way.carry_out(line)
        way.at = len(answers)
        steps.append(way.copy())
    return steps, answers


STEPS, ANSWERS = without_failures()


def lines_answered(size):
    """How many lines have their whole answer among the first bytes of the answers, with lines that have no answer."""
    return max(count for count, step in enumerate(STEPS) if step.at <= size)


def ways_through(lines, answers, may_fail, memory=True, disk=True):
    """The ways in which these lines may have had these answers, with at most `may_fail` lines that failed, since memory
    or the disk did."""
    common = len(os.path.commonprefix([lines, LINES]))
    same = max(n for n in range(common + 1) if answers.startswith(ANSWERS[: STEPS[n].at]))
    ways = [STEPS[same].copy()]
    for line in lines[same:]:
        after = []
        for way in ways:
            others = way.failures(line, memory, disk) if way.failed < may_fail else ()
            for answer, other in others:
                other.failed += 1
                other.at = way.at + len(answer)
                if answers.startswith(answer, way.at):
                    after.append(other)
            answer = way.carry_out(line)
            if answers.startswith(answer, way.at):
                way.at += len(answer)
                after.append(way)
        ways = after
    return [way for way in ways if way.at == len(answers)]
