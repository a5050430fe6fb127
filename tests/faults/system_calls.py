#!/usr/bin/env python3
"""Each system call of a run of every command, failed in turn: tests/run system-calls.

In each run one call of the proved program fails: a read or a write of the script, the answers or a file, or the
opening, the look at or the closing of a file. In some runs each read of the script and each write of answers transfers
a few bytes. Answers, status, standard error and files must be what docs/SCRIPT.md says of such a failure;
The plain model says what all other lines do. Each kind of call has to fail at least once, so that none passes by
tests/refuse.c. Then the same with all calls of the kind from one on, as on a disk that goes on failing: such a run
comes to an end, and tries nothing again and again. In one run each file becomes a device just before it is opened. In
others a read of a file is interrupted a hundred times, one after another. The last line is 'N passed, M failed'.
"""
import collections
import errno
import functools
import resource
import signal
import sys
import tempfile

from every_command import ANSWERS, DEPTH, FILES, LIMIT, LINES, READERS, STEPS, WRITERS
from every_command import lines_answered, model, ways_through
from refusing import SCRIPT, Refusing, has_program, lines_in

# How a call for a file fails. A write that fails with 0 takes nothing.
FAULTS = [errno.EIO, errno.EINTR, errno.ENOMEM, errno.ENOENT, errno.EACCES, errno.EISDIR, errno.ENOSPC]
ERRORS = {
    "read": FAULTS,
    "write": [*FAULTS, 0],
    "open": [*FAULTS, errno.EMFILE],
    "statx": FAULTS,
    "close": [errno.EIO, errno.EINTR],
    "lseek": [errno.EIO],
}

# The kinds of calls that have to be met, each with whether it is for the script or the answers. No run needs a seek.
MET = {("read", True), ("write", True), *((kind, False) for kind in ERRORS if kind != "lseek")}

# The most bytes of a read of the script and of a write of answers, and which calls then fail, each in which ways.
MODES = [
    (0, ERRORS),
    (61, {kind: errors[:1] for kind, errors in ERRORS.items()}),
    (7, {"read": [errno.EIO]}),
    (5, {"write": [errno.ENOSPC, 0]}),
]

# The same for all calls from one on. None is interrupted for ever: those are tried again.
LASTING = [
    (0, {**{kind: [errno.EIO] for kind in ERRORS}, "write": [errno.EIO, 0]}),
    (61, {"read": [errno.EIO]}),
]
LAST = 1 << 30


def is_file_command(line):
    """Whether a line reads or writes a file. A line whose file name is refused doesn't."""
    return line.split()[:1] and line.split()[0].decode() in WRITERS + READERS and not line.endswith(b"../f")


def is_right(ended, call, before, error):
    """Whether the run in which this call failed with this error is what docs/SCRIPT.md says. Before it, `before`
    bytes of answers were out."""
    if call[:2] == ("read", 0):
        done = lines_in(ended.read())
        left = ended.answers == ANSWERS[: STEPS[done].at] and STEPS[done].leaves(ended.files)
        return left and (ended.status, ended.error) == (2, b"s2calc: input\n")
    if call[:2] == ("write", 1):
        return is_cut_off(ended) and (ended.status, ended.error) == (2, b"s2calc: output\n")
    refusal = refusal_after(call.kind, error, before)
    if refusal is None:
        return ended[:4] == (1, ANSWERS, b"", STEPS[-1].model.files)
    is_told = ended.answers[before:].startswith(refusal) and (ended.status, ended.error) == (1, b"")
    return is_told and any(way.leaves(ended.files) for way in ways_through(LINES, ended.answers, 1))


def is_lasting_right(ended, call, before):
    """Whether the run in which this call and all later ones of its kind failed is what docs/SCRIPT.md says. If all
    writes fail, so does that of standard error."""
    if call.kind == "write" and call.file == 1:
        return is_cut_off(ended) and (ended.status, ended.error) == (2, b"")
    if call.kind == "write":
        first = first_with_file(before)
        return ended[:4] == (2, ANSWERS[:before], b"", {**STEPS[first].model.files, name_in(LINES[first]): b""})
    is_input = call.kind == "read"
    done = lines_in(ended.read()) if is_input else len(LINES)
    is_for_file = call.file not in (0, 1) and call.kind not in ("close", "lseek")
    first = first_with_file(before) if is_for_file else done
    answers, files = lasting(call.kind, first, done)
    return ended[:4] == (1 + is_input, answers, b"s2calc: input\n" * is_input, files)


@functools.cache
def lasting(kind, first, done):
    """The answers of the first lines that were done, and their files, if all calls of a kind fail from one line on."""
    way, answers = STEPS[first].copy(), ANSWERS[: STEPS[first].at]
    for line in LINES[first:done]:
        if is_file_command(line) and makes(kind, line, way.model.files):
            answer, way = way.refused("file")
        else:
            answer = way.carry_out(line)
        answers += answer
    return answers, way.model.files


def makes(kind, line, files):
    """Whether a line with a file makes a call of this kind for it, over these files."""
    is_read = line.split()[0].decode() in READERS
    is_there = not is_read or name_in(line) in files
    return {"statx": True, "open": is_there, "read": is_read and is_there}[kind]


def name_in(line):
    """The file of a line with a file."""
    return line.split()[-1].decode()


def first_with_file(before):
    """The number of the line with a file whose answer begins there."""
    return next(n for n, line in enumerate(LINES) if STEPS[n].at == before and is_file_command(line))


def refusal_after(kind, error, before):
    """How a line with a file is refused if a call for the file fails, or None if it is answered as if nothing had."""
    if kind in ("close", "lseek") or (error == errno.EINTR and kind in ("read", "write", "open")):
        return None
    line = LINES[first_with_file(before)]
    is_read = line.split()[0].decode() in READERS
    if error == errno.ENOENT and not is_read and kind == "statx":
        return None
    names = {errno.ENOENT: b"missing", errno.ENOMEM: b"memory"} if is_read else {}
    if kind == "read":  # the file was opened, so it is there
        names.pop(errno.ENOENT)
    return b"error %s\n" % names.get(error, b"file")


def is_cut_off(ended):
    """Whether the answers are a beginning of all answers, and the files those after some of the lines that were read:
    after the lines whose answers are out, or after some more of which only the last has a file."""
    first, last = lines_answered(len(ended.answers)), lines_in(ended.read())
    after = [count for count in range(first, last) if is_file_command(LINES[count])]
    some = range(first, min([last] + [count + 1 for count in after[:1]]) + 1)
    return ANSWERS.startswith(ended.answers) and any(STEPS[count].leaves(ended.files) for count in some)


def is_prompt(ended):
    """Whether all answers to whole lines are out before each read of the script, and around each line with a file:
    before its first call for the file, and again before the next line."""
    out, read, line, is_between = 0, 0, 0, False
    with_files = iter([count for count, line in enumerate(LINES) if is_file_command(line)])
    for call in ended.calls:
        if call.kind == "memory":
            continue
        if call[:2] == ("write", 1):
            if is_between and out + call.answer != STEPS[line + 1].at:
                return False
            out, is_between = out + call.answer, False
        elif call[:2] == ("read", 0):
            if out != STEPS[lines_in(read)].at:
                return False
            read += call.answer
        elif call.kind in ("statx", "open") and not is_between and call.file == -1:
            line = next(with_files)
            if out != STEPS[line].at:
                return False
            is_between = True
    return out == len(ANSWERS) and read == len(SCRIPT) and next(with_files, None) is None


def makes_few_calls(ended):
    """Whether the script is read at once, and the answers before and of each line with a file are written at once. For
    such a line there is a look, an opening, a look at what was opened if it is read, and a closing; and it is read by
    pieces that grow."""
    with_files = sum(bool(is_file_command(line)) for line in LINES)
    counts = collections.Counter((call.kind, min(call.file, 2)) for call in ended.calls)
    return (
        counts["read", 0] == 2 and counts["write", 1] <= 2 * with_files + 1
        and counts["statx", -1] <= 2 * with_files and counts["open", -1] <= with_files
        and counts["close", 2] == counts["open", -1] and counts["write", 2] <= with_files
        and counts["read", 2] <= 6 * with_files
    )


class Cut(model.Calculator):
    """The model on a disk on which no file may be longer than `most` bytes."""

    def __init__(self, most):
        super().__init__(LIMIT, DEPTH, dict(FILES))
        self.most = most

    def do_save(self, words):
        return self.cut(words.words[-1], super().do_save(words))

    def do_dump(self, words):
        return self.cut(words.words[-1], super().do_dump(words))

    def cut(self, word, done):
        content = self.files[word.decode()]
        if len(content) > self.most:
            self.files[word.decode()] = content[: self.most]
            raise model.Refused("file")
        return done


def is_cut_right(refusing, most):
    """Whether a write that takes only some bytes, and then fails, leaves a beginning of the file."""

    def before():
        signal.signal(signal.SIGXFSZ, signal.SIG_IGN)
        resource.setrlimit(resource.RLIMIT_FSIZE, (most, most))

    calculator = Cut(most)
    answers, _ = calculator.run(SCRIPT)
    ended = refusing.run(before=before, has_calls=False)
    return (ended.status, ended.answers, ended.error, ended.files) == (1, answers, b"", calculator.files)


def is_explained(refusing):
    """Whether a run with notes on refused lines has those of the lines that were read when a read fails."""
    ended = refusing.run(f"read 4 4 {errno.EIO}", 61, ["--explain"])
    done = lines_in(ended.read())
    calculator = model.Calculator(LIMIT, DEPTH, dict(FILES))
    answers, _ = calculator.run(b"".join(line + b"\n" for line in LINES[:done]))
    return calculator.notes != b"" and ended[:3] == (2, answers, calculator.notes + b"s2calc: input\n")


def is_looked_at_again(refusing):
    """Whether a file that becomes a device between the look at it and its opening is refused, and not read."""
    ended = refusing.run(script=b"load a f\nrestore w\n", swapped="/dev/null")
    opened = [call for call in ended.calls if call.kind == "open"]
    read = [call for call in ended.calls if call.kind == "read" and call.file != 0]
    return ended[:2] == (1, b"error file\n" * 2) and len(opened) == 2 and not read


def interrupted(refusing):
    """Each read of a file, and the run in which it is interrupted a hundred times before it gives something."""
    reads = [call for call in refusing.run().calls if call.kind == "read"]
    for number, call in enumerate(reads, 1):
        if call.file != 0:
            yield call, refusing.run(f"read {number} {number + 99} {errno.EINTR}")


def failures(refusing, modes, last=0):
    """Each call that is made to fail, the bytes of answers before it, its error, and the run in which it fails, with
    those up to the last one."""
    for piece, ways in modes:
        seen, before = collections.Counter(), 0
        for call in refusing.run(piece=piece).calls:
            seen[call.kind] += 1
            for error in ways.get(call.kind, []):
                first = seen[call.kind]
                ended = refusing.run(f"{call.kind} {first} {max(first, last)} {error}", piece)
                yield call, before, error, ended
            before += call.answer if call[:2] == ("write", 1) else 0


def main():
    has_program("tests/run system-calls")
    counts, failed = collections.Counter(), 0

    def tell(what, is_well, *more):
        nonlocal failed
        counts[what] += 1
        if not is_well:
            failed += 1
            print(f"{what}: wrong", *more)

    with tempfile.TemporaryDirectory() as room:
        refusing = Refusing(room)
        left = set(MET)
        for call, before, error, ended in failures(refusing, MODES):
            left.discard((call.kind, call.file in (0, 1)))
            is_well = is_right(ended, call, before, error)
            tell(f"{call.kind}: status {ended.status}", is_well, call, error, ended.answers[before:][:100])
        for call, before, error, ended in failures(refusing, LASTING, LAST):
            is_well = is_lasting_right(ended, call, before)
            tell(f"{call.kind} from one on: status {ended.status}", is_well, call, error, ended.answers[before:][:100])
        tell("kinds of calls that are all there", not left, left)
        for piece in (0, 61):
            tell("answers that are out in time", is_prompt(refusing.run(piece=piece)))
        tell("few calls", makes_few_calls(refusing.run()))
        for most in (0, 1, 9, 16, 17, 25, 100, 700, 1000):
            tell("files of few bytes", is_cut_right(refusing, most), most)
        tell("notes before a read that fails", is_explained(refusing))
        tell("files that become a device", is_looked_at_again(refusing))
        for call, ended in interrupted(refusing):
            is_well = ended[:4] == (1, ANSWERS, b"", STEPS[-1].model.files)
            tell("reads of files that are interrupted", is_well, call, ended.answers[-100:])
    for what, count in sorted(counts.items()):
        print(f"{count} of {what}")
    print(f"{sum(counts.values()) - failed} passed, {failed} failed")
    return failed > 0


if __name__ == "__main__":
    sys.exit(main())
