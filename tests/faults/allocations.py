#!/usr/bin/env python3
"""Each allocation of a run of every command, refused in turn: tests/run allocations.

One call of malloc, calloc or realloc of the proved program is refused in each run, and then all from one on. Answers,
status, standard error and files must be what docs/SCRIPT.md says of a run that finds no memory. Then the same for a few
lines with notes on standard error, for the same script on `run` itself, over a shelf in memory and a writer that takes
all answers, and for each command that has one answer. The last line is 'N passed, M failed'.
"""
import collections
import errno
import os
import sys
import tempfile

from every_command import ANSWERS, ESCAPED, FILES, LINES, PROGRAM, STEPS, fill, lines_answered, ways_through
from refusing import ROWS, Refusing, has_program

# Few lines with a long note.
NOTED = [*LINES[:12], ESCAPED]

# The commands that have one answer, over the files of the folder that comes after `--dir`. That of `cell` takes no
# memory.
CALLS = [["cell", "3/021"], ["draw", "--curve", "--cells", "64c", "3/021"]]
CALLS += [["check", "f", "--dir"], ["draw", "f", "--dir"], ["draw", "--curve", "f", "f", "--dir"]]

# Where an allocation lies that comes before the script is read.
BEFORE = b"before the script"


def verdict(ended, lines=LINES, most=1, has_notes=False):
    """What the refusal changed, or None if it changed more than it may: the answers to more than `most` lines, say."""
    if (ended.status, ended.error) == (3, b"s2calc: memory\n"):
        is_untouched = (ended.answers, ended.files) == (b"", FILES) and not ended.reads_script()
        return "refused at the start" if is_untouched else None
    ways = [way for way in ways_through(lines, ended.answers, most, disk=False) if way.leaves(ended.files)]
    ways = [way for way in ways if ended.error == (way.notes if has_notes else b"")]
    if ended.status != 1 or not ways:
        return None
    return "refused in an answer" if all(way.failed for way in ways) else "no answer changed"


def verdict_of_call(end, whole):
    """What the refusal changed in the status, the answer and standard error of a command that has one answer, or None
    if it changed more than it may."""
    allowed = {(3, b"", b"s2calc: memory\n"): "refused at the start",
               (1, b"error memory\n", b""): "refused in an answer"}
    return {**allowed, whole: "no answer changed"}.get(end)


def wrong_ends(whole):
    """Ends of a run that no refused allocation may lead to."""
    undo = next(n for n, line in enumerate(LINES) if line == b"undo")
    before, after = ANSWERS[: STEPS[undo].at], ANSWERS[STEPS[undo + 1].at :]
    yield whole._replace(answers=before + b"error memory\n" + after)
    yield whole._replace(answers=before + after)
    yield whole._replace(answers=whole.answers[:-1])
    yield whole._replace(files=FILES)
    yield whole._replace(status=3, error=b"s2calc: memory\n")
    yield whole._replace(status=3, error=b"s2calc: memory\n", answers=b"")
    yield whole._replace(status=3, error=b"s2calc: memory\n", answers=b"", files=FILES)
    yield whole._replace(status=2, error=b"s2calc: output\n")


def lines_of_allocations(calls):
    """The line in which each allocation lies: the one whose answer comes next. Before and after a line with a file, all
    earlier answers are out, so these lines are the right ones however the answers are buffered."""
    out, is_read = 0, False
    for call in calls:
        if call.kind == "memory":
            yield (LINES + [b""])[lines_answered(out)] if is_read else BEFORE
        elif call[:2] == ("write", 1):
            out += call.answer
        elif call[:2] == ("read", 0):
            is_read = True


def may_go_on(line):
    """Whether a run may go on without an allocation there: `restore` may, and what reads the command line."""
    return line == BEFORE or line.split()[:1] == [b"restore"]


class Judge:
    """Counts what refused allocations did, and what was wrong."""

    def __init__(self):
        self.counts, self.failed = collections.Counter(), 0

    def wrong(self, what):
        self.failed += 1
        print(what)

    def judge(self, ended, said, first, last, line):
        """Notes what was said of a run in which these allocations were refused, the first in a line."""
        self.counts[said] += 1
        if said is None or said == "no answer changed" and not may_go_on(line):
            ends = f"status {ended.status} {ended.error!r}\n{ended.answers!r}"
            self.wrong(f"allocations {first} to {last}, the first in {line}: {said}, {ends}")

    def expect(self, what, said, *wanted):
        """Notes which of these things were said of no refused allocation."""
        for each in wanted:
            if each not in said:
                self.wrong(f"{what}: no allocation was {each}")

    def refuse_each(self, what, run, lines=LINES, has_notes=False, spare=0):
        """Refuses each allocation of a run. It may do without one of those before the script is read, and without
        `spare` of those that are not of the run, but of who calls it."""
        whole = run("")
        if verdict(whole, lines, has_notes=has_notes) != "no answer changed":
            self.wrong(f"{what} without a refusal is judged wrong: {whole[:3]}")
        found = []
        for number, line in enumerate(lines_of_allocations(whole.calls), 1):
            if line:
                ended = run(f"memory {number} {number} {errno.ENOMEM}")
                found.append((verdict(ended, lines, has_notes=has_notes), line == BEFORE))
                is_spare = spare > 0 and found[-1][0] == "no answer changed" and not may_go_on(line)
                spare -= is_spare
                self.judge(ended, found[-1][0], number, number, BEFORE if is_spare else line)
        self.expect(what, [said for said, _ in found], "refused at the start", "refused in an answer")
        spared = [number for number, it in enumerate(found, 1) if it == ("no answer changed", True)]
        if len(spared) > 1:
            self.wrong(f"{what}: it can do without more than one allocation before the script")
        for number in spared:
            self.refuse_again(what, run, number, lines, has_notes)
        return whole

    def refuse_again(self, what, run, number, lines, has_notes):
        """Refuses an allocation that a run can do without, and the next one, which it tries in its place."""
        ended = run(f"memory {number} {number + 1} {errno.ENOMEM}")
        said = verdict(ended, lines, has_notes=has_notes)
        self.counts[said] += 1
        if said != "refused at the start":
            self.wrong(f"{what}: allocations {number} and {number + 1}: {said}, {ended[:3]}")

    def refuse_all_from_one_on(self, run, whole):
        """Refuses all allocations of a run from one on, each twentieth."""
        within = list(lines_of_allocations(whole.calls))
        for number in range(1, len(within) + 1, 20):
            ended = run(f"memory {number} {10 * len(within)} {errno.ENOMEM}")
            self.judge(ended, verdict(ended, most=len(LINES)), number, "the last", within[number - 1])

    def refuse_each_of_a_call(self, refusing, words):
        """Refuses each allocation of a command that has one answer. It may do without one of them."""

        def ended(refused):
            done, calls = refusing.started([PROGRAM, *words], b"", refused)
            return (done.returncode, done.stdout, done.stderr), sum(call.kind == "memory" for call in calls)

        whole, count = ended("")
        if whole[0] != 0 or not whole[1] or whole[2]:
            self.wrong(f"{words}: without a refusal it ends with {whole}")
        ends = [ended(f"memory {number} {number} {errno.ENOMEM}")[0] for number in range(1, count + 1)]
        said = [verdict_of_call(end, whole) for end in ends]
        self.counts.update(said)
        if None in said or said.count("no answer changed") > 1:
            self.wrong(f"{words}: {said} {[end for end in ends if end != whole]}")
        self.expect(words, said, "refused at the start", *["refused in an answer"] * (words[0] != "cell"))


def main():
    has_program("tests/run allocations")
    has_program("tests/run allocations", ROWS, "rt run in crates/test_script")
    judge = Judge()
    with tempfile.TemporaryDirectory() as room:
        refusing = Refusing(room)
        whole = judge.refuse_each("a run", refusing.run)
        judge.refuse_all_from_one_on(refusing.run, whole)
        if any(map(verdict, wrong_ends(whole))):
            judge.wrong("a wrong run is judged right")
        # test_script lists the reads of a run, as long as there is memory for that.
        judge.refuse_each("a run over a shelf in memory", refusing.run_in_memory, spare=1)
        script = b"".join(line + b"\n" for line in NOTED)
        judge.refuse_each(
            "a run with notes",
            lambda refused, **how: refusing.run(refused, options=["--explain"], script=script, **how), NOTED, True
        )
        folder = os.path.join(room, "folder")
        fill(folder)
        for words in CALLS:
            judge.refuse_each_of_a_call(refusing, [*words, folder] if words[-1] == "--dir" else words)
    for said in ("refused at the start", "refused in an answer", "no answer changed"):
        print(f"{judge.counts[said]} {said}")
        if judge.counts[said] == 0:
            judge.wrong(f"no allocation was {said}")
    print(f"{sum(judge.counts.values()) - judge.counts[None]} passed, {judge.failed} failed")
    return judge.failed > 0


if __name__ == "__main__":
    sys.exit(main())
