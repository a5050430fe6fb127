#!/usr/bin/env python3
"""Each run of the worked rows, watched from outside by strace: tests/run watched.

The rows are those of crates/test_script in which nothing fails, and the script with every command. Of each run all
calls of the system, from the first read of the script on, have to be those that the definitions allow: reads of the
script, writes of the answers, calls for memory, and for a line with a file the calls of s2shelf's `CallsFor`, for
PATH/NAME alone. A script that names no file may have no others at all. In one that does, a read comes only when the
answers to all lines that were read whole are out. A file is asked for only when the answers before its line are out,
and nothing comes after that before the line's own answer. The plain model says what such a line answers, and what its
file then holds. So these runs don't rest on what is read from the code of s2shelf's files.rt. Then the calls of a run
are changed one by one, and each change has to be refused. The last line is 'N passed, M failed'.
"""
import os
import re
import subprocess
import sys
import tempfile
from typing import NamedTuple

from every_command import DEPTH, FILES, LIMIT, LINES, PROGRAM, READERS, WRITERS, model
from process import SECONDS
from refusing import has_program
from rows import rows

CALL = re.compile(r"^(\w+)\((.*)\) += (-?\d+|\?|0x[0-9a-f]+)(?: E\w+ .*)?$")
TEXT = re.compile(r'"((?:\\x[0-9a-f]{2})*)"(\.\.\.)?')
MEMORY = {"brk", "munmap", "mremap", "madvise"}
# What the loader and the beginning of a process call. None of it makes or changes a file.
BEGINNING = {*MEMORY, "execve", "mmap", "access", "openat", "newfstatat", "close", "read", "pread64", "arch_prctl",
             "set_tid_address", "set_robust_list", "rseq", "mprotect", "prlimit64", "rt_sigaction", "getrandom",
             "lseek"}
# The words after which a line asks for no file: they say that it fits no form.
UNASKED = {b"error syntax\n", b"error register\n", b"error name\n", b"error line\n"}
MOST_FILE = 9 + 8 * 1_000_000


class Call(NamedTuple):
    """A call: what it is, the path that it is for, its bytes, and what was answered, below 0 for a failure."""
    kind: str
    path: str = ""
    content: bytes = b""
    answer: int = 0


class Run(NamedTuple):
    """What is run: a title, the files of the folder, the script, a test of the answers, the limit and the depth."""
    title: str
    files: dict
    script: bytes
    has: object = None
    limit: int = 1_000_000
    depth: int = 10_000

    def has_commands_with_files(self):
        return any(command_of(line) for line in self.script.split(b"\n"))


def command_of(line):
    """The command of a line with a file, or nothing."""
    words = line.rstrip(b"\r").split()
    command = words[0].decode("latin-1") if words else ""
    return command if command in READERS + WRITERS else ""


def runs():
    """The runs that are watched."""
    for row in rows():
        if not row.has_failures():
            limits = {name: row.options[name] for name in ("limit", "depth") if name in row.options}
            yield Run(row.title, row.files, row.script, row.has, **limits)
    yield Run("Every command.", FILES, b"".join(line + b"\n" for line in LINES), None, LIMIT, DEPTH)


def traced(run, folder):
    """The lines that strace writes of a run, whose texts are whole."""
    os.mkdir(folder)
    for name, content in run.files.items():
        with open(os.path.join(folder, name), "wb") as it:
            it.write(content)
    log = f"{folder}.calls"
    words = ["strace", "-f", "-qq", "-xx", "-s", str(1 << 28), "-o", log, PROGRAM, "run", "--dir", folder,
             f"--limit={run.limit}", f"--depth={run.depth}"]
    subprocess.run(words, input=run.script, capture_output=True, timeout=SECONDS, check=False)
    with open(log, encoding="ascii") as it:
        return [line.partition(" ")[2].strip() for line in it]


def calls_of(lines, folder):
    """The calls of a run from the first read of the script on, and 'other' for each that it may not make."""
    files, has_begun = {}, False
    for line in lines:
        found = CALL.match(line)
        if not found:
            yield Call(f"other: {line[:200]}")
            continue
        name, words, answer = found[1], found[2], int(found[3], 0) if found[3] != "?" else 0
        texts = [bytes.fromhex(text.replace("\\x", "")) for text, _ in TEXT.findall(words)]
        first = words.split(",")[0]
        has_begun = has_begun or (name, first) == ("read", "0")
        if not has_begun:
            if name not in BEGINNING or os.fsencode(folder) in b"".join(texts[:1]) and name != "execve":
                yield Call(f"other: {line[:200]}")
            continue
        if name in MEMORY or name == "mmap" and "MAP_ANONYMOUS" in words:
            continue
        yield call_of(name, words, first, texts, answer, files) or Call(f"other: {line[:200]}")


def call_of(name, words, first, texts, answer, files):
    """One call, with the paths of the files that are open; or None if it is no call that a run may make."""
    if name == "exit_group":
        return Call("end", answer=int(first))
    if name in ("read", "write"):
        taken = texts[0][:max(answer, 0)] if texts else b""
        if first in ("0", "1", "2"):
            return Call(f"{name} {first}", "", taken, answer)
        return Call(name, files.get(first, "?"), taken, answer)
    if name == "statx":
        if first == "AT_FDCWD":
            return Call("look", os.fsdecode(texts[0]), b"", answer)
        return Call("look again", files.get(first, "?"), b"", answer) if "AT_EMPTY_PATH" in words else None
    if name == "openat" and first == "AT_FDCWD":
        flags = set(re.search(r"O_\w+(?:\|O_\w+)*", words)[0].split("|")) - {"O_CLOEXEC", "O_NOCTTY"}
        kind = {frozenset({"O_RDONLY"}): "open", frozenset({"O_WRONLY", "O_CREAT", "O_TRUNC"}): "make"}.get(
            frozenset(flags))
        if kind and answer >= 0:
            files[str(answer)] = os.fsdecode(texts[0])
        return kind and Call(kind, os.fsdecode(texts[0]), b"", answer)
    if name == "close" and first in files:
        return Call("close", files.pop(first), b"", answer)
    return None


class Line(NamedTuple):
    """A line of a script: its answer, and what it asks for: a command with a file, its name, what the file holds before
    and after the line; no command if it asks for no file."""
    answer: bytes
    command: str = ""
    name: str = ""
    before: bytes = None
    after: bytes = None


def lines_of(run):
    """The lines of the script of a run, by the plain model."""
    calculator = model.Calculator(run.limit, run.depth, dict(run.files))
    lines = run.script.split(b"\n")
    for text in lines if lines[-1] else lines[:-1]:
        before = dict(calculator.files)
        try:
            answer = "".join(it + "\n" for it in calculator.answer(text)).encode()
        except model.Refused as refusal:
            answer = f"error {refusal}\n".encode()
        command = command_of(text)
        if command and answer not in UNASKED:
            name = text.split()[-1].decode()
            yield Line(answer, command, name, before.get(name), calculator.files.get(name))
        else:
            yield Line(answer)


def joined(calls):
    """Calls for a file, with reads, and writes, that follow each other as one, which is answered as the last was."""
    found = []
    for call in calls:
        if call.kind in ("read", "write") and found and found[-1].kind == call.kind and call.path == found[-1].path:
            found[-1] = Call(call.kind, call.path, found[-1].content + call.content, call.answer)
        else:
            found.append(call)
    return found


def are_calls_for(line, path, calls):
    """Whether these are the calls for the file of a line, as `CallsFor` has them, each for this path."""
    kinds = [call.kind for call in calls]
    if any(call.path != path for call in calls) or any(call.answer < 0 for call in calls[1:]):
        return False
    if line.command in WRITERS:
        return kinds == ["look", "make", "write", "close"] and calls[2].content == line.after
    if line.before is None:
        return kinds == ["look"] and calls[0].answer < 0
    if kinds != ["look", "open", "look again", "read", "close"]:
        return False
    gave, is_at_end = calls[3].content, calls[3].answer == 0
    if line.command == "load":
        is_enough = is_at_end if len(line.before) <= MOST_FILE else len(gave) > MOST_FILE
    else:
        is_enough = is_at_end or line.answer != b"ok\n"
    return is_enough and line.before.startswith(gave) and (not is_at_end or gave == line.before)


def fault_without_files(run, calls):
    """What a run of a script that names no file did that it may not do, or None. The model isn't asked, which is slow
    where a covering has a long border."""
    kinds = [call.kind for call in calls]
    answers = b"".join(call.content for call in calls if call.kind == "write 1")
    read = b"".join(call.content for call in calls if call.kind == "read 0")
    is_whole = run.script.endswith(b"\n") or not run.script
    ends = kinds[-2:] == ["read 0", "end"] or not is_whole and kinds[-3:] == ["read 0", "write 1", "end"]
    is_well = ends and set(kinds[:-1]) <= {"read 0", "write 1"} and read == run.script
    return None if is_well and run.has(answers) else f"{calls}"[:2000]


def fault_of(run, calls, folder):
    """What a run did that it may not do, or None."""
    if run.has and not run.has_commands_with_files():
        return fault_without_files(run, calls)
    lines = list(lines_of(run))
    ends = [0]
    for line in lines:
        ends.append(ends[-1] + len(line.answer))
    answers = b"".join(line.answer for line in lines)
    with_files = iter([number for number, line in enumerate(lines) if line.command])
    read, out, has_ended, waits_for, at = b"", 0, False, None, 0
    while at < len(calls):
        call = calls[at]
        whole = len(lines) if has_ended else read.count(b"\n")
        if call.kind == "read 0":
            if out != ends[whole] or has_ended or waits_for is not None:
                return f"a read of the script when {out} bytes of {ends[whole]} were out"
            read, has_ended = read + call.content, call.answer == 0
        elif call.kind == "write 1":
            most = ends[whole] if waits_for is None else ends[waits_for + 1]
            if call.answer <= 0 or out + len(call.content) > most:
                return "an answer that isn't due"
            if answers[out:out + len(call.content)] != call.content:
                return f"another answer at byte {out}: {call.content[:80]}"
            out += len(call.content)
            waits_for = None if waits_for is not None and out == ends[waits_for + 1] else waits_for
        elif call.kind == "end":
            is_well = call.answer == int(b"error " in answers) and out == len(answers) and read == run.script
            is_last = has_ended and at == len(calls) - 1 and next(with_files, None) is None
            return None if is_well and is_last and waits_for is None else f"an end with {call.answer}"
        elif call.path:
            more = at
            while more < len(calls) and calls[more].path:
                more += 1
            number = next(with_files, None)
            if number is None or number >= whole or out != ends[number] or waits_for is not None:
                return f"{call} for no line, or too early"
            line = lines[number]
            if not are_calls_for(line, f"{folder}/{line.name}", joined(calls[at:more])):
                return f"{calls[at:more]} for the line {number + 1}: {line}"
            waits_for, at = number, more - 1
        else:
            return call.kind
        at += 1
    return "no end"


def changed(calls):
    """A run's calls with one change each: a call left out, made twice, for another path, or with another byte."""
    for at, call in enumerate(calls):
        before, after = calls[:at], calls[at + 1:]
        if (call.kind, call.answer) != ("read 0", 0):
            yield f"without {call.kind}", before + after
        if call.kind not in ("read", "write", "end", "write 1") or call.answer == 0 and call.kind == "read 0":
            yield f"{call.kind} twice", before + [call, call] + after
        if call.path:
            yield f"{call.kind} of another path", before + [call._replace(path=call.path + "x")] + after
        if call.content and call.kind != "read 0":
            other = bytes([call.content[0] ^ 1]) + call.content[1:]
            yield f"{call.kind} of another byte", before + [call._replace(content=other)] + after
        yield f"another call before {call.kind}", before + [Call("other: unlink")] + calls[at:]


def main():
    has_program("tests/run watched")
    passed = failed = 0
    with tempfile.TemporaryDirectory() as room:
        for number, run in enumerate(runs()):
            folder = os.path.join(room, str(number))
            calls = list(calls_of(traced(run, folder), folder))
            fault = fault_of(run, calls, folder)
            passed, failed = passed + (not fault), failed + bool(fault)
            if fault:
                print(f"{run.title}: {fault}")
        script = b"add a 04\nload b f\nsave b g\nload c none\ndump s\nrestore s\nshow b\n"
        run = Run("changed", {"f": FILES["f"]}, script)
        folder = os.path.join(room, "changed")
        calls = list(calls_of(traced(run, folder), folder))
        for what, others in [("nothing changed", calls), *changed(calls)]:
            is_well = bool(fault_of(run, others, folder)) == (others is not calls)
            passed, failed = passed + is_well, failed + (not is_well)
            if not is_well:
                print(f"{what}: {'accepted' if others is not calls else fault_of(run, calls, folder)}")
    print(f"{passed} passed, {failed} failed")
    return failed > 0


if __name__ == "__main__":
    sys.exit(main())
