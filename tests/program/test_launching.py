"""The launcher: the program's bytes, and to files no process more; pipes that nobody reads; scripts in files and in
words, paths, help, and `cells`."""
import contextlib
import os
import random
import re
import shutil
import signal
import socket
import sqlite3
import subprocess
import tempfile
import unittest

import pytest

from model import calculator as model
from process import LAUNCHER, PROGRAM, SECONDS, TOP, first_line, launched, ran
import prompt  # which process finds

SCRIPT = b"add a 04 0c\nshow a\ncuont a\n\nadd a zz\nsave a parks\nload b parks\ncount b"
ENVIRONMENT = {"S2CALC_PROGRAM": PROGRAM, "PATH": "/usr/bin:/bin"}
PICTURES = os.path.join(TOP, "docs/pictures")
# Errors for other reasons than a word; and a line with all words of a form, some of which its example leaves out.
OTHERS = {"too-many", "order", "missing", "file", "format", "session", "nothing", "too-deep", "memory"}
WHOLE = {"outerof": "outerof b a 4 0 0 1023 0 1023"}


def both(*words, **how):
    """The status, standard output and standard error of the program and of the launcher."""
    for command, environment in ([PROGRAM], os.environ), ([LAUNCHER], ENVIRONMENT):
        with tempfile.TemporaryDirectory() as room:
            done = subprocess.run([*command, *words], cwd=room, env=environment, timeout=SECONDS, check=False,
                                  **{"capture_output": True, **how})
            yield done.returncode, done.stdout, done.stderr


SAME = ["run --explain", "run --prompt", "run --limit=1 --dir . --depth 2 --explain", "run --limit 0",
        "run --limit", "run --dir", "run --dir=", "run --colour", "run --prompt --prompt", "run --limit -5",
        "run --lim 5", "cell 64c", "cell", "check",
        "draw --cells 1 3/021", "draw --curve --cells 1 -- f", "--version", "-V", "ru", "-- run",
        "help check", "help help", "--x", "adds", ".*"]


@pytest.mark.parametrize("words", [
    *(line.split() for line in SAME), [""], ["check", "a b"], ["cell", b"\xff"],
    ["run", "--dir", b"\xff"]],
    ids=str)
def test_same_bytes(words):
    """The launcher adds nothing."""
    wanted, found = both(*words, input=SCRIPT)
    assert found == wanted


def counted(notes):
    """The one line for these notes."""
    lines = re.findall(rb"^line (\d+): ", notes, re.M)
    others = {1: b"", 2: b" and 1 other"}.get(len(lines), b" and %d others" % (len(lines) - 1))
    return b"s2calc: line %s%s had an error; --explain says why\n" % (lines[0], others) if lines else b""


FAULTY = SCRIPT, b"\n" * 99 + b"undo", b"cuont\nundo\n", b"# one\n\nadd a zz\n" + b"undo\n" * 5000, b"count a\n"


@pytest.mark.parametrize("script", FAULTY, ids=range(5))
@pytest.mark.parametrize("words", [["run"], ["run", "--dir", "no such"], [], ["-"], ["run", "-", "--limit=1"],
                                   ["run", "--go-on"], ["run", "--depth", "3", "--no-prompt"]], ids=str)
def test_one_line_for_all_errors(words, script, tmp_path):
    """It names the first line, and how many others there are; the answers and the status are the program's."""
    options = [word for word in words[1:] if word not in ("-", "--go-on", "--no-prompt")]
    status, out, notes = ran("run", "--explain", *options, script=script, cwd=tmp_path)
    assert launched(*words, input=script, cwd=tmp_path) == (status, out, counted(notes))
    (tmp_path / "python3").symlink_to("/nowhere")
    alone = {"S2CALC_PROGRAM": PROGRAM, "PATH": str(tmp_path)}
    found = launched(*words, input=script, cwd=tmp_path, env=alone)
    assert found == (status, out, re.sub(rb" and \d+ others?", b"", counted(notes)))


@pytest.mark.parametrize("word,shown", [
    ("é", "é"), ("it's", "it's"), ('"zz"', '"zz"'), ("\\", "\\"), ("\\x41", "\\x41"), ("\\\\xc3", "\\\\xc3"),
    ("日本\u0301", "日本\u0301"), (b"\xff\xc3", r"\xff\xc3"), (b"\xc3\xa9\xc3", "é" + r"\xc3"),
    ("\x1b[31m", r"\x1b[31m"), ("\x7f", r"\x7f"), ("a\u202eb", r"a\xe2\x80\xaeb"), ("\u009b31m", r"\xc2\x9b31m"),
    ("\ud800", r"\xed\xa0\x80")], ids=str)
def test_a_note_shows_a_word_as_it_was_given(word, shown, tmp_path):
    """Except for bytes that are no text, and for characters that don't print or that turn the text around."""
    raw = word if isinstance(word, bytes) else word.encode(errors="surrogatepass")
    (tmp_path / "script").write_bytes(b"add a " + raw + b"\n")
    wanted = f"script: line 1: error cell: '{shown}' is not a cell (a token or a debug text)\n"
    assert launched("run", "--explain", "script", cwd=tmp_path)[2].decode() == wanted


@pytest.mark.parametrize("said", ["pipe", "file"])
@pytest.mark.parametrize("answers", ["pipe", "file"])
def test_where_errors_are_counted(said, answers, tmp_path):
    """A reader of a pipe has the line at its end. Two files are whole as soon as the program has ended."""
    with open(tmp_path / "said", "w+b") as error, open(tmp_path / "answers", "wb") as out:
        for _ in range(20):
            done = subprocess.run([LAUNCHER], input=SCRIPT, env=ENVIRONMENT, cwd=tmp_path, timeout=SECONDS, check=False,
                                  stdout=subprocess.PIPE if answers == "pipe" else out,
                                  stderr=subprocess.PIPE if said == "pipe" else error)
            found = done.stderr if said == "pipe" else (tmp_path / "said").read_bytes()
            assert found == (b"" if said == answers == "file" else counted(b"line 3: \nline 5: \n"))
            error.truncate(0)
            error.seek(0)


def test_an_error_before_a_signal():
    """Then the line comes too; and the program answers no more."""
    with subprocess.Popen([LAUNCHER], 0, env=ENVIRONMENT, stdin=subprocess.PIPE, stdout=subprocess.PIPE,
                          stderr=subprocess.PIPE) as process:
        process.stdin.write(b"count a\nundo\ncount a\n")
        assert [process.stdout.readline() for _ in range(3)][1] == b"error nothing\n"
        process.kill()
        assert process.wait(SECONDS) == -signal.SIGKILL
        assert (process.stdout.read(), process.stderr.read()) == (b"", counted(b"line 2: "))


def test_errors_that_nobody_reads(tmp_path):
    """Neither the answers nor the line."""
    (tmp_path / "script").write_bytes(b"undo\ncell 1\n" * 1000)
    for stream in "stdout", "stderr":
        reader, writer = os.pipe()
        os.close(reader)
        with open(writer, "wb") as pipe, open(tmp_path / "script", "rb") as script:
            streams = {"stdout": subprocess.PIPE, "stderr": subprocess.PIPE, stream: pipe}
            done = subprocess.run([LAUNCHER], env=ENVIRONMENT, stdin=script, timeout=SECONDS, check=False, **streams)
        if stream == "stdout":
            assert (done.returncode, done.stderr) == (2, b"")
        else:
            assert (done.returncode, done.stdout) == ran("run", script=b"undo\ncell 1\n" * 1000)[:2]


CELLS = "X", " 3/021 ", "$(x) `x` *", "", "0c\nadd a 04\nsave a made", "18446744073709551617", "-9223372036854775809"
NO_CELL, NO_FILE = "is not a cell (a token or a debug text)", "there is no file of that name"


@pytest.mark.parametrize("words,reason", [
    *((["cell", cell], ("the word " if "\n" in cell else f"'{cell}' ") + NO_CELL) for cell in CELLS),
    (["check", "parks"], f"parks: {NO_FILE}"),
    (["check", "--dir", ".", "parks"], f"parks: {NO_FILE}"),
    (["check", "--dir", "/", "etc"], "etc: the file could not be read or written"),
    (["check", f"{TOP}/README.md"], f"{TOP}/README.md: the file is not a union file")], ids=str)
def test_why_a_cell_or_a_file_has_an_error(words, reason):
    """The answer and the status are the program's, and standard error says why; nothing else is done."""
    for how in {}, {"stdout": subprocess.DEVNULL, "capture_output": False, "stderr": subprocess.PIPE}:
        program, found = both(*words, **how)
        wanted = program if "README" not in words[-1] else (1, program[1] and b"error format\n", b"")
        assert found == (wanted[0], wanted[1], wanted[2] + f"s2calc: {reason}\n".encode())


@pytest.mark.parametrize("line", ["run", "run --explain", "", "run script", "run --explain script", "run -c history",
                                  "run --explain -c history", "cell 1", "check square", "draw square", "cells script"])
def test_a_pipe_that_nobody_reads(line, tmp_path):
    """Then nothing is said. The status of a run is the program's, and else that of SIGPIPE, as of other programs."""
    words = line.split()
    wanted = 2 if words[:1] in ([], ["run"]) else 128 + signal.SIGPIPE
    (tmp_path / "script").write_bytes(b"1 3 5\n" if words[:1] == ["cells"] else b"cell 1\n" * 1000)
    ran("run", script=b"add a 1\nsave a square\n", cwd=tmp_path)
    for is_ignored in False, True:  # the signal, as some programs leave it to what they start
        reader, writer = os.pipe()
        os.close(reader)
        with open(writer, "wb") as pipe, open(tmp_path / "script", "rb") as script:
            done = subprocess.run([LAUNCHER, *words], cwd=tmp_path, env=ENVIRONMENT, stdin=script, stdout=pipe,
                                  stderr=subprocess.PIPE, restore_signals=not is_ignored, timeout=SECONDS, check=False)
        assert (done.returncode, done.stderr) == (wanted, b"")


@pytest.mark.parametrize("line", ["help add", "help", "cells --help", "help cells", "run --help", "cell 1 -h"])
def test_help_that_nobody_reads(line):
    """It ends as answers do."""
    reader, writer = os.pipe()
    os.close(reader)
    full = os.open("/dev/full", os.O_WRONLY)
    for out, wanted in (writer, (128 + signal.SIGPIPE, b"")), (full, (2, b"s2calc: output")):
        with open(out, "wb") as file:
            done = subprocess.run([LAUNCHER, *line.split()], env=ENVIRONMENT, stdout=file, stderr=subprocess.PIPE,
                                  timeout=SECONDS, check=False)
        assert (done.returncode, first_line(done.stderr)) == wanted


@pytest.mark.parametrize("name", ["SIGTERM", "SIGHUP", "SIGINT", "SIGKILL"])
@pytest.mark.parametrize("line", ["", "run", "run --explain", "run --prompt", "run pipe", "run --explain pipe"])
def test_a_signal_ends_the_program(line, name, tmp_path):
    """Whatever ends the process that was started, the program answers no more."""
    os.mkfifo(tmp_path / "pipe")
    with subprocess.Popen([LAUNCHER, *line.split()], 0, cwd=tmp_path, env=ENVIRONMENT, stdin=subprocess.PIPE,
                          stdout=subprocess.PIPE, stderr=subprocess.PIPE) as process:
        with open(tmp_path / "pipe", "r+b", 0) if "pipe" in line else process.stdin as script:
            script.write(b"count a\n")
            assert process.stdout.readline() == b"cells 0 leaves 0\n"
            process.send_signal(signal.Signals[name])
            assert process.wait(SECONDS) == -signal.Signals[name]
            with contextlib.suppress(BrokenPipeError):
                script.write(b"count b\n")
        assert process.stdout.read() == b""


def test_what_is_said_comes_before_the_end():
    """Who has read a pipe to its end finds all that was said of the run in a file."""
    with tempfile.TemporaryFile() as said:
        for _ in range(100):
            with subprocess.Popen([LAUNCHER, "run", "--limit", "0"], env=ENVIRONMENT, stdin=subprocess.DEVNULL,
                                  stdout=subprocess.PIPE, stderr=said) as process:
                assert process.stdout.read() == b""
                assert os.pread(said.fileno(), 1000, 0) == ran("run", "--limit", "0")[2]
            said.seek(0)
            said.truncate()


def test_a_script_needs_no_word(tmp_path):
    for words in [], ["-"]:
        wanted = ran("run", script=SCRIPT, cwd=tmp_path)[:2]
        assert launched(*words, input=SCRIPT, cwd=tmp_path)[:2] == wanted
        assert launched(*words) == (0, b"", b"")


@pytest.mark.parametrize("words", [["cell"], ["cell", "--explain"], ["check"], ["draw"], ["draw", "--cells"]], ids=str)
def test_a_word_is_never_a_script(words, tmp_path):
    for word in "zz\nsave a made", "zz\rsave a made", "0c\nsave a made":
        assert launched(*words, word, cwd=tmp_path)[0] == 1
    assert os.listdir(tmp_path) == []


def test_an_option_that_is_no_option_of_cell():
    """One word is a cell, whatever it begins with, and has the program's answer; of two words, its fault too."""
    for word in "--x", "---", "--json", "--explain=1", "-x":
        assert launched("cell", word) == (1, b"error cell\n", f"s2calc: '{word}' {NO_CELL}\n".encode())
    for words in ["--json", "0c"], ["0c", "--json"], ["--"], ["--", "--"], ["--", "0c"], []:
        assert launched("cell", *words) == ran("cell", *words)


@pytest.mark.parametrize("number", [1, 3, 864691128455135232, 5180949494577750587, 10789722008133304320])
def test_a_decimal_identifier(number):
    """It is read with a sign, or if it has more than 16 digits, and its cell is that of its token."""
    words = [f"{number - (number >> 63 << 64):+}"] + [str(number)] * (number > 10**16)
    for word in words:
        assert launched("cell", word) == ran("cell", f"{number:016x}".rstrip("0"))


def test_commas_between_cells():
    answers = [ran("cell", word)[1] for word in ("0c", "3/021", "64c")]
    assert launched("cell", "864691128455135232, 3/021,64c,") == (0, b"".join(answers), b"")
    status, out, error = launched("cell", "0c,zz,64c")
    assert (status, out) == (1, answers[0] + b"error cell\n" + answers[2])
    assert error.decode() == f"s2calc: 'zz' {NO_CELL}\n"
    for word in ",", ", ,":
        assert launched("cell", word) == (1, b"error cell\n", f"s2calc: '{word}' {NO_CELL}\n".encode())


def test_options_of_the_program_are_handed_on(tmp_path):
    (tmp_path / "program").write_text("#!/bin/sh\necho \"$@\" && cat\n")
    (tmp_path / "program").chmod(0o755)
    (tmp_path / "script").write_text("lines\n")
    environment = {**ENVIRONMENT, "S2CALC_PROGRAM": str(tmp_path / "program")}
    for words, options, given in [
            (["script", "--stop"], b" --explain --stop", b"lines\n"), (["script"], b" --explain --stop", b"lines\n"),
            (["--stop", "-c", "x"], b" --explain --stop", b"x\n"), (["-c", "x"], b" --explain --stop", b"x\n"),
            (["script", "--go-on"], b" --explain", b"lines\n"), (["--go-on", "-c", "x"], b" --explain", b"x\n"),
            (["--stop"], b" --explain --stop", b""), (["--go-on"], b" --explain", b""), (["--x"], b" --x", b""),
            (["--limit"], b" --explain --limit", b""), (["--dir", "--x"], b" --explain --dir --x", b""),
            (["script", "--x"], b" --stop --x", b"lines\n"), (["--", "--stop"], b" -- --stop", b"")]:
        assert launched("run", *words, cwd=tmp_path, env=environment) == (0, b"run" + options + b"\n" + given, b"")


@pytest.mark.parametrize("words", [["run"], ["run", "--explain"], ["cell", "1"]], ids=str)
@pytest.mark.parametrize("stream", range(3))
def test_closed_streams(words, stream):
    wanted, found = both(*words, input=SCRIPT, preexec_fn=lambda: os.close(stream))
    assert found == wanted


def test_output_that_can_not_be_written():
    with open("/dev/full", "wb") as full:
        wanted, found = both("run", input=SCRIPT, capture_output=False, stdout=full, stderr=subprocess.PIPE)
    assert found == wanted


@pytest.mark.parametrize("line", ["run", "", "run --stop script --limit 5", "run -c history -c undo", "cell 64c",
                                  f"check --dir {PICTURES} land.outer", "draw --cells 1", "--version"])
@pytest.mark.parametrize("to_file", [False, True])
def test_two_programs_at_most(line, to_file, tmp_path):
    """A call without an error starts the shell, and the program once; strace sees it."""
    (tmp_path / "script").write_bytes(b"cell 1\n")
    with open(tmp_path / "answer", "wb") as file, open(tmp_path / "script", "rb") as script:
        subprocess.run(["strace", "-ff", "-qq", "-e", "trace=execve", "-o", tmp_path / "trace", LAUNCHER,
                        *line.split()], cwd=tmp_path, env=ENVIRONMENT, timeout=SECONDS, check=False,
                       stdin=script, stdout=file if to_file else subprocess.PIPE, stderr=subprocess.PIPE)
    calls = "".join(path.read_text() for path in tmp_path.glob("trace.*"))
    assert sorted(re.findall(r'^execve\("([^"]*)".* = 0$', calls, re.M)) == sorted([LAUNCHER, PROGRAM])


class TheProgram(unittest.TestCase):
    """What the launcher adds nothing to."""

    def test_no_process_stays_between(self):
        """The process that was started is the program, which waits for the script."""
        for words in ([], ["run"], ["run", "--prompt"], ["run", "-"], ["run", "/dev/stdin"], ["run", "--explain"]):
            for ours, its in os.pipe(), (it.detach() for it in socket.socketpair()):
                with open(ours, "rb", 0) as answers, open(its, "wb") as out, subprocess.Popen(
                        [LAUNCHER, *words], env=ENVIRONMENT, stdin=subprocess.PIPE, stdout=out,
                        stderr=subprocess.PIPE) as process:
                    process.stdin.write(b"count a\n")
                    process.stdin.flush()
                    self.assertEqual(answers.read(100), b"cells 0 leaves 0\n")
                    self.assertTrue(os.path.samefile(f"/proc/{process.pid}/exe", os.path.realpath(PROGRAM)))
                    process.stdin.close()
                    self.assertEqual(process.wait(SECONDS), 0)

    def test_as_it_is_installed(self):
        """A link in a folder of the PATH leads to the launcher, beside which the program is."""
        with tempfile.TemporaryDirectory() as room:
            shutil.copytree(os.path.dirname(LAUNCHER), os.path.join(room, "libexec"))
            os.symlink(PROGRAM, os.path.join(room, "libexec", "s2calc"))
            os.mkdir(os.path.join(room, "bin"))
            os.symlink("../libexec/launcher", os.path.join(room, "bin", "s2calc"))
            environment = {"PATH": f"{room}/bin:/usr/bin:/bin"}
            for words, text in (["run"], SCRIPT), (["cells"], b"5180949494577750587"), (["help", "count"], b""):
                done = subprocess.run(["s2calc", *words], input=text, cwd=room, env=environment, capture_output=True,
                                      check=False, timeout=SECONDS)
                with tempfile.TemporaryDirectory() as other:
                    self.assertEqual((done.returncode, done.stdout, done.stderr),
                                     launched(*words, input=text, cwd=other))

    def test_where_no_program_is(self):
        missing = {"S2CALC_PROGRAM": "/dev/null/x"}
        self.assertEqual(launched("run", env=missing), (2, b"", b"s2calc: there is no program /dev/null/x\n"))


@pytest.mark.parametrize("name,reason", [("absent", "there is no file 'absent'"), ("", "there is no file ''"),
                                         (".", "'.' is a folder, or can't be read")])
def test_a_file_that_can_not_be_read(name, reason, tmp_path):
    assert launched("run", name, cwd=tmp_path) == (2, b"", f"s2calc: input\nerror: {reason}\n".encode())


def test_a_minus_is_standard_input(tmp_path):
    assert launched("run", "-", cwd=tmp_path) == (0, b"", b"")


@pytest.mark.parametrize("words,reason", [
    (["nope"], f"nope: {NO_FILE}"), (["land.outer", "nope", "none"], f"nope: {NO_FILE}"),
    (["--fit", "a", "b"], f"a: {NO_FILE}"), (["./land.outer", "./none"], f"./none: {NO_FILE}"),
    (["--dir", "/", "land.outer"], f"land.outer: {NO_FILE}"), (["--cells", "1", "zz", "2"], f"'zz' {NO_CELL}"),
    (["--curve", "--cells", "0/0 ", "*"], f"'0/0 ' {NO_CELL}"), (["README.md/"], "'README.md/' is not a file name"),
    (["a/x", "b/x"], "'a/x' is not a file name")])
def test_a_picture_that_can_not_be_made(words, reason):
    """Standard output stays empty, and standard error says of the first word that is wrong why it is."""
    status, out, error = launched("draw", *words, cwd=PICTURES, env=ENVIRONMENT)
    assert (status, out) == (1, b"")
    assert error.decode().startswith(f"s2calc: {reason}")


class Scripts(unittest.TestCase):
    """Scripts in files and in words."""

    def setUp(self):
        room = tempfile.TemporaryDirectory()
        self.addCleanup(room.cleanup)
        self.room = room.name
        self.how = {"cwd": self.room, "env": ENVIRONMENT}

    def test_a_file(self):
        status, out, error = wanted = ran("run", "--explain", script=SCRIPT, cwd=self.room)
        for name in ("script", "-x", "a b$(c)"):
            with open(os.path.join(self.room, name), "wb") as it:
                it.write(SCRIPT)
        path = os.path.join(self.room, "script")
        for words in (["script"], [path], ["./-x"], ["a b$(c)"]):
            named = error.replace(b"line ", words[0].encode() + b": line ")
            self.assertEqual(launched("run", "--explain", *words, "--go-on", **self.how), (status, out, named))
            self.assertEqual(launched("run", "--go-on", *words, "--explain", **self.how), (status, out, named))
            self.assertEqual(launched("run", *words, "--go-on", **self.how), (status, out, counted(error)))
        self.assertEqual(launched("run", "-", "--explain", **{**self.how, "input": SCRIPT}), wanted)
        self.assertEqual(launched("run", "--no-prompt", "--explain", **{**self.how, "input": SCRIPT}), wanted)

    def test_the_first_error_ends_a_file_and_lines(self):
        """It is named; so no file is replaced by what a load that had an error left."""
        lines = [b"add a 04", b"save a parks", b"load b praks", b"save b parks"]
        script, parks = os.path.join(self.room, "script"), os.path.join(self.room, "parks")
        with open(script, "wb") as it:
            it.write(b"\n".join(lines))
        wanted = (1, b"ok 0 1\nok\nerror missing\n", b"line 3: error missing: there is no file of that name\n")
        for how in self.how, self.without_python():
            for words in ["script"], ["script", "--stop"], [word for line in lines for word in ("-c", line)]:
                self.assertEqual(launched("run", *words, **how), wanted, words)
                with open(parks, "rb") as it:
                    self.assertEqual(len(it.read()), 17)
            status, out, error = launched("run", "script", "--go-on", **how)
            self.assertEqual((status, out[-5:], error), (1, b"g\nok\n", counted(b"line 3: ")))
            with open(parks, "rb") as it:
                self.assertEqual(len(it.read()), 9)
        for words in ["-"], ["--go-on"], []:
            self.assertEqual(launched("run", *words, **{**self.how, "input": b"\n".join(lines)}),
                             (1, b"ok 0 1\nok\nerror missing\nok\n", counted(b"line 3: ")))

    def test_a_file_that_is_written_meanwhile(self):
        """It is opened once."""
        path = os.path.join(self.room, "pipe")
        os.mkfifo(path)
        with subprocess.Popen([LAUNCHER, "run", path, "--go-on"], **self.how, stdout=subprocess.PIPE) as process:
            with open(path, "wb") as it:
                it.write(SCRIPT)
            self.assertEqual(process.stdout.read(), ran("run", script=SCRIPT, cwd=self.room)[1])

    def test_lines(self):
        for lines in ([b"add a 04"], [b"add a 04\nadd a 0c", b"show a"], [b""], [b"cell $HOME `x` \\ \"'", b"# \\"],
                      [b"count a"] * 300):
            words = [word for line in lines for word in ("-c", line)]
            for how in self.how, self.without_python():
                self.assertEqual(launched("run", *words, "--explain", **how),
                                 ran("run", "--explain", script=b"\n".join(lines) + b"\n", cwd=self.room))

    def without_python(self):
        return {**self.how, "env": {"S2CALC_PROGRAM": PROGRAM, "PATH": self.room}}

    def test_a_file_without_python(self):
        path = os.path.join(self.room, "a script")
        with open(path, "wb") as it:
            it.write(SCRIPT)
        for words in ["--go-on"], ["--go-on", "--limit", "2"], ["--depth=1", "--no-prompt", "--go-on"]:
            options = (word for word in words if word not in ("--go-on", "--no-prompt"))
            status, out, _ = ran("run", *options, script=SCRIPT, cwd=self.room)
            wanted = status, out, counted(b"line 3: ")
            self.assertEqual(launched("run", *words, path, **self.without_python()), wanted)
            self.assertEqual(launched("run", path, *words, **self.without_python()), wanted)

    def test_usage(self):
        with open(os.path.join(self.room, "x"), "wb") as it:
            it.write(SCRIPT)
        for words in (["-c"], ["-c", "count a", "x"], ["x", "-c", "count a"], ["x", "y"], ["-", "-"]):
            for how in self.how, self.without_python():
                status, out, error = launched("run", *words, **how)
                self.assertEqual((status, out, first_line(error)), (2, b"", b"s2calc: usage"), words)
        with open(os.path.join(self.room, "script"), "wb"):
            pass
        self.assertIn(b"s2calc run script", launched("script", **self.how)[2])
        status, out, error = launched("add", "a", "1", **self.how)
        self.assertEqual((status, out, first_line(error)), (2, b"", b"s2calc: usage"))
        self.assertIn(b"'add' is a command of scripts: s2calc run -c 'add a 1'\n", error)

    def test_explained_cells(self):
        """The answer is the program's; the identifier, or the reason, is on standard error."""
        numbers = random.Random(31)
        words = ["1", "b", "0000000000000001", "bfffffffffffffff", "0/00"]
        words += [f"{numbers.randrange(6)}/{''.join(numbers.choices('0123', k=level))}" for level in range(31)]
        for word in words:
            status, out, error = launched("cell", "--explain", word)
            self.assertEqual((status, out), ran("cell", word)[:2])
            number = int(out.split()[1].ljust(16, b"0"), 16)
            signed = number - (number >> 63 << 64)
            self.assertEqual(error.decode(), f"identifier {number}, with a sign {signed}\n")
            for decimal in number, signed:
                if len(str(decimal)) > 16:
                    self.assertEqual(launched("cell", str(decimal), "--explain"), (status, out, error))
        self.assertEqual(launched("cell", "--explain", "zz"), launched("cell", "zz"))

    def test_paths(self):
        """If all files are in one folder, it is that of the run."""
        land = ran("check", "--dir", PICTURES, "land.outer")
        for path in ("docs/pictures/land.outer", f"{PICTURES}/land.outer", "./docs//pictures/land.outer"):
            self.assertEqual(launched("check", path, cwd=TOP, env=ENVIRONMENT), land)
        self.assertEqual(launched("check", "./land.outer", cwd=PICTURES, env=ENVIRONMENT), land)
        for path in f"{PICTURES}/land.outer", "docs/pictures/land.outer":
            self.assertEqual(launched("check", path, **{**self.without_python(), "cwd": TOP}), land)
        both = ran("draw", "--fit", "--dir", PICTURES, "land.outer", "lakes.outer")
        paths = [f"docs/pictures/{name}.outer" for name in ("land", "lakes")]
        self.assertEqual(launched("draw", "--fit", *paths, cwd=TOP, env=ENVIRONMENT), both)
        self.assertEqual(launched("draw", *paths, "--fit", cwd=TOP, env=ENVIRONMENT), both)
        for words in (["check", "--dir", "docs", "pictures/land.outer"], ["check", "docs/"], ["check", "docs/-x"],
                      ["check", "/"]):
            self.assertEqual(launched(*words, cwd=TOP, env=ENVIRONMENT), ran(*words, cwd=TOP), words)

    def test_a_picture_that_can_not_be_written(self):
        with open("/dev/full", "wb") as full:
            done = subprocess.run([LAUNCHER, "draw", "land.outer"], cwd=PICTURES, env=ENVIRONMENT, stdout=full,
                                  stderr=subprocess.PIPE, check=False, timeout=SECONDS)
        self.assertEqual((done.returncode, done.stderr), (2, b"s2calc: output\n"))

    def test_statuses_of_draw(self):
        """Those of the program, also where it stops in the middle of a picture."""
        with tempfile.TemporaryDirectory() as room:
            program = os.path.join(room, "program")
            for status in 0, 2, 3:
                with open(program, "w", encoding="ascii") as it:
                    it.write(f"#!/bin/sh\nprintf '<svg'\nexit {status}\n")
                os.chmod(program, 0o755)
                found = launched("draw", "a", env={**ENVIRONMENT, "S2CALC_PROGRAM": program})
                self.assertEqual(found, (status, b"<svg", b""))

    def test_no_picture_stays(self):
        """In the folder for temporary files, whether it is drawn or not."""
        with tempfile.TemporaryDirectory() as room:
            for words, wanted in ((["land.outer"], 0), (["absent"], 1), (["--no"], 2)):
                status, _, _ = launched("draw", *words, cwd=PICTURES, env={**ENVIRONMENT, "TMPDIR": room})
                self.assertEqual((status, os.listdir(room)), (wanted, []), words)


class Help(unittest.TestCase):
    def test_what_is_added(self):
        """The program's help stays as it is, and what stands beside the program comes after it."""
        for words, added in ((["--help"], "cells"), (["run", "--help"], "-c"), (["cell", "-h"], "--explain"),
                             (["draw", "--help"], "[FILE]... ")):
            own, whole = (said(*words)[1].decode() for said in (ran, launched))
            self.assertEqual(whole[:len(own)], own)
            self.assertRegex(whole[len(own):],
                             rf"\A\nBeside the proved program, s2calc takes:\n(?:  .*\n)*  {re.escape(added)} ")
        self.assertEqual(launched("help", "run"), launched("run", "--limit", "5", "-h"))
        self.assertEqual(launched("help", "draw"), launched("draw", "-h"))
        self.assertRegex(launched("help", "draw")[1],
                         rb"\n\nThe picture is no map: [^.]*\. For a map, '.*' prints .*\n\Z")

    def test_lines_of_help_in_few_columns(self):
        """A table's last column goes on below itself, unless it is too narrow; and nothing is cut within a word."""
        for line, columns, wanted in (
                ("  a b   one two", 15, ["  a b   one two"]), ("  a b   one two", 14, ["  a b   one", "      two"]),
                ("  a b   " + "four " * 9, 32, ["  a b   four four four four four", "        four four four four"]),
                ("one two", 6, ["one", "two"]), ("  $ one two", 6, ["  $ one two"]), ("word-word", 4, ["word-word"])):
            self.assertEqual(prompt.broken(line, columns), wanted)
        self.assertEqual(launched("help", "cell"), launched("cell", "--help"))
        for command in "cell", "check", "draw":
            for words in ["1", "--help"], ["1", "-h"], ["-h", "1"]:
                self.assertEqual(launched(command, *words), launched("help", command), words)
        self.assertIn(b"  --explain      Says", launched("help", "cell")[1])
        self.assertIn(b"\n  quit    ", launched("help", "quit")[1])
        self.assertIn(b"did you mean 'count'?", launched("help", "COUNT")[2])
        self.assertEqual(launched("help"), launched("-h"))
        self.assertEqual(launched("help", "cells"), launched("cells", "--help"))
        self.assertEqual(launched("help", "nothing")[0], 2)
        self.assertIn(b"did you mean 'count'?", launched("help", "coumt")[2])

    def test_help_on_a_command(self):
        self.assertEqual(list(prompt.help_of(PROGRAM)[1]), list(prompt.COMMANDS))
        self.assertEqual(launched("help", "count")[1].decode(), prompt.help_on(PROGRAM, "count") + "\n")

    def test_errors_that_words_do_not_tell(self):
        """Each of them comes of some script, and no other is said. One exception: memory that runs out."""
        lines = {
            "too-many": ["add a 1 3", "add a 1\nremove a 1c", "add a 1\nkeep a 04 14", "add a 1\nadd b 3\nunion a b",
                         "add a 1\nadd b 1c\nsubtract a b", "range a 1 3", "outer a 30 0 0 4 0 0",
                         "inner a 30 0 0 4 0 0", "add a 1\nouterof b a 30 0 0 4 0 0", "add a 1\ndenorm a 30 1",
                         "add a 1\ninnerof b a 30 0 0 4 0 0", "load a wide", "restore wide"],
            "order": ["range a 3 1"], "missing": ["load a none", "restore none"],
            "file": ["load a folder", "restore folder", "save a folder", "dump folder"], "format": ["load a bad"],
            "session": ["restore bad"], "nothing": ["undo", "redo"], "too-deep": ["restore deep"],
        }
        tried = [(error, script, 1) for error, scripts in lines.items() for script in scripts]
        tried.append(("too-many", "add a 1 24 2c\nadd b 04 0c 3\nintersect a b", 3))
        with tempfile.TemporaryDirectory() as room:
            os.mkdir(os.path.join(room, "folder"))
            with open(os.path.join(room, "bad"), "wb") as it:
                it.write(b"bad")
            ran("run", script=b"add a 1\nadd a 3\ndump deep\n", cwd=room)
            ran("run", script=b"add a 1 3\nsave a wide\n", cwd=room)
            found = {name: {"memory"} for name in prompt.COMMANDS}  # which scripts don't reach
            for error, script, limit in tried:
                out = ran("run", "--limit", str(limit), "--depth", "1", script=script.encode(), cwd=room)[1]
                self.assertEqual(out.splitlines()[-1], f"error {error}".encode(), script)
                found[script.splitlines()[-1].split()[0]].add(error)
        for name, (errors, _) in prompt.COMMANDS.items():
            self.assertEqual({*errors.split(", "), "memory"}.intersection([*lines, "memory"]), found[name], name)


def refused(words):
    """The error of a line."""
    return re.findall(rb"^error (.*)$", ran("run", script=" ".join(words).encode())[1], re.M)[0].decode()


@pytest.mark.parametrize("name", prompt.COMMANDS)
def test_help_on_each_command(name, tmp_path):
    """Its example isn't refused. Each word of its form can be, and its errors have what that says, and no more."""
    form, _, errors, shown = prompt.help_on(PROGRAM, name).splitlines()
    example = prompt.COMMANDS[name][1]
    assert (form.split()[0], shown, example.split()[0]) == (name, f"example: {example}", name)
    ran("run", script=b"add a 04\nsave a parks\ndump session\n", cwd=tmp_path)
    status, out, _ = ran("run", script=b"add a 04 0c\nadd b 04\nadd a 1c\nundo\n" + example.encode(), cwd=tmp_path)
    assert (status, b"error" in out) == (0, False)
    words = WHOLE.get(name, example).split()
    of_words = [refused([*words[:place], "!", *words[place + 1:]]) for place in range(1, len(words))]
    errors = errors.removeprefix("errors: ").split(", ")
    others = [error for error in errors if error in OTHERS]
    assert errors == [*dict.fromkeys(of_words), *others, "syntax"]
    assert refused([*words, *["!"] * 8]) in errors


class Identifiers(unittest.TestCase):
    """`cells`, beside a plain answer."""

    def setUp(self):
        self.random = random.Random(5)
        self.cells = [self.cell() for _ in range(3000)]

    def cell(self):
        """The identifier and the debug text of a random cell, digit by digit."""
        face, path = self.random.randrange(6), [self.random.randrange(4) for _ in range(self.random.randrange(31))]
        bits = f"{face:03b}" + "".join(f"{digit:02b}" for digit in path) + "1"
        return int(bits.ljust(64, "0"), 2), f"{face}/" + "".join(map(str, path))

    def word(self, number, debug):
        """The cell in one of the forms that other programs have."""
        forms = [f"{number:016x}".rstrip("0"), f"{number:016X}", debug]
        forms.append(f"{number - (1 << 64) if number >> 63 else number:+}")
        if number >= 10**16:
            forms += [str(number), str(number - (1 << 64)) if number >> 63 else f"+{number}"]
        return self.random.choice([form for form in forms if not form.isdigit() or len(form) > 16])

    def test_thousands_in_all_forms(self):
        words = [self.word(*cell) for cell in self.cells]
        text = words[0]
        between = [" ", "\n", ", ", "\r\n", "\t", "][", "', '", '","', ";", "|", "}\n{", "\n\n"]
        for word in words[1:]:
            text += self.random.choice(between) + word
        wanted = [f"{number:016x}".rstrip("0") for number, _ in self.cells]
        status, out, error = launched("cells", input=f"[{text}]\n".encode())
        self.assertEqual((status, error, out.split()), (0, b"", [word.encode() for word in wanted]))
        self.assertLess(max(map(len, out.splitlines())), 4096)
        commands = launched("cells", "--add", "q", input=text.encode())[1]
        self.assertEqual(b" ".join(line.removeprefix(b"add q ") for line in commands.splitlines()).split(), out.split())
        shown = ran("run", script=commands + b"show q\n")[1].decode().split("end\n")[0].splitlines()
        runs = model.joined(sorted(model.run_of(model.cell_in(word.encode())) for word in wanted))
        self.assertEqual([line for line in shown if " " not in line], list(map(model.token, model.normal_form(runs))))

    def test_as_json_python_and_sqlite_print_them(self):
        numbers = [number for number, _ in self.cells if number >= 10**16][:200]
        signed = [number - (1 << 64) if number >> 63 else number for number in numbers]
        wanted = " ".join(f"{number:016x}".rstrip("0") for number in numbers) + "\n"
        values = ", ".join(f"({it})" for it in signed)
        with contextlib.closing(sqlite3.connect(":memory:")) as database:
            rows = database.execute(f"SELECT json_group_array(column1) FROM (VALUES {values})").fetchone()[0]
        for text in (str(numbers), str(signed), str(tuple(numbers)), rows, "{" + ",".join(map(str, signed)) + "}",
                     "\ufeff" + "\n".join(map(str, signed))):
            self.assertEqual(b" ".join(launched("cells", input=text.encode())[1].split()).decode() + "\n", wanted)

    def test_what_show_prints(self):
        shown = ran("run", script=b"add a 04 3/021 5\nshow a\n")[1].partition(b"\n")[2]
        commands = launched("cells", "--add", "b", input=shown)[1]
        self.assertEqual(ran("run", script=commands + b"show b\n")[1].partition(b"\n")[2], shown)

    def test_digits_alone(self):
        """Up to 16 are a token, unless --decimal says that they are a number; or other words have more, as identifiers
        in a database have. If all words of a text are digits, it is said how they were read."""
        self.assertEqual(launched("cells", input=b"1 +1 10\n"), (0, b"1 0000000000000001 1\n", b""))
        few, many = 1234567890123457, 5180949494577750587
        for text, place in ((f"{few}\n{many}", "line 1, word 1"), (f"{many}, {few}", "line 1, word 2"),
                            (f"x{many}"[1:] + f"\n3/0 -8520159584101335040\n{few}", "line 3, word 1")):
            status, out, error = launched("cells", input=text.encode())
            self.assertEqual((status, out), (1, b""))
            self.assertTrue(error.decode().startswith(f"s2calc: {place}: {few}: is it a token or a number? "), error)
            self.assertIn(b"--decimal", error)
            tokens = [f"{int(word) % 2**64:016x}".rstrip("0") for word in re.findall(r"-?\d{16,}", text)]
            status, out, error = launched("cells", "--decimal", input=text.encode())
            self.assertEqual((status, [it for it in out.decode().split() if it != "64"], error), (0, tokens, b""))
        status, out, error = launched("cells", input=b"1234567890123457\n 1234567890123459")
        self.assertEqual((status, out), (0, b"1234567890123457 1234567890123459\n"))
        self.assertTrue(error.startswith(b"s2calc: line 1, word 1: 1234567890123457: was read as a token"), error)
        self.assertIn(b"--decimal", error)
        self.assertEqual(launched("cells", input=b"1234567890123457 04 1c")[2], b"")
        self.assertEqual(launched("cells", "--decimal", input=b"1 16 3/0\n"),
                         (0, b"0000000000000001 000000000000001 64\n", b""))

    def test_what_is_no_cell(self):
        for text, place, word in (
            (b"1 3\n5 zz", (2, 2), "zz"), (b"0", (1, 1), "0"), (b"X", (1, 1), "X"), (b"6/0", (1, 1), "6/0"),
            (b"\n0x04", (2, 1), "0x04"), (b"-1", (1, 1), "-1"), (b"5.18e18", (1, 1), "5.18e18"),
            (b"18446744073709551617", (1, 1), "18446744073709551617"), (b"0/" + b"3" * 31, (1, 1), "0/" + "3" * 31),
            (b"1 \xff", (1, 2), r"\xff"), (b"-9223372036854775809", (1, 1), "-9223372036854775809"),
            (b"1\nNULL\n", (2, 1), "NULL"), (b"d", (1, 1), "d"), (b"b c4", (1, 2), "c4"), (b"f", (1, 1), "f"),
            (b"13835058055282163712", (1, 1), "13835058055282163712"),
        ):
            status, out, error = launched("cells", input=text)
            said = f"s2calc: line {place[0]}, word {place[1]}: '{word}' is not a cell\n"
            self.assertEqual((status, out, error.decode()), (1, b"", said))

    def test_files_and_usage(self):
        with tempfile.TemporaryDirectory() as room:
            with open(os.path.join(room, "ids"), "wb") as it:
                it.write(b"3/021,\n")
            self.assertEqual(launched("cells", "ids", cwd=room), (0, b"64c\n", b""))
            self.assertEqual(launched("cells", "-", input=b"3/021"), (0, b"64c\n", b""))
            self.assertEqual(launched("cells", "--add=b", "ids", cwd=room), (0, b"add b 64c\n", b""))
            self.assertEqual(launched("cells"), (0, b"", b""))
            for words, what in ((["absent"], b"input"), (["."], b"input"), (["ids", "ids"], b"usage"),
                                (["--add"], b"usage"), (["--add", "ab"], b"usage"), (["--no"], b"usage")):
                status, out, error = launched("cells", *words, cwd=room)
                self.assertEqual((status, out, first_line(error)), (2, b"", b"s2calc: " + what))
            for cell in ("10789722008133304320", "64c", "3/021"):
                said = f"s2calc: input\nerror: there is no file '{cell}'; for a cell: echo {cell} | s2calc cells\n"
                self.assertEqual(launched("cells", cell, cwd=room), (2, b"", said.encode()))
        with open("/dev/full", "wb") as full:
            done = subprocess.run([LAUNCHER, "cells"], input=b"1", stdout=full, stderr=subprocess.PIPE, check=False,
                                  timeout=SECONDS)
        self.assertEqual((done.returncode, first_line(done.stderr)), (2, b"s2calc: output"))
