"""The program answers what README.md and the pages for users show; and the script s2calc at the top runs it."""
import hashlib
import os
import re
import shlex
import shutil
import subprocess
import sys
import tempfile
import unittest

import pytest

from checks import tracked
from model import calculator as model
from process import LAUNCHER, PROGRAM, SECONDS, TOP, launched, ran

sys.path.append(os.path.join(TOP, "tools", "packaging"))
import documents  # noqa: E402


def has_gnu_parallel():
    """Whether `parallel` is GNU's. That of moreutils has other options."""
    if not shutil.which("parallel"):
        return False
    said = subprocess.run(["parallel", "--version"], stdin=subprocess.DEVNULL, capture_output=True, timeout=SECONDS)
    return said.stdout.startswith(b"GNU parallel")


# A kit that proves nothing. While it builds the program, the source that $CHANGE names changes, if it names one.
KIT = """#!/bin/sh
[ -z "$CHANGE" ] || echo >>"$CHANGE"
case $1 in run) mkdir -p out && printf '#!/bin/sh\necho proved\n' >out/calculator && chmod 755 out/calculator ;; esac
"""
# What stands for tools/unproved: it takes its time, and counts its builds.
UNPROVED = """#!/bin/sh
sleep 0.2
echo >>"$COUNT"
printf '#!/bin/sh\necho unproved; cat\n' >"$1" && chmod 755 "$1"
"""


class Launcher(unittest.TestCase):
    """The script s2calc at the top, over the program that was built."""

    def setUp(self):
        self.room = tempfile.mkdtemp()
        self.addCleanup(shutil.rmtree, self.room)
        self.link = os.path.join(self.room, "calculator")
        os.symlink(os.path.join(TOP, "s2calc"), self.link)

    def test_through_a_symbolic_link_and_from_another_folder(self):
        how = {"cwd": self.room, "env": {**os.environ, "S2CALC_QUIET": "1"}}
        # where nothing is proved, as in the quick tier, it builds the program first
        done = subprocess.run([self.link, "cell", "1"], capture_output=True, timeout=SECONDS, **how)
        self.assertEqual((done.returncode, done.stderr), (0, b""))
        self.assertEqual(done.stdout, b"cell 1 0/ level 0 face 0 leaves 0 1152921504606846975\n")

    def copy(self, *names):
        for name in names:
            copy = os.path.join(self.room, name)
            os.makedirs(os.path.dirname(copy), exist_ok=True)
            shutil.copy(os.path.join(TOP, name), copy)

    def make_repository(self):
        """Makes a repository of one source in the folder, with a kit, and answers how its commands are run."""
        self.copy("s2calc", "tools/prove", "tools/usage.sh", "tools/sources.sh", "tools/chosen.py",
                  "tools/launcher/launcher", "VERSION", "KIT", "HANDLES", "crates.txt", "crates/s2cell/src/lib.rt")
        with open(os.path.join(TOP, "crates.txt"), encoding="utf-8") as it:
            for line in it:
                os.makedirs(os.path.join(self.room, "crates", re.match(r"\w+", line)[0]), exist_ok=True)
        for path, text in (("bin/rt", KIT), ("tools/unproved", UNPROVED)):
            self.write(path, text)
        return {"cwd": self.room, "capture_output": True, "timeout": SECONDS, "text": True}

    def write(self, path, text):
        path = os.path.join(self.room, path)
        os.makedirs(os.path.dirname(path), exist_ok=True)
        with open(path, "w", encoding="utf-8") as it:
            it.write(text)
        os.chmod(path, 0o755)

    def environment(self, has_kit=True, has_python=True, **more):
        path = os.path.join(self.room, "tools_of_the_system")
        if not os.path.isdir(path):
            os.mkdir(path)
            for folder in "/usr/bin", "/bin":
                for name in os.listdir(folder):
                    if not name.startswith("python") and not os.path.lexists(os.path.join(path, name)):
                        os.symlink(os.path.join(folder, name), os.path.join(path, name))
            os.makedirs(os.path.join(self.room, "python"))
            os.symlink(sys.executable, os.path.join(self.room, "python", "python3"))
        for folder in ["bin"] * has_kit + ["python"] * has_python:
            path = os.path.join(self.room, folder) + ":" + path
        return {"PATH": path, "COUNT": os.path.join(self.room, "count"), **more}

    def builds(self):
        with open(os.path.join(self.room, "count"), encoding="utf-8") as it:
            return len(it.readlines())

    def test_a_source_that_changes_while_it_is_proved(self):
        """Then the program is older than its sources, and not the one that is run; until all is proved again. A program
        that isn't older stays, also where no kit is; so does one whose sources were only written anew."""
        how = self.make_repository()
        source = os.path.join(self.room, "crates/s2cell/src/lib.rt")
        for change, answer in (source, "unproved\n"), ("", "proved\n"):
            how["env"] = self.environment(CHANGE=change)
            subprocess.run(["tools/prove"], check=True, **how)
            done = subprocess.run(["./s2calc", "cell", "1"], check=True, input="", **how)
            self.assertEqual(done.stdout, answer)
        how["env"] = self.environment(has_kit=False)
        for change, status in (lambda: None, 0), (lambda: os.utime(source), 0), (lambda: self.write(source, "//\n"), 2):
            change()
            self.assertEqual(subprocess.run(["tools/prove"], check=False, **how).returncode, status)

    def test_the_program_of_the_release(self):
        """It is run where it was proved from the sources that are here, and where no other can be had."""
        how = self.make_released()
        for has_kit in False, True:
            how["env"] = self.environment(has_kit)
            done = subprocess.run(["./s2calc", "run"], check=True, **how)
            self.assertEqual((done.stdout, done.stderr), ("released\n", ""))
        for path, text in ("crates/s2cell/src/lib.rt", "fn other() {}\n"), ("crates/s2cell/src/more.rt", ""):
            self.write(path, text)
            how["env"] = self.environment(has_kit=False)
            done = subprocess.run(["./s2calc", "run"], check=True, **how)
            self.assertEqual(done.stdout, "released\n")
            self.assertIn("the sources here aren't those of the release, whose program answers\n", done.stderr)
            how["env"] = self.environment()
            self.assertEqual(subprocess.run(["./s2calc"], check=True, input="", **how).stdout, "unproved\n")
            os.remove(os.path.join(self.room, path))
        self.copy("crates/s2cell/src/lib.rt")
        done = subprocess.run(["./s2calc", "run"], check=True, **how)
        self.assertEqual((done.stdout, done.stderr), ("released\n", ""))

    def make_released(self):
        """Makes a repository with a release of its sources, and answers how its commands are run, without a kit."""
        how = self.make_repository()
        how["env"] = self.environment(has_kit=False)
        self.write("dist/s2calc", "#!/bin/sh\necho released\n")
        sources = subprocess.run(["bash", "tools/sources.sh", "sum"], check=True, **how).stdout.strip()
        self.write("dist/README.md", f"- Sources: `{sources}`\n")
        return how

    def test_a_choice_that_is_no_file(self):
        """What stands in the place of the one that is kept isn't read, and keeps no call from its end."""
        how = self.make_released()
        kept = os.path.join(self.room, ".s2calc", "choice")
        os.mkdir(os.path.dirname(kept))
        for make in os.mkfifo, os.mkdir, lambda path: os.symlink("/dev/zero", path), lambda path: self.write(path, ""):
            make(kept)
            done = subprocess.run(["./s2calc", "run"], check=True, **how)
            self.assertEqual((done.stdout, done.stderr), ("released\n", ""))
            os.rmdir(kept) if os.path.isdir(kept) else os.remove(kept)

    def test_without_python(self):
        """The release's program serves, until Python has chosen another. Then a call starts that program alone: no
        command has to be found."""
        how = self.make_released()
        self.write("crates/calculator/out/calculator", "#!/bin/sh\necho proved\n")
        without = {**how, "env": {"PATH": os.path.join(self.room, "none")}}
        done = subprocess.run(["./s2calc", "run"], check=True, **without)
        self.assertEqual(done.stdout, "released\n")
        self.assertIn("s2calc: nobody has compared the sources here with those of the release: python3 is", done.stderr)
        for each in how, without:
            done = subprocess.run(["./s2calc", "run"], check=True, **each)
            self.assertEqual((done.stdout, done.stderr), ("proved\n", ""))
            os.utime(os.path.join(self.room, ".s2calc", "choice"))  # as if all else had been there before

    def test_the_checksum_of_the_sources(self):
        """It is that of the target, of the lines of the crates, and of what sha256sum prints of each file."""
        how = self.make_repository()
        with open(os.path.join(self.room, "crates.txt"), encoding="utf-8") as it:
            lines = [line for line in it if not line.startswith(("s2polygon", "s2degrees", "s2geodesic", "s2shape",
                                                                "s2map", "s2written", "s2union_c", "s2room",
                                                                "test_", "#"))]
        with open(os.path.join(self.room, "crates/s2cell/src/lib.rt"), "rb") as it:
            lines.append(f"{hashlib.sha256(it.read()).hexdigest()}  crates/s2cell/src/lib.rt\n")
        text = "x86_64-unknown-linux-gnu\n" + "".join(sorted(lines[:-1])) + lines[-1]
        done = subprocess.run(["bash", "tools/sources.sh", "sum"], check=True, **how)
        self.assertEqual(done.stdout.strip(), hashlib.sha256(text.encode()).hexdigest())
        self.assertEqual(subprocess.run(["bash", "tools/sources.sh"], check=False, **how).returncode, 2)

    def test_an_unproved_build_is_kept(self):
        """It is made once, also by two calls at once, and says what it is; where it can't be kept it answers too."""
        how = self.make_repository()
        calls = [subprocess.Popen(["./s2calc", "run"], cwd=self.room, env=self.environment(), stdin=subprocess.PIPE,
                                  stdout=subprocess.PIPE, stderr=subprocess.PIPE, text=True) for _ in range(2)]
        for call in calls:
            self.assertEqual(call.communicate("a script", timeout=SECONDS)[0], "unproved\na script")
        self.assertEqual(self.builds(), 1)
        note = "s2calc: not proved on this machine: tools/prove\n"
        for more, notes in ({}, note), ({"S2CALC_QUIET": "1"}, ""):
            done = subprocess.run(["./s2calc"], check=True, input="x", env=self.environment(**more), **how)
            self.assertEqual((done.stdout, done.stderr), ("unproved\nx", notes))
        self.assertEqual(self.builds(), 1)
        self.write("bin/another", "the kit is another one\n")
        subprocess.run(["./s2calc"], check=True, input="", env=self.environment(), **how)
        self.assertEqual(self.builds(), 2)
        shutil.rmtree(os.path.join(self.room, ".s2calc"))
        self.write(".s2calc", "no folder\n")
        for builds in 3, 4:
            done = subprocess.run(["./s2calc"], check=True, input="x", env=self.environment(), **how)
            self.assertEqual((done.stdout, self.builds()), ("unproved\nx", builds))
            self.assertIn("can't be written", done.stderr)

    def test_where_no_program_and_no_kit_are(self):
        self.make_repository()
        kit = text_of("KIT").strip().replace("\n", " or ")
        for words in ["run"], ["cell", "1"], [], ["--help"]:
            reader, writer = os.pipe()  # which stays open: nothing may wait for its end
            with open(reader), open(writer):
                done = subprocess.run(["./s2calc", *words], cwd=self.room, stdin=reader, capture_output=True,
                                      env=self.environment(has_kit=False), timeout=SECONDS, text=True)
            self.assertEqual((done.returncode, done.stdout, kit in done.stderr), (2, "", True), words)

    @unittest.skipUnless(shutil.which("rt"), "Rattle's kit is not there")
    def test_the_kit_has_the_logic_that_is_named(self):
        """Whatever its name is: the logic is what proves."""
        said = subprocess.run(["rt", "version"], capture_output=True, text=True, check=True, timeout=SECONDS).stdout
        self.assertEqual({line.split()[1:] == said.split()[1:] for line in text_of("KIT").splitlines()}, {True}, said)


def said_by_tool(tool, words, room):
    """What a tool that writes into a folder says in one, in which it then has left nothing."""
    done = subprocess.run([os.path.join(TOP, tool), *words], cwd=room, capture_output=True, text=True,
                          env={"PATH": "/usr/bin:/bin"}, timeout=SECONDS)
    assert os.listdir(room) == []
    return done


TOOLS = ["tools/library", "tools/package", "tools/package-trial", "tools/page", "bindings/java/package"]


@pytest.mark.parametrize("tool,words", [*((tool, words) for tool in TOOLS for words in ([], [""])),
                                        ("tools/library", ["f", "--once"]), ("tools/package", ["f", "--once"])])
def test_no_folder_is_named(tool, words, tmp_path):
    """Then nothing is made, and nothing installed."""
    done = said_by_tool(tool, words, tmp_path)
    assert (done.returncode != 0, done.stdout) == (True, "")
    assert re.match(f"(the folder is missing: )?{tool} ", done.stderr)


@pytest.mark.parametrize("tool", TOOLS)
def test_help_of_a_tool(tool, tmp_path):
    done = said_by_tool(tool, ["--help"], tmp_path)
    assert (done.returncode, done.stderr, f"{tool} " in done.stdout) == (0, "", True)


def text_of(name):
    with open(os.path.join(TOP, name), encoding="utf-8") as it:
        return it.read()


PAGES = tracked(TOP, "README.md", *documents.PAGES)
TRANSCRIPT = re.compile(r"```text\n\$ \./s2calc run <<'SCRIPT'\n(.*?)SCRIPT\n(.*?)```", re.S)
TRANSCRIPTS = [pytest.param(*shown, id=f"{page}: {place}") for page in PAGES
               for place, shown in enumerate(TRANSCRIPT.findall(text_of(page)), 1)]


@pytest.mark.parametrize("script,answers", TRANSCRIPTS)
def test_transcripts(script, answers, tmp_path):
    assert ran("run", script=script.encode(), cwd=tmp_path)[1].decode() == answers


def test_the_first_part_of_the_tutorial():
    """All but its step in Python, which the tests of Python run."""
    words = [sys.executable, "tests/docs/documented.py", "--shell", "docs/TUTORIAL.md", "## Part 2: an hour", "python3"]
    done = subprocess.run(words, cwd=TOP, env={**os.environ, "S2CALC": LAUNCHER, "S2CALC_PROGRAM": PROGRAM},
                          capture_output=True, text=True, timeout=SECONDS)
    assert (done.returncode, done.stdout) == (0, "6 passed, 0 failed\n"), done.stdout


# Calls that show their answers, with what a call leads into, if it does: those of all pages but the tutorial, and the
# one that needs maps, which tests/geo runs.
CALLS = [(*words.partition(" | ")[::2], text)
         for page in PAGES if page not in ("docs/TUTORIAL.md", "docs/GEO.md")
         for words, text in re.findall(r"```text\n\$ \./s2calc ([^<\n]*)\n(.*?)```", text_of(page), re.S)]


@pytest.mark.parametrize("words,rest,text", CALLS)
def test_calls_pictures_and_usage_faults(words, rest, text):
    status, out, error = launched(*shlex.split(words), cwd=TOP)
    if rest:
        out = subprocess.run(rest, shell=True, input=out, stdout=subprocess.PIPE, check=True).stdout
    assert ((out + error).decode(), status) == (text, 2 if error else 0)


# The names of errors on the page, each with the line that is its example, if it has one.
ERRORS = re.findall(r"^\| `([a-z-]+)` \| [^|]+ \| (?:`(.*?)` )?\| [^|]*\|$",
                    text_of("docs/SCRIPT.md").partition("\n## Errors\n")[2].partition("\n### ")[0], re.M)


@pytest.mark.parametrize("name,example", ERRORS)
def test_each_error(name, example, tmp_path):
    """The example of an error is answered so."""
    (tmp_path / "folder").mkdir()
    (tmp_path / "bad").write_bytes(b"bad")
    ran("run", script=b"add a 1\nadd a 3\ndump deep\n", cwd=tmp_path)
    wanted = b"error %s\n" % name.encode() if example else b""
    assert ran("run", "--depth", "1", script=example.encode(), cwd=tmp_path)[1] == wanted


def test_the_page_has_what_is_looked_for():
    """Transcripts, five calls, and each error of a command; two errors have no example."""
    assert TRANSCRIPTS and len(CALLS) == 5
    assert {name for name, example in ERRORS if not example} == {"memory", "line"}
    assert {name for name, _ in ERRORS} == {"syntax", "line"}.union(*model.ERRORS.values())


class Documents(unittest.TestCase):
    """The program answers what the pages show."""

    def setUp(self):
        self.texts = {page: text_of(page) for page in PAGES}

    def test_notes_on_refused_lines(self):
        shown = re.findall(
            r"```text\n\$ \./s2calc run --explain 2>&1 >/dev/null <<'SCRIPT'\n(.*?)SCRIPT\n(.*?)```",
            self.texts["docs/SCRIPT.md"], re.S
        )
        for script, notes in shown:
            with tempfile.TemporaryDirectory() as folder:
                self.assertEqual(ran("run", "--explain", script=script.encode(), cwd=folder)[2].decode(), notes)
        self.assertEqual(len(shown), 1)

    def test_what_other_commands_print(self):
        shown = re.findall(r"```text\n\$ (printf .*\| \./s2calc .*)\n((?:.*\n)*?)```", self.texts["docs/SCRIPT.md"])
        for command, text in shown:
            with tempfile.TemporaryDirectory() as folder:
                os.symlink(LAUNCHER, os.path.join(folder, "s2calc"))
                done = subprocess.run(command, shell=True, cwd=folder, env={"S2CALC_PROGRAM": PROGRAM}, text=True,
                                      stdout=subprocess.PIPE, check=True, timeout=SECONDS)
                self.assertEqual(done.stdout, text)
        self.assertEqual(len(shown), 1)

    def test_each_option(self):
        """The page has each option that the help has."""
        for command in ("run", "check", "draw", "cells"):
            for option in re.findall(r"^ +(?:-\w, )?(--?\w[\w-]*)", launched(command, "--help")[1].decode(), re.M):
                if option != "--help":
                    self.assertRegex(self.texts["docs/SCRIPT.md"], f"`{option}\\b")

    def test_each_command(self):
        """Each command of the page is in a session."""
        scripts = "".join(re.findall(r"<<'SCRIPT'\n(.*?)SCRIPT\n", self.texts["docs/SCRIPT.md"], re.S))
        shown = {line.split()[0] for line in scripts.splitlines() if line.split()}
        self.assertEqual(set(model.COMMANDS) - shown, set())

    def test_the_first_command(self):
        shown = re.compile(r"printf '(.*?)\\n' \| bin/s2calc run\n\nThe last prints `(.*?)`")
        script, answer = shown.search(self.texts["docs/INSTALL.md"]).groups()
        self.assertEqual(ran("run", script=script.encode())[1].decode(), answer + "\n")

    def a_script_of_regions(self):
        """The calculator as a filter: 1,024 regions as docs/SCALE.md has one, and their answers."""
        lines = re.search(r"^    add a .*\n((?:    .*\n)*?    clear b\n)", self.texts["docs/SCALE.md"], re.M).group(1)
        lines = lines.replace("    ", "")
        regions = "".join(f"add a {k % 6}/{k:011b} {k % 5}/3{k:010b}\n{lines}" for k in range(1024)).encode()
        status, answers, error = ran("run", script=regions)
        self.assertEqual((status, error, answers.count(b"end\n")), (0, b"", 1024))
        return regions, answers

    def test_a_script_in_parts(self):
        regions, answers = self.a_script_of_regions()
        parts = re.findall(rb"(?:.*?clear b\n){1,100}", regions, re.S)
        self.assertEqual(b"".join(parts), regions)
        self.assertEqual(b"".join(ran("run", script=part)[1] for part in parts), answers)

    @unittest.skipUnless(has_gnu_parallel(), "GNU parallel is not there")
    def test_a_script_in_parts_by_gnu_parallel(self):
        regions, answers = self.a_script_of_regions()
        command = re.search(r"^    (parallel .*) --block 10M (.*)$", self.texts["docs/SCALE.md"], re.M)
        with tempfile.TemporaryDirectory() as folder:
            os.symlink(PROGRAM, os.path.join(folder, "s2calc"))
            with open(os.path.join(folder, "regions"), "wb") as it:
                it.write(regions)
            subprocess.run(f"{command[1]} --block 10k {command[2]}", shell=True, cwd=folder, check=True,
                           timeout=SECONDS)
            with open(os.path.join(folder, "answers"), "rb") as it:
                self.assertEqual(it.read(), answers)

    def test_the_example_in_rust_is_the_one_that_is_compiled(self):
        example = re.search(r"```rust\n(.*?)```", self.texts["docs/ARCHITECTURE.md"], re.S).group(1)
        with open(os.path.join(TOP, "crates/test_script/src/example.rt"), encoding="utf-8") as it:
            self.assertIn(example, it.read())
