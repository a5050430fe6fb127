"""The prompt of `s2calc run` at a terminal, key by key, beside bc and sqlite3."""
import os
import re
import select
import signal
import sys
import tempfile
import time
import unittest

import pexpect

TESTS = os.path.dirname(os.path.dirname(os.path.realpath(__file__)))
sys.path.append(os.path.join(TESTS, "program"))
from process import LAUNCHER, PROGRAM, TOP, launched, ran  # noqa: E402
import prompt  # noqa: E402: which process finds

PROMPT = "s2calc> "
UP, LEFT, BACKSPACE, INTERRUPT, END, STOP = "\x1b[A", "\x1b[D", "\x7f", "\x03", "\x04", "\x1a"
SECONDS = 600  # on a machine with much else to do


def session_of_the_page():
    """What is typed at each prompt of the page's session, and what is then shown."""
    with open(os.path.join(TOP, "docs/SCRIPT.md"), encoding="utf-8") as it:
        shown = re.search(r"^```console\n\$ s2calc run\n(.*?)^```$", it.read(), re.M | re.S)[1]
    banner, *parts = shown.split(PROMPT)
    return banner, [part.partition("\n")[::2] for part in parts]


class Keys(unittest.TestCase):
    def setUp(self):
        room = tempfile.TemporaryDirectory()
        self.addCleanup(room.cleanup)
        self.room = room.name
        os.mkdir(os.path.join(self.room, "empty"))
        with open(os.path.join(self.room, "inputrc"), "w", encoding="ascii") as it:
            it.write("set enable-bracketed-paste off\nset bell-style none\n")
        self.environment = {
            "S2CALC_PROGRAM": PROGRAM, "PATH": "/usr/bin:/bin", "HOME": self.room, "TERM": "xterm", "LC_ALL": "C.UTF-8",
            "XDG_STATE_HOME": os.path.join(self.room, "state"), "INPUTRC": os.path.join(self.room, "inputrc"),
        }

    def spawned(self, command, *words, columns=200, **environment):
        """A program at a terminal of its own. A shell has Ctrl-C ignored in what it puts into the background."""
        session = pexpect.spawn(command, list(words), cwd=self.room, env={**self.environment, **environment},
                                timeout=SECONDS, encoding="utf-8", codec_errors="replace", dimensions=(60, columns),
                                preexec_fn=lambda: signal.signal(signal.SIGINT, signal.SIG_DFL))
        session.delaybeforesend = None
        self.addCleanup(session.close, True)
        return session

    def shown(self, session, end=PROMPT):
        """What is shown before the next prompt, or before this end."""
        session.expect_exact(end) if isinstance(end, str) else session.expect(end)
        return session.before.replace("\r\n", "\n")

    def started(self, *words, **how):
        """A session whose first prompt is shown."""
        session = self.spawned(LAUNCHER, *(words or ["run"]), **how)
        session.banner = self.shown(session)
        return session

    def answered(self, session, keys, echo=None):
        """What is shown after these keys and Enter, without the keys' echo."""
        session.send(keys + "\r")
        shown = self.shown(session)
        echo = keys if echo is None else echo
        self.assertEqual(shown[:len(echo) + 1], echo + "\n")
        return shown[len(echo) + 1:]

    def signaled(self, session, key, process=None):
        """Sends a key that is a signal once the prompt sleeps until a key comes. One that comes between the last look
        for a signal and this sleep is seen by Python, whose readline it is, with the next key alone."""
        while self.state(process or session.pid) != "S":
            time.sleep(0.01)
        session.send(key)

    def state(self, process):
        with open(f"/proc/{process}/stat", encoding="ascii") as it:
            return it.read().rpartition(")")[2].split()[0]

    def has_ended(self, process):
        """Whether it is gone, or nobody has asked for its status yet."""
        try:
            return self.state(process) == "Z"
        except (FileNotFoundError, ProcessLookupError):
            return True

    def status(self, session, keys=END):
        session.send(keys)
        self.shown(session, pexpect.EOF)
        session.close()
        return session.exitstatus if session.signalstatus is None else -session.signalstatus

    # ---- the session

    def test_the_session_of_the_page(self):
        banner, lines = session_of_the_page()
        session = self.started()
        self.assertEqual(session.banner, banner)
        version = ran("--version")[1].decode().strip()
        self.assertEqual(banner, f"{version}: 'help' for help, Ctrl-D to leave\n")
        self.assertGreater(len(lines), 3)
        for line, answer in lines[:-1]:
            self.assertEqual(self.answered(session, line), answer)
        self.assertEqual(lines[-1], ("", ""))
        self.assertEqual(self.status(session), 0)  # though a line had an error: a session has none, as in bc and psql

    def test_leaving(self):
        for keys in ("quit\r", "exit\r", "  exit \r", END):
            self.assertEqual(self.status(self.started(), keys), 0)
        session = self.started()
        self.assertEqual(self.answered(session, "count"), "error syntax\n  a register (a to z) is missing\n")
        self.assertEqual(self.status(session, "quit\r"), 0)

    def test_cells_of_other_programs(self):
        """Commas stand between them, and an identifier may be decimal, as Python and SQL print it."""
        session = self.started()
        for line, answer in (("add a 04,0c", "ok 0 2"), ("add a 864691128455135232, 1441151880758558720,", "ok 0 1"),
                             ("show a", "04\n0c\n14\nend"),
                             ("cell -8520159584101335040", "cell 89c25 4/10320102 level 8 face 4 leaves"
                              " 4963283448711086080 4963301040897130495"),
                             ("range b 04,14", "ok 0 3"), ("has b 864691128455135232", "yes"),
                             ("cell 1234567890123456c", "error cell\n  '1234567890123456c' is not a cell (a token or a"
                              " debug text)"),
                             ("add a ,", "error syntax\n  a cell (a token or a debug text) is missing"),
                             ("at 0,0,0", "error face\n  '0,0,0' is not a face (0 to 5)"),
                             ("add a 18446744073709551617",
                              "error cell\n  '18446744073709551617' is not a cell (a token or a debug text)")):
            self.assertEqual(self.answered(session, line), answer + "\n")

    def test_prompt_wanted_or_not(self):
        session = self.started("run", "--prompt", "--limit", "1", "-")
        self.assertTrue(session.banner.startswith("s2calc "))
        self.assertIn("error too-many", self.answered(session, "add a 1 3"))
        session = self.spawned(LAUNCHER)  # without a word
        self.assertTrue(self.shown(session).startswith("s2calc "))
        self.assertEqual(self.status(session), 0)
        for words in ["run", "--no-prompt"], ["run", "-c", "count a"]:
            session = self.spawned(LAUNCHER, *words)
            session.send("count a\r" if words[1] == "--no-prompt" else "")
            shown = self.shown(session, "leaves 0\r\n")
            self.assertEqual(shown.replace("count a\n", ""), "cells 0 ")
            self.assertEqual(self.status(session, END if words[1] == "--no-prompt" else ""), 0)

    def test_a_folder_that_is_not_there(self):
        session = self.started("run", "--dir", "nowhere")
        self.assertIn("s2calc: there is no folder 'nowhere' for the files of this session\n", session.banner)
        self.assertEqual(self.answered(session, "save a x").splitlines()[0], "error file")
        self.assertNotIn("there is no folder", self.started("run", "--dir=.").banner)

    def test_usage_faults_have_no_banner(self):
        session = self.spawned(LAUNCHER, "run", "--limit", "0")
        self.assertTrue(self.shown(session, pexpect.EOF).startswith("s2calc: usage\nerror: invalid value '0'"))
        session.close()
        self.assertEqual(session.exitstatus, 2)

    def test_help(self):
        session = self.started()
        whole = self.answered(session, "help")
        self.assertEqual(self.answered(session, "?"), whole)
        own = ran("run", "--help")[1].decode()
        self.assertTrue(whole.startswith(own[own.index("The script has one command"):].rstrip("\n")))
        self.assertEqual(self.answered(session, "help add"),
                         "add r CELL..\n    adds the cells\nerrors: register, cell, too-many, memory, syntax\n"
                         "example: add a 04 0c 14\n")
        self.assertEqual(self.answered(session, "? add"), self.answered(session, "help add"))
        self.assertEqual(self.answered(session, "help ad"), "'ad' is not a command; did you mean 'add'?\n")
        self.assertEqual(self.answered(session, "help quit"), whole)
        self.assertEqual(self.status(session), 0)

    def test_help_in_few_columns(self):
        """It has the words that it has elsewhere, in lines that fit. Commands of a shell stay whole."""
        for columns in 80, 60:
            for line in "run --help", "help", "help outerof", "draw --help", "help cells", "cell -h":
                whole = launched(*line.split())[1].decode()
                session = self.spawned(LAUNCHER, *line.split(), columns=columns)
                shown = self.shown(session, pexpect.EOF)
                self.assertEqual(shown.split(), whole.split())
                self.assertEqual([it for it in shown.splitlines() if len(it) > columns and "  $ " not in it], [])
            session = self.started(columns=columns)
            self.assertLessEqual(max(map(len, self.answered(session, "help").splitlines())), columns)

    def test_hints(self):
        session = self.started()
        for line, hint in (("hlep", "; did you mean 'help'?"), (".help", "; did you mean 'help'?"),
                           ("quti", "; did you mean 'quit'?"), (".quit", "; did you mean 'quit'?"),
                           ("q", "; did you mean 'quit'?"), ("exit()", "; did you mean 'exit'?"),
                           (".tables", "; 'help' lists the commands"), ("ADD A 04", "; did you mean 'add'?"),
                           ("cuont a", "; did you mean 'count'?"), ("un", "; did you mean 'union', 'undo'?"),
                           ("h", "; did you mean 'has', 'history', 'help'?"),
                           ("difference a b", "; did you mean 'subtract'?"), ("PRINT a", "; did you mean 'show'?"),
                           ("contains a b", "; did you mean 'covers' of a register, 'has' of a cell?"),
                           ("intersects a b", "; did you mean 'meets' of a register, 'touches' of a cell?"),
                           ("delete a 04", "; did you mean 'remove' of cells, 'clear' of all?"),
                           ("equal a b", "; two registers are equal if 'covers a b' and 'covers b a' both say yes"),
                           ("xor a b", "; 'subtract' each from a copy of the other, and 'union' the two"),
                           ("ls", "; did you mean 'registers'?")):
            self.assertEqual(self.answered(session, line),
                             f"error syntax\n  '{line.split()[0]}' is not a command{hint}\n")
        self.assertEqual(self.answered(session, "quit now"), "error syntax\n  'quit' takes no word\n")

    def test_hints_lead_there(self):
        """Each command that a hint at a word of other tools names is one, and the sphere's other part is it."""
        for hint in prompt.MEANT.values():
            for name in re.findall("'([a-z]+)", hint):
                self.assertIn(name, [*prompt.COMMANDS, *prompt.WORDS])
        session = self.started()
        self.assertIn("'add b 1 3 5 7 9 b' is the sphere, and 'subtract b a'", self.answered(session, "complement a"))
        for line, answer in (("add a 1", "ok 0 1"), ("add b 1 3 5 7 9 b", "ok 0 6"), ("subtract b a", "ok 1 0"),
                             ("show b", "3\n5\n7\n9\nb\nend")):
            self.assertEqual(self.answered(session, line), answer + "\n")

    def test_restore_asks(self):
        """If lines have changed what no dump has; and only 'y' and 'yes' are yes."""
        session = self.started()
        for line in "add a 1", "save a face", "dump all":
            self.answered(session, line)
        self.assertEqual(self.answered(session, "restore face"), "ok\n")
        self.answered(session, "add b 3")
        asked = "  all registers and the history go, and 'undo' doesn't give them back"
        for name, hint in ("face", "; 'load a face' changes a alone"), ("all", ""):
            for keys in "n\r", "\r", "yy\r", INTERRUPT:
                session.send(f"restore {name}\r")
                self.assertEqual(self.shown(session, "? (y/n) "), f"restore {name}\n{asked}{hint}; restore")
                if keys == INTERRUPT:
                    self.signaled(session, keys)
                else:
                    session.send(keys)
                self.assertTrue(self.shown(session).endswith("\n  nothing is restored\n"))
        self.assertEqual(self.answered(session, "count b"), "cells 1 leaves 1152921504606846976\n")
        self.assertEqual(self.answered(session, "restore nofile").splitlines()[0], "error missing")
        session.send("restore all\r")
        self.shown(session, "? (y/n) ")
        self.assertEqual(self.answered(session, "yes"), "ok\n")
        self.assertEqual(self.answered(session, "count b"), "cells 0 leaves 0\n")
        self.assertEqual(self.answered(session, "restore face"), "ok\n")
        self.assertEqual(self.status(session), 0)

    def test_registers(self):
        """Those that a line has changed, or may have; and no other line changes one."""
        session = self.started()
        self.assertEqual(self.answered(session, "registers"), "no line has changed a register\n")
        for line in "add c 04 0c", "add b", "has d 04", "add a 1", "copy e a", "dump x":
            self.answered(session, line)
        counts = {"a": "cells 1 leaves 1152921504606846976  85011012 km2",
                  "c": "cells 2 leaves 576460752303423488  42505506 km2"}
        counts["e"] = counts["a"]
        said = "".join(f"{name}  {count}\n" for name, count in counts.items())
        self.assertEqual(self.answered(session, "registers"), said)
        self.answered(session, "restore x")
        shown = self.answered(session, "registers").splitlines()
        self.assertEqual([line[0] for line in shown], list("abcdefghijklmnopqrstuvwxyz"))
        self.assertEqual([line for line in shown if "cells 0 leaves 0  0 km2" not in line], said.splitlines())
        self.assertEqual(self.answered(session, "registers a"), "error syntax\n  'registers' takes no word\n")
        for name, (form, _) in prompt.help_of(PROGRAM)[1].items():
            self.assertEqual(name in prompt.CHANGE, form.split()[1:2] == ["r"] and not re.search(
                r"^(lists|counts|yes|writes)", prompt.help_of(PROGRAM)[1][name][1]), name)

    def test_habits_of_other_prompts(self):
        session = self.started()
        cell = "is not a cell (a token or a debug text)"
        degrees = "'python3 -m s2union_geo leaves' makes cells of degrees"
        for line, reason in (("show a;", "register\n  'a;' is not a register (a to z); a command ends without ';'"),
                             ("add a 04;", f"cell\n  '04;' {cell}; a command ends without ';'"),
                             ("add a '04' '0c';", f"cell\n  ''04'' {cell}; words stand without quotes"),
                             ("add b '04';", f"cell\n  ''04';' {cell}; words stand without quotes"),
                             ("cell 0x89C25", f"cell\n  '0x89C25' {cell}; a token stands without '0x'"),
                             ("has a -2.35 48.85", f"cell\n  '-2.35' {cell}; {degrees}"),
                             ("at 48.85 2.35", f"face\n  '48.85' is not a face (0 to 5); {degrees}"),
                             ("add a 04.", f"cell\n  '04.' {cell}"),
                             ("add a x.y", f"cell\n  'x.y' {cell}")):
            self.assertEqual(self.answered(session, line), f"error {reason}\n")

    # ---- keys

    def test_interrupt(self):
        """Ctrl-C drops a line, and never the registers."""
        session = self.started()
        self.assertEqual(self.answered(session, "add a 04 0c"), "ok 0 2\n")
        for _ in range(3):
            session.send("clear a")
            self.shown(session, "clear a")
            self.signaled(session, INTERRUPT)
            self.assertEqual(self.shown(session).strip("^C"), "\n")
            self.signaled(session, INTERRUPT)
            self.assertEqual(self.shown(session).strip("^C"), "\n(Ctrl-D or 'quit' leaves)\n")
        self.assertEqual(self.answered(session, "count a"), "cells 2 leaves 576460752303423488\n")
        self.assertEqual(self.status(session), 0)

    def test_two_interrupts_at_once(self):
        """A second Ctrl-C that comes before the first is caught drops nothing, and the prompt is shown again."""
        keyboard = object.__new__(prompt.Keyboard)
        keyboard.readline, keyboard.is_typing, keyboard.is_covered = None, True, False
        with self.assertRaises(KeyboardInterrupt):
            keyboard.interrupted()
        try:
            keyboard.interrupted()
        except KeyboardInterrupt:
            self.fail("raised a second time")
        self.assertTrue(keyboard.is_covered)

    def test_beside_others(self):
        """The same keys: a line is edited, Ctrl-C at an empty one keeps the session, Up brings a line back."""
        for command, words, first, edited, answer, said, line, other, leave in (
            (LAUNCHER, ["run"], "show b", "cout a" + 3 * LEFT + "n", "cells 0", "leaves)", "at 0 0 0", "cell", "quit"),
            ("bc", ["-q"], "2+3", "12" + 2 * LEFT + "7-", "-5", "to exit", "100+5", "105", "quit"),
            ("sqlite3", [], "select 5;", "select 41+;" + LEFT + "1", "42", "", "select 2;", "2", ".quit"),
        ):
            session = self.spawned(command, *words)
            for keys, shown in ((first, "\n(end|5)\r"), (edited, f"\n{answer}"), (INTERRUPT, re.escape(said)),
                                (line, f"\n{other}"), (UP, f"\n{other}")):
                if keys == INTERRUPT:
                    self.signaled(session, keys)
                else:
                    session.send(keys + "\r")
                session.expect(shown)
            self.assertEqual(self.status(session, leave + "\r"), 0)

    def test_end_after_half_a_line(self):
        session = self.started()
        session.send("count a" + END)
        self.assertEqual(self.answered(session, "", "count a"), "cells 0 leaves 0\n")
        self.assertEqual(self.status(session), 0)

    def test_history_over_two_runs(self):
        for command, words, line, answer in ((LAUNCHER, ["run"], "count a", "cells 0"),
                                             ("sqlite3", [], "select 41+1;", "42")):
            for keys in (line, UP):
                session = self.spawned(command, *words)
                session.expect_exact("> ")
                session.send(keys + "\r")
                session.expect_exact(f"\n{answer}")
                session.expect_exact("> ")
                self.assertEqual(self.status(session), 0)
        with open(os.path.join(self.room, "state/s2calc/history"), encoding="utf-8") as it:
            self.assertEqual(it.read(), "count a\n")  # which stands once, though it was given twice
        self.assertEqual(os.stat(it.name).st_mode & 0o777, 0o600)

    def test_a_long_history(self):
        """Of more than 2,000 lines the last 1,000 stay at the next start."""
        path = os.path.join(self.room, "state/s2calc/history")
        os.makedirs(os.path.dirname(path))
        with open(path, "w", encoding="ascii") as it:
            it.writelines(f"# {number}\n" for number in range(3000))
        self.assertEqual(self.status(self.started()), 0)
        with open(path, encoding="ascii") as it:
            self.assertEqual(it.read().split("\n")[:-1], [f"# {number}" for number in range(2000, 3000)])

    def test_tab(self):
        for name in ("parks", "paths", "no name", ".hidden"):
            with open(os.path.join(self.room, name), "wb"):
                pass
        os.mkdir(os.path.join(self.room, "parkways"))
        session = self.started()
        for keys, line in (("cou\ta", "count a "), ("he\t", "help "), ("help und\t", "help undo "),
                           ("load a par\t", "load a parks "), ("qui\t", "quit ")):
            session.send(keys)
            self.shown(session, line.rstrip())
            self.signaled(session, INTERRUPT)
            self.shown(session)
        session.send("load a pa\t\t")
        self.assertEqual(self.shown(session, re.compile(r"parks\s+paths")).count("pa"), 1)
        self.signaled(session, INTERRUPT)
        self.shown(session)
        session = self.started("run", "--dir", "empty")
        session.send("load a p\t\tx")  # x stands where a name would, if there were one
        self.shown(session, "load a px")

    def test_stop_and_go_on(self):
        """Ctrl-Z, and `fg` in a shell: the line is there again."""
        shell = self.spawned("bash", "--norc", "--noprofile", "-i", PS1="$ ")
        self.shown(shell, "$ ")
        shell.send(f"{LAUNCHER} run\r")
        self.shown(shell)
        self.answered(shell, "add a 04")
        shell.send("count b" + BACKSPACE)
        self.shown(shell, "count b\b\x1b[K")
        self.signaled(shell, STOP, self.child(shell.pid))
        self.shown(shell, "Stopped")
        self.shown(shell, "$ ")
        shell.send("fg\r")
        self.shown(shell)
        self.shown(shell, "count ")
        shell.send("a\r")
        self.assertIn("cells 1 leaves", self.shown(shell))
        shell.send(END)
        self.shown(shell, "$ ")
        shell.send("echo $?\r")
        shell.expect(r"\n0\r\n")

    def test_stop_during_an_answer(self):
        """Ctrl-Z while nobody reads the answer: the program is stopped too. After `fg` it goes on to its end."""
        path = os.path.join(self.room, "answers")
        os.mkfifo(path)
        shell = self.spawned("bash", "--norc", "--noprofile", "-i", PS1="$ ")
        self.shown(shell, "$ ")
        shell.send(f"{LAUNCHER} run >answers\r")
        with open(path, "rb") as answers:
            self.shown(shell)
            self.answered(shell, "add a 1")
            self.assertEqual(answers.readline(), b"ok 0 1\n")
            prompt = self.child(shell.pid)
            program, until = self.child(prompt), time.monotonic() + SECONDS
            shell.send("denorm a 9 1\r")
            self.assertNotEqual(answers.readline(), b"")
            shell.send(STOP)
            self.shown(shell, "Stopped")
            while [self.state(process) for process in (prompt, program)] != ["T", "T"]:
                self.assertLess(time.monotonic(), until)
                time.sleep(0.01)
            self.shown(shell, "$ ")
            shell.send("fg\r")
            rest = [answers.readline() for _ in range(4**9)]
            self.assertEqual(rest[-1], b"end\n")
            self.shown(shell)
            self.assertEqual(self.answered(shell, "count b"), "")
            self.assertEqual(answers.readline(), b"cells 0 leaves 0\n")
            shell.send(END)
            self.assertEqual(answers.read(), b"")
        self.shown(shell, "$ ")

    # ---- lines and answers

    def test_lines_of_odd_lengths_and_bytes(self):
        session = self.started()
        session.send("x" * 5000 + "\r")
        self.assertRegex(self.shown(session), "\nerror line\n  .*4096 bytes")
        session.send("add a " + "1 " * 2045 + "\r")
        self.assertTrue(self.shown(session).endswith("\nok 0 1\n"))
        self.assertIn("'é' is not a command", self.answered(session, "é"))
        self.assertIn("'it's' is not a command", self.answered(session, "it's"))
        self.assertEqual(self.answered(session, ""), "")
        self.assertEqual(self.answered(session, "# count b"), "")

    def test_a_line_of_one_blank_or_control_character(self):
        """Each that Python calls a blank, and each control character, after Ctrl-V. None ends the session. At this
        terminal none is a signal."""
        blanks = {chr(code) for code in range(sys.maxunicode + 1) if chr(code).isspace()}
        letters = sorted(blanks | {chr(code) for code in (*range(0x20), *range(0x7F, 0xA0))})
        session = self.spawned("sh", "-c", f"stty intr undef quit undef susp undef -ixon; exec {LAUNCHER}")
        self.shown(session)
        self.answered(session, "add a 1")
        for letter in letters:
            for line in letter, f"quit{letter}", f"help{letter}":
                if line.strip(" \t\r\n\0") not in ("quit", "help"):
                    session.send("".join(f"\x16{it}" if it == letter else it for it in line) + "\r")
                    self.shown(session)
        self.assertGreater(len(letters), 80)
        self.assertEqual(self.answered(session, "count a"), "cells 1 leaves 1152921504606846976\n")
        self.assertEqual(self.status(session), 0)

    def test_a_blank_that_is_no_separator(self):
        """The program separates words by spaces and tabs alone, so the prompt does."""
        session = self.started()
        for line, word in (("\u00a0", r"\xc2\xa0"), ("\u00a0quit", r"\xc2\xa0quit"),
                           ("\u3000help", r"\xe3\x80\x80help")):
            session.send(line + "\r")
            self.assertIn(f"error syntax\n  '{word}' is not a command", self.shown(session))
        self.assertEqual(self.status(session), 0)

    def test_letters_that_the_locale_lacks(self):
        """They are bytes to readline, and kept as they were typed. The second locale isn't installed."""
        for locale in "C", "xx_YY.UTF-8":
            session = self.started(LC_ALL=locale)
            for keys in "# é", UP:
                self.assertEqual(self.answered(session, keys, "# \\303\\251"), "")
            self.assertEqual(self.answered(session, "undo"), "error nothing\n  there is nothing to undo or redo\n")
        with open(os.path.join(self.room, "state/s2calc/history"), encoding="utf-8") as it:
            self.assertEqual(it.read(), "# é\nundo\n" * 2)

    def test_bytes_that_the_locale_lacks(self):
        """Each alone on a line. Readline took 0x84 for Ctrl-D where it took it for a key."""
        session = self.started(LC_ALL="C")
        for byte in range(0x80, 0x100):
            os.write(session.child_fd, bytes([byte]) + b"\r")
            self.assertIn(rf"'\x{byte:02x}' is not a command", self.shown(session))
        self.assertEqual(self.status(session), 0)

    def test_lines_typed_ahead(self):
        session = self.started()
        session.send("add a 04\rdenorm a 8 1\radd a 0c\rcount a\r")
        shown = "".join(self.shown(session) for _ in range(4))
        self.assertEqual(re.findall(r"^(?:ok|cells) .*$", shown, re.M),
                         ["ok 0 1", "ok 0 1", "cells 2 leaves 576460752303423488"])
        self.assertEqual(len(re.findall(r"^[0-9a-f]{5}$", shown, re.M)) > 10000, True)

    def test_answers_in_a_file(self):
        """Then the reason has the error's name, which isn't seen otherwise."""
        shell = self.spawned("sh", "-c", f"{LAUNCHER} run >answers")
        self.shown(shell)
        self.assertEqual(self.answered(shell, "count a"), "")
        self.assertEqual(self.answered(shell, "count"), "  error syntax: a register (a to z) is missing\n")
        self.assertEqual(self.status(shell), 0)
        with open(os.path.join(self.room, "answers"), "rb") as it:
            self.assertEqual(it.read(), b"cells 0 leaves 0\nerror syntax\n")

    def test_a_script_in_a_file(self):
        """It ends at its first error, which is explained; at a terminal with the file's name before it."""
        with open(os.path.join(self.room, "script"), "wb") as it:
            it.write(b"add a zz\ncount a\n")
        for words, reason in (["script"], "script: line 1: "), (["-c", "add a zz"], "line 1: "):
            session = self.spawned(LAUNCHER, "run", *words)
            shown = self.shown(session, pexpect.EOF)
            self.assertIn(f"{reason}error cell: 'zz' is not a cell (a token or a debug text)\n", shown)
            self.assertIn("error cell\n", shown)
            self.assertNotIn("cells 0", shown)
            session.close()
            self.assertEqual(session.exitstatus, 1)
        for words, answers, reasons in (("", "", "line 1: error cell: 'zz' is not a cell (a token or a debug text)\n"),
                                        ("--go-on", "cells 0 leaves 0\n", "")):
            session = self.spawned("sh", "-c", f"{LAUNCHER} run script {words} 2>reasons")
            self.assertEqual(self.shown(session, pexpect.EOF), f"error cell\n{answers}")
            with open(os.path.join(self.room, "reasons"), encoding="utf-8") as it:
                self.assertEqual(it.read(), reasons)

    def test_a_script_on_standard_input(self):
        """Its errors are explained at a terminal, wherever the answers go. Between a terminal and a file nothing is."""
        with open(os.path.join(self.room, "script"), "wb") as it:
            it.write(b"add a zz\ncount a\nundo\n")
        reasons = [f"line {line}: error {why}" for line, why in (
            (1, "cell: 'zz' is not a cell (a token or a debug text)"),
            (3, "nothing: there is nothing to undo or redo"))]
        answers = ["error cell", "cells 0 leaves 0", "error nothing"]
        for line, wanted in (("<script", reasons + answers), ("<script >answers", reasons), ("<script | cat", None),
                             ("<script 2>reasons", answers), ("--stop <script", [reasons[0], answers[0]])):
            session = self.spawned("sh", "-c", f"{LAUNCHER} run {line}")
            shown = self.shown(session, pexpect.EOF).splitlines()
            self.assertEqual(sorted(shown), sorted(wanted or reasons + answers), line)
        with open(os.path.join(self.room, "reasons"), encoding="utf-8") as it:
            self.assertEqual(it.read(), "")

    def test_reasons_in_a_file(self):
        """Where standard error is no terminal, the prompt is at standard output."""
        shell = self.spawned("sh", "-c", f"{LAUNCHER} 2>reasons")
        self.assertTrue(self.shown(shell).startswith("s2calc "))
        self.assertEqual(self.answered(shell, "count"), "error syntax\n")
        self.assertTrue(self.answered(shell, "help count").startswith("count r\n"))
        self.assertEqual(self.answered(shell, "count a"), "cells 0 leaves 0\n")
        self.assertEqual(self.status(shell, "quit\r"), 0)
        with open(os.path.join(self.room, "reasons"), "rb") as it:
            self.assertEqual(it.read(), b"  a register (a to z) is missing\n")

    # ---- what fails

    def test_without_readline(self):
        path = os.path.join(self.room, "python3")
        with open(path, "w", encoding="ascii") as it:
            it.write("#!/bin/sh\nexec /usr/bin/python3 -c 'import runpy, sys; sys.modules[\"readline\"] = None; "
                     "del sys.argv[:4]; runpy.run_path(sys.argv[0], run_name=\"__main__\")' \"$@\"\n")
        os.chmod(path, 0o755)
        folders = f"{self.room}:/usr/bin:/bin"
        session = self.started(PATH=folders)
        self.assertIn("s2calc: python3 has no readline, so there are no keys and no history", session.banner)
        self.assertIn("'help' for help, Ctrl-D to leave\n", session.banner)
        self.assertEqual(self.answered(session, "add a 04"), "ok 0 1\n")
        for _ in range(2):
            session.send("clear a" + INTERRUPT)
            self.assertRegex(self.shown(session), r"^(clear a)?\^C(clear a)?\n")
        self.assertIn("\n  add r CELL..   ", self.answered(session, "help"))
        self.assertEqual(self.answered(session, "?"), self.answered(session, "help"))
        self.assertIn("adds the cells", self.answered(session, "help add"))
        self.assertNotIn("adds the cells", self.answered(session, "? ad"))
        self.assertIn("is not a command", self.answered(session, "ad"))
        self.assertEqual(self.answered(session, "count a"), "cells 1 leaves 288230376151711744\n")
        for keys in "quit\r", "exit\r", END:
            self.assertEqual(self.status(session, keys), 0)
            session = self.started(PATH=folders)

    def test_without_python(self):
        """Then the program's own prompt serves, and the terminal drops a line at Ctrl-C."""
        session = self.started(PATH=os.path.join(self.room, "empty"))
        self.assertEqual(session.banner, "")
        self.assertEqual(self.answered(session, "add a 04"), "ok 0 1\n")
        self.signaled(session, "clear a" + INTERRUPT)
        session.expect_exact("^C")
        self.assertEqual(self.answered(session, "count a"), "cells 1 leaves 288230376151711744\n")
        self.assertEqual(self.status(session, END), 0)

    def test_an_interrupt_while_it_starts(self):
        """Ctrl-C then ends it without a word: while Python starts, and while the program does."""
        real = os.path.realpath(PROGRAM)
        for name, text in (("python3", "kill -INT $$; exec /usr/bin/python3 \"$@\""),
                           ("program", f'[ "$*" != "run --prompt" ] || kill -INT $PPID; exec {real} "$@"')):
            path = os.path.join(self.room, name)
            with open(path, "w", encoding="ascii") as it:
                it.write(f"#!/bin/sh\n{text}\n")
            os.chmod(path, 0o755)
        for environment in ({"PATH": f"{self.room}:/usr/bin:/bin"}, {"S2CALC_PROGRAM": f"{self.room}/program"}):
            session = self.spawned(LAUNCHER, **environment)
            self.assertEqual(self.shown(session, pexpect.EOF), "")
            session.close()
            self.assertEqual(session.signalstatus, signal.SIGINT)

    def test_state_that_can_not_be_kept(self):
        session = self.started(XDG_STATE_HOME="/dev/null/x")
        self.assertIn("s2calc: lines are not kept for the next time: /dev/null/x", session.banner)
        self.answered(session, "count a")
        self.assertEqual(self.answered(session, UP, "count a"), "cells 0 leaves 0\n")
        self.assertEqual(self.status(session), 0)

    def child(self, process):
        with open(f"/proc/{process}/task/{process}/children", encoding="ascii") as it:
            return int(it.read().split()[0])

    def test_the_program_ends(self):
        session = self.started()
        os.kill(self.child(session.pid), signal.SIGKILL)
        session.send("count a\r")
        self.assertIn("\ns2calc: the program was ended by signal 9\n", self.shown(session, pexpect.EOF))
        session.close()
        self.assertEqual(session.exitstatus, 137)
        for output in (">/dev/full", ">&-"):
            shell = self.spawned("sh", "-c", f"{LAUNCHER} run {output}")
            shell.send("count a\r")
            self.assertIn("\ns2calc: output\n", self.shown(shell, pexpect.EOF))
            shell.close()
            self.assertEqual(shell.exitstatus, 2)

    def test_the_program_ends_and_the_reader_of_its_answers_hears_it(self):
        """At once, while the prompt waits for a line."""
        path = os.path.join(self.room, "answers")
        os.mkfifo(path)
        session = self.spawned("sh", "-c", f"exec {LAUNCHER} run >answers")
        with open(path, "rb") as answers:
            self.shown(session)
            os.kill(self.child(session.pid), signal.SIGKILL)
            self.assertEqual(select.select([answers], [], [], SECONDS)[0], [answers])
            self.assertEqual(answers.read(), b"")
            self.assertTrue(session.isalive())

    def test_the_terminal_goes_away(self):
        """In the middle of a line. Then the program ends too."""
        session = self.started()
        session.send("add a 04")
        self.shown(session, "add a 04")
        child, until = self.child(session.pid), time.monotonic() + SECONDS
        session.close(True)
        while not self.has_ended(child):
            self.assertLess(time.monotonic(), until)
            time.sleep(0.05)
