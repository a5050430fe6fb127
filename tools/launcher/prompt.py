"""The prompt of s2calc at a terminal, and help on a script's commands, for words.py; not proved.

The proved program runs as a child, in a process group of its own, as `run --prompt` with these options. It gets the
lines by a pipe and writes its answers to standard output itself; or if that is a terminal, to a pipe, of which they go
there. Its own prompt on standard error says that an answer is whole. So registers and history are the program's alone.
No line ends it, but 'quit' and 'exit', and no Ctrl-C.
"""
import ctypes
import difflib
import functools
import os
import re
import select
import signal
import stat
import subprocess
import sys
import textwrap

from areas import area
from cells import DECIMAL, token

PROMPT = "s2calc> "
LONGEST = 4096  # bytes of a line; every longer one is answered alike
NARROW = 24  # columns, the fewest that a meaning in a table of help has to itself
LEAVING = "Ctrl-D or 'quit' leaves"
ALL = "abcdefghijklmnopqrstuvwxyz"  # the registers
OWN = {
    "help [COMMAND]": "this list, or a command with its errors and an example; also '?'",
    "registers": "counts each register that a line has changed, with its area",
    "quit": "leaves, as 'exit' and Ctrl-D do",
}
WORDS = ("help", "quit", "exit", "registers")  # of the prompt, beside the commands of a script
# The commands that change the register that they name first.
CHANGE = frozenset("add remove keep union subtract intersect copy clear range outer inner outerof innerof load".split())
KEEP = ("dump", "restore")  # after which a file has all registers and the history
# The errors of each command beside `syntax`, and an example: tools/calls writes them, of docs/SCRIPT.md.
COMMANDS = {
    "add": ("register, cell, too-many, memory", "add a 04 0c 14"),
    "remove": ("register, cell, too-many, memory", "remove a 0/00"),
    "keep": ("register, cell, too-many, memory", "keep a 0/1 0/2"),
    "union": ("register, too-many, memory", "union a b"),
    "subtract": ("register, too-many, memory", "subtract a b"),
    "intersect": ("register, too-many, memory", "intersect a b"),
    "copy": ("register, memory", "copy b a"),
    "clear": ("register, memory", "clear a"),
    "range": ("register, cell, order, too-many, memory", "range a 0/3 1/0"),
    "outer": ("register, level, face, rectangle, too-many, memory", "outer a 29 0 0 2 0 0"),
    "inner": ("register, level, face, rectangle, too-many, memory", "inner a 29 0 0 3 0 1"),
    "outerof": ("register, level, face, rectangle, too-many, memory", "outerof b a 4"),
    "innerof": ("register, level, face, rectangle, too-many, memory", "innerof b a 4 0 0 1023 0 1023"),
    "show": ("register", "show a"),
    "count": ("register", "count a"),
    "denorm": ("register, level, too-many", "denorm a 3 2"),
    "has": ("register, cell", "has a 0/11"),
    "touches": ("register, cell", "touches a 1"),
    "covers": ("register", "covers a b"),
    "meets": ("register", "meets a b"),
    "cell": ("cell", "cell 64c"),
    "at": ("face, rectangle", "at 0 0 536870912"),
    "square": ("cell", "square 0c"),
    "load": ("register, name, missing, file, format, too-many, memory", "load a parks"),
    "save": ("register, name, file, memory", "save a parks"),
    "undo": ("nothing", "undo"),
    "redo": ("nothing", "redo"),
    "history": ("", "history"),
    "dump": ("name, file, memory", "dump session"),
    "restore": ("name, missing, file, session, too-deep, too-many, memory", "restore session"),
}


def say(text):
    print(f"s2calc: {text}", file=sys.stderr)


# ---- help


def fitted(text):
    """The text, for the terminal at standard output. If that is narrower, paragraphs are filled anew, and what doesn't
    fit into a line of a table goes on below its last column. A command for a shell stays one line."""
    try:
        columns = os.get_terminal_size(1).columns
    except OSError:  # it is no terminal
        return text
    if not columns or max(map(len, text.split("\n"))) <= columns:
        return text
    lines = re.sub(r"^(\S.{80,})\n(?=\S)", r"\1 ", text, flags=re.M).split("\n")
    return "\n".join("\n".join(broken(line, columns)) for line in lines)


def broken(line, columns):
    """The lines that a line takes in this many columns."""
    blanks = len(line) - len(line.lstrip())
    if len(line) <= columns or line.startswith("$ ", blanks):
        return [line]
    column = len(re.match(r" *(\S+( \S+)*  +)*", line)[0])
    column = column if column + NARROW <= columns else blanks + 4 * (column > blanks)
    return textwrap.wrap(line, columns, subsequent_indent=" " * column, break_long_words=False, break_on_hyphens=False)


@functools.lru_cache(maxsize=None)
def help_of(program):
    """The program's help on scripts, and the form and the meaning of each command in it."""
    said = subprocess.run([program, "run", "--help"], stdout=subprocess.PIPE, check=True).stdout.decode()
    forms = {form.split()[0]: (form, does) for form, does in re.findall(r"^  ([a-z]\S*(?: \S+)*)  +(.*)$", said, re.M)}
    return said[said.index("The script has"):].rstrip("\n"), forms


def whole_help(program):
    own = "".join(f"\n  {form:39}  {does}" for form, does in OWN.items())
    return f"{help_of(program)[0]}\n\nAt the prompt there are also:\n{own}"


def help_on(program, name):
    """The help on a command."""
    form, does = help_of(program)[1][name]
    errors, example = COMMANDS[name]
    return f"{form}\n    {does}\nerrors: {', '.join(filter(None, [errors, 'syntax']))}\nexample: {example}"


def near(word, names):
    """The question whether one of the names is meant, or nothing."""
    word = word.strip(".:\\/;()?!").lower()
    found = [name for name in names if word and name.startswith(word)] or difflib.get_close_matches(word, names, 3, 0.7)
    return f"; did you mean {', '.join(map(repr, found))}?" if found else ""


def show_help(program, words):
    if not words or words[0] in WORDS:
        print(fitted(whole_help(program)))
        return 0
    if words[0] in COMMANDS:
        print(fitted(help_on(program, words[0])))
        return 0
    print(f"'{words[0]}' is not a command{near(words[0], [*COMMANDS, *WORDS])}", file=sys.stderr)
    return 2


# ---- the program


class Program:
    """The program, which waits for a line."""

    def __init__(self, program, options):
        def of_its_own():
            os.setpgid(0, 0)
            signal.signal(signal.SIGTTOU, signal.SIG_IGN)  # it writes to the terminal, which isn't its own

        answers = os.dup(1)
        if os.isatty(2):
            os.dup2(2, 1)  # lines are typed, and help is shown, where the prompt is
        self.path, self.is_seen, self.answers = program, os.isatty(answers), answers
        self.child = subprocess.Popen([program, "run", "--prompt", *options], stdin=subprocess.PIPE,
                                      stdout=subprocess.PIPE if self.is_seen else answers, stderr=subprocess.PIPE,
                                      bufsize=0, preexec_fn=of_its_own)
        if not self.is_seen:
            os.close(answers)
        self.notes(self.show)

    def notes(self, take):
        """What the program says up to its next prompt. Answers that come by a pipe are taken. All of one are in it when
        the prompt is there."""
        said, is_whole = b"", False
        streams = [stream for stream in (self.child.stdout, self.child.stderr) if stream]
        while ready := select.select(streams, [], [], 0 if is_whole else None)[0]:
            more = os.read(ready[0].fileno(), 65536)
            if ready[0] is self.child.stdout and more:
                take(more)
            elif ready[0] is self.child.stdout:
                streams.remove(ready[0])
            elif not more:  # it has ended, and said why
                self.end(said)
            else:
                said += more
                is_whole = bool(re.search(rb"(?:^|\n)s2calc> $", said))
        return said[: -len(PROMPT)].decode(errors="replace")

    def show(self, answer):
        """Writes a part of an answer to the terminal."""
        while answer:
            answer = answer[os.write(self.answers, answer):]

    def answer_to(self, question):
        """The words of the answer to a line, which isn't shown."""
        held = []
        self.carry_out(question.encode(), held.append)
        return b"".join(held).decode().split()

    def carry_out(self, line, take=None):
        """Hands a line to the program, which answers it, and gives the reason if it was refused. The answer has the
        error's name, if it goes to the terminal."""
        try:
            os.write(self.child.stdin.fileno(), line[: LONGEST + 1] + b"\n")
        except BrokenPipeError:
            pass  # it has ended, and has said why
        head = r"line \d+: error [a-z-]+: " if self.is_seen else r"line \d+: "
        return re.sub(rf"^{head}", "", self.notes(take or self.show))

    def close(self):
        """Ends the script, and this process as the program ends."""
        self.child.stdin.close()
        self.end(self.child.stderr.read()[1:])  # which begins with the newline after the last prompt

    def end(self, said):
        """Ends with the program's status; with 0 if all that it says is that a line had an error, which was seen."""
        status = self.child.wait()
        os.write(2, said)
        if status < 0:
            say(f"the program was ended by signal {-status}")
            status = 128 - status
        sys.exit(0 if status == 1 else status)


# ---- keys


class Keyboard:
    """Lines with readline's keys, and a history that outlives a run; as the terminal edits them, without readline."""

    def __init__(self, readline, program, folder):
        self.readline, self.program, self.folder = readline, program, folder
        self.is_typing, self.is_covered, self.path = False, False, None
        signal.signal(signal.SIGINT, self.interrupted)
        sys.stdin.reconfigure(errors="surrogateescape")
        if readline:
            self.take_keys(readline)
        else:
            self.signals, its = os.pipe2(os.O_NONBLOCK | os.O_CLOEXEC)
            signal.set_wakeup_fd(its, warn_on_full_buffer=False)

    def take_keys(self, readline):
        readline.set_pre_input_hook(self.begin)
        readline.set_auto_history(False)
        readline.set_completer_delims(" \t")
        readline.set_completer(self.completed)
        readline.parse_and_bind("tab: complete")
        readline.parse_and_bind("set convert-meta off")  # else a byte of a letter can be a key, and 0x84 is Ctrl-D
        try:  # Python's module has no calls for these; without them Ctrl-Z stops at once, and `fg` shows no prompt
            calls = ctypes.CDLL(getattr(readline, "__file__", None))
            self.give_back, self.take_again, self.show = (
                calls.rl_cleanup_after_signal, calls.rl_reset_after_signal, calls.rl_forced_update_display)
            signal.signal(signal.SIGTSTP, self.stopped)
        except (OSError, AttributeError):
            self.show = print
        try:
            self.path = self.history()
        except OSError as error:
            say(f"lines are not kept for the next time: {error.filename}: {error.strerror}")

    def history(self):
        """The file of earlier lines, which are read."""
        state = os.environ.get("XDG_STATE_HOME", "")
        state = state if os.path.isabs(state) else os.path.expanduser("~/.local/state")
        path = os.path.join(state, "s2calc", "history")
        os.makedirs(os.path.dirname(path), 0o700, exist_ok=True)
        os.close(os.open(path, os.O_RDWR | os.O_CREAT, 0o600))
        self.readline.set_history_length(1000)
        self.readline.read_history_file(path)
        if self.readline.get_current_history_length() > 2000:
            self.readline.write_history_file(path)
        return path

    def keep(self, line):
        if not self.readline or not words_of(line):
            return
        typed, last = os.fsencode(line), self.readline.get_current_history_length()
        if last and os.fsencode(self.readline.get_history_item(last)) == typed:
            return
        self.readline.add_history(typed.decode("ascii", "surrogateescape"))  # the bytes, which any locale takes
        if self.path:
            try:
                self.readline.append_history_file(1, self.path)
            except OSError:
                self.path = None

    def begin(self):
        """The prompt is shown, and keys will be read. Python takes no signal before that."""
        if self.is_covered:
            self.show()
        self.is_typing, self.is_covered = True, False

    def interrupted(self, *_):
        """Ctrl-C: drops the line that is typed. The program doesn't notice. It may come while something is printed, so
        this writes without Python's buffer."""
        is_line = self.is_typing and self.readline and self.readline.get_line_buffer()
        os.write(1, b"\n" if is_line else f"\n({LEAVING})\n".encode())
        if self.is_typing:
            self.is_typing = False  # so this is raised once, where it is caught
            raise KeyboardInterrupt
        self.is_covered = True

    def stopped(self, *_):
        """Ctrl-Z: gives the terminal back to the shell, and shows the line again after `fg`."""
        if self.is_typing:
            self.give_back()
            os.kill(os.getpid(), signal.SIGSTOP)
            self.take_again()
            self.show()
        else:
            os.killpg(self.program.child.pid, signal.SIGSTOP)
            os.kill(os.getpid(), signal.SIGSTOP)
            os.killpg(self.program.child.pid, signal.SIGCONT)

    def lines(self):
        """The lines that are typed, up to Ctrl-D. A paste may have several."""
        while True:
            try:
                text = self.typed(PROMPT)
            except KeyboardInterrupt:
                continue
            except EOFError:
                print()
                return
            for line in text.split("\n"):
                self.keep(line)
                yield line

    def typed(self, prompt):
        self.is_typing = not self.readline  # which says itself when it reads keys
        text = input(prompt) if self.readline else self.plain_line(prompt)
        self.is_typing = False
        return text

    def is_sure(self, question):
        """Whether the answer to a question is yes."""
        try:
            return self.typed(f"{question}? (y/n) ").strip().lower() in ("y", "yes")
        except KeyboardInterrupt:
            return False
        except EOFError:
            print()
            return False

    def plain_line(self, prompt):
        """A line that the terminal has edited. Python waits for it where a signal ends that wait, also one that came
        just before: in input() the line that comes next would have to."""
        print(prompt, end="", flush=True)
        ready = []
        while 0 not in ready:
            ready = select.select([0, self.signals], [], [])[0]
            if self.signals in ready:
                os.read(self.signals, 4096)
        text = sys.stdin.readline()
        if not text:
            raise EOFError
        return text.rstrip("\n")

    def completed(self, text, place):
        """The word of this place among those with which the word before the cursor can be completed, for readline."""
        before = self.readline.get_line_buffer()[: self.readline.get_begidx()].split()
        found = [word for word in self.candidates(before) if word.startswith(text)]
        return found[place] + " " if place < len(found) else None

    def candidates(self, before):
        """What may be typed after these words."""
        forms = help_of(self.program.path)[1]
        if not before or before in (["help"], ["?"]):
            return [*forms, *WORDS]
        form = forms.get(before[0], ("",))[0].split()
        kind = form[len(before)] if len(before) < len(form) else ""
        if kind in ("r", "s"):
            return ALL
        return self.files() if kind == "NAME" else []

    def files(self):
        """The names in the folder of files that a script can use."""
        try:
            with os.scandir(self.folder) as entries:
                return sorted(entry.name for entry in entries if re.fullmatch(r"[\w][\w.-]{0,63}", entry.name, re.A)
                              and stat.S_ISREG(entry.stat().st_mode))
        except OSError:
            return []


def folder_of(options):
    """The folder that the options name."""
    folder = "."
    for place, word in enumerate(options):
        if word.startswith("--dir="):
            folder = word[len("--dir="):]
        elif word == "--dir":
            folder = "".join(options[place + 1: place + 2])
    return folder


def words_of(line):
    """The words of a line, as the program has them: apart by spaces and tabs alone."""
    return [word for word in re.split("[ \t]+", line) if word]


def in_tokens(line, forms):
    """The line, with blanks for commas between cells, and tokens for decimal identifiers of cells."""
    words = words_of(line)
    form = forms.get(words[0], ("",))[0].split() if words else []
    first = next((place for place, kind in enumerate(form) if kind.startswith("CELL")), len(words))
    cells = [cell for word in words[first:] for cell in word.split(",") if cell]
    cells = [DECIMAL.fullmatch(cell) and token(cell) or cell for cell in cells]
    return line if cells == words[first:] else " ".join(words[:first] + cells)


# Words that other prompts and places take, as the reason has them, and what is done here instead.
HABITS = ((r"'\\['\"].* is not an? ", "words stand without quotes"),
          (r"'0[xX][0-9a-fA-F]+' is not a cell ", "a token stands without '0x'"),
          (r"'[^']*;' is not an? ", "a command ends without ';'"),
          (r"'[+-]?\d+\.\d+' is not an? ", "'python3 -m s2union_geo leaves' makes cells of degrees"))


# Words of S2, of other tools and of sets, and what is meant by them here.
MEANT = {
    **dict.fromkeys(("difference", "minus", "except"), "did you mean 'subtract'?"),
    **dict.fromkeys(("print", "echo", "tokens"), "did you mean 'show'?"),
    **dict.fromkeys(("list", "ls", "vars"), "did you mean 'registers'?"),
    **dict.fromkeys(("delete", "del", "rm"), "did you mean 'remove' of cells, 'clear' of all?"),
    "contains": "did you mean 'covers' of a register, 'has' of a cell?",
    "intersects": "did you mean 'meets' of a register, 'touches' of a cell?",
    **dict.fromkeys(("equal", "equals"), "two registers are equal if 'covers a b' and 'covers b a' both say yes"),
    **dict.fromkeys(("xor", "symmetric_difference"), "'subtract' each from a copy of the other, and 'union' the two"),
    **dict.fromkeys(("complement", "invert"), "'add b 1 3 5 7 9 b' is the sphere, and 'subtract b a' what a lacks"),
    "area": "'registers' shows the area of each register",
    "parent": "'outerof b a LEVEL' has the parents of the cells of a",
    "level": "'cell CELL' has its level",
}


def as_given(reason):
    """A reason of the program, which escapes what isn't ASCII, and quotes: with the words as they were given, except
    for bytes that are no text, and characters that don't print or that turn the text around."""
    def given(escaped):
        text = escaped[1] or bytes.fromhex(escaped[0].replace("\\x", "")).decode(errors="backslashreplace")
        return "".join(it if it.isprintable() else "".join(f"\\x{byte:02x}" for byte in it.encode()) for it in text)
    return re.sub(r"""\\(['"\\])|(?:\\x[0-9a-f]{2})+""", given, reason)


def hinted(reason):
    """The reason why a line has an error, with a hint at a habit of other places, at a word of the prompt, or at an
    upper-case command."""
    if not (unknown := re.match(r"'(.*)' is not a command(; did|$)", reason)):
        return reason + next((f"; {advice}" for habit, advice in HABITS if re.match(habit, reason)), "")
    if unknown[1] in WORDS:
        return f"'{unknown[1]}' takes no word"
    if unknown[1].lower() in MEANT:
        return f"'{unknown[1]}' is not a command; {MEANT[unknown[1].lower()]}"
    if unknown[2]:
        hint = near(unknown[1], WORDS)
        return reason[:-1] + hint.replace("; did you mean", ",") if hint else reason
    return reason + (near(unknown[1], [*COMMANDS, *WORDS]) or "; 'help' lists the commands")


def answer(program, line):
    """Has the program carry out a line, and shows why if it has an error; whether it has none."""
    reason = program.carry_out(os.fsencode(in_tokens(line, help_of(program.path)[1]))).rstrip("\n")
    try:
        reason = hinted(reason)
    except Exception:  # pylint: disable=broad-except
        pass  # nobody needs a hint as much as the registers
    if reason:
        print(f"  {as_given(reason)}", file=sys.stderr, flush=True)
    return not reason


def changed_by(words):
    """The registers that a line with these words may have changed."""
    return ALL if words[:1] == ["restore"] else words[1:2] if words[0] in CHANGE else ""


def show_registers(program, changed):
    """Counts each of these registers, where answers are shown."""
    if not program.is_seen:
        say("answers go elsewhere, so 'registers' shows nothing; 'count a' counts a there")
    elif not changed:
        print("no line has changed a register")
    for name in sorted(changed) if program.is_seen else ():
        count, cells = (program.answer_to(f"{command} {name}") for command in ("count", "show"))
        print(name, "", *count, "", area(cells[:-1]), flush=True)


def keys():
    """Python's module of readline, if it has one."""
    try:
        import readline  # pylint: disable=import-outside-toplevel
    except ImportError:
        say("python3 has no readline, so there are no keys and no history")
        readline = None
    return readline


def what_goes(path, folder, name):
    """The question before a file is restored over changes that no dump has; nothing, if there is no such file."""
    if not os.path.isfile(os.path.join(folder, name)):
        return ""
    done = subprocess.run([path, "check", "--dir", folder, name], stdin=subprocess.DEVNULL, capture_output=True,
                          check=False)
    other = f"; 'load a {name}' changes a alone" if done.returncode == 0 else ""
    return f"  all registers and the history go, and 'undo' doesn't give them back{other}; restore"


def session(path, options):
    """Hands over the lines that are typed, until one is to leave."""
    readline = keys()
    program = Program(path, options)
    version = subprocess.run([path, "--version"], stdout=subprocess.PIPE, check=True).stdout.decode().strip()
    print(f"{version}: 'help' for help, Ctrl-D to leave", flush=True)
    folder = folder_of(options)
    if not os.path.isdir(folder):
        say(f"there is no folder '{folder}' for the files of this session")
    help_of(path)  # while the program can surely be run
    changed, is_kept = set(), True  # registers, and whether all that lines have changed is in a dump
    keyboard = Keyboard(readline, program, folder)
    for line in keyboard.lines():
        words = words_of(line)
        if words in (["quit"], ["exit"]):
            break
        if words[:1] in (["help"], ["?"]):
            show_help(path, words[1:])
        elif words == ["registers"]:
            show_registers(program, changed)
        elif not is_kept and words[:1] == ["restore"] and len(words) == 2 and \
                (question := what_goes(path, folder, words[1])) and not keyboard.is_sure(question):
            print("  nothing is restored")
        elif answer(program, line) and words:
            changed.update(changed_by(words))
            is_kept = words[0] in KEEP or is_kept and words[0] not in (*CHANGE, "undo", "redo")
    program.close()
