"""The words of s2calc that its program doesn't take; not proved. tools/launcher/launcher starts it as

    words.py PROGRAM WORD..

The launcher itself says `--prompt OPTION..` for a run at a terminal, `--notes SCRIPT OPTION..` for one whose reasons
are to be shown with the script's name, `--counted LINE` for one whose errors are counted from that line on, and
`--unread FILE WORD..` for a script that can't be read. `cell` takes several
cells with commas between them, decimal identifiers and --explain; `check` and `draw` take paths of files that lie in
one folder. Where one of them has an error, standard error says why. A picture goes out only if it is whole. Help is the
program's, with what stands beside it after it; and a word that is no command may mean one.
"""
import signal

if __name__ == "__main__":
    signal.signal(signal.SIGINT, signal.SIG_DFL)  # until lines are read, Ctrl-C ends this without a word

import ctypes  # noqa: E402
import os  # noqa: E402
import re  # noqa: E402
import stat  # noqa: E402
import subprocess  # noqa: E402
import sys  # noqa: E402

sys.path.append(os.path.dirname(os.path.realpath(__file__)))
import cells  # noqa: E402
from cells import DECIMAL, token  # noqa: E402
from prompt import COMMANDS, as_given, fitted, session, show_help  # noqa: E402

BESIDE = "Beside the proved program, s2calc takes:"
# What it takes, after the help of each command, or of all.
MORE = {
    "": [("cells", "Turns identifiers that other programs print into tokens; not proved")],
    "run": [("[FILE]", "The script, in place of standard input, which is '-'"),
            ("-c <LINE>", "A line of the script, in place of a file; of several, each is the next line"),
            ("--go-on", "Goes on after an error in a FILE or a LINE; else it ends the run, and is explained"),
            ("--no-prompt", "No prompt at a terminal, where there is one")],
    "cell": [("--explain", "Says on standard error the identifier too"),
             ("CELL", "Also a decimal identifier, with a sign or of more than 16 digits; or several, with commas")],
    "draw": [("[FILE]...", "Also paths, if all files are in one folder and there is no --dir")],
}
# What its help ends with.
LAST = {"draw": """
The picture is no map: it shows the faces unfolded, so north isn't up, and of several files each covers
those before it. For a map, 'python3 -m s2union_geo geojson --dissolve FILE..' prints GeoJSON.
"""}
# Words that can stand in a line of a script.
IN_CELL, IN_NAME = re.compile(r"[0-9A-Za-z/+-]+"), re.compile(r"[0-9A-Za-z_][0-9A-Za-z._-]*")


class Program:
    def __init__(self, path):
        self.path = path

    def __call__(self, *words, script=None):
        return subprocess.run([self.path, *words], input=script, stdin=None if script else subprocess.DEVNULL,
                              capture_output=True, check=False)

    def instead(self, *words):
        """The program in this process's place."""
        os.execv(self.path, [self.path, *words])

    def reason(self, line, *options):
        """Why a line of a script has an error, or nothing."""
        said = self("run", "--explain", *options, script=line.encode() + b"\n").stderr.decode()
        return as_given(re.sub(r"^line 1: error \S*: ", "", said.rstrip("\n")))


def say(reason):
    if reason:
        print(f"s2calc: {reason}", file=sys.stderr)


def usage(fault):
    print(f"s2calc: usage\nerror: {fault}\n\nFor more information, try '--help'.", file=sys.stderr)
    return 2


def is_pipe(stream):
    try:
        return stat.S_ISFIFO(os.fstat(stream).st_mode)
    except OSError:  # it is closed
        return False


def put(answer):
    """Writes an answer; if nobody reads it, without a word, as if by SIGPIPE."""
    try:
        sys.stdout.buffer.write(answer)
        sys.stdout.flush()
    except BrokenPipeError:
        os._exit(141)
    except (OSError, AttributeError):
        say("output")
        os._exit(2)


# ---- scripts


def noted(program, script, *options):
    """Runs the program, with the script's name before each note. If nobody reads the pipe any more, it isn't said."""
    def ends_with_this():
        ctypes.CDLL(None).prctl(1, signal.SIGKILL)  # PR_SET_PDEATHSIG: whatever ends this process ends the program

    with subprocess.Popen([program.path, "run", *options], stderr=subprocess.PIPE,
                          preexec_fn=ends_with_this) as process:
        for line in process.stderr:
            if line != b"s2calc: output\n" or not is_pipe(1):
                note = as_given(line.decode(errors="surrogateescape"))
                os.write(2, os.fsencode(f"{script}: {note}") if line.startswith(b"line") else line)
    return process.returncode if process.returncode >= 0 else 128 - process.returncode


def counted(first):
    """One line for all notes of a run: the number of the first, which was read, and how many come on standard input.
    If the program says that the run has failed, that goes on instead; not if nobody reads the pipe any more."""
    others = 0
    for line in sys.stdin.buffer:
        if not line.startswith(b"line "):
            rest = b"" if line == b"s2calc: output\n" and is_pipe(1) else line
            os.write(2, rest + sys.stdin.buffer.read())
            return 0
        others += 1
    more = f" and {others} other{'s' * (others > 1)}" if others else ""
    say(f"line {first}{more} had an error; --explain says why")
    return 0


def prompted(program, options):
    """The prompt at a terminal, where standard output is open."""
    if os.path.exists("/dev/fd/1"):
        return session(program.path, [word for word in options if word != "--prompt"])
    return program.instead("run", *options)


def unread(program, script, *others):
    """Why there is no such script, if the words beside it are no fault."""
    others = [word for word in others if word not in ("--go-on", "--no-prompt")]
    if program("run", *others).returncode == 2:
        return program.instead("run", *others)
    why = f"'{script}' is a folder, or can't be read" if os.path.exists(script) else f"there is no file '{script}'"
    print(f"s2calc: input\nerror: {why}", file=sys.stderr)
    return 2


# ---- cells


def why_cell(program, word):
    if re.search(r"[^ -~]", word):
        return "the word is not a cell (a token or a debug text)"
    if not IN_CELL.fullmatch(word):
        return f"'{word}' is not a cell (a token or a debug text)"
    return program.reason(f"cell {word}")


def cell(program, words):
    """The answers to the cells, and why they are errors, or their identifiers; the greatest status."""
    explains, given = "--explain" in words, [word for word in words if word != "--explain"]
    if len(given) != 1 or given == ["--"]:
        program.instead("cell", *given)
    parts = [part for part in re.split("[, ]+", given[0]) if part] if "," in given[0] else []
    worst = 0
    for word in parts or given:
        done = program("cell", token(word) if DECIMAL.fullmatch(word) and token(word) else word)
        put(done.stdout)
        sys.stderr.buffer.write(done.stderr)
        if done.returncode == 1:
            say(why_cell(program, word))
        elif explains and not done.returncode:
            first, last = map(int, done.stdout.split()[-2:])
            number = first + last + 1
            print(f"identifier {number}, with a sign {number - (number >> 63 << 64)}", file=sys.stderr)
        worst = max(worst, done.returncode)
    return worst


# ---- files


def in_one_folder(words):
    """The words with the folder of all files as --dir, and that folder, if there is one; else the words as they are."""
    files = [word for word in words if not word.startswith("-")]
    folders = {os.path.dirname(word) + "/" * (os.path.dirname(word) != "/") if "/" in word else "./" for word in files}
    plain = not any(re.match("--dir|--cells|--$", word) for word in words)
    if not plain or len(folders) != 1 or not any("/" in word for word in files) \
            or any(re.search("/(-|$)", word[word.rfind("/"):]) for word in files):
        return words, ""
    folder = folders.pop()
    return ["--dir", folder, *(word if word.startswith("-") else word.rpartition("/")[2] for word in words)], folder


def first_wrong(program, words, path):
    """Why the first file or cell that has an error has it. Of a word that isn't the name of a file the program says
    it."""
    asks, folder, rest = "check", ".", list(words)
    while rest:
        word = rest.pop(0)
        if word == "--dir" and rest:
            folder = rest.pop(0)
        elif word.startswith("--dir="):
            folder = word[6:]
        elif word == "--cells":
            asks = "cell"
        elif not word.startswith("-") and asks == "cell":
            if program("cell", word).returncode:
                return why_cell(program, word)
        elif not word.startswith("-") and program("check", "--dir", folder, word).returncode:
            reason = program.reason(f"load a {word}", "--limit", "1000000", "--dir", folder) \
                if IN_NAME.fullmatch(word) else ""
            return reason and f"{path}{word}: {reason}"
    return ""


def of_files(program, command, words):
    words, path = in_one_folder(words)
    done = program(command, *words)
    if command != "draw" or done.returncode != 1:
        put(done.stdout)
    sys.stderr.buffer.write(done.stderr)
    if done.returncode == 1:
        say(first_wrong(program, words, path))
    return done.returncode


# ---- help, and other words


def help_of(program, command):
    """The program's help, and what stands beside the program."""
    text = program(*filter(None, [command]), "--help").stdout.decode()
    more = "\n".join(f"  {words:13}  {meaning}" for words, meaning in MORE.get(command, []))
    put(fitted(f"{text}\n{BESIDE}\n{more}\n{LAST.get(command, '')}").encode())
    return 0


def helped(program, words):
    topic = words[0] if words else ""
    if topic == "cells":
        return main(program.path, "cells", "--help")
    if topic in MORE:
        return help_of(program, topic)
    if topic in ("check", "help") or topic.startswith("-"):
        program.instead("help", *words)
    status = show_help(program.path, words)
    put(b"")  # what is printed
    return status


def main(path, *words):
    program, first, rest = Program(path), words[0], list(words[1:])
    if first in ("-h", "--help", "help"):
        return helped(program, rest)
    if first in MORE and {"-h", "--help"}.intersection(rest):
        return help_of(program, first)
    if first == "--prompt":
        return prompted(program, rest)
    if first == "--notes":
        return noted(program, *rest)
    if first == "--counted":
        return counted(*rest)
    if first == "--unread":
        return unread(program, *rest)
    if first == "cells" and {"-h", "--help"}.intersection(rest):
        put(fitted(cells.__doc__).encode())
        return 0
    if first == "cells":
        return cells.main(rest)
    if first == "cell":
        return cell(program, rest)
    if first in ("check", "draw"):
        return of_files(program, first, rest)
    if os.path.isfile(first):
        return usage(f"'{first}' is not a command; 's2calc run {first}' answers the script in that file")
    if first in COMMANDS:
        return usage(f"'{first}' is a command of scripts: s2calc run -c '{' '.join(words)}'")
    return program.instead(*words)


if __name__ == "__main__":
    sys.exit(main(*sys.argv[1:]))
