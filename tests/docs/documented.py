"""Runs the examples of a page, and compares what they say with what the page shows.

documented.py [--script] [--python] [--released] [--only MODULE] PAGE [COMMAND..]: all ```sql blocks, or ```python
blocks, in one session, each with the ```text block that follows it. COMMAND reads the session (if there is none,
sqlite3, without its user's settings, or python3); --script prints it. A block that begins with ```python MODULE is left
out where that isn't; --only runs those of one MODULE alone. --released leaves out those that come with a later version
than dist/ has: the paragraph before says since which. S2UNION_FIRST and S2UNION_SHARD are the folders of the sockets
/run/first and /run/shard.
documented.py --shell PAGE UNTIL [WORD]: the commands after the prompts of the ```text blocks, as far as the heading
UNTIL, in one folder, which has docs/ and the calculator that S2CALC names; those that have the WORD are left out.
The last line is 'N passed, M failed'.
"""

import importlib.util
import os
import re
import subprocess
import sys
import tempfile

sys.path.append(os.path.join(os.path.dirname(os.path.dirname(os.path.realpath(__file__))), "geo"))
from page import commands, furnish, output  # noqa: E402
from released import is_announced  # noqa: E402

MARK = "== end of example"


def text_of(page):
    with open(page, encoding="utf-8") as file:
        return file.read()


def examples(page, language, only, is_released):
    block = rf"^```{language}(?: (\w+))?\n(.*?)^```\n(?:\n```text\n(.*?)^```\n)?"
    text = text_of(page)
    for match in re.finditer(block, text, re.DOTALL | re.M):
        module, code, wanted = match.groups("")
        paragraph = text[: match.start()].rstrip().rpartition("\n\n")[2]
        is_left_out = is_released and is_announced(paragraph + code)
        if not is_left_out and (module == only if only else not module or importlib.util.find_spec(module)):
            yield code, wanted


def session(blocks, mark):
    return "".join(code + mark + "\n" for code, _ in blocks)


def counted(runs):
    """How many examples there are, of runs of an example with what is wanted and what it said, and those that fail."""
    failed = 0
    for example, wanted, said in runs:
        if said.strip() != wanted.strip():
            failed += 1
            print(f"{example}wanted:\n{wanted}said:\n{said}")
    return len(runs), failed


def ended(count, failed):
    print(f"{count - failed} passed, {failed} failed")
    return failed != 0 or not count


def in_shell(page, until, left_out=None):
    with tempfile.TemporaryDirectory() as room:
        furnish(room)
        text = text_of(page).partition(f"\n{until}\n")[0]
        return ended(*counted([(command, wanted, output(command, room)) for command, wanted in commands(text)
                               if not left_out or left_out not in command]))


def main(arguments):
    if arguments[0] == "--shell":
        return in_shell(*arguments[1:])
    options = [word for word in arguments if word in ("--script", "--python", "--released")]
    only = arguments[len(options) + 1] if arguments[len(options)] == "--only" else None
    page, *command = arguments[len(options) + 2 * bool(only):]
    is_python = "--python" in options
    blocks = list(examples(page, "python" if is_python else "sql", only, "--released" in options))
    mark = f"print({MARK!r})" if is_python else f"\\echo {MARK}" if command else f".print {MARK}"
    script = session(blocks, mark)
    for place in ("first", "shard"):
        script = script.replace(f"/run/{place}", os.environ.get(f"S2UNION_{place.upper()}", ""))
    if "--script" in options:
        print(script, end="")
        return 0
    folder = os.path.dirname(os.environ.get("S2UNION_SQLITE", "")) or None
    alone = [sys.executable, "-"] if is_python else ["sqlite3", "-batch", "-init", os.devnull, ":memory:"]
    run = subprocess.run(command or alone, input=script, cwd=folder, text=True, stdout=subprocess.PIPE,
                         stderr=subprocess.STDOUT)
    said = re.sub(r"error near line \d+:", "error:", run.stdout).split(MARK + "\n")
    count, failed = counted([(code, wanted, answer) for (code, wanted), answer in zip(blocks, said)])
    if len(said) != len(blocks) + 1:
        failed += 1
        print(run.stdout)
    return ended(count, failed)


if __name__ == "__main__":
    sys.exit(main(sys.argv[1:]))
