#!/usr/bin/env python3
"""Writes the manual page of s2calc and its completions for bash, zsh and fish: pages LAUNCHER FOLDER.

Nearly all of it is what --help says: the table of commands, with the arguments and options of each. MORE has what the
manual page says besides.
"""
import os
import re
import subprocess
import sys
import time
from pathlib import Path
from typing import NamedTuple

ENTRY = re.compile(r"^ {2,}(\S.*?)(?: {2,}(\S.*))?$")
BESIDE = "\nBeside the proved program, s2calc takes:\n"  # after which tools/launcher/words.py has what it adds
FILES, FOLDERS, NOTHING = "files", "folders", "nothing"
VALUES = {"FILE": FILES, "PATH": FOLDERS}


class Help(NamedTuple):
    """A page of help: what it is about, its usage, its sections of entries (words, help), and what follows them."""

    about: str
    usage: str
    sections: dict
    rest: str


def help_of(launcher, *words):
    text = subprocess.run([launcher, *words, "--help"], capture_output=True, text=True, check=True).stdout
    text, _, beside = text.partition(BESIDE)
    beside, _, last = beside.partition("\n\n")
    about, usage, body = re.fullmatch(r"(.*?)\n\nUsage: (.*?)\n\n(.*)", text, re.S).groups()
    sections = {}
    while match := re.match(r"(\w+):\n((?: +.*\n?)+)\n?", body):
        if match[1] not in ("Commands", "Arguments", "Options"):
            break
        sections[match[1]] = [ENTRY.match(line).groups() for line in match[2].splitlines()]
        body = body[match.end() :]
    for line in beside.splitlines():
        entry_of = ENTRY.match(line).groups()
        kind = "Options" if entry_of[0][0] == "-" else "Arguments" if words else "Commands"
        sections[kind] = sections.get(kind, []) + [entry_of]
    return Help(about, usage, sections, f"{body}\n{last}".strip("\n"))


def options_of(page):
    """Each option of a page: its names, what its value is, if it has one, and its help."""
    for words, text in page.sections["Options"]:
        value = re.search(r"<(\w+)>", words)
        yield re.findall(r"--?[\w-]+", words), value and value[1], text


def words_of(page):
    """What an argument of the command completes to."""
    return next((VALUES.get(words.strip("[]<>."), NOTHING) for words, _ in page.sections.get("Arguments", [])), NOTHING)


# ---- the manual page


def roff(text):
    """The text as roff takes it literally."""
    return re.sub(r"^(?=[.'])", r"\\&", text.replace("\\", r"\e").replace("-", r"\-"), flags=re.M)


def entry(words, text):
    return f".TP\n.B {roff(words)}\n{roff(text)}"


def literal(lines):
    return "\n".join([".PP", ".nf", *map(roff, lines), ".fi"])


def flowing(text):
    """A text as roff has it: paragraphs, tables of entries, and lines that stand as they are."""
    groups = re.findall(r"(?:^\S.*\n?)+|(?:^ +\S.*\n?)+", text, re.M)
    for lines in (group.splitlines() for group in groups):
        found = [ENTRY.match(line) for line in lines]
        if not lines[0].startswith(" "):
            yield f".PP\n{roff(chr(10).join(lines))}"
        elif all(match and match[2] for match in found):
            yield from (entry(*match.groups()) for match in found)
        else:
            yield literal(lines)


def commands(pages):
    for page in pages.values():
        yield f".SS {roff(page.usage)}\n{roff(page.about)}."
        for section in ("Arguments", "Options"):
            yield from (entry(words, text or "") for words, text in page.sections.get(section, []))
        yield from flowing(page.rest)


MORE = {
    "DESCRIPTION": """\
s2calc computes with regions of the sphere as unions of S2 cells. It is proved which bytes the program writes for the
bytes of each script; the prompt, 'cells' and the reading of FILE are not proved.

A script has one command a line. Registers a to z hold unions, and undo goes back. 's2calc' alone answers the script on
standard input. At a terminal it shows a prompt: its lines can be edited, Tab completes them, Ctrl-C drops one, 'help'
lists the commands, and Ctrl-D leaves.""",
    "FILES": """\
  NAME  A union file in S2's own encoding, or a session file, in the folder that --dir names
  $XDG_STATE_HOME/s2calc/history  The lines typed at the prompt; ~/.local/state is the folder if that isn't set""",
    "ENVIRONMENT": """\
  XDG_STATE_HOME  The folder of the history
  INPUTRC  The keys of the prompt, as readline reads them
  S2CALC_PROGRAM  The proved program, in place of the one that is installed""",
    "SEE ALSO": """\
readline(3), python3(1), and SCRIPT.md in /usr/share/doc/s2calc: the script in full""",
}


def manual(top, pages, version):
    date = time.strftime("%Y-%m-%d", time.gmtime(int(os.environ.get("SOURCE_DATE_EPOCH", time.time()))))
    about = top.about[0].lower() + top.about[1:].rstrip(".")
    statuses, example = re.search(r"^Exit status: (.*?)\n\nExample:\n(.*?)\n\n", top.rest, re.M | re.S).groups()
    examples = [example, *(line for page in pages.values() for line in page.rest.splitlines() if line[:4] == "  $ ")]
    parts = [f'.TH S2CALC 1 {date} "s2calc {version}"', f".SH NAME\ns2calc \\- {roff(about)}", ".SH SYNOPSIS"]
    parts += [f".B {roff(page.usage)}\n.br" for page in pages.values()]
    parts += [".SH DESCRIPTION", *flowing(MORE["DESCRIPTION"]), ".SH COMMANDS", *commands(pages), ".SH OPTIONS"]
    parts += [entry(*words) for words in top.sections["Options"]]
    parts += [".SH EXIT STATUS", *(entry(*it) for it in re.findall(r"(\d) (if [^,.]*)", statuses.replace("\n", " ")))]
    for name in ("FILES", "ENVIRONMENT"):
        parts += [f".SH {name}", *flowing(MORE[name])]
    parts += [".SH EXAMPLES", *map(literal, map(str.splitlines, examples)), ".SH SEE ALSO", *flowing(MORE["SEE ALSO"])]
    return "\n".join(parts) + "\n"


# ---- the completions

BASH = """# Completion of s2calc for bash.
_s2calc() {
  local word=${COMP_WORDS[COMP_CWORD]} before=${COMP_WORDS[COMP_CWORD - 1]} words= kind=
  if [ "$COMP_CWORD" -eq 1 ]; then words="@TOP@"; else
    case ${COMP_WORDS[1]}:$before in
@CASES@
    esac
  fi
  case $kind:$word in
    *:-*) ;;
    files:*) compopt -o filenames; COMPREPLY=($(compgen -f -- "$word")); return ;;
    folders:*) compopt -o filenames; COMPREPLY=($(compgen -d -- "$word")); return ;;
  esac
  COMPREPLY=($(compgen -W "$words" -- "$word"))
}
complete -F _s2calc s2calc
"""


def bash(top, pages):
    cases = []
    for name, page in pages.items():
        options = list(options_of(page))
        for names, value, _ in options:
            if value:
                cases.append(f"      {name}:{'|'.join(names)}) kind={VALUES.get(value, NOTHING)} ;;")
        words = " ".join(word for names, _, _ in options for word in names)
        cases.append(f'      {name}:*) kind={words_of(page)} words="{words}" ;;')
    first = [name for name, _ in top.sections["Commands"]] + [name for names, _, _ in options_of(top) for name in names]
    return BASH.replace("@TOP@", " ".join(first)).replace("@CASES@", "\n".join(cases))


def quoted(text):
    return "'" + text.replace("'", "'\\''") + "'"


ACTIONS = {FILES: "_files", FOLDERS: "_files -/", NOTHING: " "}


def zsh_options(page):
    for names, value, text in options_of(page):
        text = re.sub(r"([\[\]:])", r"\\\1", text)
        action = f":{value}:{ACTIONS[VALUES.get(value, NOTHING)]}" if value else ""
        for name in names:
            yield f"    {quoted(f'{name}[{text}]{action}')}"


ZSH = """#compdef s2calc
# Completion of s2calc for zsh.
if (( CURRENT == 2 )); then
  local -a commands=(
@COMMANDS@
  )
  _describe command commands
  return
fi
local command=$words[2]
shift words
(( CURRENT-- ))
case $command in
@CASES@
esac
"""


def zsh(top, pages):
    commands = [f"    {quoted(f'{name}:{text}')}" for name, text in top.sections["Commands"]]
    cases = []
    for name, page in pages.items():
        words = [*zsh_options(page), f"    '*:word:{ACTIONS[words_of(page)]}' ;;"]
        cases.append(f"  {name}) _arguments \\\n" + " \\\n".join(words))
    return ZSH.replace("@COMMANDS@", "\n".join(commands)).replace("@CASES@", "\n".join(cases))


FISH = {None: "", FILES: " -r -F", FOLDERS: " -x -a '(__fish_complete_directories)'", NOTHING: " -x"}


def fish_option(names, value, text):
    words = " ".join(f"-{'l' if name.startswith('--') else 's'} {name.lstrip('-')}" for name in names)
    return f"{words}{FISH[value and VALUES.get(value, NOTHING)]} -d {quoted(text)}"


def fish(top, pages):
    lines = ["# Completion of s2calc for fish.", "complete -c s2calc -f"]
    for name, text in top.sections["Commands"]:
        lines.append(f"complete -c s2calc -n __fish_use_subcommand -a {name} -d {quoted(text)}")
    for name, page in {"": top, **pages}.items():
        when = quoted(f"__fish_seen_subcommand_from {name}") if name else "__fish_use_subcommand"
        lines += [f"complete -c s2calc -n {when} {fish_option(*option)}" for option in options_of(page)]
        if name and words_of(page) == FILES:
            lines.append(f"complete -c s2calc -n {when} -F")
    return "\n".join(lines) + "\n"


def main(launcher, folder):
    top = help_of(launcher)
    pages = {name: help_of(launcher, name) for name, _ in top.sections["Commands"] if name != "help"}
    version = subprocess.run([launcher, "--version"], capture_output=True, text=True, check=True).stdout.split()[1]
    for name, text in {
        "man/man1/s2calc.1": manual(top, pages, version),
        "bash-completion/completions/s2calc": bash(top, pages),
        "zsh/vendor-completions/_s2calc": zsh(top, pages),
        "fish/vendor_completions.d/s2calc.fish": fish(top, pages),
    }.items():
        path = Path(folder, name)
        path.parent.mkdir(parents=True, exist_ok=True)
        path.write_text(text)


if __name__ == "__main__":
    main(*sys.argv[1:])
