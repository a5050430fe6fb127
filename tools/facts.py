"""Facts that stand in more than one file: where each stands, for tools/calls, which writes them.

The version is that of the file VERSION, and the extensions for PostgreSQL have one of their own. The maintainers and
the address of the repository are those of CITATION.cff, where its publisher writes them; before, they are placeholders.
The statuses, their numbers and texts are those of s2union.h. The commands of a script, with the forms of their words,
are those of HELP in crates/s2script/src/table.rt; their errors and examples are those of docs/SCRIPT.md. The limits are
constants of the crates. A file that tools/calls makes, whole or in part, isn't here.
"""
import re
import sys
import textwrap
from typing import NamedTuple


class Place(NamedTuple):
    """Where facts stand: a file, a pattern that finds each, and the facts, by their names. A group `name` of the
    pattern says which fact it is, without such a group it is that of the name ''; its other groups are the parts of the
    fact."""

    file: str
    pattern: str
    facts: dict

    def filled(self, text):
        """A text of the file with the facts in it, and the names of those that it has no place for."""
        left = set(self.facts)

        def put(match):
            parts = match.groupdict()
            name = parts.pop("name", "")
            if name not in self.facts:
                return match[0]
            left.discard(name)
            ends = [match.start(), *(end for group in parts for end in match.span(group)), match.end()]
            between = [match.string[begin:end] for begin, end in zip(ends[::2], ends[1::2])]
            own = [str(self.facts[name][group]) for group in parts]
            return "".join(between[:1] + [each for pair in zip(own, between[1:]) for each in pair])

        return re.sub(self.pattern, put, text, flags=re.M), sorted(left)


def versions(text):
    """The places of the version, whose file has this text."""
    major, minor, patch = map(int, text.split("."))
    whole = text.strip()
    number, cells = 10000 * major + 100 * minor + patch, "crates/s2union_c/src/cells.rt"
    header = "crates/s2union_c/include/s2union.h"
    found = [
        ("README.md", r"^Version (?P<value>[\d.]+),", whole),
        ("docs/SCRIPT.md", r"^s2calc (?P<value>[\d.]+): 'help' for help", whole),
        ("CITATION.cff", r"^version: (?P<value>.*)$", whole),
        ("crates/s2calc/src/command_line.rt", r'\.version\("(?P<value>.*)"\)', whole),
        (cells, r"fn s2u_version\(\) -> u32\n    ensures \{ result ≡ (?P<value>\d+) \}", number),
        (cells, r"fn s2u_version\(\) -> u32\n.*\n\{\n +(?P<value>.*)$", number),
        (header, r'#define S2U_VERSION_TEXT "(?P<value>.*)"', whole),
        (header, r"#define S2U_VERSION_MAJOR (?P<value>.*)$", major),
        (header, r"#define S2U_VERSION_MINOR (?P<value>.*)$", minor),
        (header, r"#define S2U_VERSION_PATCH (?P<value>.*)$", patch),
        ("bindings/python/s2union/__init__.py", r'^__version__ = "(?P<value>.*)"', whole),
        ("bindings/rust/Cargo.toml", r'^version = "(?P<value>.*)"', whole),
        ("bindings/rust/serde/Cargo.toml", r'^version = "(?P<value>.*)"', whole),
        ("bindings/r/DESCRIPTION", r"^Version: (?P<value>.*)$", whole),
        ("bindings/js/package.json", r'^  "version": "(?P<value>.*)"', whole),
    ]
    return [Place(file, pattern, {"": {"value": value}}) for file, pattern, value in found]


CONTROL = re.compile(r"^default_version = '(?P<value>.*)'$", re.M)


def versions_of_sql(control):
    """The other places of the version of the extensions for PostgreSQL, which a release has that changes their SQL: by
    the text of s2union.control."""
    files = {"s2union_geo.control": CONTROL.pattern, "s2union_postgis.control": CONTROL.pattern,
             "expected/s2union.out": r"^ (?P<value>\d+\.\d+\.\d+)$"}
    found = {"": {"value": CONTROL.search(control)["value"]}}
    return [Place(f"bindings/postgres/{file}", pattern, found) for file, pattern in files.items()]


def of_maintainers(citation):
    """The place of the maintainers and their address, beside CITATION.cff, which has this text."""
    found = re.search(r"^  - name: (?P<name>.*)\n(?:    #.*\n)*    email: (?P<email>.*)$", citation, re.M)
    return [Place("bindings/r/DESCRIPTION", r"^Maintainer: (?P<whole>.*)$",
                  {"": {"whole": f"{found['name']} <{found['email']}>"}})]


def of_statuses(statuses):
    """The places of the statuses: their numbers, names and texts."""
    refusals = [status for status in statuses if status.text]
    numbers = {status.name: {"number": status.number} for status in refusals}
    texts = {str(status.number): {"text": status.text} for status in refusals if status.name != "MEMORY"}
    kinds = {name: number for name, number in numbers.items() if name not in ("ROOM", "MEMORY")}
    rows = {status.name: {"number": status.number, "text": status.text} for status in refusals}
    words = " | ".join(f'"{name}"' for name in [*numbers, "OTHER"])
    union = "\n".join(textwrap.wrap(words, 117, subsequent_indent="  ", initial_indent=" " * 26)).lstrip()
    union = re.sub(r" \|\n  ", "\n  | ", union)
    java = "bindings/java/s2union/{}.java"
    return [
        Place("bindings/js/s2union.d.ts", r"^export type RefusalKind = (?P<value>[^;]*);", {"": {"value": union}}),
        Place("bindings/js/s2union.d.ts", r"(?P<number>-\d+) (?P<name>[A-Z_]+)[,.]", numbers),
        Place(java.format("Refusal"), r" int (?P<name>[A-Z_]+) = (?P<number>-\d+);", kinds),
        Place(java.format("Refusal"), r"^    (?P<name>[A-Z_]+)\((?P<number>-\d+)\)", kinds),
        Place(java.format("Refusal"), r'case (?P<name>-\d+): return "(?P<text>.*?)";', texts),
        Place("bindings/python/s2union/_errors.py", r"^    status = (?P<number>-\d+)  # (?P<name>\w+)$",
              {name: number for name, number in numbers.items() if name != "ROOM"}),
        Place("bindings/c/README.md", r"^\| `S2U_(?P<name>\w+)` \| (?P<number>.*?) \| (?P<text>.*?) \|", rows),
    ]


TABLE, SCRIPT = "crates/s2script/src/table.rt", "docs/SCRIPT.md"
COMMAND = re.compile(r"^  ([a-z]+)((?: \S+)*)  +\S.*$", re.M)
ROW = re.compile(r"^\| `([a-z]+)[^`]*` \| .* \| ([^|]*?) ?\| `([^`]*)` \|$", re.M)


def commands(table):
    """The commands of the help in the text of table.rt, in their order, with the forms of their words."""
    return dict(COMMAND.findall(table[table.index("HELP: &str"):table.index('";')]))


def lost_commands(table):
    """Each command of table.rt, with what it lacks there."""
    forms, arms = commands(table), set(re.findall(r'is\(name, b"(\w+)"', table))
    for name in sorted(arms.union(forms)):
        lacks = "" if name in forms and name in arms else "arm" if name in forms else "line of HELP"
        yield name, f"no {lacks} is there" if lacks else ""


def in_lines(words, first, more, end):
    """Words in lines of at most 120 characters: the first begins after `first` characters, the others begin with `more`
    and all but the last end with a blank and `end`."""
    indent = textwrap.wrap(" ".join(words), 119 - len(end), initial_indent=" " * first,
                           subsequent_indent=" " * len(more))
    return f" {end}\n{more}".join(line.strip() for line in indent)


def of_commands(table, page):
    """The places of the commands, where the texts are those of table.rt and of docs/SCRIPT.md."""
    forms, rows = commands(table), {name: more for name, *more in ROW.findall(page)}
    errors = {name: (rows[name][0].replace("`", ""), rows[name][1]) for name in forms if name in rows}
    lines = "".join(f'    "{name}": ("{own}", "{example}"),\n' for name, (own, example) in errors.items())
    similar = "crates/s2script/{}"
    return [
        Place(SCRIPT, r"^\| `(?P<name>[a-z]+)(?P<form>[^`|]*)` \| .* \|[^|]*\| `[^`]*` \|$",
              {name: {"form": form} for name, form in forms.items()}),
        Place("tools/launcher/prompt.py", r"^COMMANDS = \{\n(?P<lines>(?:    .*\n)*)\}", {"": {"lines": lines}}),
        Place(similar.format("src/similar.rt"), r'^        b"(?P<names>add [^"]*)"',
              {"": {"names": in_lines(forms, 10, " " * 10, "\\")}}),
        Place(similar.format("specs/Similar.antt"), r'^names = words \(codes "(?P<names>add [^)]*)"\)',
              {"": {"names": in_lines(forms, 22, '    ++ codes "', '"')}}),
    ]


LIMITS = {"LONGEST_LINE": "s2script/src/limits.rt", "MOST_FILE": "s2file/src/union_file.rt",
          "SESSION_CHANGES": "s2edit/src/lib.rt", "MOST_LISTED": "s2calc/src/limits.rt",
          "MOST_REGISTER": "s2edit/src/lib.rt", "MOST_STATES": "s2edit/src/lib.rt",
          "MOST_COVERING": "s2cover/src/lib.rt", "MOST_FEW": "s2union_c/src/shapes.rt"}


def limits(read):
    """The limits by their names, where `read` answers the text of a file."""
    found = {}
    for name, file in LIMITS.items():
        number = re.search(rf"const {name}: \w+ = ([\d_]+);", read(f"crates/{file}"))
        if not number:
            sys.exit(f"crates/{file}: {name} is no plain number there")
        found[name] = int(number[1])
    return found


def of_limits(of):
    """The places of these limits; the header has one, from which tools/calls makes others."""
    options = {"limit": {"value": of["MOST_REGISTER"]}, "depth": {"value": of["MOST_STATES"]}}
    longest = {"": {"value": f"{of['LONGEST_LINE']:,}"}}
    note = {"most": of["MOST_REGISTER"], "listed": of["MOST_LISTED"]}
    note_form = r"\(regions of the Earth: --limit (?P<most>\d+)\), denorm lists (?P<listed>\d+)\""
    return [
        Place("crates/s2union_c/include/s2union.h", r"^#define S2U_MOST_COVERING (?P<value>\d+)",
              {"": {"value": of["MOST_COVERING"]}}),
        Place("crates/s2union_c/include/s2union.h", r"^#define S2U_MOST_FEW (?P<value>\d+)",
              {"": {"value": of["MOST_FEW"]}}),
        Place("tests/model/calculator.py", r"^(?P<name>[A-Z_]+) = (?P<value>[\d_]+)$",
              {own: {"value": f"{of[name]:_}" if of[name] >= 10_000 else of[name]} for own, name in (
                  ("LONGEST_LINE", "LONGEST_LINE"), ("MOST_IN_A_FILE", "MOST_FILE"),
                  ("MOST_CHANGES", "SESSION_CHANGES"), ("MOST_LISTED", "MOST_LISTED"))}),
        Place("tools/launcher/prompt.py", r"^LONGEST = (?P<value>\d+)", {"": {"value": of["LONGEST_LINE"]}}),
        Place("crates/s2calc/src/arguments.rt", r'"(?P<name>\w+)",\n.*\n +"The most .*, 1 to (?P<value>\d+)"', options),
        Place(SCRIPT, r"^\| `--(?P<name>\w+) N` \| the most .*, 1 to (?P<value>\d+);", options),
        Place(SCRIPT, r"raise `--(?P<name>\w+)`, up to (?P<value>\d+)", options),
        Place(SCRIPT, r"^\| `line` \| the line has more than (?P<value>[\d,]+) bytes", longest),
        Place(SCRIPT, r"It has at most (?P<value>[\d,]+) bytes before the newline", longest),
        Place("crates/s2calc/src/notes.rt", note_form, {"": note}),
        Place("crates/s2calc/specs/Notes.antt", note_form, {"": note}),
    ]


def written(places, read):
    """The text of each file of the places with their facts in it, where `read` answers that of a file, and what has no
    place: the file, and the names of the facts."""
    texts, lost = {}, []
    for place in places:
        texts[place.file], left = place.filled(texts.get(place.file) or read(place.file))
        lost += [(place.file, name or place.pattern) for name in left]
    return texts, lost
