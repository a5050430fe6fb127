#!/usr/bin/env python3
"""Checks the pages: docs/statement.sums has each public contract, clause by clause, and each definition as
tools/statement finds them, which prints a contract for each call of s2union.h; each definition has a sentence, and
stands in specs/Working if no public contract needs it; every relative link of every page leads to a file, and to its
heading; if the link's text is names of the sources, the file has them, as it has those that a page says are in it; each
path in backticks is there; the files that docs/ARCHITECTURE.md walks through have the functions that it names, and each
crate uses only those of lower layers there; each language has what docs/FROM_S2.md says it has; the numbers on
docs/HEADLINE.md and others are what they count (tests/docs/figures.py); docs/TROUBLESHOOTING.md has each error that the
sources make, and no others; docs/CONCEPTS.md has the edges and numbers of cells of all levels;
bindings/mariadb/README.md lists the functions of install.sql; docs/README.md leads to each page for users; README.md
has fewer than 10,000 bytes; a page that names the kit names the one of the file KIT; docs/PROOF.md names each crate of
the kit that is used; CHANGELOG.md says nothing twice; what a page names in code is in the release, or is said to come
with the next one (tests/docs/released.py);
each part that a text names after `tests/run` is one, and has beside it the Debian packages that its script installs;
each command of tools/, bench/ and bindings/ prints its usage with --help, and does nothing else; and what is a command,
a file whose name has no ending and which names its interpreter, is executable, and no other file is. The last line is
'N passed, M failed', where N counts the definitions, the links, the paths, the names, the calls, the errors, the
levels, the changes, the parts, their packages, the commands and the files. A check that has nothing to look at fails.
"""
import functools
import importlib.machinery
import importlib.util
import os
import re
import subprocess
import sys
import tempfile
from pathlib import Path

ROOT = Path(__file__).resolve().parents[2]
sys.path += [str(ROOT / folder) for folder in ("tests", "tests/mutants", "tools", "tools/packaging")]
import documents  # noqa: E402
import methods  # noqa: E402
from checks import has_wrong, tracked  # noqa: E402
from figures import wrong_figures  # noqa: E402
from mutant_texts import mutants_of  # noqa: E402
from released import unreleased  # noqa: E402

LINK = re.compile(r"\]\((?!https?://)([^)#\s]*)(?:#([^)\s]+))?[^)]*\)")
BLOCK = re.compile(r"^```.*?^```", re.S | re.M)
RUST = re.compile(r"^```rust\n(.*?)^```", re.S | re.M)
PLACED = re.compile(r"`(\w+)`(?: and `(\w+)`)? (?:in|of) `([\w./-]+\.(?:rt|antt|py|rs|h|c))`")
NAMES = re.compile(r"\[((?:`\w+`(?:, | and )?)+)\]\(([^)#\s]+(?<!lib)\.(?:rt|antt))\)")
CODE = re.compile(r"`([^`\n]+)`")
PATH = re.compile(r"[\w.*/-]+")
FILE = re.compile(r"[\w.-]+\.(?:rt|antt|py|sh|md|hpp|h|cc|go|rs|sql)")
# Names that stand for any file of their kind, and headers of S2; and what tools/statement makes.
EXAMPLES = {"s2union--OLD--NEW.sql", "s2union--NEW.sql", "s2cell_id.h", "s2cell_union.h"}
MADE = ("docs/STATEMENT.md", "docs/STATEMENT.txt", "docs/STATEMENT.rt")
GONE = {"peer", "faults", "examples"}
STEP = re.compile(r"^\d+\. `(\w+/src)/(\w+\.rt)`: (.*)$", re.M)
PART = re.compile(r"^    Part\(\"([\w-]+)\"", re.M)
NEEDS = re.compile(r"^[^#\n]*?\b(need(?:_file|_modules|_installed)?) (?![^\n]*\$)([\w/][^;&\n]*)", re.M)
RUNS = re.compile(r"tests/run((?: --tier)?(?: [a-z][\w-]*)+)")
DEFINES = r"\b(?:fn|struct|trait|record|data|abbrev pub|unfoldable pub) {}\b"
# The columns of docs/FROM_S2.md: what a name is in them, where it is defined, and how.
CALLS = {
    "C++": (r"operator==|\w+", ["bindings/cpp/s2union.hpp"], r"\b{}(?!\w)"),
    "C": (r"s2u_\w+", ["crates/s2union_c/include/s2union.h", "bindings/c/s2union_*.h"],
          r"^(?:static inline )?(?:const )?\w+\*? {}\("),
    "Go": (r"\w+", ["bindings/go/*.go"], r"(?:\bfunc (?:\(\w+ \*?\w+\) )?|^type ){}\b"),
    "Rust": (r"\w{2,}", ["bindings/rust/src/*.rs"], r"\b(?:fn|struct) {}\b"),
    "Rattle": (r"\w{2,}", ["crates/s2*/src/*.rt"], r"\bpub (?:fn|struct) {}\b"),
    "Python": (r"(?!in\b)\w{2,}", ["bindings/python/s2union/__init__.py", "bindings/python/s2union_geo/*.py"],
               r"\b(?:def|class) (?:{0}|__{0}__)\b"),
    "SQL": (r"s2_\w+", ["bindings/sqlite/*.c", "bindings/postgres/*.sql"], r"\b{}\b"),
    "Script": (r"[a-z]{2,}", ["docs/SCRIPT.md"], r"`{}\b"),
    "JavaScript": (r"\w+", ["bindings/js/*.d.ts"], r"(?:\bfunction |^  (?:static |readonly )?|\bclass ){}\b"),
    "Java": (r"\w+", ["bindings/java/s2union/*.java"], r"\bpublic (?:static |final )*[\w.\[\]]+ {}\b"),
}
# The sections of docs/TROUBLESHOOTING.md: the sources that make its errors, and what an error's name is there.
ERRORS = {
    "The library": (["crates/s2union_c/include/s2union.h"],
                    r"^  (S2U_\w+) = -|^    case S2U_(?!FAULT_)\w+: return \"(.*)\";"),
    "Texts and bytes of shapes": (["crates/s2union_c/include/s2union.h"],
                                  r"^  (S2U_FAULT_\w+) = \d|^    case S2U_FAULT_\w+:\s+return \"(.*)\";"),
    "Shapes in degrees": (["bindings/c/s2union_cover.h"],
                          r"^  (S2U_COVER_\w+) = -|^    case S2U_COVER_\w+: return \"(.*)\";"),
    "C++": (["bindings/cpp/s2union.hpp"], r"throw ([\w:]+)\("),
    "Go": (["bindings/go/library.go", "bindings/go/geo.go"], r"^\t(Err\w+) +Error\b"),
    "Rust": (["bindings/rust/src/error.rs"], r"^    ([A-Z]\w+)(?: \{|\(\w+\),|,)$"),
    "Python": (["bindings/python/s2union/*.[cp]*", "bindings/python/s2union_geo/[!_]*.py"],
               r"raise (\w+)\(|PyExc_(\w+)|^class (?!UnionFile)(\w+Error)\((?!Exception)"),
    "JavaScript": (["bindings/js/*.js"], r"throw new (\w+)\("),
    "Java": (["bindings/java/s2union/*.java"], r"throw new (\w+)\("),
    "PostgreSQL": (["bindings/postgres/*.c"], r"ERRCODE_(\w+)"),
    "SQLite": (["bindings/sqlite/s2union.c"], r"^    case N\w+: return \"(.*)\";"),
    "The calculator": (["crates/s2script/specs/Refusals.antt", "crates/s2calc/specs/Refusals.antt"],
                       r"codes \"([a-z-]+)\""),
}


def pages():
    return [ROOT / name for name in tracked(ROOT, "*.md")]


def broken_links():
    """The number of links and of paths, and those that lead nowhere, as 'page: link'."""
    count, broken = 0, []
    for page in pages():
        for link, heading in LINK.findall(page.read_text()):
            count += 1
            there = page.parent / link if link else page
            if not there.exists() or heading and heading not in headings(there):
                broken.append(f"{page.relative_to(ROOT)}: {link}{'#' if heading else ''}{heading}")
    for page, path, there in paths():
        count += 1
        if not there:
            broken.append(f"{page.relative_to(ROOT)}: {path}")
    return count, broken


@functools.cache
def headings(page):
    """The headings of a page, as links name them."""
    lines = re.findall(r"^#+ (.*)$", BLOCK.sub("", page.read_text()), re.M)
    return {re.sub(r"[^\w -]", "", line.lower()).replace(" ", "-") for line in lines}


def paths():
    """Each path in backticks, as (page, path, whether it is there): one that begins with a folder of the top or a
    crate, or has the name of a file. A crate and a name may also be a mutant."""
    names = {name.rpartition("/")[2] for name in tracked(ROOT)} | EXAMPLES
    folders = {path.name for path in [*ROOT.iterdir(), *(ROOT / "crates").iterdir()] if path.is_dir()} | GONE
    for page in pages():
        for code in CODE.findall(page.read_text()):
            path = code.split()[0] if code.split() else ""
            if FILE.fullmatch(path):
                yield page, path, path in names
            elif PATH.fullmatch(path) and "/" in path and path.split("/")[0] in folders:
                yield page, path, path in MADE or is_there(page, path.rstrip("/."))


def is_there(page, path):
    crate, _, name = path.partition("/")
    found = path.replace("NAME", "*").replace("VERSION", "*")
    mutants = ROOT / "crates" / crate / "mutants.txt"
    return any(next(folder.glob(found), None) for folder in (ROOT, ROOT / "crates", page.parent)) or (
        mutants.exists() and name in dict(mutants_of(mutants)))


def names_in_links():
    """Each name of the sources that is the text of a link, with the page and the file that defines it."""
    for page in pages():
        for names, link in NAMES.findall(page.read_text()):
            for name in re.findall(r"`(\w+)`", names):
                yield page, name, [page.parent / link]


def names_in_files():
    """Each name that a page says is in a file, with whether that file, or one that ends so, has the word."""
    files = tracked(ROOT)
    for page in pages():
        for *names, path in PLACED.findall(page.read_text()):
            texts = [(ROOT / file).read_text() for file in files if f"/{file}".endswith(f"/{path}")]
            for name in filter(None, names):
                yield page, name, any(re.search(rf"\b{name}\b", text) for text in texts)


def names_on_the_walk():
    """Each function that docs/ARCHITECTURE.md names on the way of a line, with the files of its step."""
    page = ROOT / "docs" / "ARCHITECTURE.md"
    for folder, first, text in STEP.findall(page.read_text()):
        files = [ROOT / "crates" / folder / name for name in [first] + re.findall(r"`(\w+\.rt)`", text)]
        for name in re.findall(r"`(\w+)`", text):
            yield page, name, files


def calls_from_s2():
    """Each name in a table of docs/FROM_S2.md, with the text of its column's files and how they would define it."""
    texts = {column: "\n".join(methods.filled(file, ROOT) for glob in globs for file in ROOT.glob(glob))
             for column, (_, globs, _) in CALLS.items()}
    columns = []
    for line in (ROOT / "docs" / "FROM_S2.md").read_text().splitlines():
        cells = [cell.strip() for cell in re.split(r"(?<!\\)\|", line)[1:-1]]
        columns = (columns or cells) if cells else []
        for column, cell in zip(columns, cells):
            for name in named(column, cell):
                yield name, texts[column], CALLS[column][2].format(re.escape(name))


def named(column, cell):
    """The names in a cell of a column whose names are looked for; none in the head of the column."""
    codes = " ".join(re.findall(r"`(.*?)`", cell)) if column in CALLS else ""
    return re.findall(CALLS[column][0], codes) if codes else []


def lost_names():
    """The number of names, and those that their files don't define, as 'page: name'."""
    count, lost = 0, []
    for name, text, defines in calls_from_s2():
        count += 1
        if not re.search(defines, text, re.M):
            lost.append(f"docs/FROM_S2.md: {name}")
    for page, name, there in names_in_files():
        count += 1
        if not there:
            lost.append(f"{page.relative_to(ROOT)}: {name}")
    for page, name, files in [*names_in_links(), *names_on_the_walk()]:
        count += 1
        texts = [file.read_text() if file.exists() else "" for file in files]
        if "" in texts or not any(re.search(DEFINES.format(name), text) for text in texts):
            lost.append(f"{page.relative_to(ROOT)}: {name}")
    return count, lost


def said_twice():
    """The number of changes in CHANGELOG.md, and those that begin as an earlier one of their version does."""
    count, twice = 0, []
    for version in re.split(r"^## ", (ROOT / "CHANGELOG.md").read_text(), flags=re.M)[1:]:
        changes = [change[:60] for change in re.findall(r"^- (.*)$", version, re.M)]
        count += len(changes)
        twice += [change for place, change in enumerate(changes) if change in changes[:place]]
    return count, twice


def unexplained():
    """The number of errors that the sources make, and those that docs/TROUBLESHOOTING.md lacks or has and they don't:
    each stands in code at the head of a row of its section's first table, or for the library in its third column."""
    page = (ROOT / "docs" / "TROUBLESHOOTING.md").read_text()
    count, wrong = 0, []
    for section, (globs, form) in ERRORS.items():
        sources = "\n".join(file.read_text() for glob in globs for file in sorted(ROOT.glob(glob)))
        made = {"".join(names) if isinstance(names, tuple) else names for names in re.findall(form, sources, re.M)}
        made = {name.lower() for name in made} if section == "PostgreSQL" else made
        table = page.partition(f"\n## {section}\n")[2].partition("\n|")[2].partition("\n\n")[0]
        heads = re.findall(r"^\| `([^`]*)`", table, re.M)
        texts = re.findall(r"^\|[^|]*\| -?\d+ \| `(.*?)`", table, re.M)
        count += len(made)
        wrong += [f"{section}: {name}" for name in sorted(made ^ {*heads, *texts})]
    return count, wrong


def functions_of_mariadb():
    """The functions of install.sql, and what the page for MariaDB has more or less, or the one for SQLite under no such
    name, where a question about a cell is one about a union."""
    installed = set(re.findall(r"FUNCTION (\w+)", (ROOT / "bindings" / "mariadb" / "install.sql").read_text()))
    table = "".join(re.findall(r"^\|.*", (ROOT / "bindings/mariadb/README.md").read_text(), re.M))
    others = installed ^ set(re.findall(r"\bs2_\w+", table))
    known = set(re.findall(r"`(s2_\w+)\(", (ROOT / "bindings/sqlite/README.md").read_text()))
    return len(installed), sorted(others | {name for name in installed if name not in known
                                            and name.removesuffix("_cell") not in known})


def unlisted():
    """The number of pages for users, and those to which their index doesn't lead."""
    index = "docs/README.md"
    names = tracked(ROOT, *documents.PAGES)
    links = {os.path.normpath(f"docs/{link}") for link, _ in LINK.findall((ROOT / index).read_text())}
    return len(names), [name for name in names if name not in links | {index}]


def too_long():
    """README.md, and its length if that is 10 KiB or more."""
    length = (ROOT / "README.md").stat().st_size
    return 1, [f"{length} bytes"] if length >= 10_000 else []


def wrong_levels():
    """The rows of the table in docs/CONCEPTS.md, and those that haven't S2's average edge, to three digits, and number
    of cells."""
    units = {"km": 1000, "m": 1, "cm": 0.01, "mm": 0.001}
    row = re.compile(r"^\| (\d+) \| ([\d.,]+) (\w+) \| ([\d,]+) \|", re.M)
    page = (ROOT / "docs" / "CONCEPTS.md").read_text()
    rows = [[it.replace(",", "") for it in found] for found in row.findall(page)]
    wrong = [f"level {level}" for level, edge, unit, cells in rows if int(cells) != 6 * 4**int(level)
             or abs(float(edge) * units[unit] / (1.459213746386106 * 6371010 / 2**int(level)) - 1) > 0.005]
    return len(rows), wrong if [row[0] for row in rows] == [str(level) for level in range(31)] else ["not all levels"]


def other_kits():
    """How often a page names a kit of Rattle or the checksum of its logic, and those that the file KIT hasn't, with
    those that README.md or docs/PROOF.md hasn't."""
    kits = [line.split() for line in (ROOT / "KIT").read_text().splitlines()]
    known = {name for name, *_ in kits} | {words[-1] for words in kits}
    texts = {page.relative_to(ROOT).as_posix(): page.read_text() for page in pages()}
    name = re.compile(r"rattle-kit-\w+|(?<=logic )\w+|(?<=logic `)\w+|(?<=sum=)\w+")
    named = [(page, it) for page, text in texts.items() for it in name.findall(text) if re.search(r"\d", it)]
    missing = [f"{page}: {it} is missing" for page in ("README.md", "docs/PROOF.md") for it in sorted(known)
               if not re.search(rf"\b{it.removeprefix('rattle-kit-')}\b", texts[page])]
    return len(named), [f"{page}: {it}" for page, it in named if it not in known] + missing


def unknown_parts():
    """The number of parts that texts name after tests/run, and those that it doesn't have, as 'file: part'."""
    parts = {"--tier", "quick", "gate", "full", "bench", *PART.findall((ROOT / "tests" / "run").read_text())}
    texts = {name: (ROOT / name).read_text(errors="replace") for name in tracked(ROOT)}
    named = [(name, word) for name, text in texts.items() for words in RUNS.findall(text) for word in words.split()]
    return len(named), [f"{name}: {word}" for name, word in named if word not in parts]


def unnamed_packages():
    """The number of Debian packages that scripts of parts install, and those that the list of parts lacks."""
    loader = importlib.machinery.SourceFileLoader("run", str(ROOT / "tests" / "run"))
    runner = importlib.util.module_from_spec(importlib.util.spec_from_loader("run", loader))
    loader.exec_module(runner)
    needed = [(part.name, package, part.installs) for part in runner.PARTS
              for script in sorted({command.split()[0] for command in part.commands.values()} - {"rt"})
              for package in needed_by((ROOT / script).read_text())]
    return len(needed), sorted({f"{part}: {package}" for part, package, installs in needed
                                if package not in words_of(installs)})


def needed_by(script):
    """The Debian packages that a script of bash asks for, and those of tools/package if it calls that."""
    if not script.startswith("#!/usr/bin/env bash\n"):
        return
    if '"$top/tools/package"' in script:
        yield from needed_by((ROOT / "tools" / "package").read_text())
    for command, words in NEEDS.findall(script):
        yield from words_of(words if command == "need_installed" else words.partition(" ")[2])


def words_of(text):
    """The words of a text, with each of those that braces have, as a shell reads them."""
    for word in re.findall(r'(?:\{[^}]*\}|[^\s,;{}])+', text):
        head, *more = re.split(r"\{(.*)\}", word)
        yield from (f"{head}{it}" for it in more[0].split(",")) if more else [word]


def without_usage():
    """The number of commands of tools/, bench/ and bindings/, and those that don't answer --help by the text at their
    head."""
    commands = [path for folder in ("tools", "bench", "bindings/*") for path in sorted(ROOT.glob(f"{folder}/*"))
                if path.is_file() and not path.suffix and path.read_bytes().startswith(b"#!")]
    return len(commands), [str(path.relative_to(ROOT)) for path in commands if not prints_usage(path)]


def prints_usage(command):
    """Whether a command prints the text at its head, which names it, if it is asked for help."""
    shell, head = command.read_text().split("\n", 1)
    is_python = shell.endswith("python3")
    usage = head.split('"""')[1] if is_python else re.match("(?:#.*\n)*", head)[0].replace("# ", "").replace("#", "")
    try:
        done = subprocess.run([command, "--help"], stdin=subprocess.DEVNULL, capture_output=True, text=True,
                              check=False, timeout=600)
    except (OSError, subprocess.TimeoutExpired):  # it isn't executable, say
        return False
    return done.returncode == 0 and done.stdout.strip() == usage.strip() and command.name in usage


def wrong_modes():
    """The number of files, and the commands that aren't executable, with the files that are and are no commands."""
    files = [ROOT / name for name in tracked(ROOT)]
    return len(files), [str(file.relative_to(ROOT)) for file in files
                        if is_command(file) != bool(file.stat().st_mode & 0o100)]


def is_command(file):
    """Whether a file has no ending and names its interpreter."""
    with file.open("rb") as it:
        return "." not in file.name and it.read(2) == b"#!"


def lost_in_packages():
    """The links of docs/HEADLINE.md to definitions and contracts, and those that don't lead in a package to the line of
    the statement that has the name. `main` isn't public."""
    page = ROOT / "docs" / "HEADLINE.md"
    wanted = re.findall(r"\[`(?:\w+::)?(?!main`)(\w+)`[^\]]*\]\(\.\./crates/[^)]*\.(?:antt|rt)\)", page.read_text())
    subprocess.run([ROOT / "tools" / "statement", "--texts"], check=True)
    with tempfile.TemporaryDirectory() as folder:
        names = [f"docs/{name}" for name in (page.name, "STATEMENT.txt", "STATEMENT.rt")]
        subprocess.run([sys.executable, ROOT / "tools/packaging/documents.py", "--beside", folder, *names], check=True)
        text = (Path(folder) / page.name).read_text()
        for name, file, number in re.findall(r"\[`(?:\w+::)?(\w+)`[^\]]*\]\((STATEMENT\.\w+)#L(\d+)\)", text):
            line = (Path(folder) / file).read_text().splitlines()[int(number) - 1]
            if name in wanted and re.search(rf"(?:\b|_){name}(?:\b|_)", line):
                wanted.remove(name)
    return len(LINK.findall(text)), wanted


def uses():
    """Each crate of crates.txt, with those that it uses."""
    lines = (line.partition(":")[::2] for line in (ROOT / "crates.txt").read_text().splitlines())
    return {words.split()[0]: used.split() for words, used in lines}


def wrong_layers():
    """The crates in the table of docs/ARCHITECTURE.md, and those that use one of their own layer or a higher one."""
    page = (ROOT / "docs" / "ARCHITECTURE.md").read_text()
    layers = {name: int(layer) for layer, name in re.findall(r"^\| (\d+) \| \[`(\w+)`\]", page, re.M)}
    return len(layers), [f"{name} uses {used}" for name, libraries in uses().items() for used in libraries
                         if layers.get(name, 99) <= layers.get(used, 0)]


def unnamed_crates():
    """How many of the kit's crates `crates.txt` names, and those that docs/PROOF.md doesn't say it rests on."""
    ported = {name for libraries in uses().values() for name in libraries} - uses().keys()
    said = re.search(r"with its ported crates (.*?)\)", (ROOT / "docs" / "PROOF.md").read_text())[1]
    return len(ported), sorted(ported - set(re.findall(r"`(\w+)`", said)))


def changed_contracts():
    """The parts of contracts that pages quote, and those that no source has, whatever their spaces are."""
    sources = " ".join(" ".join((ROOT / name).read_text().split()) for name in tracked(ROOT, "crates/*.rt"))
    quoted = [(page.name, part) for page in pages() for block in RUST.findall(page.read_text()) if "ensures" in block
              for part in re.split(r"(?=\bensures\b)", block)]
    return len(quoted), [f"{name}: {part}" for name, part in quoted if " ".join(part.split()) not in sources]


CHECKS = {
    "leads nowhere": broken_links,
    "not defined in the file that is linked or named": lost_names,
    "docs/TROUBLESHOOTING.md and the sources differ": unexplained,
    "bindings/mariadb/README.md": functions_of_mariadb,
    "not in the index docs/README.md": unlisted,
    "README.md is too long": too_long,
    "the table of levels": wrong_levels,
    "a number that isn't what it counts": wrong_figures,
    "another kit": other_kits,
    "no line of the statement in a package": lost_in_packages,
    "a crate that uses one of no lower layer": wrong_layers,
    "a crate of the kit that docs/PROOF.md doesn't name": unnamed_crates,
    "a contract that isn't in the sources": changed_contracts,
    "CHANGELOG.md says twice": said_twice,
    "not in the release, without 'since' and the next version": unreleased,
    "no part of tests/run": unknown_parts,
    "installed by a part, which doesn't name it": unnamed_packages,
    "--help is not answered by its usage": without_usage,
    "executable, or else a command": wrong_modes,
}


def main():
    statement = subprocess.run([ROOT / "tools" / "statement", "--check"], capture_output=True, text=True, check=False)
    sys.stdout.write(statement.stdout + statement.stderr)
    passed, failed = map(int, re.findall(r"(\d+) passed, (\d+) failed$", statement.stdout)[0])
    return has_wrong({what: check() for what, check in CHECKS.items()}, passed, failed)


if __name__ == "__main__":
    sys.exit(main())
