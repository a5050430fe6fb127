#!/usr/bin/env python3
"""That the tests refuse what they look for, where nothing else would tell: tests/run guards.

Each end of a part that is no good one has to count as a failure in tests/run, and the part's process group ends with
it. So has to count each step in tests/steps.sh that fails or checks nothing, each mutant there that isn't found, each
check of texts that finds something or looks at nothing, each page of SQL with an answer that isn't said, and each line
of C that computes. Then each mistake below is made in a copy of the repository, and the check beside it, of tests/docs,
tests/mutants or tools/statement, has to find more than it does without it. tests/tools/table.py does the same for
tools/calls. The last line is 'N passed, M failed'.
"""
import contextlib
import fcntl
import importlib.machinery
import importlib.util
import io
import os
import re
import signal
import subprocess
import sys
import tempfile
import time
import unittest.mock
from pathlib import Path
from typing import Callable, NamedTuple

TOP = Path(__file__).resolve().parents[1]
sys.path += [str(TOP / "tests" / "docs"), str(TOP / "tests" / "mutants")]
import budgets  # noqa: E402
import figures  # noqa: E402
import pages  # noqa: E402
import prose  # noqa: E402
import released  # noqa: E402
import rot  # noqa: E402
import schemas  # noqa: E402
import texts  # noqa: E402
from checks import copy_tracked, has_wrong  # noqa: E402


class Mistake(NamedTuple):
    """A mistake: its name, the check that has to find it, a file, what the mistake makes of the file's text, and what
    the check has to say of it."""

    name: str
    check: Callable
    file: str
    made: Callable
    said: str = ""


def swapped(old, new):
    """One text in place of another, which stands there once."""
    def made(text):
        if text.count(old) != 1:
            raise ValueError(f"its text is there {text.count(old)} times")
        return text.replace(old, new)
    return made


def ended_by(more):
    return lambda text: text + more


def statement():
    """What tools/statement --check says of the copy, as the other checks do."""
    done = subprocess.run([pages.ROOT / "tools" / "statement", "--check"], capture_output=True, text=True, check=False)
    return 1, (done.stdout + done.stderr).splitlines()[:-1]


ARMS = "".join(f"        {number} => {number},\n" for number in range(8))
HOST = "crates" + ".io"  # in two words, since no file may name it
LAST_LEAF = "a_cell_for_its_last_leaf"
WHOLE = "int32_t s2u_is_cell(uint64_t id);"
MADE_OF_UNION = """    ensures made { IsLocal xs.now → IsLocal ys.now
        → MadeInPlace result (IsNormalForm (union_of (has_leaf xs.now) (has_leaf ys.now))) out.old out.new len.new }
"""
MISSED = """        ensures missed { IfOk result (λ u. (x : ℕ) → x < LEAVES → outer_leaf self.now x ≡ true
            → has_leaf u.cells x ≡ true) }
"""
# Numbers on pages, each with its text there and with another one, and what is said then.
OTHER_NUMBERS = [
    ("docs/HEADLINE.md", "more than 4,000,000 cells", "more than 400,000 cells", "more than 400,000 cells"),
    ("docs/HEADLINE.md", "and 10,000 if it isn't given", "and 1,000 if it isn't given", "and 1,000 if it isn't given"),
    ("docs/HEADLINE.md", "with 39 contracts of C functions", "with 33 contracts of C functions",
     "with 33 contracts of C functions"),
    ("docs/HEADLINE.md", "may have a plus", "may have 12,345 pluses", "nothing is known of 12,345"),
    ("docs/PROOF.md", "at most 64 KiB, waited", "at most 32 KiB, waited", "at most 32 KiB, waited"),
    ("docs/PROOF.md", "axioms=39", "axioms=38", "that 39 functions of the C library"),
    ("README.md", "[specs](crates/s2polygon/specs), 580", "[specs](crates/s2polygon/specs), 300",
     "[specs](crates/s2polygon/specs), 300"),
]
MISTAKES = [
    Mistake("a link that leads nowhere", pages.broken_links, "README.md",
            swapped("[all tables](docs/PERFORMANCE.md)", "[all tables](docs/PERFORMANCES.md)")),
    Mistake("a link to a heading that isn't there", pages.broken_links, "docs/INSTALL.md",
            swapped("[built there](#any-postgresql-and-any-sqlite)", "[built there](#any-postgresql)")),
    Mistake("a path that isn't there", pages.broken_links, "README.md", ended_by("\n`tests/docs/pictures.py`\n")),
    Mistake("a name that its file lacks", pages.lost_names, "README.md", ended_by("\n`renamed` in `docs/rot.py`\n")),
    Mistake("a call of S2 that a language lacks", pages.lost_names, "crates/s2union_c/include/s2union.h",
            swapped(WHOLE, WHOLE.replace("is_cell", "is_a_cell"))),
    Mistake("an error that no page explains", pages.unexplained, "crates/s2union_c/include/s2union.h",
            swapped("  S2U_MANY = -6, ", "  S2U_MUCH = -6, ")),
    Mistake("a package that the list of parts lacks", pages.unnamed_packages, "bindings/go/tests/check.sh",
            swapped("need go golang-go\n", "need go golang-go gccgo\n")),
    Mistake("a function that the page for MariaDB lacks", pages.functions_of_mariadb, "bindings/mariadb/README.md",
            swapped("`s2_count`, `s2_leaves`", "`s2_count`")),
    Mistake("a page that the index lacks", pages.unlisted, "docs/README.md",
            swapped("| [SERVERS](SERVERS.md) |", "| servers |")),
    Mistake("a first page that is too long", pages.too_long, "README.md", ended_by("more\n" * 2000)),
    Mistake("a wrong number of cells of a level", pages.wrong_levels, "docs/CONCEPTS.md",
            swapped("| 5 | 291 km | 6,144 |", "| 5 | 291 km | 6,154 |")),
    *(Mistake(f"another number on a page, {new}", figures.wrong_figures, page, swapped(old, new), said)
      for page, old, new, said in OTHER_NUMBERS),
    Mistake("another constant than that of a page", figures.wrong_figures, "crates/s2edit/src/lib.rt",
            swapped("MOST_STATES: usize = 10_000;", "MOST_STATES: usize = 20_000;"), "DEPTH is from 1 to 10,000"),
    Mistake("a link that a package lacks", pages.lost_in_packages, "docs/HEADLINE.md",
            ended_by("\n[`settled`](../crates/s2union_c/src/polygons.rt)\n")),
    Mistake("a crate on the layer of one that it uses", pages.wrong_layers, "docs/ARCHITECTURE.md",
            swapped("| 9 | [`s2union_c`]", "| 8 | [`s2union_c`]")),
    Mistake("a crate of the kit that no page names", pages.unnamed_crates, "crates.txt",
            swapped("s2draw: s2cell itoa", "s2draw: s2cell itoa regex")),
    Mistake("another kit on a page", pages.other_kits, "docs/PROOF.md", ended_by(f"\n`{'rattle-kit-'}0`\n")),
    Mistake("another logic on a page", pages.other_kits, "docs/INSTALL.md", ended_by("\nThe logic `0`.\n")),
    Mistake("a contract that no source has", pages.changed_contracts, "docs/HEADLINE.md",
            ended_by("\n```rust\n    ensures { 0 ≡ 1 }\n```\n")),
    Mistake("a kit that no page names", pages.other_kits, "KIT", ended_by("a-kit-0 logic dac8208d650f15bf\n")),
    Mistake("a change that is said twice", pages.said_twice, "CHANGELOG.md",
            lambda text: re.sub(r"^- .*\n", r"\g<0>\g<0>", text, count=1, flags=re.M)),
    Mistake("a new call that pages name without a word", released.unreleased, "bindings/go/geo.go",
            ended_by("\nfunc ST_Covers() {}\n"), "ST_Covers of Go"),
    Mistake("a part of the tests that isn't there", pages.unknown_parts, "README.md",
            ended_by(f"\n`tests/run {'docks'}`\n")),
    Mistake("a command that doesn't know --help", pages.without_usage, "bindings/java/package",
            swapped('. "$(dirname "$0")/../../tools/usage.sh"\n', "")),
    Mistake("a command that can't be run", pages.wrong_modes, "bench/run", None),
    Mistake("a definition that says another thing", statement, "crates/s2process/specs/Process.antt",
            swapped("pub record RunsListed {V S : Type 0}", "pub record RunsListed {S V : Type 0}"),
            "s2process, Process RunsListed: another"),
    Mistake("checksums that aren't current", statement, "docs/statement.sums", ended_by("more\n")),
    Mistake("a clause of a call for C that is gone", statement, "crates/s2union_c/src/sets.rt",
            swapped(MADE_OF_UNION, ""), "s2union_c, sets s2u_union, clause made: gone"),
    Mistake("a clause of a public method that is gone", statement, "crates/s2polygon/src/covering.rt",
            swapped(MISSED, ""), "s2polygon, covering Polygon_outer, clause missed: gone"),
    Mistake("a clause of a method of a trait that is gone", statement, "crates/s2process/src/writer.rt",
            swapped("        ensures listed { calls_of self.new ≡ calls_of self.old ++ flush_call result ∷ [] }\n", ""),
            "s2process, writer Sink for ListedWriter, clause flush listed: gone"),
    Mistake("a clause of a call for C that says less", statement, "crates/s2union_c/src/polygons.rt",
            swapped("CoversUnless\n        (IsTooFineOuter", "most ≡ 0 → CoversUnless\n        (IsTooFineOuter"),
            "s2union_c, polygons s2u_polygon_outer, clause made: another"),
    Mistake("a definition that says less", statement, "crates/s2polygon/specs/Counts.antt",
            swapped("IsTooFine r k = MOST_TOUCHED < cells_touched r k", "IsTooFine r k = 0 < cells_touched r k"),
            "s2polygon, Counts IsTooFine: another"),
    Mistake("a constant that a contract names", statement, "crates/s2polygon/src/counting.rt",
            lambda text: re.sub(r"(const MOST_TOUCHED: \w+ = )", r"\g<1>1 + ", text), "MOST_TOUCHED: another"),
    Mistake("a call for C that the statement leaves out", statement, "tools/compiled_contracts.py",
            swapped('piece.name != "main" and', 'piece.name not in ("main", "s2u_contains") and'),
            "s2u_contains: s2union.h declares it, and STATEMENT.rt has no contract of it"),
    Mistake("a sentence above a definition", statement, "crates/s2room/specs/Ancestors.antt",
            swapped("-- `c` is a cell of `u`, or an ancestor of one\n", "-- `c` is a cell of `u`\n"),
            "s2room: the sentences above its contracts or definitions are others"),
    Mistake("a word of the kit that has no meaning", statement, "tools/kit_words.py",
            swapped('"little_bytes": (', '"small_bytes": ('), "no meaning of `little_bytes`"),
    Mistake("a definition that no public contract needs", statement, "crates/s2cell/specs/Cell.antt",
            ended_by("\n-- One that was planted.\nabbrev pub planted : ℕ\nplanted = 0\n"),
            "no public contract needs it, so it belongs into specs/Working: crates/s2cell/specs/Cell.antt: planted"),
    Mistake("a definition without its sentence", statement, "crates/s2cell/specs/Working/Entries.antt",
            ended_by("\nabbrev pub planted : ℕ\nplanted = 0\n"),
            "no sentence: crates/s2cell/specs/Working/Entries.antt: planted"),
    Mistake("a lemma that nobody cites", rot.uncited, "crates/s2cell/proofs/Ancestors.antt",
            ended_by("\nnobody_cites_it : 0 ≡ 0\nnobody_cites_it = refl\n")),
    Mistake("a name that is imported for nothing", rot.unused, "crates/s2cell/proofs/Ancestors.antt",
            ended_by("use Rattle.std.proofs.Common.{nobody_uses_it}\n")),
    Mistake("a lemma that is stated twice", rot.doubles, "crates/s2cell/proofs/Ancestors.antt",
            ended_by("\nonce_more : (a b : ℕ) → bit_xor a b ≡ 0 → a ≡ b\nonce_more a b e = same_of_xor a b e\n")),
    Mistake("a match with eight arms", rot.many_arms, "crates/s2cell/src/lib.rt",
            ended_by(f"\nfn planted(x: u8) -> u8 {{\n    match x {{\n{ARMS}    }}\n}}\n")),
    Mistake("a line that is too long", rot.long_lines, "tests/steps.sh", ended_by(f"#{'=' * 120}\n")),
    Mistake("the host of a registry", rot.hosts, "README.md", ended_by(f"\n{HOST}\n")),
    *(Mistake(f"{what} without its schema", schemas.without_schema, "bindings/postgres/s2union--1.0--1.1.sql",
              swapped(old, new)) for what, old, new in [
        ("a function", "pg_catalog.format('%s(%s'", "format('%s(%s'"),
        ("an operator", "d.objid OPERATOR(pg_catalog.=) p.oid", "d.objid = p.oid"),
        ("a type", "::pg_catalog.regclass", "::regclass"),
        ("a table", "JOIN pg_catalog.pg_depend d", "JOIN pg_depend d"),
        ("a function in a body that is no text", "pg_catalog.unnest(", "unnest(")]),
    Mistake("a text of a function that has no path", schemas.without_schema,
            "bindings/postgres/s2union_postgis--1.5.0.sql", swapped("SET search_path = pg_catalog, pg_temp\n", "")),
    Mistake("a function that a text makes without a path", schemas.without_schema, "bindings/postgres/owners.sql",
            ended_by("DO $$ BEGIN EXECUTE 'CREATE FUNCTION f() RETURNS int '\n'LANGUAGE plpgsql AS %L'; END $$;\n")),
    Mistake("a path that a text sets", schemas.without_schema, "bindings/postgres/owners.sql",
            ended_by("DO $$ BEGIN PERFORM set_config('search_path', 'public', true); END $$;\n")),
    Mistake("the end of each script without a path", schemas.without_schema, "bindings/postgres/owners.sql",
            swapped("SET LOCAL search_path = pg_catalog, pg_temp;\n", "")),
    Mistake("words that the house avoids", prose.habits, "README.md", ended_by("\nIt was asked\nabout.\n")),
    Mistake("a sentence that begins with a free what", prose.habits, "README.md",
            ended_by("\nWhat is here has to be read twice.\n")),
    Mistake("a mutant whose text is gone", texts.misfits, "crates/s2cell/mutants.txt",
            swapped("old: id: self.id + (", "old: once id: self.id + (")),
    Mistake("a mutant of a function that is gone", texts.misfits, "crates/s2cell/mutants.txt",
            swapped(f"## {LAST_LEAF}\n", f"## {LAST_LEAF}\nfunction: nowhere\n")),
    Mistake("a mutant with a line that has no meaning", texts.misfits, "crates/s2cell/mutants.txt",
            swapped(f"## {LAST_LEAF}\n", f"## {LAST_LEAF}\ngates: always\n")),
    Mistake("two mutants with one name", texts.misfits, "crates/s2cell/mutants.txt",
            lambda text: text + text[text.index(f"\n## {LAST_LEAF}\n"):]),
    Mistake("a mutant of a test that is gone", texts.misfits, "tests/faults/mutants.txt",
            swapped("## a_long_union_not_saved\ntest: test_options_of_a_run",
                    "## a_long_union_not_saved\ntest: test_options")),
    Mistake("a mutant of a row that is gone", texts.misfits, "tests/faults/mutants.txt",
            swapped("test: Union files that are read from a folder", "test: Union files")),
]

# What a part of the tests does, with what has to be counted: how many passed, and whether it has failed.
ENDS = [
    ("it prints nothing", "", 0, True),
    ("it counts nothing", "echo 0 passed, 0 failed", 0, True),
    ("it ends well", "echo 3 passed, 0 failed", 3, False),
    ("it ends with a blank line", "echo 3 passed, 0 failed; echo", 3, False),
    ("it counts a failure, and ends with 0", "echo 3 passed, 1 failed", 3, True),
    ("it counts no failure, and ends with 1", "echo 3 passed, 0 failed; exit 1", 3, True),
    ("it is killed after it has counted", "echo 3 passed, 0 failed; kill -9 $$", 3, True),
    ("it goes on after it has counted", "echo 3 passed, 0 failed; echo another", 0, True),
]

# What steps of a part in bash do, with the last line that it prints.
STEPS = [
    ("step a true; step b false", "1 passed, 1 failed"),
    ("step a echo 0 passed, 0 failed", "0 passed, 1 failed"),
    ("step a echo 7 passed, 0 failed", "1 passed, 0 failed"),
    ("need no-such-command a-package; step a test \"${packages[*]}\" = a-package", "1 passed, 0 failed"),
    ("install_packages() { false; }; packages=(none); need_packages; step a true", "0 passed, 1 failed"),
    ("apt-get() { rm \"$work/x\" || return 0; echo Unable to lock directory x; return 100; }; sleep() { :; }; "
     "touch \"$work/x\"; step a update_lists", "1 passed, 0 failed"),
    ("apt-get() { rm \"$work/x\" || return 0; return 100; }; touch \"$work/x\"; step a update_lists",
     "0 passed, 1 failed"),
    ("tests() { return 1; }; survives() { refuse; }; step a found edit", "1 passed, 0 failed"),
    ("tests() { return 0; }; survives() { refuse; }; step a found edit", "0 passed, 1 failed"),
    ("tests() { return 137; }; survives() { refuse; }; step a found edit", "0 passed, 1 failed"),
    ("tests() { return 124; }; survives() { refuse; }; step a found edit", "0 passed, 1 failed"),
    ("survives() { [ -z \"$1\" ] || return 124; }; step a found edit", "1 passed, 0 failed"),
    ("survives() { return 1; }; echo '## a' >\"$work/m\"; try_mutants \"$work/m\"", "0 passed, 1 failed"),
    ("survives() { return 0; }; echo '## a' >\"$work/m\"; try_mutants \"$work/m\"", "1 passed, 1 failed"),
    ("survives() { [ -z \"$1\" ]; }; echo '## a' >\"$work/m\"; try_mutants \"$work/m\"", "2 passed, 0 failed"),
    ("survives() { [ -z \"$1\" ]; }; try_mutants /dev/null", "1 passed, 1 failed"),
]

# In which the runner, `module`, is ended, and by which signal: then `holds`, which it runs, has to end too.
KILLED = [
    ("a lane whose gate is killed", "lane = module.Lane(['docs'], room, ''); time.sleep(600)", signal.SIGKILL),
    ("a part that is run", "module.end_by_signals(); module.shown(['sh', '-c', f'{holds}; :'], print)", signal.SIGTERM),
]
HOLDS = "import fcntl, time; it = open({!r}, 'w'); fcntl.flock(it, fcntl.LOCK_EX); print(flush=True); time.sleep(600)\n"

# What a check of texts has looked at and found, with whether it has failed.
CHECKS = [(3, [], False), (3, ["a mistake"], True), (0, [], True)]

# Pages of examples for a command that answers each line by itself, and ends at one that says so, with whether they are
# right.
EXAMPLE = "```sql\n{}\n```\n\n```text\n{}\n```\n"
PAGES = [
    (EXAMPLE.format("SELECT 1;", "SELECT 1;"), True),
    (EXAMPLE.format("SELECT 1;", "SELECT 1;") + EXAMPLE.format("SELECT 2;", "2"), False),
    (EXAMPLE.format("SELECT 1;", "SELECT 1;") + "```sql\nends\n```\n", False),
    ("No example.\n", False),
]

# Lines of C, with whether they may stand where only the library knows about cells.
LINES = [("int x = y << 3;", False), ("x = y & 1;", False), ("x |= y;", False), ("x = ~y;", False),
         ("x = y | z;", False), ("x = aB | CD;", False), ("x = y % 3;", False), ("x = y ^ z;", False),
         ("if (y & ~(z - 1)) return;", False), ("x = READ | WRITE; /* y << 3 */", True),
         ('f(&x, "y << 3"); // y % 3', True), ("if (y && z) f(x * 2);", True)]


class Counts:
    """What passed and what failed."""

    def __init__(self):
        self.passed = self.failed = 0

    def tell(self, what, is_well, said=""):
        self.passed, self.failed = self.passed + is_well, self.failed + (not is_well)
        if not is_well:
            print(f"NOT REFUSED: {what}\n{said}", flush=True)


def the_runner():
    """tests/run, as a module."""
    loader = importlib.machinery.SourceFileLoader("run", str(TOP / "tests" / "run"))
    module = importlib.util.module_from_spec(importlib.util.spec_from_loader("run", loader))
    loader.exec_module(module)
    return module


def becomes(is_so):
    """Whether something is so within ten minutes, since a machine may be busy."""
    ends = time.monotonic() + 600
    while not is_so() and time.monotonic() < ends:
        time.sleep(0.05)
    return is_so()


def is_held(file):
    """Whether a process that lives has locked the file."""
    with open(file, "a", encoding="ascii") as it:
        try:
            fcntl.flock(it, fcntl.LOCK_EX | fcntl.LOCK_NB)
        except BlockingIOError:
            return True
    return False


def ends_of_the_runner(counts, room):
    """Kills tests/run, and asks whether it runs on; and reads less of --list than there is."""
    (room / "tests").mkdir()
    for name, text, number in KILLED:
        held, run = room / f"{name}.held", room / "tests" / "run"
        run.write_text(HOLDS.format(str(held)))
        script = (f"import sys, time; sys.path.append({str(TOP / 'tests')!r}); import guards; "
                  f"module, room, holds = guards.the_runner(), {str(room)!r}, '{sys.executable} {run}'; {text}")
        with subprocess.Popen([sys.executable, "-c", script], stdout=subprocess.DEVNULL) as process:
            has_begun = becomes(lambda: is_held(held))
            process.send_signal(number)
        counts.tell(f"{name}, which runs on", has_begun and becomes(lambda: not is_held(held)))
    done = subprocess.run(f"'{TOP}/tests/run' --list | head -1", shell=True, capture_output=True, text=True,
                          check=False)
    counts.tell("--list, of which a line is read", (done.stdout.count("\n"), done.stderr) == (1, ""), done.stderr)


def ends_of_parts(counts, room):
    """Runs each of these parts by tests/run, one that is given words, one that isn't there, and measurements."""
    module = the_runner()
    module.TOP = str(room)

    def ended(name, tier, text, words=()):
        (room / "part.sh").write_text(text)
        part = module.Part(name, name, {tier: "part.sh 7" if text else "no-such-command"}, 0)
        with contextlib.redirect_stdout(io.StringIO()) as said:
            return module.run(part, tier, [*words]), said

    for name, text, passed, has_failed in ENDS:
        done, said = ended(name, "gate", text or "\n")
        counts.tell(name, (done.passed, done.failed > 0) == (passed, has_failed), said.getvalue())
    for name, tier, text, has_failed in (("its command is missing", "gate", "", True),
                                         ("a measurement without counts", "bench", "echo 7 us", False),
                                         ("a measurement that ends with 1", "bench", "echo 7 us; exit 1", True)):
        done, said = ended(name, tier, text)
        counts.tell(name, (done.failed > 0) == has_failed, said.getvalue())
    for words, wanted in ((), "7"), (["9"], "9"), (["x", "9"], "x 9"):
        done, said = ended("its words", "gate", f'[ "$*" = "{wanted}" ] && echo 1 passed, 0 failed', words)
        counts.tell(f"a part with 7 as its last word that is given {words}", done.passed == 1, said.getvalue())
    table = "a                      3 passed    0 failed      1.5 s      0.2 s of processor time\n"
    runs = module.of_table(["a", "b"], f"{table}3 passed, 0 failed\n")
    counts.tell("a part beside the others without a row", (runs["a"].passed, runs["b"].failed) == (3, 1), str(runs))
    runs = {"docs": module.Run(5, 1, 0, 0), "program": module.Run(3, 1, 0, 0)}
    lines = list(module.table(runs))
    counts.tell("what was looked at in texts, as tests that passed", lines[-1] == "3 passed, 2 failed", str(lines))
    *_, last = module.table({"docs": module.Run(5, 1, 0, 0), "rot": module.Run(4, 0, 0, 0)})
    counts.tell("texts alone, as no test that passed", last == "9 looked at, 1 failed", last)
    again = module.of_table(list(runs), "\n".join(lines))
    counts.tell("a row of texts in the table of a lane", again == runs, str(again))
    done = subprocess.run([TOP / "tests" / "run", "--list"], capture_output=True, text=True, check=False)
    counts.tell("--list, which doesn't say what each folder has", "\ntests/tools " in done.stdout, done.stderr)
    plain = subprocess.run(["git", "grep", "-c", "", "--", "tools"], cwd=TOP, capture_output=True, text=True,
                           check=False).stdout
    of_tools = sum(int(line.rpartition(":")[2]) for line in plain.splitlines())
    *rows, whole = [(int(row.split()[0].replace(",", "")), row) for row in the_runner().sizes()]
    counts.tell("a table of lines in which some are left out", sum(count for count, _ in rows) == whole[0] and
                any(count == of_tools and "lines  tools" in row for count, row in rows), f"{of_tools}, {rows}")
    lines = {top: of.total() for top, of in the_runner().lines_of_texts().items()
             if top[0] != "." and (TOP / top).is_dir()}
    count, wrong = budgets.passed(lines)
    counts.tell("a folder, a call or a sentence beyond its figure", count and not wrong, "\n".join(wrong))
    counts.tell("a folder that grows unseen", len(budgets.passed({**lines, "tools": 10 ** 6})[1]) == len(wrong) + 1)
    with unittest.mock.patch.object(module.shutil, "which", lambda name: None), \
            contextlib.redirect_stdout(io.StringIO()) as said:
        lacking = [module.lacks_kit(module.chosen([], tier)) for tier in ("quick", "gate")]
    counts.tell("the quick tier without the kit", lacking == [False, True], said.getvalue())
    lane = module.Over(room / "proofs")
    lane.file.write_text(f"{room}\n")
    (room / "part.sh").write_text(f"echo '{module.ENDED}' >>'{lane.file}'; echo 1 passed, 0 failed\n")
    parts = [module.Part(*it, {"gate": "part.sh"}, 0, over=over) for it, over in (("ab", "s2union_c"), ("cd", ""))]
    with contextlib.redirect_stdout(io.StringIO()) as said:
        runs = [list(lane.runs(parts, "gate").items()) for _ in range(2)]
    order = [(name, done.failed) for name, done in runs[0]]
    counts.tell("a part that waits for proofs, before one that doesn't, or twice",
                (order, runs[1]) == ([("c", 0), ("a", 1)], []), said.getvalue())
    (room / "sources.py").write_text("raise ImportError\n")
    done = subprocess.run([TOP / "tests" / "run", "--list"], capture_output=True, text=True, check=False,
                          env={**os.environ, "PYTHONPATH": str(room), "LC_ALL": "xx_YY"})
    counts.tell("modules of the user's in the place of its own", done.returncode == 0, done.stderr)
    done = subprocess.run([TOP / "tests" / "run", "docs"], capture_output=True, text=True, check=False,
                          env={"PATH": str(room)})
    is_a_line = (done.returncode, done.stdout, done.stderr.count("\n")) == (127, "", 1) and "python3" in done.stderr
    counts.tell("without Python, not by a line of the system", is_a_line, done.stderr)
    done = subprocess.run([TOP / "tests" / "run", "no-such-part"], capture_output=True, text=True, check=False)
    counts.tell("a part that isn't there", done.returncode == 1 and "no part has the name" in done.stderr, done.stderr)


def ends_of_steps(counts):
    for text, wanted in STEPS:
        script = f'. "{TOP}/tests/steps.sh"\n{text}\nfinish\n'
        done = subprocess.run(["bash", "-c", script], capture_output=True, text=True, check=False)
        is_well = done.stdout.splitlines()[-1:] == [wanted] and (done.returncode == 0) == wanted.endswith(" 0 failed")
        counts.tell(text, is_well, done.stdout + done.stderr)


def ends_of_checks(counts):
    for count, wrong, has_failed in CHECKS:
        with contextlib.redirect_stdout(io.StringIO()) as said:
            is_well = has_wrong({"it is wrong": (count, wrong)}) == has_failed
        is_well = is_well and said.getvalue().endswith(f" {int(has_failed)} failed\n")
        counts.tell(f"a check of {count}: {wrong}", is_well, said.getvalue())


def said_by(script, *words):
    return subprocess.run([sys.executable, TOP / "tests" / script, *words], capture_output=True, text=True, check=False)


def ends_of_pages(counts, room):
    for text, is_right in PAGES:
        (room / "page.md").write_text(text)
        done = said_by("docs/documented.py", room / "page.md", "sed", r"s/^\\echo //; /ends/Q")
        counts.tell(f"the page {text}", (done.returncode == 0) == is_right, done.stdout + done.stderr)
    for line, is_right in LINES:
        (room / "line.c").write_text(line + "\n")
        done = said_by("no_arithmetic.py", room / "line.c")
        counts.tell(f"the line {line}", (done.returncode == 0) == is_right, done.stdout + done.stderr)


def make(mistake, file):
    """Makes a mistake in a file; one of no text takes its mode."""
    if mistake.made:
        file.write_text(mistake.made(file.read_text(encoding="utf-8")), encoding="utf-8")
    else:
        file.chmod(0o644)


def mistakes(counts, room):
    room.mkdir()
    copy_tracked(TOP, room)
    for words in (["init", "-q"], ["add", "-A"]):
        subprocess.run(["git", *words], cwd=room, check=True)
    for module in (figures, pages, prose, released, rot, schemas, texts):
        module.ROOT = room
    without = {}
    for some in at_once():
        check = some[0].check
        if check not in without:
            without[check] = check()[1]
        files = {room / mistake.file for mistake in some}
        before = {file: (file.read_text(encoding="utf-8"), file.stat().st_mode) for file in files}
        try:
            for mistake in some:
                make(mistake, room / mistake.file)
            found = check()[1]
            for mistake in some:
                is_found = len(found) > len(without[check]) and mistake.said in "\n".join(found)
                counts.tell(mistake.name, is_found, f"{check.__name__}: {found}")
        except ValueError as why:
            counts.tell(f"{', '.join(mistake.name for mistake in some)}: can't be made: {why}", False)
        for file, (text, mode) in before.items():
            file.write_text(text, encoding="utf-8")
            file.chmod(mode)


def at_once():
    """The mistakes, each alone, but those of a check together of which it has to say something: it says it of each."""
    together = {}
    for number, mistake in enumerate(MISTAKES):
        together.setdefault(mistake.check if mistake.said else number, []).append(mistake)
    return together.values()


def main():
    counts = Counts()
    with tempfile.TemporaryDirectory() as room:
        ends_of_the_runner(counts, Path(room))
        ends_of_parts(counts, Path(room))
        ends_of_pages(counts, Path(room))
    ends_of_steps(counts)
    ends_of_checks(counts)
    with tempfile.TemporaryDirectory() as room:
        mistakes(counts, Path(room).resolve() / "src")  # a name that folders of it have too
    print(f"{counts.passed} passed, {counts.failed} failed")
    return counts.failed > 0


if __name__ == "__main__":
    sys.exit(main())
