#!/usr/bin/env python3
"""Tries the mutants that the contracts let through, since every contract allows memory and disks to fail:
tests/run bodies -- [NAME..].

Each mutant in tests/faults/mutants.txt names a test, in the form of tests/mutants/mutant_texts.py. The test is one of
tests/program, or `watched` for that part, or if the mutant names a crate, the title of a row of that crate's table. A
program is built once, unproved, in a copy of the repository, with all its mutants: each body that one changes is there
as it is and as the mutant has it, and a number in the built program says which is run. With the number of a mutant its
test has to fail, and without one all have to pass. `.ci/run` tries those that were asked for (--asked). The last line
is 'N passed, M failed'. Those that were refused on this machine, of the same sources by the same tests, aren't tried
again, unless they are named.
"""
import collections
import functools
import os
import re
import subprocess
import sys
import tempfile

TOP = os.path.dirname(os.path.dirname(os.path.dirname(os.path.realpath(__file__))))
MUTANTS = os.path.join(TOP, "tests", "faults", "mutants.txt")
ASKED = [
    "assignments_count_as_out_of_memory",
    "decode_always_out_of_memory",
    "folder_always_fails",
    "folder_has_no_file",
    "every_edit_answers_memory",
    "save_always_out_of_memory",
    "run_ends_at_once",
]
sys.path += [os.path.join(TOP, "tests"), os.path.join(TOP, "tests", "mutants"), os.path.join(TOP, "tools")]
import verdicts  # noqa: E402
from checks import copy_tracked, tracked  # noqa: E402
from mutant_texts import CRATE, FN, TEST, WATCHED, body_at, changed_texts, mutant_of, mutants_of  # noqa: E402
from over_gate import build_unproved, crate_of  # noqa: E402
from sources import sum_of_sources  # noqa: E402

# What `switch` answers in a program that was just built: the number of no mutant. It is turned round as a whole, so
# often that no compiler sees through it: so the number itself stands in the program.
NO_MUTANT = 0x5397_1C64_07BA_E21D
SWITCH = f"""fn switch() -> u64 {{
    let mut number = {NO_MUTANT}u64;
    for _ in 0..1024u32 {{
        number = number.rotate_left(1);
    }}
    number
}}
"""


def bodies_of(lines):
    """Where in the lines of a source the bodies of its functions stand."""
    return [body for at, line in enumerate(lines) if FN.match(line) and (body := body_at(lines, at))]


def with_choices(text, others):
    """A source in which functions have bodies of other texts too, and `switch` says by its number which text's is run.
    The texts differ in bodies alone."""
    lines, others = text.split("\n"), {number: other.split("\n") for number, other in others.items()}
    for at, body in reversed(list(enumerate(bodies_of(lines)))):
        chosen = original = lines[body]
        for number, other in others.items():
            changed = other[bodies_of(other)[at]]
            if changed != original:
                chosen = [f"if switch() == {number} {{", *changed, "} else {", *chosen, "}"]
        lines[body] = chosen
    return "\n".join([*lines, SWITCH])


def built(copy, mutants):
    """The program that has all these mutants, numbered from 1 on, or None if it isn't built."""
    texts = {number: changed_texts(mutant.text, copy) for number, mutant in enumerate(mutants, 1)}
    for path in set().union(*texts.values()):
        others = {number: it[path] for number, it in texts.items() if path in it}
        path.write_text(with_choices(path.read_text(), others))
    crate, program = mutants[0].crate, os.path.join(copy, "program")
    level = "-O0" if crate else "-O2"  # a few rows take less time than the compiler's work
    return program if build_unproved(crate_of(crate or "calculator", copy), program, level=level) else None


def numbered(program, number):
    """A copy of the program in which `switch` answers this number."""
    file = f"{program}-{number}"
    with open(program, "rb") as one, open(file, "wb") as other:
        other.write(one.read().replace(NO_MUTANT.to_bytes(8, "little"), number.to_bytes(8, "little")))
    os.chmod(file, 0o755)
    return file


def said_by(command, folder, rows="", **environment):
    done = subprocess.run(command, cwd=folder, env={**os.environ, **environment}, input=rows, capture_output=True,
                          encoding="utf-8", errors="replace")
    return done.stdout + done.stderr


def row_of(crate, title):
    """The row with this title in the table of a crate."""
    with open(os.path.join(TOP, "crates", crate, "stdin"), encoding="utf-8") as it:
        rows = re.split(r"^(?=## )", it.read(), flags=re.M)
    return next(row for row in rows if row.startswith(f"## {title}\n"))


class Mutant:
    def __init__(self, name):
        self.name, self.text = name, mutant_of(MUTANTS, name)
        crate = CRATE.search(self.text)
        self.crate, self.test = crate and crate[1], TEST.search(self.text)[1]

    @functools.cached_property
    def verdict(self):
        """The name of the verdict that it is refused: by the program and its tests, or the crate and its rows."""
        of_program = ["conftest.py", "tests/*.py", "tests/program", "tests/model", "tests/peer", "docs/SCRIPT.md"]
        of_program += ["tests/faults"] if self.test == WATCHED else []
        of = [f"crates/{self.crate}/stdin"] if self.crate else of_program
        made_by = ["tests/mutants/mutant_texts.py", "tools/over_gate.py"]
        files = [__file__, *(os.path.join(TOP, name) for name in tracked(TOP, *made_by, *of))]
        return verdicts.name_of(files, self.text, sum_of_sources(self.crate or "calculator"))

    def is_refused(self, said):
        """Whether the mutant's test ran and failed."""
        test = re.escape(self.test)  # whose name may be the beginning of another's
        failure = rf"other answers: {test}$" if self.crate else rf"(?:FAILED|ERROR) \S*::{test}(?:\[| |$)"
        failure = r"\d+ passed, [1-9]\d* failed$" if self.test == WATCHED else failure
        found = re.search(rf"^{failure}", said, re.M)
        print(f"{self.name}: {f'refused by {self.test}' if found else 'NOT REFUSED'}", flush=True)
        if found:
            verdicts.keep(self.verdict)
        else:
            print(said[-2000:])
        return bool(found)


def said_of(program, mutants):
    """What the tests of these mutants say over a program: tests of the calculator, or WATCHED, or rows of one crate."""
    tests, crate = dict.fromkeys(mutant.test for mutant in mutants), mutants[0].crate
    if not crate:
        words = ["bash", "tests/pytest.sh", "tests/program", "-k", " or ".join(tests)]
        return said_by([sys.executable, "tests/faults/watched.py"] if WATCHED in tests else words, TOP, S2CALC=program)
    rows = [f"$ rows {len(tests)}\n", *(row_of(crate, test) for test in tests)]
    return said_by(["timeout", "600", program], os.path.dirname(program), "".join(rows))


def pass_without_a_mutant(program, mutants):
    """Whether the tests of these mutants pass if none is run."""
    said, count = said_of(program, mutants), len({mutant.test for mutant in mutants})
    passed = re.search(r"^(\d+) passed, 0 failed$", said, re.M)
    if passed and int(passed[1]) >= count or re.search(r"^all rows have their answers$", said, re.M):
        return True
    print(f"the {count} tests of {mutants[0].crate or 'the program'} don't pass without a mutant\n{said[-2000:]}")
    return False


def refused(mutants):
    """How many of these mutants of one program are refused."""
    with tempfile.TemporaryDirectory() as copy:
        copy_tracked(TOP, copy, "crates", "crates.txt", "HANDLES")
        program = built(copy, mutants)
        kinds = [[mutant for mutant in mutants if (mutant.test == WATCHED) is it] for it in (False, True)]
        if not program or not all(pass_without_a_mutant(program, kind) for kind in kinds if kind):
            return 0
        return sum(mutant.is_refused(said_of(numbered(program, number), [mutant]))
                   for number, mutant in enumerate(mutants, 1))


def main():
    named = [it for it in sys.argv[1:] if it != "--asked"]
    names = named or (ASKED if sys.argv[1:] else [name for name, _ in mutants_of(MUTANTS)])
    mutants = [Mutant(name) for name in names]
    known = [] if named else [mutant for mutant in mutants if verdicts.is_kept(mutant.verdict)]
    for mutant in known:
        print(f"{mutant.name}: refused by {mutant.test}, as is known of the same sources", flush=True)
    of_one = collections.defaultdict(list)
    for mutant in mutants:
        if mutant not in known:
            of_one[mutant.crate].append(mutant)
    passed = len(known) + sum(map(refused, of_one.values()))
    print(f"{passed} passed, {len(mutants) - passed} failed")
    return passed < len(mutants)


if __name__ == "__main__":
    sys.exit(main())
