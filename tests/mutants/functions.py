"""Tries mutants of the crates, which the prover has to refuse: tests/run mutants -- [NAME..].

Each is tried by the functions that it changes, over the libraries that `rt ci` has just proved. Mutants of different
functions are made in one copy of the crate and checked together, since what is proved of a function says nothing of the
text of another. There the functions that they call have no body, and a hole in place of a proof, as a proof rests on
the statements of these alone. A mutant that isn't refused so is checked by itself, with those that it calls; and if it
names no function, with the whole crate. The next check of the copy begins with what this one proved.

`.ci/run` tries the gravest, which say so. --all tries all. First their functions have to be proved without them, and
with the same holes: otherwise the holes would be what is refused. The last line is 'N passed, M failed'. A mutant whose
check was killed, or judged nothing, was not tried: that is another thing than one that isn't refused, and fails too.
Those that are refused by a written proof alone are counted apart: what is written no longer fits the body, or names
what isn't there any more, and whether the clauses would let the mistake pass is not known. Others have an open goal.
That a mutant was refused, and that its functions are proved without it, is kept on this machine, by the sources of its
crate and of those below it, the kit and what is here; it isn't tried again if all of this is the same, unless it is
named.
"""
import collections
import concurrent.futures
import copy
import functools
import os
import re
import resource
import shutil
import subprocess
import sys
import tempfile
from pathlib import Path

from mutant_texts import (ALWAYS, FUNCTION, all_functions, drop_bodies, files_of_mutants, functions_at,
                          functions_in_cycles, functions_of, make, misfit, mutants_of)

sys.path.insert(0, str(Path(__file__).resolve().parents[2] / "tools"))
import verdicts  # noqa: E402
from over_gate import TOP, crate_of, has_libraries, words_of_check  # noqa: E402
from sources import sum_of_sources  # noqa: E402

ENDED = re.compile(r"^only=\d+ (?:proved|holes)=\d+$")
HOLE = """use Rattle.{crate}.proofs.{path}.Statement.{{statement}}

pub {name}_spec : {{M : Type 1}} → statement M
{name}_spec = ?
"""
SAID = re.compile(r"^fn \w+::(\S+): (.*)")
DEPENDS = "depends on a hole"
OPEN = re.compile(r"^fn \S+: (?:not proved|no proof)\b")
GOAL = re.compile(r"no proof: expected answers in .*`search` did not prove ")
# What is said of a text of src/ or specs/ that the prover can't read, so that it judges nothing by it. `rt must-fail`
# calls such a mutant a bad edit.
UNREAD = re.compile(r"(?:\./)?(?:src|specs)/\S+?:\d+:\d+: error: (?:(?!`[^`]*`: )|.*(?:is not in scope|has no field|"
                    r"is no name|operand is missing|expected the end|cannot continue))")
REFUSED, BY_PROOF, NOT_REFUSED, NOT_TRIED = "refused", "refused by a written proof", "NOT REFUSED", "NOT TRIED"
ALL_REFUSED = (REFUSED, BY_PROOF)
# What tries a mutant, whose verdict is another's if it changes.
TRIED_BY = [Path(__file__), Path(__file__).with_name("mutant_texts.py"), Path(TOP, "tools", "over_gate.py")]


class Mutant:
    def __init__(self, folder, name, text):
        self.folder, self.crate, self.name, self.text = folder, folder.name, name, text
        self.is_named, self.is_grave = bool(FUNCTION.search(text)), bool(ALWAYS.search(text))
        self.functions = functions_of(text, folder)
        self.changed = {*(self.functions or ()), *(functions_at(text, folder) or ())}

    def says(self, verdict, more=""):
        print(f"{self.crate}/{self.name}: {verdict}{more}", flush=True)
        if verdict in ALL_REFUSED:
            verdicts.keep(self.verdict)
        if verdict == BY_PROOF:
            verdicts.keep(self.by_proof)
        return verdict

    @functools.cached_property
    def verdict(self):
        """The name of the verdict that it is refused."""
        return verdicts.name_of(TRIED_BY, self.text, self.crate, sources_of(self.crate))

    @functools.cached_property
    def by_proof(self):
        """The name of the verdict that a written proof alone refuses it."""
        return verdicts.name_of(TRIED_BY, BY_PROOF, self.text, self.crate, sources_of(self.crate))

    @functools.cached_property
    def control(self):
        """The name of the verdict that its functions are proved without it."""
        return verdicts.name_of(TRIED_BY, "proved", self.functions, self.crate, sources_of(self.crate))


@functools.cache
def sources_of(crate):
    return sum_of_sources(crate)


def mutants():
    files = [file for file in files_of_mutants(TOP) if file.parents[1].name == "crates"]
    return [Mutant(file.parent, *mutant) for file in files for mutant in mutants_of(file)]


def rounds(mutants):
    """The mutants in groups, each of mutants of different functions."""
    while mutants:
        together, functions = [], set()
        for mutant in mutants:
            if functions.isdisjoint(mutant.functions):
                together.append(mutant)
                functions.update(mutant.functions)
        yield together
        mutants = [mutant for mutant in mutants if mutant not in together]


class Copy:
    """A copy of a crate, in which mutants are made."""

    def __init__(self, crate, words, room, takes_kept):
        self.crate, self.words, self.folder, self.takes_kept = crate, words, os.path.join(room, crate), takes_kept
        for part in ("src", "specs", "proofs"):
            source = os.path.join(TOP, "crates", crate, part)
            if os.path.isdir(source):
                shutil.copytree(source, os.path.join(self.folder, part))

    def tried(self, waiting):
        """What was found of each mutant."""
        broken = self.unproved(waiting)
        waiting = [it for it in waiting if it not in broken]
        found, is_more = [it.says(NOT_TRIED, ": not proved without it") for it in broken], True
        while is_more:
            refused = {it: verdict for together in rounds([it for it in waiting if it.functions])
                       for it, verdict in self.refused(together)}
            found += [it.says(verdict) for it, verdict in refused.items()]
            waiting = [it for it in waiting if it not in refused]
            is_more = bool(refused)
        return found + [self.by_itself(mutant) for mutant in waiting]

    def unproved(self, waiting):
        """Those of these mutants whose functions aren't proved without them."""
        same = [(mutant, self.without_mistake(mutant)) for mutant in waiting if mutant.functions]
        same = [(mutant, it) for mutant, it in same if it.functions and not self.is_kept(it)]
        asked = [it for _, it in same]
        lines = asked and (self.over_holes(asked) or self.checked(asked))
        broken = [mutant for mutant, it in same if not lines or verdict_on(it, lines) in ALL_REFUSED]
        for mutant, it in same:
            if mutant not in broken and verdict_on(it, lines) == NOT_REFUSED:
                verdicts.keep(it.control)
        return broken

    def is_kept(self, same):
        """Whether it is known that these functions are proved."""
        return self.takes_kept and verdicts.is_kept(same.control)

    def without_mistake(self, mutant):
        """The same functions with nothing changed, but for those that only the mutant has."""
        same, there = copy.copy(mutant), all_functions(self.folder)
        same.__dict__.pop("control", None)
        same.text = ""
        same.functions = [it for it in mutant.functions if any(ends_in(words, it) for words in there)]
        return same

    def refused(self, together):
        """Those of these mutants of different functions that are refused if what these call is taken as proved, each
        with its verdict."""
        lines = self.over_holes(together)
        said = [(mutant, verdict_on(mutant, lines)) for mutant in together]
        return [(mutant, verdict) for mutant, verdict in said if verdict in ALL_REFUSED]

    def over_holes(self, together):
        """What a check says of the functions of mutants if what these call is taken as proved; no lines if it came to
        no end, or something was missing in what was taken so."""
        changed = set().union(*(mutant.changed for mutant in together))
        others = [words for words in all_functions(self.folder) if not any(ends_in(words, it) for it in changed)]
        cycles = functions_in_cycles(self.folder)
        others = [words for words in others if words not in cycles and not self.folder_of(words, "+").exists()]
        written = {}
        for words in others:
            written.update(self.put_hole(words))
        lines = self.checked(together, "--allow-holes", "--short-goals", taken=others)
        for words in others:
            (self.folder_of(words) / "Proof.antt").unlink()
        restore(written)
        said = dict(match.groups() for line in lines if (match := SAID.match(line)))
        taken = [said.get("::".join(words), DEPENDS) for words in others]
        return lines if all(it.startswith(DEPENDS) for it in taken) else []

    def folder_of(self, words, cycle=""):
        """The folder with what is written of the proof of a function; with a sign for one that calls itself."""
        return Path(self.folder, "proofs", *words[:-1], cycle + words[-1])

    def put_hole(self, words):
        """Puts a hole in place of the proof of a function, and answers the texts that were there."""
        folder = self.folder_of(words)
        folder.mkdir(parents=True, exist_ok=True)
        written = {path: path.read_text() for path in folder.glob("*.antt")}
        for path in written:
            path.unlink()
        (folder / "Proof.antt").write_text(HOLE.format(crate=self.crate, path=".".join(words), name=words[-1]))
        return written

    def by_itself(self, mutant):
        """What was found of a mutant, first with the functions that those which it changes call."""
        if mutant.functions:
            verdict = verdict_on(mutant, self.checked([mutant]))
            if verdict in ALL_REFUSED or mutant.is_named:
                return mutant.says(verdict)
        return self.alone(mutant)

    def checked(self, together, *more, taken=()):
        """What a check says of the functions of mutants; no lines if it came to no end, or a text can't be read. The
        bodies of those that are taken as proved aren't there."""
        originals = {}
        for mutant in together:
            originals = {**(made(mutant, self.folder) or {}), **originals}
        originals = {**drop_bodies(self.folder, taken), **originals}
        only = [word for mutant in together for function in mutant.functions for word in ("--only", function)]
        _, lines = self.check("--incremental", "proved", *more, *only)
        restore(originals)
        unread = next(filter(UNREAD.match, lines), None)
        if ENDED.match(lines[-1]) and not unread:
            return lines
        print(f"{self.crate}: {len(together)} together: {(unread or lines[-1])[:120]}", flush=True)
        return []

    def alone(self, mutant):
        """What was found of a mutant that its functions alone don't refuse: those that call them may do."""
        texts = make(mutant.text, self.folder)
        status, lines = self.check()
        restore(texts)
        if status == 0:
            return mutant.says(NOT_REFUSED)
        if status == 1 and any(map(OPEN.match, lines)) and not any(map(UNREAD.match, lines)):
            return mutant.says(REFUSED, ", by its crate")
        return mutant.says(NOT_TRIED, f": status {status}, {lines[-1][:120]}")

    def check(self, *more):
        done = subprocess.run([*self.words, *more], cwd=self.folder, stdin=subprocess.DEVNULL, stdout=subprocess.PIPE,
                              stderr=subprocess.STDOUT, encoding="utf-8", errors="replace")
        return done.returncode, done.stdout.rstrip().split("\n")


def ends_in(words, name):
    """Whether the words of a function's name end in this name."""
    return f"::{'::'.join(words)}".endswith(f"::{name}")


def made(mutant, folder):
    """The texts that a mutant replaces in a copy, or None if it can't be made there."""
    try:
        return make(mutant.text, folder)
    except ValueError:
        return None


def restore(texts):
    for path, text in texts.items():
        path.write_text(text)


def verdict_on(mutant, lines):
    """What a check said of a mutant's functions. One that only calls a function which isn't proved is not judged: the
    mistake may be another's. One that depends on holes alone is proved."""
    names = "|".join(map(re.escape, mutant.functions))
    said = [match[1] for line in lines if (match := re.match(rf"^fn (?:\S*::)?(?:{names}): (.*)", line))]
    wrong = [it for it in said if it.startswith(("not proved", "no proof"))]
    if wrong:
        if all(it.startswith("no proof: it calls") for it in wrong):
            return NOT_TRIED
        return REFUSED if any(map(GOAL.match, wrong)) else BY_PROOF
    return NOT_REFUSED if said and all(it.startswith(("proved", DEPENDS)) for it in said) else NOT_TRIED


def words_of(crates):
    """The words of a check of each crate; the libraries below that are missing are proved first."""
    words = {}
    for name in crates:
        crate = crate_of(name)
        if not has_libraries(crate):
            sys.exit(f"a library below {name} is not proved")
        words[name] = words_of_check(crate)
    return words


def tried(chosen, takes_kept=True):
    """What was found of each of these mutants, counted; each crate's are tried beside those of others. One that can't
    be tried would keep those of its crate from being checked together."""
    crates, found = collections.defaultdict(list), []
    for mutant in chosen:
        if takes_kept and verdicts.is_kept(mutant.verdict):
            verdict = BY_PROOF if verdicts.is_kept(mutant.by_proof) else REFUSED
            found.append(mutant.says(verdict, ", as is known of the same sources"))
        elif why := misfit(mutant.text, mutant.folder):
            found.append(mutant.says(NOT_TRIED, f": {why}"))
        else:
            crates[mutant.crate].append(mutant)
    words = words_of(crates)
    checks = int(os.environ.get("RT_JOBS", 1))  # at once, by memory: set by tests/run
    with tempfile.TemporaryDirectory() as room, concurrent.futures.ThreadPoolExecutor(checks) as pool:
        try:
            return collections.Counter(sum(pool.map(
                lambda it: Copy(it[0], words[it[0]], room, takes_kept).tried(it[1]), crates.items()), found))
        except KeyboardInterrupt:  # the threads would go on to their next checks, which end with this process
            shutil.rmtree(room, ignore_errors=True)
            os._exit(130)


def processor_time():
    used = resource.getrusage(resource.RUSAGE_CHILDREN)
    return used.ru_utime + used.ru_stime


def named(names):
    """The mutants with these names."""
    chosen = [it for it in mutants() if it.name in names]
    unknown = set(names) - {it.name for it in chosen}
    if unknown:
        sys.exit(f"tests/run mutants: no mutant has the name {', '.join(sorted(unknown))}")
    return chosen


def main():
    names = [it for it in sys.argv[1:] if it != "--all"]
    if names:
        found = tried(named(names), takes_kept=False)
    elif sys.argv[1:]:
        found = tried(mutants())
    else:
        found = tried([it for it in mutants() if it.is_grave])
    failed = found[NOT_REFUSED] + found[NOT_TRIED]
    refused = found[REFUSED] + found[BY_PROOF]
    print(f"{refused} refused, {found[BY_PROOF]} of them by a written proof alone, {found[NOT_REFUSED]} not refused,"
          f" {found[NOT_TRIED]} not tried, in {processor_time() / 60:.0f} minutes of processor time")
    print(f"{refused} passed, {failed} failed")
    return failed > 0 or not found


if __name__ == "__main__":
    sys.exit(main())
