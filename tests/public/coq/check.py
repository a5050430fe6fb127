"""Whether Coq accepts the laws of laws.py, by the proofs in crates: tests/public/coq/check.py [--tier gate|full]
--library FILE. With --program FILE it makes the checker of answers, and with --definitions FOLDER it writes the
definitions in Coq's words; then it checks nothing else.

translate.py puts the modules of crates that the laws stand on into Coq's words, anew in each run, and Coq's kernel
checks each definition and each proof. Then Coq says of each law on which axioms it stands: on none. Then mistakes are
planted in copies of crates, and each has to be noticed. At last the checker of answers, which Checker.v proves, is made
into a program, and is asked about answers of the library FILE, about spoilt ones, and about files. With --sources
FOLDER it writes there what the program is made of, with all that Coq reads for its proof, and runs nothing. It needs
Debian's coq, libcoq-equations, ocaml, libzarith-ocaml-dev and make. The last line is 'N passed, M failed'."""
import argparse
import re
import shutil
import subprocess
import sys
import tempfile
from collections import Counter
from concurrent.futures import ThreadPoolExecutor
from pathlib import Path
from typing import NamedTuple

HERE = Path(__file__).resolve().parent
sys.path[1:1] = [str(HERE.parent)]
import laws  # noqa: E402
import page  # noqa: E402
from antt import Bad  # noqa: E402
from translate import END_OF_HEAD, HEAD, Library  # noqa: E402

CRATES = HERE.parents[2] / "crates"
CLOSED = "Closed under the global context"
LAWS, ONE = "Laws", "Definitions"
PAGE = page.PAGES / "CHECK.md"
PROGRAM = "s2union-check"
OF_PROGRAM = HERE.parent / "program"
PROGRAM_FILES = ("Makefile", "checker.ml", "s2union_check.ml")
CHECKER = ("Checker", "Coverings", "Program")  # in this order
OF_CHECKER = tuple(f"Rattle.{name}" for name in (
    "s2list.proofs.Normal", "s2list.proofs.PackedLocal", "s2list.specs.Sets", "s2list.specs.Denorm",
    "s2cover.specs.Coverings"))
MODULES = (laws.MODULE, *(law.module for law in laws.ANSWERED), *OF_CHECKER)
SECONDS = 900  # for a file; each takes less than ten
AT_ONCE = 3


class Refused(Exception):
    """Coq doesn't take a file: its name, and what was said."""


class Change(NamedTuple):
    """A mistake that is planted: the file in crates, or of the kit's words here, the text and what is in its place, and
    the file that Coq then has to refuse."""

    file: str
    right: str
    wrong: str
    refused: str


CHANGES = (
    Change("s2list/src/laws.rt", "IsLocal xs → IsLocal ys → (", "IsLocal xs → (", LAWS),
    Change("s2list/specs/Union.antt", "greatest : 0 < level_of c", "greatest : 1 < level_of c", "s2list_proofs_Normal"),
    Change("s2list/proofs/Normal.antt", "pub normal_from_local : (u : List ℕ) → IsLocal u →",
           "pub normal_from_local : (u : List ℕ) → All IsCell u →", "s2list_proofs_Normal"),
    Change("Kit.v", "P (get_or xs k d)", "P d", "Kit"),
)
# Those of the full tier alone, of the laws of all tiers and of the slow ones.
MORE_CHANGES = (
    Change("s2list/src/laws.rt", "IsLocal xs → IsNormalForm (has_leaf xs) xs", "IsNormalForm (has_leaf xs) xs", LAWS),
    Change("s2cell/specs/Cell.antt", "level : k ≤ 30", "level : k ≤ 31", "s2cell_proofs_CellLemmas"),
    Change("s2cell/src/laws.rt", "IsPlaceOf (n + 1) face x y", "IsPlaceOf (n + 2) face x y", "laws_law_of_places"),
    Change("s2cell/src/laws.rt", "bit_xor (orientation_of c) (turn p)", "bit_xor (orientation_of c) p",
           "laws_law_of_squares"),
    Change("s2cell/src/laws.rt", "IsDebug text n ↔ (text ≡ debug_of n)", "IsDebug text n ↔ (text ≡ token_of n)",
           "laws_law_of_texts"),
    Change("s2cover/src/laws.rt", "≡ true) ↔ IsInInner R k x", "≡ true) ↔ IsInOuter R k x", "laws_covering_sets"),
)
SLOW_CHANGES = (
    Change("s2polygon/src/laws.rt", "q.u0 <ℤ q.u1 → q.v0 <ℤ q.v1", "q.u0 <ℤ q.u1", "laws_law_of_tests"),
    Change("s2polygon/src/laws.rt", "r.margin ≤ margin → outer_leaf r x", "margin ≤ r.margin → outer_leaf r x",
           "laws_law_of_margins"),
)
# Random pairs, and pairs of coasts; of each, thirteen questions are asked.
PAIRS = {"gate": (1500, 100), "full": (9000, 1000)}
SPOILT = (60, 40)
THEOREMS = {
    "Checker": ("accepted_is_right", "the_only_one", "refused_is_wrong", "right_is_accepted", "yes_is_right",
                "no_is_right", "holds_is_yes", "fails_is_no", "cut_is_right", "cut_is_accepted"),
    "Coverings": ("accepted_covering_is_right", "the_only_covering", "refused_covering_is_wrong",
                  "right_covering_is_accepted")}
# A lemma that a law stands on, and the law.
NEEDED = "s2list_proofs_Shortest.shorter", "shortest"


def by_hand():
    """The proofs of by_hand.v, by the lemmas' names."""
    text = (HERE / "by_hand.v").read_text(encoding="utf-8")
    found = re.findall(r"^\(\* (\w+\.\w+(?:,\s+\w+\.\w+)*) \*\)\n.*?(^Proof\..*?\bQed\.)", text, re.M | re.S)
    return {name: proof for names, proof in found for name in re.split(r",\s+", names)}


def cited():
    """The lemmas of crates that the proofs of the checker cite, by their files and names in Coq."""
    text = "".join((HERE / f"{file}.v").read_text(encoding="utf-8") for file in THEOREMS)
    return dict.fromkeys(re.findall(r"\b(s2\w+_proofs_\w+)\.(\w+)", text))


def compiled(folder, file):
    """Has Coq read a file, and gives what it prints."""
    done = subprocess.run(["coqc", f"{file}.v"], cwd=folder, capture_output=True, encoding="utf-8", timeout=SECONDS,
                          check=False)
    if done.returncode != 0:
        raise Refused(file, (done.stdout + done.stderr)[-2000:])
    return done.stdout


class Build:
    """A folder with the translated modules of a folder of crates."""

    def __init__(self, folder, modules, crates=CRATES, kit=None, axioms=()):
        self.folder = Path(folder)
        (self.folder / "Kit.v").write_text(kit or (HERE / "Kit.v").read_text(encoding="utf-8"), encoding="utf-8")
        self.library = Library(crates, axioms, by_hand(), laws.texts(crates, modules))
        more = (*cited(), *(law[:2] for law in laws.OF_CALLS)) if OF_CHECKER[0] in modules else ()
        self.all = ["Kit", *self.library.write(folder, modules, more)]
        self.files = list(self.all)
        chosen, module_of = self.library.chosen, self.library.module
        self.below = {"Kit": []} | {module.file: ["Kit", *(module_of(each["module"]).file for each in module.uses()
                                                           if each["module"] in chosen)]
                                    for module in self.library.modules.values()}

    def keep(self, other):
        """Takes what Coq made of the other build's files, of those that are the same and stand on the same."""
        kept = []
        for file in self.files:
            if self.read(file) == other.read(file) and all(each in kept for each in self.below[file]):
                for path in other.folder.glob(f"{file}.*"):
                    shutil.copy2(path, self.folder)
                kept.append(file)
        self.files = [file for file in self.files if file not in kept]

    def leave_out_others_than(self, modules):
        """Leaves out the files that these modules, the lemmas that the checker cites, and all below them do without."""
        wanted = [*(self.library.module(name).file for name in modules), *(file for file, _ in cited())]
        kept = set()
        while wanted:
            file = wanted.pop()
            if file not in kept:
                kept.add(file)
                wanted += self.below[file]
        for file in self.files:
            if file not in kept:
                (self.folder / f"{file}.v").unlink()
        self.files = [file for file in self.files if file in kept]

    def read(self, file):
        path = self.folder / f"{file}.v"
        return path.read_text(encoding="utf-8") if path.exists() else None

    def check(self):
        """Has Coq check all files, some at once, each after those that it uses."""
        done = {}
        with ThreadPoolExecutor(AT_ONCE) as pool:
            for file in self.files:
                below = [done[each] for each in self.below[file] if each in done]
                done[file] = pool.submit(self.check_one, file, below)
            try:
                for each in done.values():
                    each.result()
            except Refused:
                pool.shutdown(cancel_futures=True)
                raise

    def check_one(self, file, below):
        for each in below:
            each.result()
        compiled(self.folder, file)

    def resting_on(self, files):
        """These files and those that stand on one of them."""
        found = set(files)
        for file in self.files:
            if found & set(self.below[file]):
                found.add(file)
        return found

    def check_as_one(self, files):
        """Has Coq check files as modules of one file, ONE, as each file alone would load the libraries again."""
        head = HEAD.format(uses="".join(f"Require {file}.\n" for file in self.all if file not in self.files))
        parts = [f"Module {file}.\n{self.read(file).partition(END_OF_HEAD)[2]}End {file}.\n" for file in files]
        (self.folder / f"{ONE}.v").write_text(head + "".join(parts), encoding="utf-8")
        compiled(self.folder, ONE)

    def reason(self, file):
        """Why Coq refuses a file that stands on modules of ONE, if it does."""
        head = HEAD.format(uses=f"Require Import {ONE}.\n")
        (self.folder / f"{file}.v").write_text(head + self.read(file).partition(END_OF_HEAD)[2], encoding="utf-8")
        try:
            compiled(self.folder, file)
        except Refused as error:
            return f"Coq: {' '.join(error.args[1].partition('Error:')[2].split())[:160]}"
        return None

    def axioms_of(self, file, names):
        """The axioms on which each of the names stands, of which `file` has the definitions."""
        lines = [f"Require {file}.", *(f"Print Assumptions {file}.{name}." for name in names)]
        (self.folder / "Axioms.v").write_text("\n".join(lines) + "\n", encoding="utf-8")
        found = []
        for line in compiled(self.folder, "Axioms").split("\n"):
            if line in (CLOSED, "Axioms:"):
                found.append([])
            elif axiom := re.match(r"(\S+)(?: :|$)", line):
                found[-1].append(axiom[1])
        if len(found) != len(names):
            raise Refused("Axioms", f"{len(found)} answers to {len(names)} questions")
        return dict(zip(names, found))


class Count:
    """What was tried, and how often it was as it has to be."""

    def __init__(self):
        self.passed = self.failed = 0

    def check(self, is_right, text, told=""):
        self.passed, self.failed = self.passed + is_right, self.failed + (not is_right)
        print(f"{'ok    ' if is_right else 'FAILED'} {text}", flush=True)
        if not is_right and told:
            print(told, flush=True)


def check_laws(build, count):
    """Whether Coq takes all files, and no law stands on an axiom."""
    build.check()
    count.check(True, f"{len(build.files)} files, {build.library.declared} definitions and lemmas of crates: taken by "
                "Coq")
    unused = sorted(name for name in set(by_hand()) - build.library.proved_by_hand
                    if name.partition(".")[0] in build.all)
    count.check(not unused, "each proof of by_hand.v is used", f"not used: {', '.join(unused)}")
    for name, found in build.axioms_of(LAWS, list(laws.NAMES)).items():
        count.check(not found, f"{laws.NAMES[name]}: checked by Coq, {standing(found)}")
    for law in laws.ANSWERED:
        check_answered(law, build, count)
    for file, lemma, says in laws.OF_CALLS:
        found = build.axioms_of(file, [lemma])[lemma]
        count.check(not found, f"{lemma}: {says}: checked by Coq, {standing(found)}")


def check_claims(tier, count):
    """Whether CHECK says of each law on HEADLINE what is so; prints it, and of laws that only the full tier checks that
    this run doesn't."""
    claims = page.check_page()
    count.check(True, f"{PAGE.name} has the {len(claims)} laws of HEADLINE.md, each with its verdict")
    for law, verdict in claims.items():
        is_left_out = verdict == page.LATER and tier != "full"
        print(f"       {law}: {'not in this run, in the full tier' if is_left_out else verdict}")


def check_answered(law, build, count):
    """Whether no clause of a law stands on an axiom."""
    names = laws.answered_text(CRATES, law)[1]
    found = sorted({each for of_it in build.axioms_of(f"laws_{law.function}", names).values() for each in of_it})
    clauses = f", clauses {', '.join(name.removeprefix('clause_') for name in names)}" if len(names) > 1 else ""
    count.check(not found, f"{law.function}{clauses}: {law.says}: checked by Coq, {standing(found)}")


def check_slow_laws(count):
    """Whether Coq takes the laws of the full tier, and none stands on an axiom."""
    with tempfile.TemporaryDirectory() as folder:
        modules = [law.module for law in laws.SLOW]
        build = Build(folder, modules)
        build.check()
        count.check(True, f"{len(build.files)} files, {build.library.declared} definitions and lemmas: taken by Coq")
        for law in laws.SLOW:
            check_answered(law, build, count)
        for change in SLOW_CHANGES:
            check_change(change, modules, build, count)


def standing(axioms):
    return f"stands on {', '.join(axioms)}" if axioms else "no axiom"


def with_change(change, folder):
    """A copy of the crates, and the kit's words, with a mistake."""
    crates, kit = Path(folder) / "crates", (HERE / "Kit.v").read_text(encoding="utf-8")
    crates.mkdir()
    changed = change.file.split("/")[0]
    for path in CRATES.iterdir():
        if path.name == changed:
            shutil.copytree(path, crates / path.name, ignore=shutil.ignore_patterns("out"))
        else:
            (crates / path.name).symlink_to(path)
    path = HERE / "Kit.v" if change.file == "Kit.v" else crates / change.file
    text = path.read_text(encoding="utf-8")
    if text.count(change.right) != 1:
        raise Bad(f"{change.file}: {change.right} stands there {text.count(change.right)} times")
    text = text.replace(change.right, change.wrong)
    if change.file == "Kit.v":
        return crates, text
    path.write_text(text, encoding="utf-8")
    return crates, kit


def check_change(change, modules, right, count):
    words = f"{change.file}: {change.wrong} in place of {change.right}"
    with tempfile.TemporaryDirectory() as copy, tempfile.TemporaryDirectory() as folder:
        build = Build(folder, modules, *with_change(change, copy))
        build.keep(right)
        try:
            build.check()
            refused = "nothing"
        except Refused as error:
            refused = error.args[0]
    count.check(refused == change.refused, f"{words}: Coq refuses {refused}", f"it has to refuse {change.refused}")


def check_axiom(right, count):
    """Whether a law that gains an axiom is noticed."""
    lemma, law = NEEDED
    with tempfile.TemporaryDirectory() as folder:
        build = Build(folder, MODULES, axioms=[lemma])
        build.keep(right)
        build.check()
        found = build.axioms_of(LAWS, [law])[law]
    count.check(found == [lemma], f"{lemma} without its proof: the law {law} {standing(found)}")


def run(folder, *command):
    done = subprocess.run(command, cwd=folder, capture_output=True, encoding="utf-8", timeout=SECONDS, check=False)
    if done.returncode != 0:
        raise Refused(command[0], (done.stdout + done.stderr)[-2000:])
    return done.stdout


def definitions():
    """The modules of definitions that are stated in crates."""
    paths = [path.relative_to(CRATES).with_suffix("") for path in sorted(CRATES.glob("*/specs/**/*.antt"))]
    return [f"Rattle.{'.'.join(path.parts)}" for path in paths if path.name != "Lib" and "Working" not in path.parts]


def untyped():
    """The modules of definitions that Coq doesn't type, by untyped.txt."""
    lines = (HERE / "untyped.txt").read_text(encoding="utf-8").split("\n")
    return [f"Rattle.{line.replace('/', '.')}" for line in lines if line and not line.startswith("#")]


def why_not_read(folder, modules):
    """Of the modules that aren't put into Coq's words the reason, which is the first word or type that isn't known."""
    found = {}
    for name in modules:
        try:
            Library(CRATES).write(folder, [name])
        except Bad as error:
            found[name] = str(error).removeprefix(f"{CRATES}/")
    return found


def refusals(build, names, refused):
    """The reasons why Coq refuses modules: its own, or that they stand on one that it refuses."""
    found = {}
    for name in names:
        file = build.library.file(name)
        reason = "it uses one of these" if refused & set(build.below[file]) else build.reason(file)
        found |= {name: reason} if reason else {}
    return found


def check_statement(right, count):
    """Which modules of definitions Coq types, and why not the others; it has to be all that untyped.txt doesn't list.
    And whether Coq takes the theorem that the page states over them."""
    modules = definitions()
    with tempfile.TemporaryDirectory() as folder:
        reasons = why_not_read(folder, untyped())
        build = Build(folder, [name for name in modules if name not in reasons])
        build.keep(right)
        refused = build.resting_on(build.library.file(name) for name in untyped() if name not in reasons)
        build.check_as_one([file for file in build.files if file not in refused])
        reasons |= refusals(build, [name for name in modules if build.library.file(name) in refused], refused)
        typed = [name.removeprefix("Rattle.") for name in modules if name not in reasons]
        count.check(sorted(reasons) == sorted(untyped()), f"{len(typed)} of {len(modules)} modules of definitions "
                    f"typed by Coq: {', '.join(typed)}",
                    f"not as untyped.txt has it: {', '.join(sorted(set(reasons) ^ set(untyped())))}")
        for name, reason in reasons.items():
            print(f"       {name.removeprefix('Rattle.')}: not typed: {reason}")
        text = PAGE.read_text(encoding="utf-8")
        words = f"{len(typed)} of the {len(modules)} modules of definitions"
        count.check(words in text, f"{PAGE.name} says: {words}", "it doesn't")
        example = re.findall(r"^```coq\n(.*?)^```$", text, re.M | re.S)
        for at, text in enumerate(example):
            Path(folder, f"Example{at}.v").write_text(text, encoding="utf-8")
            compiled(folder, f"Example{at}")
        count.check(len(example) == 1, f"{PAGE.name}: its theorem over the definitions is taken by Coq")


def write_definitions(folder, count):
    """Writes the definitions that Coq types in its words, with what it makes of them."""
    Path(folder).mkdir(parents=True, exist_ok=True)
    build = Build(folder, sorted(set(definitions()) - set(untyped())))
    build.check()
    count.check(True, f"{folder}: {len(build.files)} files for Coq")


def make_program(build):
    """The checker of answers as a program, of a build whose checker Coq has proved."""
    for name in PROGRAM_FILES:
        shutil.copy2(OF_PROGRAM / name, build.folder)
    (build.folder / "checker.mli").unlink()
    run(build.folder, "make", PROGRAM)


def check_checker(build, count):
    """Whether the checker of answers is proved, and its program is what Coq makes of it."""
    for name in CHECKER:
        shutil.copy2(HERE / f"{name}.v", build.folder)
        compiled(build.folder, name)
    for file, names in THEOREMS.items():
        for name, found in build.axioms_of(file, list(names)).items():
            count.check(not found, f"the checker of answers, {name}: checked by Coq, {standing(found)}")
    made, kept = build.folder / "checker.ml", OF_PROGRAM / "checker.ml"
    count.check(made.read_bytes() == kept.read_bytes(),
                f"tests/public/program/{kept.name} is what Coq makes of the checker")


def check_answers(right, library, tier, count):
    """Whether the checker accepts the library's answers and refuses spoilt ones."""
    check_checker(right, count)
    make_program(right)
    for pairs, words, wanted in ((PAIRS[tier], (), "accepted"), (SPOILT, ("--spoilt",), "refused")):
        questions = run(right.folder, "/usr/bin/python3", str(HERE / "questions.py"), library, *map(str, pairs), *words)
        check_verdicts(right.folder, questions.splitlines(), wanted, count)
    check_files(right.folder, count)


def check_verdicts(folder, questions, wanted, count):
    """Whether the program's verdict on each question with its answer is the wanted one."""
    (folder / "questions").write_text("\n".join(questions) + "\n", encoding="utf-8")
    done = subprocess.run([f"./{PROGRAM}", "--lines"], cwd=folder, stdin=(folder / "questions").open("rb"),
                          capture_output=True, encoding="utf-8", timeout=SECONDS, check=False)
    verdicts = done.stdout.splitlines()
    if len(verdicts) != len(questions):
        raise Refused(PROGRAM, done.stderr[-2000:])
    asked, others = Counter(), Counter()
    for question, verdict in zip(questions, verdicts):
        name = f"{question.split()[0]}{' of a rectangle' if ' rectangle ' in question else ''}"
        asked[name] += 1
        if verdict.split(":")[0] != wanted:
            others[name] += 1
            print(f"{question}: {verdict}")
    for name, each in asked.items():
        count.check(not others[name], f"{name}: {each} {'' if wanted == 'accepted' else 'spoilt '}answers of the "
                    f"library {wanted}")


def file_of(cells):
    return b"\1" + b"".join(number.to_bytes(8, "little") for number in (len(cells), *cells))


# Files, and for the words of the program what it says, and its status.
FACE, CHILDREN = 0x1000000000000000, (0x0400000000000000, 0x0c00000000000000, 0x1400000000000000, 0x1c00000000000000)
FILES = {"face": file_of([FACE]), "children": file_of(CHILDREN), "three": file_of(CHILDREN[:3]),
         "back": file_of(CHILDREN[::-1]), "others": file_of([(2 * face + 1) << 60 for face in range(1, 6)]),
         "last": file_of(CHILDREN[3:]), "none": file_of([]), "zero": file_of([0]), "empty": b"", "other": b"\2",
         "cut": file_of([FACE])[:-1], "more": file_of([FACE]) + b"\0"}
ASKED = {
    "three union last face": ("accepted", 0),
    "three union last children": ("refused: 0400000000000000 and the next three cells are the children of one cell", 1),
    "three union last three": ("refused: the leaf 1800000000000001 is missing", 1),
    "face intersection last face": ("refused: the leaf 0000000000000001 is too much", 1),
    "face difference last three": ("accepted", 0),
    "face symmetric_difference three last": ("accepted", 0),
    "face complement others": ("accepted", 0),
    "others complement none": ("refused: the leaf 0000000000000001 is missing", 1),
    "back normalise face": ("accepted", 0),
    "back normalise back": ("refused: the leaf 1000000000000001 begins a cell that does not come after the one before "
                            "it", 1),
    "face denormalise 1 1 children": ("accepted", 0),
    "face denormalise 1 1 back": ("refused: the cell at index 0 is another one", 1),
    "three outer 1 three": ("accepted", 0),
    "three outer 0 face": ("accepted", 0),
    "three inner 0 none": ("accepted", 0),
    "three inner 1 none": ("refused: the leaf 0000000000000001 is missing", 1),
    "last outer 0 last": ("refused: the leaf 0000000000000001 is missing", 1),
    "0 0 0 0 0 outer 0 face": ("accepted", 0),
    "0 0 1073741823 0 1073741823 inner 3 face": ("accepted", 0),
    "0 1 1073741823 0 1073741823 inner 0 face": ("refused: the leaf 0000000000000001 is too much", 1),
    "0 1 0 0 0 outer 0 face": ("usage: 0 1 0 0 0 is not a rectangle", 2),
    "6 0 0 0 0 outer 0 face": ("usage: 6 is not a number from 0 to 5", 2),
    "three outer 31 face": ("usage: 31 is not a number from 0 to 30", 2),
    "face contains last yes": ("accepted", 0),
    "last contains face yes": ("refused: the answer is no", 1),
    "last intersects three no": ("accepted", 0),
    "face file": ("accepted", 0),
    "none file": ("accepted", 0),
    "children file": ("refused: 0400000000000000 and the next three cells are the children of one cell", 1),
    "zero file": ("refused: 0000000000000000 is not the identifier of a cell", 1),
    "zero union face face": ("cell: 0000000000000000 is not the identifier of a cell", 2),
    "empty union face face": ("short: empty", 2),
    "other union face face": ("version: other", 2),
    "cut file": ("short: cut", 2),
    "more file": ("trailing: more", 2),
    "missing file": ("file: missing: No such file or directory", 2),
    "face denormalise 30 1 face": ("memory: the lists are too long", 2),
    "face denormalise 31 1 face": ("usage: 31 is not a number from 0 to 30", 2),
    "face united last face": ("usage: s2union-check --help has the forms", 2),
}


def check_files(folder, count):
    """Whether the program says of union files what ASKED says."""
    for name, text in FILES.items():
        (folder / name).write_bytes(text)
    for words, (wanted, status) in ASKED.items():
        done = subprocess.run([f"./{PROGRAM}", *words.split()], cwd=folder, capture_output=True, encoding="utf-8",
                              timeout=SECONDS, check=False)
        said = (done.stdout + done.stderr).strip().removeprefix(f"{PROGRAM}: ")
        count.check((said, done.returncode) == (wanted, status), f"{PROGRAM} {words}: {wanted}, with status {status}",
                    f"{said}, with status {done.returncode}")


def check_all(folder, asked, count):
    right = Build(folder, MODULES)
    check_claims(asked.tier, count)
    check_laws(right, count)
    check_statement(right, count)
    if asked.tier == "full":
        check_slow_laws(count)
    for change in (*CHANGES, *(MORE_CHANGES if asked.tier == "full" else ())):
        check_change(change, MODULES, right, count)
    check_axiom(right, count)
    check_answers(right, str(Path(asked.library).resolve()), asked.tier, count)
    check_sources(right, count)


def write_program(folder, file, count):
    """Writes the program of the checker, which Coq has proved before."""
    build = Build(folder, OF_CHECKER)
    build.check()
    check_checker(build, count)
    make_program(build)
    shutil.copy2(build.folder / PROGRAM, file)
    count.check(True, f"{file}: made")


def write_sources(folder):
    """Writes what the program of the checker is made of, and in proof/ what Coq reads for its proof."""
    proof = Path(folder, "proof")
    proof.mkdir(parents=True, exist_ok=True)
    for name in PROGRAM_FILES:
        shutil.copyfile(OF_PROGRAM / name, Path(folder, name))
    build = Build(proof, MODULES)
    build.leave_out_others_than(OF_CHECKER)
    for name in CHECKER:
        shutil.copyfile(HERE / f"{name}.v", proof / f"{name}.v")
    asked = [f"Require {file}.\nPrint Assumptions {file}.{name}." for file, names in THEOREMS.items() for name in names]
    (proof / "Axioms.v").write_text("\n".join(asked) + "\n", encoding="utf-8")
    (proof / "order").write_text("\n".join([*build.files, *CHECKER, "Axioms"]) + "\n", encoding="utf-8")
    return proof


def check_sources(right, count):
    """Whether what the source archive has of the checker is what Coq has taken here."""
    with tempfile.TemporaryDirectory() as folder:
        proof = write_sources(folder)
        names = (proof / "order").read_text(encoding="utf-8").split()
        others = [name for name in names if name != "Axioms" and
                  right.read(name) != (proof / f"{name}.v").read_text(encoding="utf-8")]
        count.check(not others, f"the source archive has the {len(names)} files of its proof",
                    f"not {', '.join(others)}")


def main():
    parser = argparse.ArgumentParser(prog="tests/public/coq/check.py")
    parser.add_argument("--tier", choices=("gate", "full"), default="gate")
    what = parser.add_mutually_exclusive_group(required=True)
    what.add_argument("--library")
    what.add_argument("--program")
    what.add_argument("--sources")
    what.add_argument("--definitions")
    asked = parser.parse_args()
    count = Count()
    with tempfile.TemporaryDirectory() as folder:
        try:
            if asked.program:
                write_program(folder, asked.program, count)
            elif asked.sources:
                write_sources(asked.sources)
                count.check(True, f"{asked.sources}: written")
            elif asked.definitions:
                write_definitions(asked.definitions, count)
            else:
                check_all(folder, asked, count)
        except Refused as error:
            count.check(False, f"{error.args[0]}: not taken", error.args[1])
        except Bad as error:
            count.check(False, str(error))
    print(f"{count.passed} passed, {count.failed} failed")
    return count.failed > 0


if __name__ == "__main__":
    sys.exit(main())
