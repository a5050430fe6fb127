"""The laws that Coq has to accept, as a module of definitions: each is stated by the clause in crates, and its proof is
a lemma in crates."""
import re
import sys
from pathlib import Path
from typing import NamedTuple

sys.path += [str(Path(__file__).resolve().parents[1] / "llvm")]
import calls  # noqa: E402
import clauses  # noqa: E402
from antt import Bad  # noqa: E402

MODULE = "Rattle.Laws"


class Law(NamedTuple):
    """A law: its name, what it says, the file and the function whose clause states it, and the module and the lemma
    that prove it."""

    name: str
    says: str
    file: str
    function: str
    clause: str
    proof: str


OF_LISTS = ("s2list/src/laws.rt", "one_list")
NORMAL = "Rattle.s2list.proofs.Normal"
LAWS = (
    Law("lists", "two lists of a union with the same leaves are one", *OF_LISTS, "lists", f"{NORMAL}.same_from_leaves"),
    Law("normal", "a list of a union is the normal form of its leaves", *OF_LISTS, "normal",
        f"{NORMAL}.normal_from_local"),
    Law("forms", "a set of leaves has only one normal form", *OF_LISTS, "forms", f"{NORMAL}.one_normal_form"),
    Law("local", "a normal form is a list of a union", *OF_LISTS, "local", f"{NORMAL}.local_from_normal"),
)
# A law that no clause states alone.
SHORTEST = """
use Rattle.s2list.specs.Union.{IsShortest}
use Rattle.s2list.proofs.Shortest.{shortest as is_shortest}
shortest : (S : ℕ → Bool) (xs : List ℕ) → IsLocal xs → ((x : ℕ) → has_leaf xs x ≡ S x) → IsShortest S xs
shortest S xs = is_shortest S xs
"""
NAMES = {law.name: f"{law.function}, clause {law.clause}: {law.says}" for law in LAWS} | {
    "shortest": "shortest: no cells with the same leaves are fewer than those of a union's list"}


class Answered(NamedTuple):
    """A law whose clauses are all proved in the answers of its function, in crates/CRATE/proofs/laws/FUNCTION: its
    crate and function, and what it says."""

    crate: str
    function: str
    says: str

    @property
    def module(self):
        return f"Rattle.laws.{self.function}"


ANSWERED = (
    Answered("s2cell", "law_of_levels", "a cell has one level, one place, and the leaves of that place"),
    Answered("s2cell", "known_cells", "ten cells have the texts, levels, faces and leaves that S2 gives them"),
    Answered("s2cell", "law_of_texts", "a cell has one token and one debug text, and a text is that of one cell"),
    Answered("s2cell", "law_of_places", "a leaf has one place, a place one leaf, and leaves that follow share a side"),
    Answered("s2cell", "law_of_squares", "a cell has one square, whose leaves are its own, and whose quarters are the "
             "squares of its children"),
    Answered("s2cover", "covering_sets", "a covering of one level has the leaves of the cells that share one with the "
             "region, or lie in it"),
    Answered("s2polygon", "law_of_complements", "with a leaf inside for the leaf outside, inside and outside are "
             "exchanged"),
    Answered("s2degrees", "law_of_sums", "each angle has sums of its sine and of its cosine"),
    Answered("s2union_c", "enough_room", "a buffer as long as a call's bound is long enough, and so is one of the "
             "length that a call tells"),
    Answered("s2room", "law_of_indexes", "an index of cells and ancestors finds what shares a leaf, and no other"),
    Answered("s2file", "one_text", "a set is written as one byte string"),
    Answered("s2file", "one_reading", "bytes stand for at most one set, and have at most one first fault"),
)
# Lemmas by which Z3 proves calls: the file in Coq, the lemma, and what it says.
OF_CALLS = [(law.file.removesuffix(".antt").replace("/", "_"), law.name, law.says) for law in calls.LAWS.values()]
# Those of the full tier alone, which stand on many definitions and lemmas, or on long ones.
SLOW = (
    Answered("s2polygon", "law_of_tests", "the ten tests of signs say whether a direction of an edge lies in a square"),
    Answered("s2polygon", "law_of_margins", "a greater margin takes no leaf from the outer ones, and gives none to the "
             "inner ones"),
    Answered("s2calc", "undo_goes_back", "as far as the history reaches, undo gives each earlier table back"),
    Answered("s2calc", "redo_goes_ahead", "redo gives back each state that was undone, and all states stay"),
)
TYPED = re.compile(r"pub (returns(?:-clause-(\w+))?) : goal\.\1")
TYPE_USED = re.compile(r"use crate::(\w+)::(\w+);")
USED = re.compile(r"(?:ghost )?use (\w+(?:::\w+)*)::\{([A-Z_, ]+)\};")


def answered_text(crates, law):
    """The module of a law with answers, and the names of its clauses in it."""
    folder = Path(crates) / law.crate
    path = folder / "src" / "laws.rt"
    lines = path.read_text(encoding="utf-8").split("\n")
    stated = {found[2] or "whole": found[3] for found in clauses_of(path, lines, law.function)}
    uses = [use[1] for line in lines if (use := re.fullmatch(r"ghost (use .*);", line))]
    for line in lines:
        if constants := USED.fullmatch(line):
            crate = law.crate if constants[1] == "crate" else constants[1]
            uses.append(f"use Rattle.{crate}.specs.declared.TheConstants.{{{constants[2]}}}")
        if of_type := TYPE_USED.fullmatch(line):
            file, name = of_type.groups()
            uses.append(f"use Rattle.{law.crate}.specs.declared.{file}.{name}.{{{name}}}")
    answers = folder / "proofs" / "laws" / law.function / "Answers.antt"
    body = []
    for line in answers.read_text(encoding="utf-8").split("\n"):
        if line.startswith("use "):
            uses += [] if line.endswith(".Goals as goal") else [line]
        elif typed := TYPED.fullmatch(line):
            name = typed[2] or "whole"
            body.append(f"clause_{name} : {stated[name]}")
        elif re.match(r"returns(?:-clause-\w+)? ", line):
            # its first argument is the function that is called
            name, _, rest = line.split(" ", 2)
            body.append(f"clause_{name.removeprefix('returns').removeprefix('-clause-') or 'whole'} {rest}")
        else:
            body.append(line)
    # a clause that the kit proves alone has its proof in by_hand.v
    body += [f"clause_{name} : {what}" for name, what in stated.items() if f"clause_{name} : {what}" not in body]
    said = set(re.findall(r"[\w'-]+", "\n".join(body)))
    used = filter(None, (taken(use, said) for use in dict.fromkeys(uses)))
    return "\n".join([*used, *body]) + "\n", [f"clause_{name}" for name in stated]


def taken(use, said):
    """What a line `use` takes of the names that are said."""
    module, names = re.fullmatch(r"use (.*)\.\{(.*)\}", use).groups()
    names = [name for name in map(str.strip, names.split(",")) if name in said or "◌" in name or not name[0].isalpha()]
    return names and f"use {module}.{{{', '.join(names)}}}"


def clauses_of(path, lines, function):
    """The clauses of a function, each as its word, its name and its text."""
    heads = [at for at, line in enumerate(lines) if line == f"pub fn {function}()"]
    if len(heads) != 1:
        raise Bad(f"{path}: {function} stands there {len(heads)} times")
    found = [clauses.CLAUSE.fullmatch(each) for _, each in clauses.clause_texts(lines, heads[0] + 1)]
    return [each for each in found if each and each[1] == "ensures"]


def texts(crates, modules):
    """The texts of those of the modules that are laws."""
    found = {law.module: answered_text(crates, law)[0] for law in (*ANSWERED, *SLOW) if law.module in modules}
    return found | ({MODULE: text(crates)} if MODULE in modules else {})


def text(crates):
    """The module of the laws of lists."""
    uses, stated = [], []
    for law in LAWS:
        path = Path(crates) / law.file
        lines = path.read_text(encoding="utf-8").split("\n")
        uses += [use[1] for line in lines if (use := re.fullmatch(r"ghost (use .*);", line))]
        module, lemma = law.proof.rsplit(".", 1)
        uses.append(f"use {module}.{{{lemma}}}")
        stated.append(f"{law.name} : {clause(path, lines, law)}\n{law.name} = {lemma}\n")
    return "\n".join(dict.fromkeys(uses)) + "\n" + "\n".join(stated) + SHORTEST


def clause(path, lines, law):
    """The words of a law's clause."""
    for found in clauses_of(path, lines, law.function):
        if found[2] == law.clause:
            return found[3]
    raise Bad(f"{path}: {law.function} has no clause {law.clause}")
