#!/usr/bin/env python3
"""Has Rattle's kit check docs/STATEMENT.txt and docs/STATEMENT.rt against the crates: tests/run statement.

Both are made from crates/ here, with a lemma for each definition and each contract, that it is the crates' own: for a
record and a type of data by a function each way, for all others by `refl`. So what is printed there needs no trust.
Then a few of the definitions and contracts are changed there, of each kind, and the kit has to refuse the lemma of
each. The libraries are those that `rt ci` has just proved, or are proved first; the program and the static library,
which no crate can use, are read as sources, whose contracts need no proof to be compared. The last line is 'N passed,
M failed', where N counts the definitions, the contracts and the changes.
"""
import re
import shutil
import subprocess
import sys
import tempfile
from pathlib import Path

sys.path.insert(0, str(Path(__file__).resolve().parents[1] / "tools"))
from compiled_contracts import READER, Contracts  # noqa: E402
from compiled_statement import NAME, Compiled  # noqa: E402
from definitions import ROOT, House, Source, comment_above  # noqa: E402
from over_gate import crate_of, has_libraries, words_of_check  # noqa: E402

PAGE, CONTRACTS = "specs/Page.antt", "src/lib.rt"
# What a changed page would say: a level too much, another order of the curve, a text with one more newline, more bytes
# that wait, another status, a call that took another thing, another status of the library for C; and of contracts the
# lists of a question exchanged, a clause less, what was seen before the call, and another type. With each the lemma
# that has to be refused. No others unfold what is changed, since to find that two large terms differ takes long.
CHANGES = [
    (PAGE, "pub level : k ≤ 30\n", "pub level : k ≤ 31\n", "same-IsCellAt"),
    (PAGE, "0 ∷ 1 ∷ 3 ∷ 2 ∷ 0 ∷ 2", "0 ∷ 1 ∷ 2 ∷ 3 ∷ 0 ∷ 2", "same-quadrants"),
    (PAGE, "s2calc: usage\" ++ 10 ∷ wrong", "s2calc: usage\" ++ 10 ∷ 10 ∷ wrong", "same-usage_text"),
    (PAGE, "pub few_wait : length waiting ≤ MOST_WAITING\n", "pub few_wait : length waiting ≤ MOST_WAITING + 1\n",
     "same-RunsListed"),
    (PAGE, "pub status_is : ended.status ≡ 3\n", "pub status_is : ended.status ≡ 2\n", "same-NotBegun"),
    (PAGE, "  Took-case : (bytes : List ℕ) → StreamCall-is\n", "  Took-case : (bytes : List Bool) → StreamCall-is\n",
     "to-StreamCall"),
    (CONTRACTS, "IsAnswerTo result (IsWithin (has_leaf ys.now) (has_leaf xs.now))",
     "IsAnswerTo result (IsWithin (has_leaf xs.now) (has_leaf ys.now))", "same-s2union_c_questions-s2u_contains"),
    (CONTRACTS, "(union_of (has_leaf xs.now) (has_leaf ys.now))) out.old out.new len.new }\n"
     "        ensures any { KeepsRest result out.old out.new len.new }\n",
     "(union_of (has_leaf xs.now) (has_leaf ys.now))) out.old out.new len.new }\n", "same-s2union_c_sets-s2u_union"),
    (CONTRACTS, "Does system_files IsMadeAt (moments_of observer.new) result asked",
     "Does system_files IsMadeAt (moments_of observer.old) result asked", "same-calculator_main-calculator"),
    (CONTRACTS, "pub fn is_short(few: usize, many: usize) -> bool", "pub fn is_short(few: u32, many: usize) -> bool",
     "same-s2list_ahead-is_short"),
]
PROVED, REFUSED = "only=1 proved=1", re.compile(r"^\./proofs/\S+: error: `([^`]*)`", re.M)


def copied(name, room):
    """The root of a copy of a crate that no other can use: its modules are public, and it has no `main` and no other
    private function."""
    shutil.copytree(ROOT / "crates" / name, room / name, ignore=shutil.ignore_patterns("out"))
    root = next(path for path in (room / name / "src" / "lib.rt", room / name / "src" / "main.rt") if path.exists())
    text = root.read_text()
    for piece in reversed(Source(name, root).pieces):
        if piece.kind == "fn" and not piece.public:
            begin = piece.start - sum(len(line) + 1 for line in comment_above(text, piece.start))
            text = text[:begin] + text[piece.start + len(piece.text):]
    root.write_text(re.sub(r"^mod ", "pub mod ", text, flags=re.M))
    return root


def words_over(names, sources):
    """The words that check READER alone, in a crate over these libraries, those of the kit that they and the sources
    name, and the sources, by their roots."""
    crates = [crate_of(name) for name in names]
    first, *more = [words_of_check(crate_of(name)) for name in [*names, *sources]]
    first[first.index("--crate-name") + 1] = NAME
    first[first.index("--links") + 1] = f"{NAME}="
    given = [pair for words in [first, *more] for pair in zip(words, words[1:]) if pair[0] in ("--extern", "-L")]
    given += [pair for crate in crates
              for pair in (("--extern", f"{crate.name}={crate.rlib}"), ("-L", f"dependency={Path(crate.rlib).parent}"))]
    before = {word for pair in zip(first, first[1:]) if pair[0] in ("--extern", "-L") for word in pair}
    words = [word for word in first if word not in before] + [word for pair in dict.fromkeys(given) for word in pair]
    return [*words, *(word for name, root in sources.items() for word in ("--lib", f"{name}={root}")), "--only", READER]


def said_of(words, folder):
    """What the kit says of the crate in this folder."""
    done = subprocess.run(words, cwd=folder, stdin=subprocess.DEVNULL, capture_output=True, text=True, check=False)
    return done.stdout + done.stderr


def plant(folder):
    """Makes the changes in the crate, each in a text that stands once."""
    for part, old, new, lemma in CHANGES:
        text = (folder / part).read_text()
        if text.count(old) != 1:
            sys.exit(f"tests/statement.py: the text that {lemma} is to refuse stands {text.count(old)} times\n"
                     "0 passed, 1 failed")
        (folder / part).write_text(text.replace(old, new))


def main():
    contracts = Contracts(Compiled(House()))
    names = [name for name in contracts.compiled.crates if name not in contracts.shut]
    if not all(has_libraries(crate_of(name)) for name in sorted(contracts.shut)):
        print("the libraries are not all proved\n0 passed, 1 failed")
        return 1
    with tempfile.TemporaryDirectory() as temporary:
        room, folder = Path(temporary), Path(temporary) / NAME
        words = words_over(names, {name: copied(name, room) for name in sorted(contracts.shut)})
        contracts.write(folder)
        said = said_of(words, folder)
        if said.rstrip().rpartition("\n")[2] != PROVED or ": error: " in said:
            print(said[-5000:], "\n0 passed, 1 failed")
            return 1
        plant(folder)
        refused = set(REFUSED.findall(said_of(words, folder)))
    wrong = [lemma for *_, lemma in CHANGES if lemma not in refused]
    for lemma in wrong:
        print(f"{lemma}: NOT REFUSED, though what it is about was changed")
    definitions, calls = len(contracts.compiled.items), len(contracts.calls)
    print(f"{definitions} definitions and {calls} contracts, each as in crates/; {len(refused)} lemmas refused "
          f"{len(CHANGES)} changes")
    print(f"{definitions + calls + len(CHANGES) - len(wrong)} passed, {len(wrong)} failed")
    return 1 if wrong else 0


if __name__ == "__main__":
    sys.exit(main())
