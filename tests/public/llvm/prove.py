"""Proves by Z3, for all inputs, that the text from which the library is compiled does what the contracts of its calls
say: tests/public/llvm/prove.py --text FILE [--tier quick|gate|full] [--crates FOLDER] [--except CALL] [CALL..].

FILE is s2union.ll, of the source archive in dist, or of one that tools/portable made. FOLDER is crates, which has the
contracts and the definitions that they cite. A line tells for each clause that it was proved, with the seconds that it
took and how many ways through the text there are. Then mistakes are made in the text, one at a time, in contracts,
definitions and invariants, and each has to be refuted: of the text of each call one in the gate, and four in full. With
no CALL it proves those of the tier. The last line is 'N passed, M failed'."""
import argparse
import sys
import tempfile
import time
from pathlib import Path

from calls import PLANS
from mistakes import CHANGES, mistakes
from proofs import TOP, contract_of, prove_call, words_of
from solver import Refuted, Undecided
from table import check_table
from text import Text, Unknown

TIERS = ("quick", "gate", "full")
MISTAKES = {"gate": 1, "full": 4}  # in the text of each call


def say(text):
    print(text, flush=True)


class Count:
    """What was tried, and how often it was as it has to be."""

    def __init__(self):
        self.passed = self.failed = 0

    def check(self, is_right, text):
        self.passed, self.failed = self.passed + is_right, self.failed + (not is_right)
        say(text if is_right else f"FAILED {text}")


def prove_forms(what, proved, count):
    begun = time.process_time()
    count.check(True, f"{what}: {proved()} claims proved by Z3, {time.process_time() - begun:.1f} s")


def prove_one(text, crates, name, count):
    """Proves the clauses of a call: what was proved, if they all hold."""
    plan = PLANS[name]
    try:
        contract, _ = contract_of(crates, name, plan)
        done = prove_call(text, crates, name, plan)
    except (Refuted, Undecided, Unknown) as error:
        count.check(False, f"{name}: {type(error).__name__.lower()}: {error}")
        return None
    for clause in contract.ensures:
        count.check(True, f"{name:22} {clause.name or 'its clause':10} proved for all inputs by Z3, "
                    f"{done.ways} ways in {done.cases} cases, {done.seconds[clause.name]:.1f} s")
    return done


def verdict(text, crates, name):
    """What is found of a call: proved, refuted, or what wasn't decided."""
    try:
        prove_call(text, crates, name, PLANS[name])
        return "proved"
    except Refuted:
        return "refuted"
    except (Undecided, Unknown) as error:
        return f"not decided: {error}"


def refuse_mistakes(text, crates, name, lines, enough, count):
    """Makes mistakes in these lines of a call until enough of them were refuted. None may be proved, unless it is known
    to change nothing."""
    refuted = 0
    for mistake in mistakes(text, name, lines):
        if refuted == enough:
            break
        found, reason = verdict(mistake.text(text), crates, name), mistake.reason(name)
        if reason and found == "proved":
            count.check(True, f"{name:22} {mistake}: {found}, as it changes nothing: {reason}")
        else:
            refuted += found == "refuted"
            count.check(found == "refuted", f"{name:22} {mistake}: {found}")


def refuse_changes(text, crates, names, count):
    """Changes contracts, definitions and invariants of these calls, one at a time, each of which has to be refuted or
    not to be known."""
    for change in (it for it in CHANGES if it.call in names):
        with tempfile.TemporaryDirectory() as room:
            found = verdict(text, change.made(crates, Path(room)), change.call)
            found = found.replace(f"{room}/", "")
            count.check(found.startswith(change.wanted), f"{change.call:22} {change}: {found}")


def main():
    asked = words()
    count = Count()
    text = Text(asked.text)
    names = asked.calls or [name for name, plan in PLANS.items() if name != asked.left_out
                            and TIERS.index(plan.tier) <= TIERS.index(asked.tier)]
    if not asked.calls:
        count.check(True, f"the table in docs/CHECK.md: {check_table()} calls, each with its verdict")
    prove_forms("the forms of words", words_of(asked.crates).prove_forms, count)
    if "s2u_square_of" in names:
        prove_forms("the form of squares", words_of(asked.crates).prove_squares, count)
    for plan in [PLANS[name] for name in names if PLANS[name].laws][:1]:
        prove_forms("the facts about elements of lists", words_of(asked.crates, plan).prove_elements, count)
    for name in names:
        done = prove_one(text, asked.crates, name, count)
        if done and asked.tier != "quick":
            refuse_mistakes(text, asked.crates, name, done.lines, MISTAKES[asked.tier], count)
    refuse_changes(text, asked.crates, names, count)
    say(f"{count.passed} passed, {count.failed} failed")
    return count.failed > 0


def words():
    parser = argparse.ArgumentParser(prog="tests/public/llvm/prove.py")
    parser.add_argument("--tier", choices=TIERS, default="gate")
    parser.add_argument("--text", required=True)
    parser.add_argument("--crates", type=Path, default=TOP / "crates")
    parser.add_argument("--except", dest="left_out", choices=list(PLANS), metavar="CALL")
    parser.add_argument("calls", nargs="*", metavar="CALL")
    asked = parser.parse_args()
    if unknown := sorted(set(asked.calls) - set(PLANS)):
        parser.error(f"no plan for {', '.join(unknown)}")
    return asked


if __name__ == "__main__":
    sys.exit(main())
