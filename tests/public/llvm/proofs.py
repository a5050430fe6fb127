"""Proves the clauses of a call's contract of the text that the library is compiled from."""
import functools
import re
import sys
import time
from pathlib import Path

import z3

TOP = Path(__file__).resolve().parents[3]
sys.path += [str(TOP / "tests" / "public"), str(TOP / "tests" / "public" / "llvm")]
from clauses import contracts, structures  # noqa: E402
from inputs import cases  # noqa: E402
from lists import ListWords  # noqa: E402
from loops import Loops  # noqa: E402
from machine import Machine  # noqa: E402
from natural import constant  # noqa: E402
from solver import Undecided, is_possible, prove, use  # noqa: E402
from squares import SquareWords  # noqa: E402

DEFINITIONS = ["s2cell/specs/Cell", "s2cell/specs/Curve", "s2cell/specs/Neighbours", "s2cell/specs/Square",
               "s2cell/specs/Text", "s2cell/specs/Token", "s2cell/specs/Debug", "s2union_c/specs/Status",
               "s2union_c/specs/Results", "s2union_c/specs/Order", "s2union_c/specs/ManyCells",
               "s2union_c/specs/Working/ManyCells", "s2union_c/proofs/Firsts", "s2union_c/specs/Files",
               "s2list/specs/Numbers", "s2file/specs/File", "s2file/specs/Numbers", "s2list/specs/Union",
               "s2list/specs/Packed", "s2list/specs/Working/Search", "s2list/proofs/Narrowing",
               "s2list/proofs/Checking", "s2list/proofs/Asking"]


class Proved:
    """What was proved of a call: each clause with the seconds that it took, the cases and the ways, and which lines of
    the text were run."""

    def __init__(self, names):
        self.seconds, self.cases, self.ways, self.lines = dict.fromkeys(names, 0.0), 0, 0, set()


def words_of(crates, plan=None):
    paths = [TOP / "tests" / "public" / "kit.txt", *(crates / f"{name}.antt" for name in DEFINITIONS)]
    files = [str(path) for path in paths]
    words = ListWords(files) if plan and plan.laws else SquareWords(files, bool(plan and plan.is_apart))
    words.forms["NO_LEVEL"] = lambda: no_level(crates / "s2union_c" / "src" / "many_cells.rt")
    words.side = side(TOP / "crates" / "s2cell" / "src" / "lib.rt")
    return words


@functools.cache
def side(path):
    """The constant of that name, 2 to the power of the greatest level."""
    text = path.read_text(encoding="utf-8")
    found = re.findall(r"^pub const GREATEST_LEVEL: u8 = (\d+);$", text, re.M)
    if len(found) != 1 or text.count("\npub const SIDE: u32 = 1 << GREATEST_LEVEL;\n") != 1:
        raise Undecided(f"{path}: SIDE isn't what it was")
    return constant(2 ** int(found[0]))


@functools.cache
def no_level(path):
    found = re.findall(r"^const NO_LEVEL: u8 = (\d+);$", path.read_text(encoding="utf-8"), re.M)
    return constant(int(found[0]))


def contract_of(crates, name, plan):
    path = str(crates / plan.file)
    found = contracts(path)
    if name not in found:
        raise Undecided(f"{path}: no call {name}")
    return found[name], structures(path)


def prove_call(text, crates, name, plan):
    """Proves all clauses of a call, in all cases."""
    contract, fields = contract_of(crates, name, plan)
    use("QF_AUFBV" if plan.arrays else "QF_BV")
    done = Proved([clause.name for clause in contract.ensures])
    for case in cases(contract, plan, fields):
        begun = time.process_time()
        loops = Loops(plan, crates, functools.partial(words_of, crates, plan), case)
        machine = Machine(text, plan.named, loops)
        if not is_possible(*case.state.given):
            raise Undecided(f"{name}: nothing fits the case {', '.join(case.names)}")
        given = list(case.state.given)
        ways = list(machine.run(case.state, name, case.values))
        prove_all_ways(name, given, [state for state, _ in ways] + loops.closed)
        done.cases, done.ways = done.cases + 1, done.ways + len(ways)
        done.lines |= machine.lines
        ways = ways if plan.laws else joined(ways, case)
        for clause in contract.ensures:
            prove_clause(crates, name, plan, contract, clause, case, ways, loops)
            done.seconds[clause.name] += time.process_time() - begun
            begun = time.process_time()
    return done


def prove_all_ways(name, given, states):
    """The ways are all that there are: those that end, and those that come back in a loop."""
    for state in states:
        given += [it for it in state.given if not any(it is other for other in given)]
    prove(z3.Or([z3.And(state.conditions) for state in states]), f"{name}: all ways are run", *given)


def joined(ways, case):
    """The ways, those with the same answers as one: on it what is known of each is known of any of them."""
    groups = {}
    for state, result in ways:
        answers = result.sexpr() + "".join(repr(read(state)) for _, read in case.later)
        groups.setdefault(answers, []).append((state, result))
    return [(any_of([state for state, _ in group]), group[0][1]) for group in groups.values()]


def any_of(states):
    """A state of which this is known: it is one of these."""
    found = states[0].fork()
    if len(states) > 1:
        found.given = [it for it in found.given if all(any(it.eq(other) for other in state.given) for state in states)]
        found.conditions = [z3.Or([z3.And(state.known()) for state in states])]
        found.steps = [step for state in states for step in state.steps]
        found.supposed = list({id(it): it for state in states for it in state.supposed}.values())
    return found


def prove_clause(crates, name, plan, contract, clause, case, ways, loops):
    for state, result in ways:
        words = words_of(crates, plan)
        if plan.named:
            words.go_by_steps(state, plan.turns)
        words.where, words.witnesses = f"{contract.path}:{clause.line}", plan.witnesses
        claim = words.holds(clause.term, case.after(state, result, contract.result), True)
        used = loops.used_for(z3.simplify(claim), state, words.claimed_of, words)
        prove(claim, f"{contract.path}:{clause.line}: {name}, clause {clause.name}, {', '.join(case.names)}",
              *state.known(), *words.steps_of(state, claim), *used, *words.facts)
