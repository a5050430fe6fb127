"""Loops over lists of any length, by the invariants of the project's own proofs, in crates/*/proofs/**/Invariants.antt.

Where a way first comes to the loop, Z3 proves that the invariant holds. From then on the loop's variables are any
numbers for which it holds, and what else the loop writes is as if it had never been written. Where a way comes back,
Z3 proves that the invariant holds again, and that the loop's range is nearer to its end; what isn't a variable of the
loop has to be as it was. The round ends there, and the ways that leave the loop go on."""
from typing import NamedTuple

import z3

from bits import variables_of
from clauses import ghosts
from definitions import Built, Closure, declarations
from memory import UNWRITTEN, Pointer, as_bits
from natural import constant, fresh, of_bits
from solver import TRUE, Refuted, Undecided, prove
from text import CASE, arguments_of, plain_name


class Cut(NamedTuple):
    """What a way has when it goes through a loop: what is in its memory, what it forgot of it, and its variable."""

    things: dict
    forgotten: set
    variable: object


class Loops:
    """The loops of a run: `words_of` gives the words of the definitions, `case` what the names of the call mean."""

    def __init__(self, plan, crates, words_of, case):
        self.rows = {(row.function, row.label): row for row in plan.loops}
        self.crates, self.words_of, self.case, self.laws = crates, words_of, case, plan.laws
        self.asked = {function for law in plan.laws for function in law.answers.values()}  # of which a law speaks
        self.closed = []  # the states of the ways that came back

    def come(self, way):
        """What happens where a way comes to a place: whether it ends there."""
        row = self.rows.get((plain_name(way.name), way.label))
        if row is None:
            return False
        key = way.name, way.label
        if key not in way.state.cuts:
            self.prove(row, way, [])
            way.state.cuts[key] = self.forget(row, way)
            self.suppose(row, way)
            return False
        cut = way.state.cuts[key]
        self.prove(row, way, [of_bits(cut.variable)] if row.at else [])
        self.close(row, way, cut)
        return True

    def clause(self, row, name, values):
        """The body of a definition beside the invariant, what its names mean, and where it stands."""
        found = [it for it in declarations(str(self.crates / row.file)) if it.get("name") == name]
        if len(found) != 1 or len(found[0]["clauses"]) != 1 or len(found[0]["clauses"][0][0]) != 1 + bool(row.traits):
            raise Undecided(f"{row.file}: {name} isn't one clause with one name")
        patterns, body, _ = found[0]["clauses"][0]
        known = dict(zip([pattern[1] for pattern in reversed(patterns)], [values, self.meant(row)]))
        return body, known, f"{row.file}:{found[0]['line']}"

    def meant(self, row):
        """What the words of traits mean, by the type parameters."""
        found = {}
        for it in row.traits:
            words = {word: Closure(names_of(body), body[2], {}, it.file)
                     for word, body in ghosts(str(self.crates / it.file), it.trait, it.type).items()}
            found.setdefault(it.parameter, {})[it.trait] = words
        return found

    def statement(self, row, values, claimed, words):
        """The invariant as a formula, or those of its fields that are used."""
        body, known, words.where = self.clause(row, row.invariant, values)
        if row.fields:
            body = "fields", [(name, kind) for name, kind in body[1] if name in row.fields]
        return words.holds(body, known, claimed)

    def values(self, row, way):
        """What the names of the invariant mean, and that the number is in its range."""
        known = {name: value.get("now", value.get("old")) if isinstance(value, dict) else value
                 for name, value in self.case.known.items()}
        now = {name: self.case.stretch(way.state, name) for name in row.writes}
        others = {name: of_bits(held(way, local)) for name, local in {**row.others, **row.fixed}.items()}
        built = {name: Built(word, [known[it] for it in names]) for name, (word, *names) in row.built.items()}
        traits = {it.name: {field: self.case.known[name] for field, name in it.fields.items()} for it in row.traits}
        values = {**known, **now, **others, **built, **traits, "fn": known}
        if not row.at:
            return values, TRUE
        at, end = (held(way, local) for local in (row.at, row.end))
        return {**values, row.name: of_bits(at)}, z3.ULE(at, end)

    def prove(self, row, way, numbers):
        values, is_in_range = self.values(row, way)
        prove(is_in_range, f"the range of the loop {row.label}", *way.state.known())
        words = self.words_of()
        words.known_of = [constant(0), *looks(way.state)] if self.laws else None
        claim = self.statement(row, values, True, words)
        for each in parts(z3.simplify(claim)):
            used = self.used_for(each, way.state, [*numbers, *those_in(each, words.claimed_of)], words)
            prove(each, f"{row.file}: {row.invariant}", *way.state.known(), *used, *words.facts)

    def suppose(self, row, way):
        """From now on the invariant is known: what it says of all numbers, of those that a claim speaks of, and of
        statements that have a name, where a claim speaks of one."""
        values, is_in_range = self.values(row, way)
        conditions = z3.And(way.state.conditions)
        way.state.supposed.append((row, values, conditions))
        way.state.given.append(z3.Implies(conditions, is_in_range))
        if self.laws:
            words = self.words_of()
            words.known_of = [constant(0)]
            claims = parts(z3.simplify(self.statement(row, values, False, words)))
            way.state.given += [z3.Implies(conditions, each) for each in claims if not speaks(each, words)]
        else:
            way.state.given += self.used(way.state, [])

    def used_for(self, claim, state, numbers, words):
        """What is known of these numbers, as far as a claim may need it."""
        return self.used(state, numbers, words) if not self.laws or speaks(claim, words) else []

    def used(self, state, numbers, words=None):
        """The facts on these numbers by the laws and the invariants, and those that follow on lists. A fact on any
        number holds for each number that is supposed: those before it are used for it as well."""
        known, numbers = [], [constant(0), *numbers]
        is_own = words is None or not self.laws
        words = self.words_of() if is_own else words
        for law in self.laws if set(state.answers) >= self.asked else ():
            values = {name: self.case.known[it].get("now") if isinstance(self.case.known[it], dict) else
                      self.case.known[it] for name, it in law.arguments.items()}
            values |= {name: of_bits(state.answers[function]) for name, function in law.answers.items()}
            claimed = len(words.claimed_of)
            known.append(words.law(law.name, values))
            numbers += words.claimed_of[claimed:]
        for row, values, conditions in reversed(state.supposed):
            claimed, words.known_of = len(words.claimed_of), list(numbers)
            known.append(z3.Implies(conditions, self.statement(row, values, False, words)))
            if self.laws:
                numbers += words.claimed_of[claimed:]
        if self.laws:
            known += words.pairs([*numbers, *words.indexes, *looks(state)])
        return [*known, *words.facts] if is_own else known

    def forget(self, row, way):
        """Makes the loop's variables any numbers, and forgets what else the loop stores into locals."""
        state, things = way.state, way.state.things
        numbers = {way.names[local].thing for local in stored(way.function, row.label)
                   if isinstance(way.names.get(local), Pointer)}
        for each in numbers:
            things[each].chunks = {}
        for name, local in {**row.others, **({row.name: row.at} if row.at else {})}.items():
            thing = things[way.names[local].thing]
            variable = z3.BitVec(f"{name}!{next(fresh)}", 8 * thing.size)
            thing.chunks = {0: (thing.size, variable)}
            numbers.add(way.names[local].thing)
        for name in row.writes:
            if self.case.things[name]:
                thing = things[self.case.things[name]]
                thing.array = z3.Array(f"{name}!{next(fresh)}", thing.array.domain(), thing.array.range())
                numbers.add(self.case.things[name])
        return Cut({each: thing.copy() for each, thing in state.things.items()}, numbers, self.measure(row, way))

    def measure(self, row, way):
        """The number that runs through the loop's range, or the one that decreases."""
        if row.at:
            return held(way, row.at)
        body, known, where = self.clause(row, row.invariant.replace("invariant", "decreases"), self.values(row, way)[0])
        words = self.words_of()
        words.where = where
        return words.number(body, known).bits

    def close(self, row, way, cut):
        """Proves that the range is nearer to its end, and that the loop left all else as it was."""
        now = self.measure(row, way)
        is_nearer = z3.UGT(now, cut.variable) if row.at else z3.ULT(now, cut.variable)
        prove(is_nearer, f"the loop {row.label} ends", *way.state.known())
        for each, thing in cut.things.items():
            if each not in cut.forgotten and not is_same(thing, way.state.things.get(each)):
                raise Undecided(f"the loop {row.label} writes into {thing.name}")
        self.closed.append(way.state)


def parts(claim):
    return [part for each in claim.children() for part in parts(each)] if z3.is_and(claim) else [claim]


def speaks(claim, words):
    """Whether a claim speaks of a statement that has a name."""
    return not variables_of(claim).isdisjoint(words.named)


def those_in(claim, numbers):
    """The numbers whose names stand in a claim."""
    names = variables_of(claim)
    return [it for it in numbers if str(it.bits) in names]


def looks(state):
    """The indexes at which lists were read."""
    return [of_bits(at) for at in state.looks]


def names_of(function):
    """The names of the arguments of a function that is written out."""
    if function[0] != "lam":
        raise Undecided(f"a word of a trait that is no function: {function}")
    return [name[1] for name in function[1]]


def held(way, local):
    """The number in a local, or one that is given."""
    if z3.is_bv(way.names[local]):
        return way.names[local]
    thing = way.state.things[way.names[local].thing]
    _, value = thing.chunks.get(0, (0, UNWRITTEN))
    if value is UNWRITTEN or isinstance(value, Pointer):
        raise Refuted(f"{local} isn't a number where the loop begins")
    return value


def is_same(thing, other):
    if other is None or set(thing.chunks) != set(other.chunks):
        return False
    if thing.array is not None:
        return thing.array.eq(other.array)
    return all(size == other.chunks[at][0] and is_one(value, other.chunks[at][1])
               for at, (size, value) in thing.chunks.items())


def is_one(value, other):
    """Whether two values are the same formula, or lead to the same place."""
    if isinstance(value, Pointer) and isinstance(other, Pointer):
        return value.thing == other.thing and is_one(as_bits(value.offset), as_bits(other.offset))
    return value is other or z3.is_bv(value) and z3.is_bv(other) and value.eq(other)


def stored(function, label):
    """The locals that the blocks of a loop store or copy into: those that lead from its label back to it."""
    follows = {name: {label for instruction in block for label in function.blocks if goes(instruction, label)}
               for name, block in function.blocks.items()}

    def reached(name):
        found, todo = set(), [name]
        while todo:
            for each in follows[todo.pop()] - found:
                found.add(each)
                todo.append(each)
        return found

    blocks = [name for name in reached(label) if label in reached(name)]
    instructions = [it for name in blocks for it in function.blocks[name]]
    copied = [arguments_of(it.parts[2])[0][1] for it in instructions
              if it.form == "call" and it.parts[1].startswith("llvm.mem")]
    return {it.parts[2] for it in instructions if it.form == "store"}.union(copied)


def goes(instruction, label):
    """Whether an instruction may go to a label."""
    if instruction.form == "jump":
        return instruction.parts[0] == label
    if instruction.form == "branch":
        return label in instruction.parts[1:]
    return instruction.form == "switch" and label in (instruction.parts[2], *dict(CASE.findall(instruction.parts[3])
                                                                                 ).values())
