"""Words with a quantifier, in a form without one; and facts about cells, by which pairs of cells are looked at without
shifts. Z3 proves each form and each fact first, from the text of the definition."""
import itertools

import z3

import antt
import natural as numbers
from bits import variables_of
from definitions import Words
from natural import BITS, Number, constant, kept, of_bits
from solver import TRUE, Refuted, prove

LEVELS = range(31)
END = 6 * 2**61  # above all cells
# What a definition makes of a number of 64 bits, and at most.
APART = {"first_leaf": 2**63, "size_of": 4**30, "level_of": 30, "face_of": 2**63}
# What is known of a cell by what a definition makes of it.
CELL_FACTS = {
    "size_of": lambda cell, size: size.bits == lowest(cell),
    "first_leaf": lambda cell, first: first.bits + first.bits == cell.bits - lowest(cell),
    "face_of": lambda cell, face: face.bits == z3.LShR(cell.bits, 61),
}
CELL_DEFINITIONS = {
    "IsCell": "(k : ℕ) × (m : ℕ) × IsCellAt k m n",
    "IsInside": "(x : ℕ) → covers b x ≡ true → covers a x ≡ true",
    "ShareLeaf": "(x : ℕ) × (covers a x ≡ true) × (covers b x ≡ true)",
}
CELL_FIELDS = {"level": "k ≤ 30", "place": "m < 6 * 4 ^ k"}
GREATEST = "(d : ℕ) → IsCell d → IsInside a d → IsInside b d → level_of d ≤ level_of c"


def lowest(number):
    """The lowest bit of a number that is one."""
    return number.bits & -number.bits


def same_order(level, other_level, size, other_size):
    """The higher of two levels has the smaller cells."""
    return z3.And(z3.ULE(level.bits, other_level.bits) == z3.UGE(size.bits, other_size.bits),
                  z3.UGE(level.bits, other_level.bits) == z3.ULE(size.bits, other_size.bits))


@kept
def is_cell(number):
    """A number ends in a one and then an even number of zeros, at most 60, and is below all numbers of face 6."""
    ends = [z3.Extract(2 * zeros, 0, number.bits) == z3.BitVecVal(1 << 2 * zeros, 2 * zeros + 1) for zeros in LEVELS]
    return z3.And(z3.ULT(number.bits, z3.BitVecVal(END, BITS)), z3.Or(ends))


def cell_of_level(name, level):
    """Any cell of a level as 64 bits, and under which condition they are one."""
    zeros = 2 * (30 - level)
    high, tail = z3.BitVec(f"{name}_high", 63 - zeros), z3.BitVecVal(1 << zeros, zeros + 1)
    return z3.Concat(high, tail), z3.ULT(z3.Extract(62 - zeros, 60 - zeros, high), 6)


def numbers_by_zeros(name):
    """All numbers of 64 bits, by how many zeros they end in."""
    yield constant(0)
    for zeros in range(64):
        tail = z3.BitVecVal(1 << zeros, zeros + 1)
        yield of_bits(tail if zeros == 63 else z3.Concat(z3.BitVec(name, 63 - zeros), tail))


class CellWords(Words):
    """The words of the definitions about cells. If `is_apart`, what a definition makes of a cell is a number of which
    the facts are known, and nothing else: `facts` has those of the cells that were asked for."""

    def __init__(self, paths, is_apart=False):
        super().__init__(paths)
        self.side = self.bottom = None  # the level from which on `At` isn't claimed, if any
        self.apart = {}
        self.forms["IsCell"] = is_cell
        self.forms["IsInside"] = self.is_inside
        self.forms["ShareLeaf"] = self.share_leaf
        self.forms["SIDE"] = lambda: self.side
        if is_apart:
            self.shown["IsCommonAncestor"] = self.is_common_ancestor
            self.forms.update({word: self.set_apart(word) for word in APART})

    def set_apart(self, word):
        """A form of the word: a number that is known by the facts about its cell alone."""
        return lambda number: self.number_of(word, number)

    def number_of(self, word, number):
        """What the word makes of a number of 64 bits. The facts about it are then known."""
        found = self.apart.setdefault(number.bits.sexpr(), (number, {}))[1]
        if word not in found:
            found[word], condition = numbers.variable(word, APART[word])
            self.facts += [condition, z3.Implies(is_cell(number), self.fact(word, number, found))]
        return found[word]

    def fact(self, word, number, of):
        """What is known of a cell by a word."""
        if word == "level_of":
            others = [(another, self.number_of("size_of", another), its["level_of"])
                      for another, its in self.apart.values() if another is not number and "level_of" in its]
            size = self.number_of("size_of", number)
            return z3.And([z3.Implies(is_cell(another), same_order(of[word], level, size, other_size))
                           for another, other_size, level in others])
        return CELL_FACTS[word](number, of[word])

    # ---- the forms

    def leaves(self, cell):
        """The numbers of the first and the last leaf of a cell."""
        first, size = self.word("first_leaf", [cell]), self.word("size_of", [cell])
        return first, numbers.subtract(numbers.add(first, size), constant(1))

    def covers(self, cell, leaf):
        return self.word("covers", [cell, leaf])

    def is_inside(self, inner, outer):
        return z3.And([self.covers(outer, leaf) for leaf in self.leaves(inner)])

    def share_leaf(self, one, other):
        firsts = [self.leaves(cell)[0] for cell in (one, other)]
        later = numbers.choice(z3.UGE(firsts[0].bits, firsts[1].bits), *firsts)
        return z3.And(self.covers(one, later), self.covers(other, later))

    def is_common_ancestor(self, one, other, found):
        """As the definition says, where it is claimed: of any other cell that contains both."""
        any_other, is_number = numbers.variable("d", 2**64 - 1)  # no cell is greater
        holds_both = z3.And(self.is_inside(one, any_other), self.is_inside(other, any_other))
        contains = z3.And(is_number, is_cell(any_other), holds_both)
        levels = [self.word("level_of", [cell]) for cell in (any_other, found)]
        fields = self.record_holds("IsCommonAncestor", [one, other, found], True, ("cell", "first", "second"))
        return z3.And(fields, z3.Implies(contains, z3.ULE(levels[0].bits, levels[1].bits)))

    # ---- the curve

    def go_by_steps(self, state, levels):
        """From now on `At` is proved where it is claimed: level by level, and at these levels with the orientations
        that the text has after its steps."""
        turns = dict(zip(levels, (step for step, _, zeros in state.steps if zeros)))
        self.forms["At"] = lambda *values: self.prove_level(state, turns, *values)

    def prove_level(self, state, turns, level, orientation, leaf, x, y):
        """`At`, of this level and those below."""
        if level.literal == self.bottom:
            return TRUE
        turn = turns.get(level.literal)
        if turn is not None:
            self.prove_step(state, orientation.bits == of_bits(turn).bits, f"the orientation at level {level.literal}")
            orientation = of_bits(turn)
        values = [level, orientation, leaf, x, y]
        here = self.defined("At", values, lambda body, names: self.holds(body, names, True))
        self.prove_step(state, here, f"the place at level {level.literal}")
        return TRUE

    def steps_of(self, state, claim):
        """What the steps are whose names stand in a claim or in what is known."""
        if not state.steps:
            return []
        names = variables_of(claim).union(*map(variables_of, state.conditions))
        return [step == part for step, part, _ in state.steps if str(step) in names]

    def prove_step(self, state, claim, what):
        """Proves what follows from the premises and from the steps whose names stand in it, each by what it is."""
        prove(claim, what, *state.known(), *self.premises, *self.steps_of(state, claim))

    # ---- the proofs

    def prove_forms(self):
        """Proves each form and each fact; how many claims these were. The words have to be as the definitions say."""
        count = self.prove_texts()
        for level in LEVELS:
            bits, condition = cell_of_level("n", level)
            count += self.prove_cell(level, of_bits(bits), condition)
        number = of_bits(z3.BitVec("n", 64))
        tails = [z3.Extract(2 * zeros, 0, number.bits) == 1 << 2 * zeros for zeros in LEVELS]
        faces = z3.ULT(z3.Extract(63, 61, number.bits), 6)
        prove(is_cell(number) == z3.And(faces, z3.Or(tails)), "the cells of all levels are all cells")
        for number, (word, most) in itertools.product(numbers_by_zeros("n"), APART.items()):
            prove(z3.ULE(self.word(word, [number]).bits, most), f"the greatest {word}")
            count += 1
        for level, other in itertools.product(LEVELS, LEVELS):
            sizes = [constant(4 ** (30 - it)) for it in (level, other)]
            prove(same_order(constant(level), constant(other), *sizes), "the order of levels")
            count += 1
        return count + 1 + prove_intervals()

    def prove_texts(self):
        """The definitions that the forms stand for are those that they were written for."""
        wrong = [word for word, text in CELL_DEFINITIONS.items()
                 if self.definitions[word]["clauses"][0][1] != antt.term(text)]
        fields = dict(self.records["IsCellAt"]["fields"])
        wrong += [name for name, text in CELL_FIELDS.items() if fields[name] != antt.term(text)]
        if dict(self.records["IsCommonAncestor"]["fields"])["greatest"] != antt.term(GREATEST):
            wrong.append("greatest")
        if wrong:
            raise Refuted(f"the definition of {', '.join(wrong)} isn't that for which a form is known")
        return len(CELL_DEFINITIONS) + len(CELL_FIELDS) + 1

    def prove_cell(self, level, cell, condition):
        """`IsCell` both ways, and the facts, of the cells of a level."""
        place, below = numbers.variable("m", 6 * 4**level)
        number = Number(z3.BitVec("n", BITS), numbers.TOP)
        is_at = self.record_holds("IsCellAt", [constant(level), place, number], False)
        prove(z3.Implies(z3.And(below, is_at), is_cell(number)), "a cell ends as its form says")
        prove(is_cell(cell), "each number of the form is a cell", condition)
        witnesses = [self.word("level_of", [cell]), self.word("place_of", [cell])]
        prove(self.record_holds("IsCellAt", [*witnesses, cell], True), "the form is that of a cell", condition)
        of = {word: self.word(word, [cell]) for word in APART}
        facts = [*(fact(cell, of[word]) for word, fact in CELL_FACTS.items()), of["level_of"].bits == level,
                 of["size_of"].bits == 4 ** (30 - level),
                 z3.ULE(of["first_leaf"].bits + of["size_of"].bits, 6 * 4**30)]
        for fact in facts:
            prove(fact, "a fact about cells", condition)
        return 3 + len(facts)


def prove_intervals():
    """`IsInside` and `ShareLeaf` both ways: of two runs of leaves, each with one or more."""
    (f, f_known), (g, g_known) = (numbers.variable("first", 6 * 4**30) for _ in range(2))
    (s, s_known), (t, t_known) = (numbers.variable("size", 4**30) for _ in range(2))
    x = Number(z3.BitVec("x", BITS), numbers.TOP)
    given = [f_known, g_known, s_known, t_known, s.bits != 0, t.bits != 0]

    def covers(first, size, leaf):
        return z3.And(z3.ULE(first.bits, leaf), z3.ULT(leaf, first.bits + size.bits))

    def is_inside(leaf):
        return z3.Implies(covers(f, s, leaf), covers(g, t, leaf))

    last = f.bits + s.bits - 1
    ends = z3.And(covers(g, t, f.bits), covers(g, t, last))
    later = z3.If(z3.UGE(f.bits, g.bits), f.bits, g.bits)
    shared = z3.And(covers(f, s, later), covers(g, t, later))
    prove(z3.Implies(ends, is_inside(x.bits)), "IsInside, of its form", *given)
    prove(z3.Implies(z3.And(is_inside(f.bits), is_inside(last)), ends), "the form of IsInside", *given)
    prove(z3.Implies(z3.And(covers(f, s, x.bits), covers(g, t, x.bits)), shared), "the form of ShareLeaf", *given)
    return 3
