"""The square of a cell. Its definition speaks of all leaves of the cell and of all places of the square; its form names
one leaf and one place: the first leaf of the cell goes by the corner of the square, down to the cell's own level.

Z3 proves that the definition follows from the form. First, level by level up from a single leaf: in each square and at
each orientation each leaf has a place, and each place has a leaf. Then, at the levels of cells: a leaf and a place of
the square lie as the definition of `At` says, if they do so within the cell. What `At` says below a level is a
predicate of which nothing else is known."""
import z3

import antt
import natural as numbers
from natural import BITS, Number, constant, of_bits
from solver import TRUE, Refuted, Undecided, prove, use
from words import LEVELS, CellWords, cell_of_level

FIELDS = {
    "leaves": "(n : ℕ) → covers c n ≡ true → (x : ℕ) × (y : ℕ) × IsPlaceOf n face x y × InSquare i j size x y",
    "places": "(x y : ℕ) → InSquare i j size x y → (n : ℕ) × (covers c n ≡ true) × IsPlaceOf n face x y",
}
FROM_FORM = ("face_is", "size_is")
BELOW = z3.Function("below", *[z3.BitVecSort(BITS)] * 4, z3.BoolSort())


def bits_above(name, bits, zeros):
    """A number of any bits above so many zeros."""
    if not bits:
        return constant(0)
    value = z3.BitVec(name, bits)
    return of_bits(z3.Concat(value, z3.BitVecVal(0, zeros)) if zeros else value)


def any_below(name, bits):
    return bits_above(name, bits, 0)


def is_below(number, limit):
    return z3.ULT(number.bits, z3.BitVecVal(limit, BITS))


class SquareWords(CellWords):
    """The words of cells and their squares."""

    def __init__(self, paths, is_apart=False):
        super().__init__(paths, is_apart)
        self.shown["IsSquareOf"] = self.is_square_of

    # ---- the form

    def is_square_of(self, cell, face, i, j, size):
        """The form, of a cell whose level is known."""
        below = 30 - self.level(cell)
        fields = self.record_holds("IsSquareOf", [cell, face, i, j, size], True, FROM_FORM)
        return z3.And(fields, *(is_corner(at, below) for at in (i, j)), self.goes_by(cell, face, i, j, below))

    def level(self, cell):
        level = self.word("level_of", [cell]).literal
        if level is None:
            raise Undecided("a square of a cell of any level")
        return level

    def goes_by(self, cell, face, i, j, below):
        """The first leaf of the cell is at the place, as far as the levels go that are not below the cell."""
        self.bottom = below
        try:
            return self.record_holds("IsPlaceOf", [self.word("first_leaf", [cell]), face, i, j], True)
        finally:
            self.bottom = None

    # ---- the proofs

    def prove_squares(self):
        """Proves that the definition follows from the form; how many claims these were."""
        fields = dict(self.records["IsSquareOf"]["fields"])
        if any(fields[name] != antt.term(text) for name, text in FIELDS.items()):
            raise Refuted("the definition of IsSquareOf isn't that for which a form is known")
        use("QF_UFBV")
        prove(self.defined_at(0, [constant(0)] * 4), "the one leaf of a square of one place")
        count = 1 + sum(self.prove_level_of_squares(level) for level in range(1, 31))
        count += sum(self.prove_square(level) for level in LEVELS)
        use("QF_BV")
        return count

    def defined_at(self, level, values):
        """What the definition of `At` says of a level, if `BELOW` says so of the next one."""
        self.forms["At"] = lambda _, *others: BELOW(*(it.bits for it in others))
        try:
            return self.defined("At", [constant(level), *values], lambda body, names: self.holds(body, names, True))
        finally:
            del self.forms["At"]

    def prove_level_of_squares(self, level):
        """In a square with sides of `2 ^ level` each leaf has a place, and each place a leaf, if it is so in those with
        sides of half the length."""
        orientation, bits = any_below("o", 2), level - 1
        leaf, x, y = any_below("leaf", 2 * bits), any_below("x", bits), any_below("y", bits)
        digit, quadrant = any_below("digit", 2), any_below("quadrant", 2)
        of_digit = self.word("quadrant", [orientation, digit])
        of_quadrant = constant(3)
        for other in (2, 1, 0):
            is_it = self.word("quadrant", [orientation, constant(other)]).bits == quadrant.bits
            of_quadrant = numbers.choice(is_it, constant(other), of_quadrant)
        for picked, where in ((digit, of_digit), (of_quadrant, quadrant)):
            turned = numbers.exclusive_or(orientation, self.word("turn", [picked]))
            prove(is_below(turned, 4), "an orientation")
            whole = [numbers.add(numbers.multiply(picked, constant(4**bits)), leaf),
                     numbers.add(numbers.multiply(numbers.divide(where, constant(2)), constant(2**bits)), x),
                     numbers.add(numbers.multiply(numbers.remainder(where, constant(2)), constant(2**bits)), y)]
            prove(self.defined_at(level, [orientation, *whole]), f"leaves and places of squares of level {level}",
                  BELOW(*(it.bits for it in (turned, leaf, x, y))))
        return 4

    def prove_square(self, level):
        """Of the cells of a level the definition follows from the form; how many claims these were."""
        below = 30 - level
        bits, condition = cell_of_level("n", level)
        cell, size = of_bits(bits), constant(2**below)
        face, first = self.word("face_of", [cell]), self.word("first_leaf", [cell])
        i, j = bits_above("i", level, below), bits_above("j", level, below)
        leaf, x, y = any_below("leaf", 2 * below), any_below("x", below), any_below("y", below)
        whole = [numbers.add(first, leaf), numbers.add(i, x), numbers.add(j, y)]
        fields = self.record_holds("IsSquareOf", [cell, face, i, j, size], True, (*FROM_FORM, "fits"))
        (here, down), (there, _) = (self.place_above(below, *of) for of in (
            ([first, face, i, j], lambda *_: TRUE), ([whole[0], face, *whole[1:]], BELOW)))
        claims = [fields, is_below(down[0], 4), self.covers(cell, whole[0]),
                  self.record_holds("InSquare", [i, j, size, *whole[1:]], True),
                  z3.Implies(z3.And(here, BELOW(*(it.bits for it in (down[0], leaf, x, y)))), there),
                  self.is_within(cell, first, 4**below), self.is_within_square(i, j, size)]
        for claim in claims:
            prove(claim, f"squares of cells of level {level}", condition)
        at = Number(z3.BitVec("at", BITS), numbers.TOP)
        prove(z3.Implies(is_corner(at, below), z3.ZeroExt(BITS - 30, corner_of(at, below)) == at.bits), "a corner")
        return len(claims) + 1

    def place_above(self, bottom, values, below):
        """That a leaf is at a place, with what `below` says from a level on, and the values that it is said of."""
        reached = []

        def at(level, *others):
            if level.literal != bottom:
                return self.defined("At", [level, *others], lambda body, names: self.holds(body, names, True))
            reached[:] = others
            return below(*(it.bits for it in others))

        self.forms["At"] = at
        try:
            return self.record_holds("IsPlaceOf", values, True), reached
        finally:
            del self.forms["At"]

    def is_within(self, cell, first, size):
        """Each leaf of the cell is one of so many."""
        leaf = Number(z3.BitVec("any", BITS), numbers.TOP)
        return z3.Implies(self.covers(cell, leaf), z3.And(z3.UGE(leaf.bits, first.bits),
                                                          is_below(Number(leaf.bits - first.bits, numbers.TOP), size)))

    def is_within_square(self, i, j, size):
        """Each place of the square is one of so many."""
        x, y = (Number(z3.BitVec(name, BITS), numbers.TOP) for name in ("any_x", "any_y"))
        is_near = [z3.And(z3.UGE(at.bits, least.bits),
                          is_below(Number(at.bits - least.bits, numbers.TOP), size.literal))
                   for at, least in ((x, i), (y, j))]
        return z3.Implies(self.record_holds("InSquare", [i, j, size, x, y], True), z3.And(is_near))


def is_corner(at, below):
    """A coordinate on a face that is a multiple of the side of a square."""
    return z3.And(is_below(at, 2**30), at.bits & (2**below - 1) == 0)


def corner_of(at, below):
    """Its bits above the zeros, and the zeros."""
    parts = [z3.Extract(29, below, at.bits)] if below < 30 else []
    parts += [z3.BitVecVal(0, below)] if below else []
    return z3.Concat(parts) if len(parts) > 1 else parts[0]
