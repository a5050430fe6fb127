"""Questions to Z3, and how it is told that something is false or not known."""
import functools

import z3

MILLISECONDS = 600_000
logic = "QF_BV"  # noqa: the one of what is proved now
TRUE, FALSE = z3.BoolVal(True), z3.BoolVal(False)


def use(name):
    """From now on Z3 is asked in this logic: of bits, or of bits and arrays of them."""
    global logic  # noqa: PLW0603
    logic = name


class Refuted(Exception):
    """Z3 has found numbers for which a claim is false."""


class Undecided(Exception):
    """Z3 gave up, or the text does what isn't known here."""


def model_of(*claims):
    """Numbers for which all claims are true, or nothing if there are none."""
    claims = [claim for claim in map(z3.simplify, claims) if not z3.is_true(claim)]
    if any(map(z3.is_false, claims)):
        return None
    solver = z3.SolverFor(logic)
    solver.set("timeout", MILLISECONDS)
    solver.add(*claims)
    found = solver.check()
    if found == z3.unknown:
        raise Undecided(f"Z3 gave up: {solver.reason_unknown()}")
    return solver.model() if found == z3.sat else None


def is_possible(*claims):
    return model_of(*claims) is not None


def prove(claim, what, *given):
    """Z3 proves that a claim follows from what is given, or this is an error that says what was to be proved."""
    model = model_of(z3.Not(claim), *given)
    if model is not None:
        raise Refuted(f"{what}: false for {said(model)}")


def said(model):
    numbers = sorted((str(it), model[it]) for it in model.decls() if "!" not in str(it))
    return ", ".join(f"{name} = {value}" for name, value in numbers) or "all numbers"


NUMBERS = {}  # the numbers that formulas of `numeral` are, by the formulas' identities: they are all kept


@functools.cache
def numeral(number, bits):
    """The formula of a number. It is always the same one, so that it is known without a question to Z3."""
    formula = z3.BitVecVal(number, bits)
    NUMBERS[id(formula)] = formula.as_long()
    return formula


def literal(value):
    """The number that a formula is, if it is one."""
    if isinstance(value, int):
        return value
    if id(value) in NUMBERS:
        return NUMBERS[id(value)]
    return value.as_long() if z3.is_bv_value(value) else None


def simplified(formula):
    """A formula of bits made simple, as `numeral` has it if it is a number."""
    formula = z3.simplify(formula)
    return numeral(formula.as_long(), formula.size()) if z3.is_bv_value(formula) else formula


def at_once(operation, words, *formulas):
    """What an operation with these words gives for formulas. Of numbers it is asked once."""
    numbers = tuple(map(literal, formulas))
    if None in numbers:
        return simplified(operation(*words, *formulas))
    return of_numbers(operation, words, tuple((number, it.size()) for number, it in zip(numbers, formulas)))


@functools.cache
def of_numbers(operation, words, numbers):
    return simplified(operation(*words, *(numeral(*it) for it in numbers)))
