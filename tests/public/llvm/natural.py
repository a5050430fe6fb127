"""Natural numbers as formulas of 128 bits, each with a bound, so that none wraps around unseen.

A number that may be any natural number, such as one that a clause speaks of for all, has the bound TOP. Its formula
stands for all numbers from TOP on by TOP itself: no other number here is near TOP, so comparisons are right. A sum,
difference or product that may reach LIMIT is not known, and so any number."""
import functools
import itertools

import z3

from bits import joined_bits, lowest_one
from solver import Undecided, literal

BITS = 128
TOP = 2**BITS - 1
LIMIT = 2**126
fresh = itertools.count(1)


class Number:
    """A formula, and the greatest number that it can be. Of a power of two `exponent` is the exponent, a Number."""

    def __init__(self, bits, most, exponent=None):
        self.bits, self.most, self.exponent = bits, most, exponent

    def __repr__(self):
        return self.bits.sexpr()

    @property
    def literal(self):
        return literal(self.bits)


def kept(function):
    """A function of a number, its last argument, that is asked once of each formula."""
    answers = {}

    @functools.wraps(function)
    def asked(*arguments):
        key = (*arguments[:-1], arguments[-1].bits.get_id())
        if key not in answers:
            answers[key] = arguments[-1], function(*arguments)  # the formula is kept, so that its identity is its own
        return answers[key][1]

    return asked


def constant(number):
    exponent = None
    if number and number & (number - 1) == 0:
        exponent = Number(z3.BitVecVal(number.bit_length() - 1, BITS), number.bit_length() - 1)
    return Number(z3.BitVecVal(number, BITS), number, exponent)


def made(bits, most):
    """The number of a formula, which is at most this."""
    bits = z3.simplify(bits)
    return constant(bits.as_long()) if z3.is_bv_value(bits) else Number(bits, most)


def variable(name, most):
    """A number that may be any from 0 to `most`, if what is answered second holds."""
    bits = z3.BitVec(f"{name}!{next(fresh)}", BITS)
    return Number(bits, most), z3.ULE(bits, z3.BitVecVal(most, BITS))


def unknown():
    return Number(z3.BitVec(f"unknown!{next(fresh)}", BITS), TOP)


def of_bits(bits):
    """The number that bits of the machine are."""
    return made(z3.ZeroExt(BITS - bits.size(), bits), 2 ** bits.size() - 1)


def power_of_two(exponent):
    if exponent.most >= 126:
        raise Undecided("a power that may be too large")
    if exponent.literal is not None:
        return constant(2**exponent.literal)
    return Number(z3.simplify(z3.BitVecVal(1, BITS) << exponent.bits), 2**exponent.most, exponent)


def add(a, b):
    if a.most + b.most >= LIMIT:
        return unknown()
    return made(joined_bits(a.bits, b.bits), a.most + b.most)


def subtract(a, b):
    """The difference, or 0 if there is none."""
    if a.most >= LIMIT or b.most >= LIMIT:
        return unknown()
    return made(z3.If(z3.UGE(a.bits, b.bits), a.bits - b.bits, z3.BitVecVal(0, BITS)), a.most)


def multiply(a, b):
    if a.most * b.most >= LIMIT:
        return unknown()
    if a.exponent and b.exponent:
        return power_of_two(add(a.exponent, b.exponent))
    for power, other in ((a, b), (b, a)):
        if power.exponent:
            return made(other.bits << power.exponent.bits, a.most * b.most)
    return made(a.bits * b.bits, a.most * b.most)


def divide(a, b):
    if not b.exponent or a.most >= LIMIT:
        raise Undecided("a division by a number that is no power of two")
    return made(z3.LShR(a.bits, b.exponent.bits), a.most // (b.literal or 1))


def remainder(a, b):
    if not b.exponent or a.most >= LIMIT:
        raise Undecided("a remainder by a number that is no power of two")
    return made(a.bits & (b.bits - 1), min(a.most, b.most - 1))


def power(base, exponent):
    if not base.literal or not base.exponent:
        raise Undecided("a power of a number that is no power of two")
    return power_of_two(multiply(base.exponent, exponent))


def exclusive_or(a, b):
    bits = max(a.most, b.most).bit_length()
    return made(a.bits ^ b.bits, 2**bits - 1)


def choice(condition, a, b):
    condition = z3.simplify(condition)
    if z3.is_true(condition) or z3.is_false(condition):
        return a if z3.is_true(condition) else b
    return made(z3.If(condition, a.bits, b.bits), max(a.most, b.most))


@kept
def trailing_zeros(bits, number):
    """How many of this many lowest bits are zeros, from the lowest on."""
    seen = lowest_one(number.bits)
    if seen is not None:
        return constant(min(seen, bits))
    count = z3.BitVecVal(bits, BITS)
    for bit in range(bits - 1, -1, -1):
        count = z3.If(z3.Extract(bit, bit, number.bits) == 1, z3.BitVecVal(bit, BITS), count)
    return made(count, bits)
