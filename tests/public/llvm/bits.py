"""Formulas of bits, so written that Z3 has no sum where bits lie side by side."""
import z3

from solver import literal


def shifted(value, zeros):
    if not zeros:
        return value
    return z3.Concat(z3.Extract(value.size() - 1 - zeros, 0, value), z3.BitVecVal(0, zeros))


def joined_bits(a, b):
    """The sum of two numbers: their bits side by side, if one has zeros wherever the other may have ones."""
    for high, low in ((a, b), (b, a)):
        count = zeros_at_end(high)
        if count and zeros_at_front(low) >= low.size() - count:
            if count >= high.size():
                return low
            return z3.Concat(z3.Extract(high.size() - 1, count, high), z3.Extract(count - 1, 0, low))
    return a + b


def zeros_at_end(value):
    """How many of the lowest bits are seen to be zeros."""
    if z3.is_bv_value(value):
        number = value.as_long()
        return (number & -number).bit_length() - 1 if number else value.size()
    if value.decl().kind() == z3.Z3_OP_CONCAT:
        count = 0
        for part in reversed(value.children()):
            more = zeros_at_end(part)
            count += more
            if more < part.size():
                break
        return count
    return 0


def zeros_at_front(value):
    """How many of the highest bits are seen to be zeros."""
    if z3.is_bv_value(value):
        return value.size() - value.as_long().bit_length()
    if value.decl().kind() == z3.Z3_OP_CONCAT:
        count = 0
        for part in value.children():
            more = zeros_at_front(part)
            count += more
            if more < part.size():
                break
        return count
    return 0


def lowest_one(value):
    """How many zeros a formula ends in, if its lowest one is seen; else nothing."""
    zeros = 0
    parts = value.children() if z3.is_app_of(value, z3.Z3_OP_CONCAT) else [value]
    for part in reversed(parts):
        number = literal(part)
        if number is None:
            return None
        if number:
            return zeros + (number & -number).bit_length() - 1
        zeros += part.size()
    return None


def variables_of(formula, known={}):  # noqa: B006, of each formula once
    """The names of the variables of a formula."""
    if formula.get_id() not in known:
        found, todo, seen = set(), [formula], set()
        while todo:
            each = todo.pop()
            if each.get_id() not in seen:
                seen.add(each.get_id())
                todo += each.children()
                if z3.is_const(each) and each.decl().kind() == z3.Z3_OP_UNINTERPRETED:
                    found.add(str(each))
        known[formula.get_id()] = formula, frozenset(found)
    return known[formula.get_id()][1]
