"""What a call may be given: all of it, in cases that are run one after the other.

A number that may be a cell is looked at level by level, as the bits before the marker, the marker and the zeros after
it, and then as any number that is no cell. A list is looked at for each length up to one that the table of calls names,
and then as any longer one, of whose elements nothing is known. Room for a result either has what is needed in front of
any rest, or is shorter. Of a list without elements the pointer may be null."""
import itertools
import re

import z3

import natural as numbers
from bits import shifted
from definitions import Listed, Stretch
from memory import UNWRITTEN, Pointer, State, Thing
from natural import BITS, Number, constant, of_bits
from solver import Undecided
from words import LEVELS, cell_of_level, is_cell

MOST_BYTES = 2**63 - 1  # no object is larger
BYTES = {"u8": 1, "u32": 4, "u64": 8, "usize": 8}


class Case:
    """One case: the memory and the values that the function is given, what the names of the clauses are, and how those
    are made that are known when it has ended."""

    def __init__(self):
        self.state, self.values, self.known, self.later, self.levels, self.names = State(), [], {}, [], {}, []
        self.is_empty, self.things = False, {}

    def stretch(self, state, name):
        """What is now in a list of any length that may be written."""
        old = self.known[name]["old"]
        return Stretch(state.things[self.things[name]].array, old.begin, old.end) if self.things[name] else old

    def after(self, state, result, kind):
        """The names of the clauses when the function has ended."""
        known = dict(self.known)
        for name, read in self.later:
            known[name] = {**known[name], "new": read(state)}
        if kind == "i32":
            known["result"] = Number(z3.simplify(z3.SignExt(BITS - 32, result)), numbers.TOP)
        else:
            known["result"] = of_bits(result)
        return known


def cases(contract, plan, structures):
    """All cases of a call."""
    choices = [choices_of(name, kind, plan, structures) for name, kind in contract.arguments]
    for chosen in itertools.product(*choices):
        case = Case()
        for name, add in chosen:
            case.names.append(name)
            add(case)
        if not case.is_empty:
            yield case


def choices_of(name, kind, plan, structures):
    """The choices that there are for an argument, each with its name and what adds it to a case."""
    if kind in BYTES:
        return number_choices(name, 8 * BYTES[kind], name in plan.cells)
    if kind in ("&mut usize", "&mut u64"):
        return [(name, lambda case: add_number(case, name))]
    if name in plan.arrays and (found := re.fullmatch(r"&(mut )?\[(u8|u64)\]", kind)):
        return [(f"{name} {'of any length' if is_there else 'null'}", lambda case, is_there=is_there: add_array(
            case, name, BYTES[found[2]], is_there, bool(found[1]))) for is_there in (True, False)]
    if kind == "&[u8]" and name in plan.lists:
        return list_choices(name, plan.lists[name])
    if kind == "&mut [u8]" and name in plan.rooms:
        return room_choices(name, plan.rooms[name])
    if kind.startswith("&mut ") and kind[5:] in structures:
        return [(name, lambda case: add_structure(case, name, structures[kind[5:]]))]
    raise Undecided(f"an argument of the type {kind}")


# ---- numbers

def number_choices(name, bits, is_split):
    if not is_split:
        return [(name, lambda case: put(case, name, z3.BitVec(name, bits)))]
    first = (30, 0, 15)
    order = [*first, *(level for level in LEVELS if level not in first)]
    levels = [(f"{name} of level {level}", lambda case, level=level: put_cell(case, name, level)) for level in order]
    return [*levels, (f"{name} is no cell", lambda case: put_other(case, name))]


def put(case, name, bits):
    case.values.append(bits)
    case.known[name] = of_bits(bits)


def put_cell(case, name, level):
    bits, condition = cell_of_level(name, level)
    case.state.given.append(condition)
    case.levels[name] = level
    put(case, name, bits)


def put_other(case, name):
    put(case, name, z3.BitVec(name, 64))
    case.state.given.append(z3.Not(is_cell(case.known[name])))


def add_number(case, name):
    """A place for a number of eight bytes, which has any number before."""
    pointer = case.state.add(Thing(name, 8, 8))
    old = z3.BitVec(f"{name}_old", 64)
    case.state.things[pointer.thing].chunks[0] = (8, old)
    case.values.append(pointer)
    case.known[name] = {"old": of_bits(old)}
    case.later.append((name, lambda state: of_bits(written(state, pointer, 0, 8))))


def add_structure(case, name, fields):
    """A place for a structure of numbers of four bytes, which has any numbers before."""
    if any(kind != "u32" for _, kind in fields):
        raise Undecided(f"the fields of {name}")
    pointer = case.state.add(Thing(name, 4 * len(fields), 4))
    old = {field: z3.BitVec(f"{name}_{field}", 32) for field, _ in fields}
    for place, field in enumerate(old):
        case.state.things[pointer.thing].chunks[4 * place] = (4, old[field])
    case.values.append(pointer)
    case.known[name] = {"old": {field: of_bits(bits) for field, bits in old.items()}}
    case.later.append((name, lambda state: {field: of_bits(written(state, pointer, 4 * place, 4))
                                            for place, field in enumerate(old)}))


def written(state, pointer, at, count):
    """The bytes that are in an argument in the end, as a number."""
    thing = state.things[pointer.thing]
    if thing.chunks.get(at, (0,))[0] == count:
        value = thing.chunks[at][1]
    else:
        values = [thing.byte(place) for place in range(at, at + count)]
        value = UNWRITTEN if any(it is UNWRITTEN for it in values) else z3.simplify(z3.Concat(*reversed(values)))
    if value is UNWRITTEN or isinstance(value, Pointer):
        raise Undecided(f"what is in {thing.name} in the end")
    return value


# ---- lists of bytes

def list_choices(name, most):
    """A list of each length up to `most`, and a longer one."""
    lengths = [(f"{name} of {length} bytes", lambda case, length=length: add_list(case, name, length))
               for length in range(most, -1, -1)]
    return [*lengths, (f"{name} null", lambda case: add_null(case, name, "now")),
            (f"{name} of more than {most} bytes", lambda case: add_longer(case, name, most))]


def add_null(case, name, when):
    case.values += [Pointer(0, 0), z3.BitVecVal(0, 64)]
    case.known[name] = {when: Listed([])}


def add_list(case, name, length):
    elements = [z3.BitVec(f"{name}_{index}", 8) for index in range(length)]
    thing = Thing(name, length)
    thing.chunks = {index: (1, element) for index, element in enumerate(elements)}
    case.values += [case.state.add(thing), z3.BitVecVal(length, 64)]
    case.known[name] = {"now": Listed(map(of_bits, elements))}


def add_longer(case, name, most):
    """A list that is longer, of which so many elements are known."""
    length = z3.BitVec(f"{name}_length", 64)
    case.state.given += [z3.UGT(length, most), z3.ULE(length, MOST_BYTES)]
    elements = [z3.BitVec(f"{name}_{index}", 8) for index in range(most)]
    thing = Thing(name, length)
    thing.chunks = {index: (1, element) for index, element in enumerate(elements)}
    case.values += [case.state.add(thing), length]
    rest = (name, numbers.subtract(of_bits(length), constant(most)))
    case.known[name] = {"now": Listed(map(of_bits, elements), rest)}


def add_array(case, name, size, is_there, is_open):
    """A list of any length, all of whose elements, of so many bytes, are known by their places; or none. It may be
    written if it is open."""
    array = z3.Array(name, z3.BitVecSort(64), z3.BitVecSort(8 * size))
    length = z3.BitVec(f"{name}_length", 64) if is_there else z3.BitVecVal(0, 64)
    case.state.given.append(z3.ULE(length, MOST_BYTES // size))
    thing = Thing(name, shifted(length, size.bit_length() - 1), size, array=array, is_open=is_open)
    pointer = case.state.add(thing) if is_there else Pointer(0, 0)
    case.values += [pointer, length]
    case.things[name] = pointer.thing
    case.known[name] = {"old" if is_open else "now": Stretch(array, constant(0), of_bits(length))}
    if is_open:
        case.later.append((name, lambda state: case.stretch(state, name)))


def room_choices(name, needed):
    """Room that has the bytes that are needed, room that hasn't, and none at all. Of a number that is no cell nothing
    is needed."""
    return [(f"{name} long enough", lambda case: add_room(case, name, needed(case.levels), True)),
            (f"{name} too short", lambda case: add_room(case, name, needed(case.levels), False)),
            (f"{name} null", lambda case: add_no_room(case, name))]


def add_no_room(case, name):
    add_null(case, name, "old")
    case.later.append((name, lambda state: Listed([])))


def add_room(case, name, needed, is_enough):
    case.is_empty = not needed and not is_enough
    length = z3.BitVec(f"{name}_length", 64)
    case.state.given += [z3.UGE(length, needed) if is_enough else z3.ULT(length, needed), z3.ULE(length, MOST_BYTES)]
    front = [z3.BitVec(f"{name}_{index}", 8) for index in range(needed if is_enough else 0)]
    thing = Thing(name, length)
    thing.chunks = {index: (1, element) for index, element in enumerate(front)}
    pointer = case.state.add(thing)
    rest = (name, numbers.subtract(of_bits(length), constant(len(front))))
    case.values += [pointer, length]
    case.known[name] = {"old": Listed(map(of_bits, front), rest)}
    case.later.append((name, lambda state: Listed(
        [of_bits(written(state, pointer, at, 1)) for at in range(len(front))], rest)))
