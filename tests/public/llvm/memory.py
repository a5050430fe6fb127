"""The memory of a run on symbols: objects of bytes, and pointers into them."""
import functools
from typing import NamedTuple

import z3

from solver import FALSE, Refuted, Undecided, at_once, literal, numeral
from text import Unknown, fields_of, size_of, width

UNWRITTEN = object()  # what bytes are that were never written


class Pointer(NamedTuple):
    """A place in an object: its number in the memory, 0 for null, and an offset, a number or a formula."""

    thing: object
    offset: object

    def plus(self, count):
        offset, count = literal(self.offset), literal(count) if literal(count) is not None else count
        if offset is not None and isinstance(count, int):
            return Pointer(self.thing, (offset + count) % 2**64)
        return Pointer(self.thing, simple(as_bits(self.offset) + as_bits(count)))


def as_bits(number, bits=64):
    return numeral(number, bits) if isinstance(number, int) else number


def simple(value):
    """A formula made simple; a number, if it is one of 64 bits."""
    value = z3.simplify(value)
    return value.as_long() if z3.is_bv_value(value) else value


class Thing:
    """An object: its name, its size and alignment, and what is known of its bytes: `chunks` has (bytes, value) at
    offsets, and no two overlap; a constant has its `content`; of an argument of any length `array` has all elements,
    each of which is so many bytes, and may be written if `is_open`."""

    def __init__(self, name, size, align=1, content=None, array=None, is_open=False):
        self.name, self.size, self.align, self.is_open = name, size, align, is_open
        self.content, self.array, self.chunks = content, array, {}
        self.step = array.range().size() // 8 if array is not None else None

    def copy(self):
        if self.content is not None:
            return self
        other = Thing(self.name, self.size, self.align, array=self.array, is_open=self.is_open)
        other.chunks = dict(self.chunks)
        return other

    def byte(self, at):
        """The byte at an offset that is a number."""
        if self.content is not None:
            return numeral(self.content[at], 8)
        if self.array is not None:
            raise Undecided(f"a byte of {self.name} by itself")
        for begin in range(at, max(-1, at - 64), -1):
            if begin in self.chunks and begin + self.chunks[begin][0] > at:
                value = self.chunks[begin][1]
                if isinstance(value, Pointer):
                    raise Undecided(f"a part of a pointer in {self.name}")
                return value if value is UNWRITTEN else part(value, at - begin)
        return UNWRITTEN

    def cut(self, at, count):
        """Forgets these bytes, and keeps what lies beside them in the chunks that have some of them."""
        if self.chunks.get(at, (None,))[0] == count:
            del self.chunks[at]
            return
        for begin in [it for it, (size, _) in self.chunks.items() if it < at + count and it + size > at]:
            size, value = self.chunks.pop(begin)
            for place in range(begin, begin + size):
                if not at <= place < at + count:
                    is_whole = value is UNWRITTEN or isinstance(value, Pointer)
                    self.chunks[place] = (1, UNWRITTEN if is_whole else part(value, place - begin))


def part(value, index):
    return at_once(z3.Extract, (8 * index + 7, 8 * index), value)


class State:
    """What is known on one way through a function: the memory, what is given, and the conditions of the way. `steps`
    has the numbers that were given a name of their own on the way, each with what it is, `cuts` the loops that the way
    goes through, and `supposed` what is known by invariants. `looks` has the indexes at which lists of any length were
    read, and `answers` what functions answered of which a law speaks."""

    def __init__(self):
        self.things, self.given, self.conditions, self.addresses, self.count = {}, [], [], {}, 0
        self.steps, self.cuts, self.supposed, self.looks, self.answers = [], {}, [], [], {}

    def known(self):
        return self.given + self.conditions

    def fork(self):
        other = State()
        other.things = {number: thing.copy() for number, thing in self.things.items()}
        other.given, other.conditions = list(self.given), list(self.conditions)
        other.addresses, other.count, other.steps = dict(self.addresses), self.count, list(self.steps)
        other.cuts, other.supposed = dict(self.cuts), list(self.supposed)
        other.looks, other.answers = list(self.looks), dict(self.answers)
        return other

    def add(self, thing):
        self.count += 1
        self.things[self.count] = thing
        return Pointer(self.count, 0)

    def thing(self, pointer):
        if pointer.thing not in self.things:
            raise Refuted("a null pointer is followed, or one to a place that is gone")
        return self.things[pointer.thing]

    def address(self, pointer):
        """The address of a pointer as a number, of which this is known: objects lie apart, and within all memory."""
        if pointer.thing == 0:
            return as_bits(pointer.offset)
        if pointer.thing not in self.addresses:
            thing = self.thing(pointer)
            begin, size = z3.BitVec(f"address.{thing.name}.{pointer.thing}", 64), as_bits(thing.size)
            self.given += [begin != 0, z3.ULE(begin, z3.BitVecVal(-1, 64) - size), z3.URem(begin, thing.align) == 0]
            self.given += [z3.Or(z3.ULE(begin + size, other), z3.ULE(other + length, begin))
                           for other, length in self.addresses.values()]
            self.addresses[pointer.thing] = (begin, size)
        return self.addresses[pointer.thing][0] + as_bits(pointer.offset)


class Memory:
    """How loads and stores work on a state. `must` is asked to prove what they need."""

    def must(self, state, claim, what):
        raise NotImplementedError

    def check(self, state, pointer, count, align, what):
        """The object of a pointer, once it is proved that these bytes are within it and so aligned."""
        thing = state.thing(pointer)
        if isinstance(pointer.offset, int) and isinstance(thing.size, int):
            if pointer.offset + count > thing.size or (thing.align | pointer.offset) % align:
                raise Refuted(f"{what} of {count} bytes, aligned to {align}, at {pointer.offset} of {thing.name}")
            return thing
        offset, size = as_bits(pointer.offset), as_bits(thing.size)
        self.must(state, z3.And(z3.ULE(count, size), z3.ULE(offset, size - count)),
                  f"{what} of {count} bytes within {thing.name}")
        if align > 1:
            is_aligned = z3.And(z3.BoolVal(thing.align % align == 0), offset & (align - 1) == 0)
            self.must(state, is_aligned, f"{what}, aligned to {align}")
        return thing

    def load(self, state, pointer, kind, align, is_defined):
        """What a load gives; an error, if bytes were never written and `is_defined`."""
        if kind.startswith("{"):
            return tuple(self.load(state, pointer.plus(offset), field, 1, False)
                         for offset, field in fields_of(kind)[0])
        count = size_of(kind)
        thing = self.check(state, pointer, count, align, "load")
        offset = literal(pointer.offset)
        if thing.array is not None:
            value = self.element(state, thing, as_bits(pointer.offset), count)
        else:
            value = (self.looked_up(state, thing, pointer.offset, count) if offset is None
                     else loaded(thing, offset, count))
        if value is UNWRITTEN:
            if is_defined:
                raise Refuted(f"bytes of {thing.name} are loaded that were never written")
            return value
        if kind == "ptr" and not isinstance(value, Pointer):
            return Pointer(0, simple(value))  # a number that nothing lies at, null if it is 0
        if kind != "ptr" and isinstance(value, Pointer):
            raise Undecided(f"a pointer is taken for a number in {thing.name}")
        if kind == "ptr" or value.size() == width(kind):
            return value
        return at_once(z3.Extract, (width(kind) - 1, 0), value)

    def element(self, state, thing, offset, count):
        """Elements of an argument of any length, as a number."""
        many = count // thing.step
        at = self.index(state, thing, offset, count, many)
        state.looks.append(at)
        return joined([z3.Select(thing.array, z3.simplify(at + place)) for place in range(many)])

    def index(self, state, thing, offset, count, many):
        """The index of the first of so many elements that these bytes are."""
        if count != many * thing.step or thing.step & (thing.step - 1):
            raise Undecided(f"{count} bytes of {thing.name}, whose elements have {thing.step}")
        if thing.step > 1:
            self.must(state, offset & (thing.step - 1) == 0, f"whole elements of {thing.name}")
        return z3.simplify(z3.LShR(offset, thing.step.bit_length() - 1))

    def looked_up(self, state, thing, offset, count):
        """The value at an offset that is a formula."""
        if thing.content is not None:
            return from_table(thing.content, offset, count)
        values = [(at, value) for at, (size, value) in sorted(thing.chunks.items()) if size == count]
        if len(values) != len(thing.chunks) or any(value is UNWRITTEN or isinstance(value, Pointer)
                                                   for _, value in values):
            raise Undecided(f"a load from {thing.name} at a place that is a formula")
        self.must(state, z3.Or([offset == at for at, _ in values]), f"a load from {thing.name} where it was written")
        result = values[0][1]
        for at, value in values[1:]:
            result = z3.If(offset == at, value, result)
        return z3.simplify(result)

    def store(self, state, pointer, count, align, value):
        thing = self.check(state, pointer, count, align, "store")
        if thing.content is not None or thing.array is not None and not thing.is_open:
            raise Refuted(f"a store into {thing.name}, which is constant")
        offset = literal(pointer.offset)
        if thing.array is not None:
            thing.array = z3.Store(thing.array, self.index(state, thing, as_bits(pointer.offset), count, 1), value)
        elif offset is None:
            self.store_somewhere(state, thing, pointer.offset, count, value)
        else:
            thing.cut(offset, count)
            thing.chunks[offset] = (count, value)

    def store_somewhere(self, state, thing, offset, count, value):
        """A store at an offset that is a formula, into chunks of the same size that were all written before."""
        places = [at for at, (size, old) in thing.chunks.items()
                  if size == count and old is not UNWRITTEN and not isinstance(old, Pointer)]
        self.must(state, z3.Or([offset == at for at in places] or [FALSE]),
                  f"a store into {thing.name} where it was written")
        for at in places:
            thing.chunks[at] = (count, z3.simplify(z3.If(offset == at, value, thing.chunks[at][1])))

    def copy(self, state, to, source, count):
        """memmove, of a number of bytes."""
        if not count:
            return
        origin = self.check(state, source, count, 1, "copy")
        thing = self.check(state, to, count, 1, "copy")
        begin, there = literal(source.offset), literal(to.offset)
        if begin is None or there is None or thing.content is not None or thing.array is not None:
            raise Undecided(f"a copy to {thing.name} at a place that is a formula")
        chunks, at = [], begin
        while at < begin + count:
            size, value = origin.chunks.get(at, (0, None))
            if not size or at + size > begin + count:
                size, value = 1, origin.byte(at)
            chunks.append((at - begin, size, value))
            at += size
        thing.cut(there, count)
        for at, size, value in chunks:
            thing.chunks[there + at] = (size, value)

    def fill(self, state, to, value, count):
        """memset, of a number of bytes."""
        if not count:
            return
        thing = self.check(state, to, count, 1, "fill")
        at, number = literal(to.offset), literal(value)
        if at is None or thing.content is not None or thing.array is not None:
            raise Undecided(f"a fill of {thing.name} at a place that is a formula")
        thing.cut(at, count)
        for place in range(at, at + count):
            thing.chunks[place] = (1, value if number is None else numeral(number, 8))


def joined(values):
    """Bytes, the lowest first, as a number."""
    return at_once(z3.Concat, (), *reversed(values)) if len(values) > 1 else values[0]


def loaded(thing, at, count):
    """The value at an offset that is a number."""
    if thing.chunks.get(at, (0,))[0] == count:
        return thing.chunks[at][1]
    values = [thing.byte(place) for place in range(at, at + count)]
    return UNWRITTEN if any(value is UNWRITTEN for value in values) else joined(values)


def from_table(content, offset, count):
    """The number at an offset in a constant table. Its alignment is proved before."""
    place, number = table(content, count)
    return z3.simplify(z3.substitute(number, (place, offset)))


@functools.cache
def table(content, count):
    """A variable for an offset in a table, and the number there: a tree of choices by the bits of the offset."""
    if len(content) % count or count & (count - 1):
        raise Unknown(f"a table of {len(content)} bytes, looked up by {count}")
    numbers = [int.from_bytes(content[at:at + count], "little") for at in range(0, len(content), count)]
    place, low = z3.BitVec("place", 64), (count - 1).bit_length()

    def tree(begin, end, bit):
        if end - begin == 1 or bit < 0:
            return z3.BitVecVal(numbers[begin], 8 * count)
        middle = begin + (1 << bit)
        if middle >= end:
            return tree(begin, end, bit - 1)
        above = z3.Extract(bit + low, bit + low, place) == 1
        return z3.If(above, tree(middle, end, bit - 1), tree(begin, middle, bit - 1))

    return place, tree(0, len(numbers), max(0, (len(numbers) - 1).bit_length() - 1))
