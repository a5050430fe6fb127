"""Runs functions of LLVM's text on symbols, on all ways that are possible.

It knows the instructions of text.py, and stops with an error at anything else. Where LLVM leaves open what happens, as
after an access out of bounds or not aligned, a shift too far, a division by 0, `unreachable`, a number out of its
`!range` or bytes under `!noundef` that were never written, Z3 has to prove that it doesn't happen."""
import z3

from memory import UNWRITTEN, Memory, Pointer, Thing, as_bits
from natural import fresh
from bits import joined_bits, lowest_one, shifted, zeros_at_front
from solver import Refuted, Undecided, at_once, is_possible, literal, numeral, prove
from text import CASE, Unknown, arguments_of, fields_of, plain_name, size_of, width

MOST_STEPS = 200_000
SHAPES = ((0, 2), (0, 4), (4, 2), (0, 8))
COMPARISONS = {
    "eq": lambda a, b: a == b, "ne": lambda a, b: a != b, "ult": z3.ULT, "ule": z3.ULE, "ugt": z3.UGT, "uge": z3.UGE,
    "slt": lambda a, b: a < b, "sle": lambda a, b: a <= b, "sgt": lambda a, b: a > b, "sge": lambda a, b: a >= b,
}
CONVERSIONS = {
    "zext": lambda bits, a: z3.ZeroExt(bits - a.size(), a), "sext": lambda bits, a: z3.SignExt(bits - a.size(), a),
    "trunc": lambda bits, a: z3.Extract(bits - 1, 0, a),
}
OPERATIONS = {
    "add": lambda a, b: a + b, "sub": lambda a, b: a - b, "mul": lambda a, b: a * b, "udiv": z3.UDiv, "urem": z3.URem,
    "and": lambda a, b: a & b, "or": lambda a, b: a | b, "xor": lambda a, b: a ^ b, "shl": lambda a, b: a << b,
    "lshr": z3.LShR, "ashr": lambda a, b: a >> b,
}


class Machine(Memory):
    """Runs functions of a text. It counts the instructions, and what it had to prove. The answer of a function among
    `named` has a name of its own from then on, so that no formula has more than one step of a long way. `loops` are
    those that have an invariant."""

    def __init__(self, text, named=(), loops=None):
        self.text, self.named, self.loops = text, named, loops
        self.steps = self.proved = 0
        self.lines = set()  # of the text that were run

    def must(self, state, claim, what):
        self.proved += 1
        claim = z3.simplify(claim)
        if not z3.is_true(claim):
            prove(claim, what, *state.known())

    def run(self, state, name, arguments):
        """Each way through a function: the state in the end, and what is answered."""
        function = self.text.function(name)
        todo = [(state, dict(zip(function.parameters, arguments)), next(iter(function.blocks)), 0, ())]
        while todo:
            way = Way(self, name, function, *todo.pop())
            try:
                others, answer = way.follow()
            except (Refuted, Undecided, Unknown) as error:
                is_placed = str(error).startswith(self.text.path)
                raise error if is_placed else type(error)(f"{self.text.path}:{way.line}: {error}") from error
            todo += others
            if answer is not None:
                yield answer


    def give_name(self, state, value):
        """A name for the bits of a number that may be ones: the lowest two or four, the two above four, or eight."""
        for zeros, bits in SHAPES:
            part = z3.simplify(z3.Extract(zeros + bits - 1, zeros, value))
            step = z3.BitVec(f"step!{next(fresh)}", bits)
            is_whole = padded(part, zeros, value.size()) == value
            if literal(value) is None and not is_possible(z3.Not(is_whole), *state.known()):
                state.steps.append((step, part, zeros))
                return padded(step, zeros, value.size())
        return value


def padded(part, zeros, size):
    part = z3.Concat(part, z3.BitVecVal(0, zeros)) if zeros else part
    return z3.simplify(z3.ZeroExt(size - part.size(), part))


class Way:
    """One way through a function: the state, the values of its names, where it is, and the local variables."""

    def __init__(self, machine, name, function, state, names, label, at, locals_):
        self.machine, self.name, self.function, self.state = machine, name, function, state
        self.names, self.label, self.at, self.locals = names, label, at, list(locals_)
        self.others, self.answer, self.has_ended, self.line = [], None, False, 0

    def follow(self):
        """Runs to the end: the other ways that leave this one, and the state and the answer in the end."""
        while not self.has_ended:
            if self.at == 0 and self.machine.loops and self.machine.loops.come(self):
                break
            instruction = self.function.blocks[self.label][self.at]
            self.at += 1
            self.machine.steps += 1
            if self.machine.steps > MOST_STEPS:
                raise Refuted(f"it doesn't end within {MOST_STEPS} instructions")
            self.line = instruction.line
            self.machine.lines.add(self.line)
            getattr(self, instruction.form)(*instruction.parts)
        return self.others, self.answer

    # ---- values

    def value(self, kind, word):
        if word.startswith("%"):
            return self.names[word]
        if word.startswith("@"):
            return self.constant(word[1:])
        if word == "null":
            return Pointer(0, 0)
        if word in ("undef", "poison"):
            return UNWRITTEN
        if word in ("true", "false"):
            return numeral(int(word == "true"), 1)
        return numeral(int(word), width(kind))

    def number(self, kind, word):
        value = self.value(kind, word)
        if value is UNWRITTEN or isinstance(value, (Pointer, tuple)):
            raise Refuted(f"{word} is no number: bytes were never written")
        return value

    def pointer(self, word):
        value = self.value("ptr", word)
        if not isinstance(value, Pointer):
            raise Refuted(f"{word} is no pointer: bytes were never written")
        return value

    def constant(self, name):
        if name not in self.state.things:
            constant = self.machine.text.constants.get(name)
            if constant is None:
                raise Unknown(f"no constant @{name}")
            self.state.things[name] = Thing(f"@{name}", len(constant.content), constant.align, constant.content)
        return Pointer(name, 0)

    # ---- memory

    def alloca(self, target, kind, align):
        self.names[target] = self.state.add(Thing(target, size_of(kind), int(align)))
        self.locals.append(self.names[target].thing)

    def load(self, target, kind, place, align, marks):
        is_defined = "!noundef" in marks
        value = self.machine.load(self.state, self.pointer(place), kind, int(align), is_defined)
        for mark in marks.split(", ")[1:]:
            word, name = mark.split(" ")
            if word == "!range":
                if name not in self.machine.text.ranges:
                    raise Unknown(f"no range {name}")
                least, end = self.machine.text.ranges[name]
                self.must(z3.And(z3.UGE(value, least), z3.ULT(value, end)), "a number in its range")
        self.names[target] = value

    def store(self, kind, word, place, align):
        value, pointer = self.value(kind, word), self.pointer(place)
        if kind.startswith("{"):
            for (offset, field), part in zip(fields_of(kind)[0], value):
                self.machine.store(self.state, pointer.plus(offset), size_of(field), 1, part)
            return
        if z3.is_bv(value) and value.size() < 8:
            value = z3.ZeroExt(8 - value.size(), value)
        self.machine.store(self.state, pointer, size_of(kind), int(align), value)

    def place(self, target, is_inbounds, base, kind, word):
        pointer, count = self.pointer(base), self.number(kind, word)
        count = z3.SignExt(64 - count.size(), count) if count.size() < 64 else count
        self.names[target] = pointer.plus(count)
        size = self.state.thing(pointer).size if is_inbounds else None
        offset = self.names[target].offset
        if is_inbounds and not (isinstance(size, int) and isinstance(offset, int) and offset <= size):
            self.must(z3.ULE(as_bits(self.names[target].offset), as_bits(size)), "a place within its object")

    def address(self, target, word):
        self.names[target] = z3.simplify(self.state.address(self.pointer(word)))

    # ---- numbers

    def convert(self, target, how, kind, word, wanted):
        value = self.value(kind, word)
        self.names[target] = value if value is UNWRITTEN else at_once(converted, (how, width(wanted)), value)

    def compare(self, target, how, kind, left, right):
        if kind == "ptr":
            a, b = self.pointer(left), self.pointer(right)
            if how not in ("eq", "ne"):
                raise Unknown("pointers are compared by their order")
            holds = (as_bits(a.offset) == as_bits(b.offset) if a.thing == b.thing else z3.BoolVal(False))
            holds = z3.Not(holds) if how == "ne" else holds
        else:
            if how not in COMPARISONS:
                raise Unknown(f"icmp {how}")
            self.names[target] = at_once(compared, (how,), self.number(kind, left), self.number(kind, right))
            return
        self.names[target] = at_once(bit_of, (), holds)

    def binary(self, target, how, kind, left, right):
        a, b = self.number(kind, left), self.number(kind, right)
        if how in ("udiv", "urem") and not literal(b):
            self.must(b != 0, "a divisor that is not 0")
        if how in ("shl", "lshr", "ashr") and (literal(b) is None or literal(b) >= width(kind)):
            self.must(z3.ULT(b, width(kind)), "a shift by less than the width")
        self.names[target] = at_once(plain, (how,), a, b)

    def extract(self, target, kind, word, index):
        value = self.value(kind, word)
        self.names[target] = value if value is UNWRITTEN else value[int(index)]

    def insert(self, target, kind, word, field, part, index):
        value = self.value(kind, word)
        parts = [UNWRITTEN] * len(fields_of(kind)[0]) if value is UNWRITTEN else list(value)
        parts[int(index)] = self.value(field, part)
        self.names[target] = tuple(parts)

    def must(self, claim, what):
        self.machine.must(self.state, claim, what)

    # ---- where it goes on

    def jump(self, label):
        self.label, self.at = label, 0

    def branch(self, word, yes, no):
        holds = self.number("i1", word)
        if literal(holds) is None:
            self.choose([(holds == 1, yes), (holds == 0, no)])
        else:
            self.jump(yes if literal(holds) else no)

    def switch(self, kind, word, otherwise, cases):
        value = self.number(kind, word)
        cases = [(z3.BitVecVal(int(number), width(kind)), label) for number, label in CASE.findall(cases)]
        ways = [(value == number, label) for number, label in cases]
        self.choose(ways + [(z3.And([value != number for number, _ in cases]), otherwise)])

    def choose(self, ways):
        """Goes the first of the ways that are possible, and keeps the others for later."""
        ways = [(z3.simplify(condition), label) for condition, label in ways]
        ways = [(condition, label) for condition, label in ways if not z3.is_false(condition)]
        if len(ways) > 1:
            ways = [way for way in ways if is_possible(*self.state.known(), way[0])]
        if not ways:
            raise Undecided("a way that nothing takes")
        for condition, label in ways[1:]:
            other = self.state.fork()
            other.conditions.append(condition)
            self.others.append((other, dict(self.names), label, 0, tuple(self.locals)))
        if len(ways) > 1:
            self.state.conditions.append(ways[0][0])
        self.jump(ways[0][1])

    def never(self, _):
        raise Refuted("what is unreachable is reached")

    def give(self, what):
        value = None
        if what != "void":
            kind, _, word = what.rpartition(" ")
            value = self.value(kind, word)
        if value is UNWRITTEN and self.function.is_defined:
            raise Refuted(f"{self.name} answers bytes that were never written")
        self.state.cuts = {key: cut for key, cut in self.state.cuts.items() if key[0] != self.name}
        for number in self.locals:
            del self.state.things[number]
            self.state.addresses.pop(number, None)
        self.has_ended, self.answer = True, (self.state, value)

    def call(self, target, callee, arguments):
        values = [self.value(kind.split(" ")[0] if kind[0] != "{" else kind, word)
                  for kind, word in arguments_of(arguments)]
        if callee.startswith("llvm."):
            ways = [(self.state, self.built_in(callee, values))]
        else:
            defined = self.machine.text.function(callee).defined
            if any(value is UNWRITTEN and has_to for value, has_to in zip(values, defined)):
                raise Refuted(f"{callee} is given bytes that were never written")
            ways = list(self.machine.run(self.state, callee, values))
        if not ways:
            raise Undecided(f"{callee} ends on no way")
        if self.machine.loops and plain_name(callee) in self.machine.loops.asked:
            for state, value in ways:
                state.answers[plain_name(callee)] = value
        for state, value in ways[1:]:
            names = {**self.names, target: value} if target else dict(self.names)
            self.others.append((state, names, self.label, self.at, tuple(self.locals)))
        self.state, value = ways[0]
        if callee in self.machine.named:
            value = self.machine.give_name(self.state, value)
        if target:
            self.names[target] = value

    def built_in(self, name, values):
        """A function of LLVM's own."""
        if name.startswith(("llvm.memset.", "llvm.memmove.")):
            count = literal(values[2])
            if count is None:
                raise Undecided("a number of bytes that is a formula")
            if name.startswith("llvm.memset."):
                return self.machine.fill(self.state, values[0], values[1], count)
            return self.machine.copy(self.state, values[0], values[1], count)
        if name.startswith(("llvm.cttz.i", "llvm.ctlz.i")):
            return zeros(values[0], name.startswith("llvm.cttz."))
        if name == "llvm.trap":
            raise Refuted("a trap is reached")
        raise Unknown(f"the function {name}")


def converted(how, bits, value):
    return CONVERSIONS[how](bits, value)


def compared(how, a, b):
    return bit_of(COMPARISONS[how](a, b))


def bit_of(claim):
    return z3.If(claim, z3.BitVecVal(1, 1), z3.BitVecVal(0, 1))


def plain(how, a, b):
    """An operation, so written that Z3 has no division or product by a power of two, and no sum of bits apart."""
    power = literal(b)
    if how in ("udiv", "urem") and power and power & (power - 1) == 0:
        return z3.LShR(a, power.bit_length() - 1) if how == "udiv" else a & (power - 1)
    if how == "mul":
        for factor, other in ((a, b), (b, a)):
            power = literal(factor)
            if power and power & (power - 1) == 0:
                return shifted(other, power.bit_length() - 1)
            if zeros_at_front(factor) == a.size() - 1:
                return z3.If(z3.Extract(0, 0, factor) == 1, other, z3.BitVecVal(0, a.size()))
    if how == "add":
        return joined_bits(a, b)
    return OPERATIONS[how](a, b)


def zeros(value, is_at_end):
    """How many zeros a number ends in, or begins with."""
    bits, seen = value.size(), lowest_one(value) if is_at_end else None
    if seen is not None:
        return z3.BitVecVal(seen, bits)
    count = z3.BitVecVal(bits, bits)
    for bit in range(bits - 1, -1, -1) if is_at_end else range(bits):
        here = z3.BitVecVal(bit if is_at_end else bits - 1 - bit, bits)
        count = z3.If(z3.Extract(bit, bit, value) == 1, here, count)
    return z3.simplify(count)
