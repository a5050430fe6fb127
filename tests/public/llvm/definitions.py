"""The definitions in crates, and clauses of contracts, as formulas of Z3: read from their own text, so that nobody
writes them a second time.

A clause is shown where it is claimed: it then speaks of any number where it says `(n : ℕ) →`. Where a statement is
given, such as to the left of an arrow, one that is true for all numbers is used for one of them, which the table of
calls names as its witness; likewise what is claimed for some number is shown for its witness. All this only makes
claims stronger. Words that have no such witness have a form without quantifiers, in words.py."""
import functools
import itertools

import z3

import antt
import natural as numbers
from natural import Number, constant
from solver import FALSE, TRUE, Undecided
from text import Unknown


@functools.cache
def declarations(path):
    return [{**found, "path": path} for found in antt.read(path)]


NUMBERS = object()  # what a type is known to be, if it is ℕ


class Closure:
    """A function of some names, or a statement that is looked at where it is claimed or given."""

    def __init__(self, names, body, names_known, where):
        self.names, self.body, self.known, self.where = names, body, names_known, where


class Partial:
    """A word with the first of its arguments."""

    def __init__(self, word, values):
        self.word, self.values = word, values


class Built:
    """What a constructor with these arguments is."""

    def __init__(self, constructor, values):
        self.constructor, self.values = constructor, values


class Mapped:
    """A list of what a function makes of the numbers from one on."""

    def __init__(self, function, begin, count):
        self.function, self.begin, self.count = function, begin, count

    def length(self):
        return self.count


class Stretch:
    """A list of any length: the elements of an array from one on to another one, which isn't in it."""

    def __init__(self, array, begin, end):
        self.array, self.begin, self.end = array, begin, end

    def length(self):
        return numbers.subtract(self.end, self.begin)

    def is_empty(self):
        return z3.UGE(self.begin.bits, self.end.bits)

    def drop(self, count):
        return Stretch(self.array, numbers.add(self.begin, count), self.end)

    def __repr__(self):
        return f"{self.array.sexpr()} {self.begin} {self.end}"

    def element(self, place):
        return z3.Select(self.array, z3.Extract(63, 0, place))

    def at(self, index, otherwise=None):
        """The element at an index, or what is otherwise there, 0 if nothing is said of it."""
        place = numbers.add(self.begin, index)
        there = numbers.of_bits(self.element(place.bits))
        return numbers.choice(z3.ULT(place.bits, self.end.bits), there, otherwise or constant(0))


class Listed:
    """A list: its first elements, and the rest: nothing, or a name and a length that stand for any elements."""

    def __init__(self, front, rest=None):
        self.front, self.rest = list(front), rest

    def __repr__(self):
        return f"{self.front} {self.rest}"

    def length(self):
        front = constant(len(self.front))
        return numbers.add(front, self.rest[1]) if self.rest else front

    def drop(self, count):
        if count > len(self.front):
            if self.rest:
                raise Undecided("elements of a list are dropped that aren't known")
            return Listed([])
        return Listed(self.front[count:], self.rest)


class Words:
    """What the words mean: the definitions of some files, and the forms of words in Python."""

    def __init__(self, paths):
        self.definitions, self.records, self.forms, self.witnesses, self.where = {}, {}, {}, {}, "a clause"
        self.shown = {}  # forms from which a word follows: for where it is claimed alone
        self.premises = []  # of what is looked at
        self.facts, self.unfolded = [], None  # what is known of words; the word of which a step is being made
        self.claimed_of, self.known_of = [], None  # any numbers of what is claimed; for which what is given is used
        for path in paths:
            for found in declarations(path):
                if found.get("name") in self.definitions or found.get("name") in self.records:
                    raise Unknown(f"{path}:{found['line']}: {found['name']} is defined in two files")
                if found["kind"] == "def":
                    self.definitions[found["name"]] = found
                elif found["kind"] == "record":
                    self.records[found["name"]] = found

    def unknown(self, what):
        return Unknown(f"{self.where}: {what} isn't known")

    # ---- statements

    def holds(self, term, known, claimed):
        """The formula for a statement, where it is claimed, or given."""
        kind = term[0]
        if kind == "pi":
            return self.follows(term[1], term[2], known, claimed)
        if kind == "sig":
            return self.all_hold(term[1], known, claimed)
        if kind == "app":
            head, arguments = term[1], [it for it in term[2] if it[0] != "iarg"]
            if head[0] == "var" and head[1] not in known:
                return self.word_holds(head[1], arguments, known, claimed)
            return self.holds_of(self.value(head, known), [self.value(it, known) for it in arguments], claimed)
        if kind == "fields":
            return self.all_hold([(None, it) for _, it in term[1]], known, claimed)
        if kind == "var" and term[1] in known:
            return self.holds_of(known[term[1]], [], claimed)
        if kind == "var":
            return self.word_holds(term[1], [], known, claimed)
        raise self.unknown(f"the statement {term}")

    def holds_of(self, statement, arguments, claimed):
        """The formula for a value that is a statement, or a function whose values are."""
        if z3.is_bool(statement) and not arguments:
            return statement
        if isinstance(statement, Partial):
            named = {f"argument {place}": it for place, it in enumerate([*statement.values, *arguments])}
            return self.word_holds(statement.word, [("var", name) for name in named], named, claimed)
        if not isinstance(statement, Closure) or len(arguments) != len(statement.names):
            raise self.unknown("a statement made of a value")
        known = {**statement.known, **dict(zip(statement.names, arguments))}
        return self.holds(statement.body, known, claimed)

    def follows(self, groups, body, known, claimed):
        """`premise → conclusion`, or a statement about all numbers."""
        (names, kind, _), *others = groups
        if names == [None]:
            premise = self.looked_at(kind, known, not claimed)
            return TRUE if z3.is_false(premise) else self.then(premise, others, body, known, claimed)
        if claimed:
            ways = self.any_numbers(names, kind, known)
        elif self.known_of is None:
            ways = [(self.witnessed(names, kind, known), TRUE)]
        else:
            ways = [(used, TRUE) for used in self.uses(names, kind, known)]
        return simple(z3.And([TRUE, *(self.then(premise, others, body, used, claimed) for used, premise in ways)]))

    def uses(self, names, kind, known):
        """The names with the numbers for which a statement about all numbers is used: the first with each of them."""
        self.want_numbers(kind, known)
        return [{**known, **dict.fromkeys(names, constant(0)), names[0]: number} for number in self.known_of]

    def want_numbers(self, kind, known):
        if kind != ("var", "ℕ") and (kind[0] != "var" or known.get(kind[1]) is not NUMBERS):
            raise self.unknown(f"a quantifier over {kind}")

    def then(self, premise, others, body, known, claimed):
        """What follows from a premise."""
        self.premises.append(premise if claimed else TRUE)
        try:
            then = self.looked_at(("pi", others, body) if others else body, known, claimed)
        finally:
            self.premises.pop()
        return simple(z3.Implies(premise, then))

    def looked_at(self, term, known, claimed):
        """The formula for a statement; any one, which may hold or not, if it isn't decided what it is."""
        try:
            return simple(self.holds(term, known, claimed))
        except Undecided:
            return z3.Bool(f"undecided!{next(numbers.fresh)}")

    def all_hold(self, parts, known, claimed):
        """Statements that all hold; those with a name say that there is such a number."""
        formulas = []
        for place, (name, kind) in enumerate(parts):
            if name is None:
                formulas.append(self.looked_at(kind, known, claimed))
            elif claimed:
                known = self.witnessed([name], kind, known)
            else:
                ways = self.any_numbers([name], kind, known)
                formulas.append(z3.Or([z3.And(condition, self.all_hold(parts[place + 1:], names, claimed))
                                       for names, condition in ways]))
                break
            if formulas and z3.is_false(formulas[-1]):
                return FALSE
        return simple(z3.And(*formulas))

    def any_numbers(self, names, kind, known):
        """The names with any numbers: one of 64 bits, or a greater one of which nothing else is known."""
        self.want_numbers(kind, known)
        ways = [(known, TRUE)]
        for name in names:
            small, is_small = numbers.variable(name, 2**64 - 1)
            if name == names[0]:
                self.claimed_of.append(small)
            great, _ = numbers.variable(name, numbers.TOP)
            is_great = z3.UGE(great.bits, z3.BitVecVal(2**64, numbers.BITS))
            ways = [({**others, name: number}, z3.And(condition, is_it)) for others, condition in ways
                    for number, is_it in ((small, is_small), (great, is_great))]
        return ways

    def witnessed(self, names, kind, known):
        """The names with their witnesses."""
        self.want_numbers(kind, known)
        for name in names:
            if name not in self.witnesses:
                raise self.unknown(f"a witness for {name}")
            known = {**known, name: self.value(antt.term(self.witnesses[name]), known)}
        return known

    def word_holds(self, word, arguments, known, claimed):
        """The formula for a word that makes a statement of its arguments."""
        if word in ("◌≡◌", "◌≢◌"):
            left, right = (self.value(it, known) for it in arguments)
            if word == "◌≡◌" and isinstance(left, Stretch) and isinstance(right, Stretch):
                return self.are_same_stretches(left, right, claimed)
            same = self.same(left, right)
            return same if word == "◌≡◌" else z3.Not(same)
        if word == "◌⊎◌":
            return z3.Or([self.looked_at(it, known, claimed) for it in arguments])
        if word in ("⊤", "⊥"):
            return TRUE if word == "⊤" else FALSE
        if word in ("◌<◌", "◌≤◌"):
            left, right = (self.number(it, known) for it in arguments)
            return (z3.ULT if word == "◌<◌" else z3.ULE)(left.bits, right.bits)
        if word in self.shown and not claimed:
            raise self.unknown(f"the word {word}, where it is given,")
        if word in self.forms or word in self.shown:
            return {**self.forms, **self.shown}[word](*[self.value(it, known) for it in arguments])
        if word in self.records:
            return self.record_holds(word, self.values_of(arguments, field_kinds(self.records[word]), known), claimed)
        if word in self.definitions:
            values = self.values_of(arguments, argument_kinds(self.definitions[word]["type"]), known)
            return self.defined(word, values, lambda body, names: self.holds(body, names, claimed))
        raise self.unknown(f"the word {word}")

    def values_of(self, arguments, kinds, known):
        """The values of arguments of these types; a statement, or a word that makes one of numbers, is looked at
        later."""
        values = []
        for it, kind in zip(arguments, kinds):
            if is_statement(kind) and not (it[0] == "var" and it[1] in known):
                values.append(Closure([], it, known, self.where))
            elif kind[0] == "pi" and is_statement(kind[2]) and it[0] == "var" and it[1] not in known:
                values.append(Partial(it[1], []))
            else:
                values.append(self.value(it, known))
        return values

    def are_same_stretches(self, a, b, claimed):
        """That two lists have as many elements, and the same ones: at any place, or, if it is given, at those for
        which what is given is used."""
        places = [it.bits for it in (self.known_of or [])]
        if claimed:
            place, _ = numbers.variable("place", numbers.TOP)
            self.claimed_of.append(place)
            places = [place.bits]
        same = [z3.Implies(z3.And(z3.ULE(a.begin.bits, place), z3.ULT(place, a.end.bits)), a.element(place) ==
                           b.element(place)) for place in places]
        are_as_long = z3.And(a.begin.bits == b.begin.bits, a.end.bits == b.end.bits)
        return z3.And(z3.Or(are_as_long, z3.And(a.is_empty(), b.is_empty())), *same) if claimed else z3.Implies(
            are_as_long, z3.And(TRUE, *same))

    def record_holds(self, word, values, claimed, only=None):
        """The formula for a record of statements, or for those of its fields that are named."""
        record = self.records[word]
        names = [name for group in record["params"] if not group[2] for name in group[0]]
        known = dict(zip(names, values))
        if any(isinstance(it, Stretch) for it in values):  # of numbers
            known.update({name: NUMBERS for group in record["params"] if group[2] for name in group[0]})
        return self.all_hold([(None, kind) for name, kind in record["fields"] if only is None or name in only],
                             known, claimed)

    # ---- values

    def number(self, term, known):
        value = self.value(term, known)
        if not isinstance(value, Number):
            raise self.unknown(f"the number {term}")
        return value

    def value(self, term, known):
        kind = term[0]
        if kind == "num":
            return constant(term[1])
        if kind == "var":
            return known[term[1]] if term[1] in known else self.word(term[1], [])
        if kind == "lam":
            return Closure([name[1] for name in term[1]], term[2], known, self.where)
        if kind == "proj":
            record = self.value(term[1], known)
            if not isinstance(record, dict) or term[2] not in record:
                raise self.unknown(f"the field {term[2]}")
            return record[term[2]]
        if kind == "app":
            arguments = [it for it in term[2] if it[0] != "iarg"]
            if term[1][0] == "var" and term[1][1] not in known:
                return self.word(term[1][1], [self.value(it, known) for it in arguments])
            return self.applied(self.value(term[1], known), [self.value(it, known) for it in arguments])
        return Closure([], term, known, self.where)

    def applied(self, function, values):
        if isinstance(function, Partial):
            return self.word(function.word, function.values + values)
        if isinstance(function, Closure) and len(function.names) == len(values):
            return self.value(function.body, {**function.known, **dict(zip(function.names, values))})
        raise self.unknown("a function that is applied")

    def word(self, word, values):
        """The value of a word, of a built-in one first."""
        if word == "slice_index" and isinstance(values[0], Mapped):
            xs, index = values
            element = self.applied(xs.function, [numbers.add(xs.begin, index)])
            return numbers.choice(z3.ULT(index.bits, xs.count.bits), element, constant(0))
        if word in BUILT_IN:
            return BUILT_IN[word](*values)
        if word in self.forms:
            return self.forms[word](*values)
        if word in self.definitions:
            return self.defined(word, values, self.value)
        if word in self.records:
            return self.record_holds(word, values, True)
        raise self.unknown(f"the word {word}")

    def defined(self, word, values, look):
        """What `look` makes of the clause of a definition that fits the values."""
        definition, outer = self.definitions[word], self.where
        if len(values) < len(argument_kinds(definition["type"])):
            return Partial(word, values)
        if any(isinstance(it, Stretch) and is_list_pattern(pattern) for patterns, _, _ in definition["clauses"]
               for pattern, it in zip([it for it in patterns if it[0] not in ("ipat", "many")], values)):
            return self.of_any_length(word, values)
        for patterns, body, _ in definition["clauses"]:
            patterns = [it for it in patterns if it[0] not in ("ipat", "many")]
            known = {}
            if len(patterns) == len(values) and all(fits(it, value, known) for it, value in zip(patterns, values)):
                self.where = f"{definition['path']}:{definition['line']}: {word}"
                try:
                    return look(body, known)
                finally:
                    self.where = outer
        raise self.unknown(f"the clause of {word} for such arguments")

    def of_any_length(self, word, values):
        """A number that a word makes of lists of any length by recursion: one of which its definition is known for one
        step, from these lists to their rests."""
        if not all(isinstance(it, Stretch) for it in values):
            raise self.unknown(f"{word} of other things than lists")
        lists = [number.bits for it in values for number in (it.begin, it.end)]
        name = " of ".join([word, *(str(it.array) for it in values)])
        result = z3.Function(name, *[z3.BitVecSort(numbers.BITS)] * (len(lists) + 1))(*lists)
        if self.unfolded is None:
            self.unfolded = word
            self.facts.append(result == self.one_step(word, values).bits)
            self.unfolded = None
        elif self.unfolded != word:
            raise self.unknown(f"{word} in the recursion of {self.unfolded}")
        return Number(result, numbers.TOP)

    def one_step(self, word, values):
        """The clause of a definition that fits lists, by which of them are empty. The last clause is for what is left,
        so the clauses have to be all cases."""
        ways = []
        for patterns, body, _ in self.definitions[word]["clauses"]:
            known, is_empty = {}, []
            for pattern, value in zip(patterns, values):
                if not is_list_pattern(pattern) or len(pattern) == 3 and any(it[0] != "var" for it in pattern[2]):
                    raise self.unknown(f"the pattern {pattern}")
                is_empty.append(len(pattern) == 2)
                if len(pattern) == 3:
                    known.update({pattern[2][0][1]: value.at(constant(0)), pattern[2][1][1]: value.drop(constant(1))})
            ways.append((tuple(is_empty), self.value(body, known)))
        if {way for way, _ in ways} != set(itertools.product((True, False), repeat=len(values))):
            raise self.unknown(f"{word}, which has other clauses than one for each case,")
        result = ways[-1][1]
        for is_empty, value in ways[:-1]:
            fits_here = z3.And([it.is_empty() == empty for it, empty in zip(values, is_empty)])
            result = numbers.choice(fits_here, value, result)
        return result

    def same(self, a, b):
        if isinstance(a, Number) and isinstance(b, Number):
            return a.bits == b.bits
        if z3.is_bool(a) and z3.is_bool(b):
            return a == b
        if isinstance(a, Listed) and isinstance(b, Listed):
            return self.same_lists(a, b)
        if isinstance(a, dict) and isinstance(b, dict) and set(a) == set(b):
            return z3.And([self.same(a[field], b[field]) for field in a])
        raise self.unknown("an equality of such values")

    def same_lists(self, a, b):
        if bool(a.rest) != bool(b.rest) or (a.rest and (a.rest[0] != b.rest[0] or len(a.front) != len(b.front))):
            raise self.unknown("an equality of lists of any length")
        if len(a.front) != len(b.front):
            return FALSE
        return z3.And([self.same(x, y) for x, y in zip(a.front, b.front)] or [TRUE])


def simple(formula):
    return z3.simplify(formula)


def argument_kinds(kind):
    """The types of the explicit arguments of a definition's type."""
    kinds = []
    while kind[0] == "pi":
        for names, type_, is_implicit in kind[1]:
            kinds += [] if is_implicit else [type_] * len(names)
        kind = kind[2]
    return kinds


def field_kinds(record):
    """The types of the explicit parameters of a record."""
    return [kind for names, kind, is_implicit in record["params"] if not is_implicit for _ in names]


def is_statement(kind):
    return kind[0] == "app" and kind[1] == ("var", "Type")


def is_list_pattern(pattern):
    return pattern == ("var", "[]") or pattern[:2] == ("con", "◌∷◌")


def fits(pattern, value, known):
    """Whether a pattern fits a value; if so the names in it are known afterwards."""
    if isinstance(value, Built) and (pattern[0] == "con" or pattern[1][0].isupper()):
        parts = pattern[2] if pattern[0] == "con" else []
        return (pattern[1], len(parts)) == (value.constructor, len(value.values)) and all(
            fits(part, it, known) for part, it in zip(parts, value.values))
    if pattern == ("var", "zero"):
        return decided(value) == 0
    if pattern == ("var", "[]"):
        return not value.front and not value.rest
    if pattern[0] == "var":
        known[pattern[1]] = value
        return True
    if pattern[0] == "con" and pattern[1] == "suc":
        return decided(value) > 0 and fits(pattern[2][0], constant(decided(value) - 1), known)
    if pattern[0] == "con" and pattern[1] == "◌∷◌":
        if not value.front and value.rest:
            raise Undecided("a list whose elements aren't known")
        return (bool(value.front) and fits(pattern[2][0], value.front[0], known)
                and fits(pattern[2][1], value.drop(1), known))
    raise Undecided(f"the pattern {pattern} isn't known")


def decided(value):
    if value.literal is None:
        raise Undecided("a choice between clauses that depends on a formula")
    return value.literal


# ---- words of the kit whose meaning is here

def dropped(count, xs):
    return xs.drop(count if isinstance(xs, Stretch) else decided(count))


def looked_up(xs, index):
    """`slice_index`: the element, or 0 where there is none."""
    if isinstance(xs, Stretch):
        return xs.at(index)
    if index.literal is not None and index.literal < len(xs.front):
        return xs.front[index.literal]
    if xs.rest:
        raise Undecided("an element of a list that isn't known")
    result = constant(0)
    for place in range(len(xs.front) - 1, -1, -1):
        result = numbers.choice(index.bits == place, xs.front[place], result)
    return result


def below_zero(value):
    """`negsuc`: 0 for -1, and so on; a number of ℤ is a formula of 128 bits with a sign."""
    return Number(z3.BitVecVal(-1 - decided(value), numbers.BITS), numbers.TOP)


BUILT_IN = {
    "◌+◌": numbers.add, "◌-◌": numbers.subtract, "◌*◌": numbers.multiply, "◌/◌": numbers.divide,
    "◌%◌": numbers.remainder, "◌^◌": numbers.power, "suc": lambda n: numbers.add(n, constant(1)),
    "zero": lambda: constant(0), "true": lambda: TRUE, "false": lambda: FALSE,
    "nat_lt": lambda a, b: z3.ULT(a.bits, b.bits), "nat_le": lambda a, b: z3.ULE(a.bits, b.bits),
    "◌==◌": lambda a, b: a.bits == b.bits, "◌&&◌": lambda a, b: z3.And(a, b), "◌||◌": lambda a, b: z3.Or(a, b),
    "cond": numbers.choice, "bit_xor": numbers.exclusive_or, "pos": lambda n: n, "negsuc": below_zero,
    "count_trailing_zeros": lambda bits, n: numbers.trailing_zeros(decided(bits), n),
    "[]": lambda: Listed([]), "◌∷◌": lambda x, xs: Listed([x, *xs.front], xs.rest),
    "◌++◌": lambda xs, ys: joined(xs, ys), "length": lambda xs: xs.length(),
    "range_with_len": lambda begin, count: Mapped(None, begin, count),
    "map": lambda function, xs: Mapped(function, xs.begin, xs.count),
    "drop": dropped, "slice_index": looked_up, "get_or": lambda xs, index, otherwise: xs.at(index, otherwise),
    "slice_index_or": lambda xs, index, otherwise: xs.at(index, otherwise),
}


def joined(xs, ys):
    if xs.rest:
        raise Undecided("a list that is joined to one of any length")
    return Listed(xs.front + ys.front, ys.rest)
