"""Words that speak of each two cells of a list of any length, or of all its leaves. A statement of such a word has a
name, so that it is one wherever it stands. It speaks of all indexes, and is used for those that a claim names; whatever
else follows from it are laws, whose lemmas Coq checks."""
import itertools

import z3

import natural as numbers
from definitions import Closure, Partial, Stretch
from natural import BITS, LIMIT, Number, constant, of_bits
from solver import FALSE, TRUE, prove
from squares import SquareWords
from words import APART, CELL_FACTS, is_cell

NAMED = ("IsLocal", "IsPacked", "IsFrom", "IsWithin")
OF_ALL = {"All": 1, "AllPairs": 2}  # of how many elements the statement is that they make
LOOK_UPS = ("slice_index", "slice_index_or", "get_or")
ELEMENT_WORDS = ("first_leaf", "size_of")
PAIRS = {"IsPacked": ("cells", "chain")}  # what is used for the indexes of all that is looked at together


class Looked(Number):
    """A number that is looked up in a list: the element, if the index is inside, else 0; or any number, if the index
    may be any natural number, and no element is known."""

    def __init__(self, number, element, is_inside):
        super().__init__(number.bits, number.most)
        self.element, self.is_inside = element, is_inside


class ListWords(SquareWords):
    """The words of lists. `indexes` has the indexes at which lists are looked at, and `named` the statements that have
    a name, each with its word and its values."""

    def __init__(self, paths):
        super().__init__(paths, True)
        self.indexes, self.named, self.elements = [], {}, {}
        self.forms["IsCell"] = self.is_cell

    def word(self, word, values):
        found = super().word(word, values)
        if word in LOOK_UPS and isinstance(values[0], Stretch):
            among, index = values[:2]
            if index.most >= LIMIT:
                return Looked(found, None, FALSE)
            self.indexes.append(index)
            place = numbers.add(among.begin, index)
            return Looked(found, of_bits(among.element(place.bits)), z3.ULT(place.bits, among.end.bits))
        return found

    # ---- elements that may be cells

    def is_cell(self, number):
        """Of an element of a list it has a name, as nothing else is used than the facts about cells."""
        if isinstance(number, Looked):
            if number.element is None:
                raise self.unknown("an element at any index")
            return z3.And(number.is_inside, self.element_is_cell(number.element))
        return is_cell(number)

    def element_is_cell(self, element):
        return z3.Bool(f"IsCell of {element.bits.sexpr()}")

    def number_of(self, word, number):
        if isinstance(number, Looked):
            if word not in ELEMENT_WORDS:
                raise self.unknown(f"{word} of an element of a list")
            if number.element is None:
                return numbers.unknown()
            return numbers.choice(number.is_inside, self.of_element(word, number.element),
                                  super().number_of(word, constant(0)))
        if word in ELEMENT_WORDS:
            return self.of_cell(word, number, is_cell(number))
        return super().number_of(word, number)

    def of_element(self, word, element):
        return self.of_cell(word, element, self.element_is_cell(element))

    def of_cell(self, word, number, premise):
        """The first leaf or the size of a number, of which the facts are known if it is a cell."""
        key = number.bits.sexpr()
        if key not in self.elements:
            found = {each: numbers.variable(each, APART[each]) for each in ELEMENT_WORDS}
            self.elements[key] = {each: it for each, (it, _) in found.items()}
            self.facts += [condition for _, condition in found.values()]
            first, size = (self.elements[key][each] for each in ELEMENT_WORDS)
            self.facts.append(z3.Implies(premise, facts_of(number, first, size)))
        return self.elements[key][word]

    def prove_elements(self):
        """Proves the facts about elements from those about cells; how many claims these were."""
        number = of_bits(z3.BitVec("n", 64))
        found = {word: numbers.variable(word, APART[word]) for word in ELEMENT_WORDS}
        known = [z3.And(condition, CELL_FACTS[word](number, it)) for word, (it, condition) in found.items()]
        prove(facts_of(number, *(it for it, _ in found.values())), "the facts about elements", is_cell(number), *known)
        return 1

    def word_holds(self, word, arguments, known, claimed):
        if word == "◌↔◌":
            ways = [(self.looked_at(one, known, not claimed), self.looked_at(other, known, claimed))
                    for one, other in (arguments, arguments[::-1])]
            return z3.And([z3.Implies(*way) for way in ways])
        if word in OF_ALL:
            statement, among = arguments
            return self.of_all(OF_ALL[word], Partial(statement[1], []), self.value(among, known), claimed)
        if word in NAMED:
            return self.named_holds(word, [self.value(it, known) for it in arguments], claimed)
        return super().word_holds(word, arguments, known, claimed)

    def named_holds(self, word, values, claimed):
        """The name of a statement; of a record of few fields also these, as either is enough or both are known."""
        name = z3.Bool(f"{word} of {', '.join(map(said, values))}")
        self.named[str(name)] = name, word, values
        if word != "IsFrom":
            return name
        fields = self.record_holds(word, values, claimed)
        return z3.Or(name, fields) if claimed else z3.And(name, fields)

    def of_all(self, count, statement, among, claimed):
        """A statement on all elements of a list, or on each two in their order, for the indexes that are used."""
        if claimed or not isinstance(among, Stretch):
            raise self.unknown("a claim about all elements")
        formulas = [TRUE]
        for indexes in itertools.permutations(self.known_of, count):
            ascend = [z3.ULT(one.bits, next_one.bits) for one, next_one in zip(indexes, indexes[1:])]
            ascend.append(z3.ULT(indexes[-1].bits, among.length().bits))
            holds = self.holds_of(statement, [self.word("slice_index", [among, it]) for it in indexes], False)
            formulas.append(z3.Implies(z3.And(ascend), holds))
        return z3.And(formulas)

    def pairs(self, indexes):
        """What the statements that have a name say of these indexes, and of each two of them."""
        self.known_of = [*{str(it): it for it in indexes if it.most < LIMIT}.values()]
        return [z3.Implies(name, self.record_holds(word, values, False, PAIRS[word]))
                for name, word, values in self.named.values() if word in PAIRS]

    def law(self, name, values):
        """What a lemma says of these values."""
        kind, known = self.definitions[name]["type"], {}
        self.known_of = [numbers.constant(0)]
        (_, groups, body) = kind
        while groups and groups[0][0] != [None]:
            names, _, _ = groups[0]
            known.update({each: values[each] for each in names})
            groups = groups[1:]
            if not groups and body[0] == "pi":
                _, groups, body = body
        return self.holds(("pi", groups, body) if groups else body, known, False)


def facts_of(number, first, size):
    """What is known of a cell: it is twice its first leaf and its size, and where its leaves begin and end, as the text
    computes it."""
    bits = z3.Extract(63, 0, number.bits)
    begin, end = (z3.ZeroExt(BITS - 64, z3.LShR(it, 1)) for it in (bits - lowest_of(bits), bits + lowest_of(bits)))
    return z3.And(number.bits == first.bits + first.bits + size.bits, size.bits != 0, first.bits == begin,
                  first.bits + size.bits == end)


def lowest_of(bits):
    return bits & -bits


def said(value):
    """A value, in words that are the same for the same value alone."""
    if isinstance(value, Partial):
        return f"{value.word}({', '.join(map(said, value.values))})"
    if isinstance(value, Closure):
        raise ValueError("a statement about a function")
    return repr(value)
