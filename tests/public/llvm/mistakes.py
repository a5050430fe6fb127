"""Mistakes, made by a program in the text that the library is compiled from: a constant that is one more or less, an
operation or a comparison that is another one, two operands that change places. Each has to be refuted."""
import random
import re
import shutil
from typing import NamedTuple

from calls import PLANS
from proofs import DEFINITIONS
from text import Text

OTHER = {"add": "sub", "sub": "add", "mul": "add", "udiv": "urem", "urem": "udiv", "and": "or", "or": "and",
         "xor": "or", "shl": "lshr", "lshr": "shl", "ule": "ult", "ult": "ule", "uge": "ugt", "ugt": "uge", "eq": "ne",
         "ne": "eq"}
LINE = re.compile(r"  %r\d+ = (?:(?:add|sub|mul|udiv|urem|and|or|xor|shl|lshr) |icmp \w+ )i\d+ [^,]+, \S+$"
                  r"|  store i\d+ -?\d+, .*|  ret i\d+ -?\d+$")
NUMBER = re.compile(r"(?<=, )\d+$|(?<=i8 )-?\d+(?=,)|(?<=i32 )-?\d+(?=,)|(?<=i64 )-?\d+(?=,)")
# Mistakes that change nothing: the function, if it isn't any, the line and what is in its place; why, and in which
# calls, if not in all.
SAME = {
    ("s2cell_cell_CellId_from_id", "icmp ule i32 %r, 60", "icmp ule i32 %r, 61"): (
        "the zeros at the end of a cell are even, so never 61", None),
    ("s2cell_cell_CellId_from_id", "store i64 0, ptr %r, align 1", "store i64 1, ptr %r, align 1"): (
        "any other number than a cell is then taken for 0, of which the answer is 0", ("s2u_next", "s2u_size")),
    ("s2list_find_ends_after", "icmp ult i64 0, %a0", "icmp ule i64 0, %a0"): (
        "the number 0 ends by each leaf, so that the answer is the same", None),
    (None, "mul i64 %r, 4096", "mul i64 %r, 4097"): ("nothing is read where an empty list would be", None),
    (None, "mul i64 %r, 4096", "mul i64 %r, 4095"): ("nothing is read where an empty list would be", None),
}


class Mistake:
    """A line of a function, and what is in its place."""

    def __init__(self, function, at, old, new):
        self.function, self.at, self.old, self.new = function, at, old, new

    def __str__(self):
        return f"line {self.at + 1}: {self.new.strip()} in place of {self.old.strip()}"

    def reason(self, call):
        """Why the call is the same with it, if it is."""
        plain = tuple(re.sub(r"%r\d+", "%r", re.sub(r"^%r\d+ = ", "", line.strip())) for line in (self.old, self.new))
        reason, calls = SAME.get((self.function, *plain), SAME.get((None, *plain), (None, None)))
        return reason if calls is None or call in calls else None

    def text(self, text):
        lines = list(text.lines)
        lines[self.at] = self.new
        return Text(text.path, "\n".join(lines))


def mistakes(text, name, lines):
    """Mistakes in these lines of a call and of what it calls, always the same ones, at most one in a line."""
    chooser = random.Random(name)
    spots = [(function, *spot) for function in text.reached(name)
             if function.startswith(PLANS[name].spoilt) for spot in lines_of(text, function)]
    chooser.shuffle(spots)
    while spots:
        function, at, line = spots.pop()
        changed = [new for new in changes(line) if new != line]
        if changed:
            new = chooser.choice(changed)
            if at + 1 in lines:
                yield Mistake(function, at, line, new)


def lines_of(text, function):
    *_, begin, end = text.heads[function]
    return [(at, text.lines[at]) for at in range(begin + 1, end) if LINE.fullmatch(text.lines[at])]


def changes(line):
    """The mistakes that can be made in a line."""
    for found in NUMBER.finditer(line):
        number = int(found[0])
        for other in (number + 1, number - 1) if number > 0 else (number + 1,):
            yield line[:found.start()] + str(other) + line[found.end():]
    for word in line.split():
        if word in OTHER:
            yield line.replace(f" {word} ", f" {OTHER[word]} ", 1)
    if found := re.search(r"(?<= )(%\w+), (%\w+)$", line):
        if not re.search(r"= (?:add|mul|and|or|xor|icmp eq|icmp ne) ", line):
            yield line[:found.start()] + f"{found[2]}, {found[1]}"


class Change(NamedTuple):
    """A change of a contract or a definition: the file in crates, the text and what is in its place, the call whose
    proof it has to end, and how."""

    file: str
    old: str
    new: str
    call: str
    wanted: str = "refuted"

    def __str__(self):
        return f"{self.file}: {self.new.strip()} in place of {self.old.strip()}"

    def made(self, crates, room):
        """A copy of the contracts and the definitions with the change."""
        files = {file for plan in PLANS.values() for file in (plan.file, *(loop.file for loop in plan.loops), *(
            it.file for loop in plan.loops for it in loop.traits))}
        for name in [*(f"{name}.antt" for name in DEFINITIONS), *files]:
            (room / name).parent.mkdir(parents=True, exist_ok=True)
            shutil.copy(crates / name, room / name)
        text = (room / self.file).read_text(encoding="utf-8")
        if text.count(self.old) != 1:
            raise ValueError(f"{self.file}: {self.old} doesn't stand there once")
        (room / self.file).write_text(text.replace(self.old, self.new), encoding="utf-8")
        return room


CHANGES = [
    Change("s2union_c/src/cells.rt", "result ≡ pos (level_of id)", "result ≡ pos (face_of id)", "s2u_level"),
    Change("s2union_c/src/cells.rt", "result ≡ 2 * first_leaf id + 1", "result ≡ 2 * first_leaf id", "s2u_range_min"),
    Change("s2cell/specs/Cell.antt", "level_of n = 30 - ", "level_of n = 31 - ", "s2u_level"),
    Change("s2cell/specs/Cell.antt", "size_of n = 4 ^", "size_of n = 2 ^", "s2u_size"),
    Change("s2union_c/specs/Status.antt", "no_cell = negsuc 2", "no_cell = negsuc 3", "s2u_face"),
    Change("s2cell/specs/Square.antt", "size ≡ 2 ^ (30 - level_of c)", "size ≡ 4 ^ (30 - level_of c)", "s2u_square_of"),
    Change("s2cell/specs/Curve.antt", "1 ∷ 0 ∷ 0 ∷ 3 ∷ []", "1 ∷ 0 ∷ 0 ∷ 2 ∷ []", "s2u_square_of"),
    Change("s2cell/specs/Debug.antt", "slice_index text 1 ≡ 47", "slice_index text 1 ≡ 46", "s2u_from_debug"),
    Change("s2union_c/specs/Order.antt", "order [] (y ∷ ys) = negsuc 0", "order [] (y ∷ ys) = pos 0", "s2u_compare"),
    Change("s2union_c/proofs/questions/s2u_compare/Invariants.antt", "(drop l.k l.ys)", "l.ys", "s2u_compare"),
    Change("s2union_c/proofs/many_cells/s2u_levels/Invariants.antt", " 255\n", " 254\n", "s2u_levels"),
    Change("s2list/proofs/find/narrow_until/Invariants.antt", "from : l.start ≤ l.first", "from : l.start < l.first",
           "s2u_contains_cell"),
    Change("s2list/proofs/find/narrow_until/Invariants.antt", "g l = l.last - l.first", "g l = l.last + l.first",
           "s2u_contains_cell"),
    Change("s2list/proofs/Narrowing.antt", "pub to : base + size ≤ end", "pub to : base + size < end",
           "s2u_contains_cell"),
    Change("s2union_c/src/questions.rt", "(IsWithin (covers cell) (has_leaf ids.now))",
           "(IsWithin (has_leaf ids.now) (covers cell))", "s2u_contains_cell"),
    Change("s2union_c/src/cells.rt", "result ≡ size_of id", "result ≡ weight_of id", "s2u_size",
           "not decided: s2union_c/src/cells.rt:"),
]
