"""The calls that are proved, and how: which arguments are looked at level by level, and the like. Nothing here is
trusted: a wrong row makes a claim that Z3 refutes, or one that nobody can decide."""
from typing import NamedTuple


class Loop(NamedTuple):
    """A loop: the function and the label where it begins, the file with its invariant, below crates, and the
    invariant's name there. Of a loop over a range, which local has the number that runs through the range, by its name
    in the invariant, and which has the range's end; any other ends because of what the file says that decreases. Then
    which other locals it changes, which arguments it writes into, which names are what a constructor makes of
    arguments, which locals it leaves as they are, which names are of types with traits, and those fields of the
    invariant that are used, if not all."""

    function: str
    label: str
    file: str
    invariant: str
    name: str = ""
    at: str = ""
    end: str = ""
    others: dict = {}
    writes: tuple = ()
    built: dict = {}
    fixed: dict = {}
    traits: tuple = ()
    fields: tuple = ()


class Trait(NamedTuple):
    """What stands for a type parameter: its name, the trait, the file where it is implemented for the type, and the
    type; which name of an invariant is such a value, and which argument of the call each of its fields is."""

    parameter: str
    trait: str
    file: str
    type: str
    name: str
    fields: dict


class Law(NamedTuple):
    """A lemma about lists that Coq checks: the file, below crates, its name, what it says, and for which it is used:
    arguments of the call, and what a function answers."""

    file: str
    name: str
    says: str
    arguments: dict
    answers: dict = {}


class Plan(NamedTuple):
    """How a call is proved. `file` has its contract, below crates. `cells` are the arguments that are looked at level
    by level. If `is_apart`, cells are known by facts alone. `lists` has the length up to which each list is looked at,
    `arrays` the lists of which any place is looked at, `rooms` what a result needs by the levels of `cells`, and
    `witnesses` the numbers for statements about some or all numbers. `loops` go on for lists of any length, and `laws`
    say what follows for these. An answer of the functions of `named` has a name of its own, and `turns` are the levels
    at which the curve's orientation has one. `tier` is the first one that has it: quick, gate or full. Mistakes are
    made in functions whose names begin as `spoilt`."""

    file: str = "s2union_c/src/cells.rt"
    cells: tuple = ()
    is_apart: bool = False
    lists: dict = {}
    arrays: tuple = ()
    rooms: dict = {}
    witnesses: dict = {}
    loops: tuple = ()
    laws: tuple = ()
    named: tuple = ()
    turns: tuple = ()
    tier: str = "quick"
    spoilt: str = ""


def digits_of_token(levels):
    """How many bytes the token of a cell of the level has."""
    return (64 - 2 * (30 - levels["id"]) + 3) // 4 if levels else 0


def bytes_of_debug(levels):
    return levels["id"] + 2 if levels else 0


STEPS = ("s2cell_tables_held_by", "s2cell_tables_next_shift")  # of the curve
TURNS = (29, 28, 24, 20, 16, 12, 8, 4, 0)
CELL = Plan(cells=("id",))
PAIR = Plan(is_apart=True, tier="gate")
TEXTS = "s2union_c/src/texts.rt"
FILES = "s2union_c/src/files.rt"
QUESTIONS = "s2union_c/src/questions.rt"
MANY = "s2union_c/src/many_cells.rt"
DEBUGGED = """(2 * ((slice_index text.now 0 - 48) * 4 ^ (length text.now - 2) + digits_value 4 (drop 2 text.now)) + 1)
    * 4 ^ (32 - length text.now)"""  # the number that a debug text says


def relatives(which):
    """The plan of a call that puts such relatives of cells into a list."""
    return Plan(MANY, arrays=("ids", "out"), tier="full", loops=(Loop(
        "s2union_c_many_cells_put_relatives", "loop.5", "s2union_c/proofs/many_cells/put_relatives/Invariants.antt",
        "invariant-loop-k", "k", at="%r9", end="%r14", others={"first": "%r8"}, writes=("out",),
        built={"which": (which,)}),))


IDS = Trait("C", "Listed", "s2list/src/cells.rt", "IdList", "cells", {"ids": "ids"})
SEARCH = (
    Loop("s2list_find_narrow_until", "loop.2", "s2list/proofs/find/narrow_until/Invariants.antt", "invariant-loop-last",
         others={"first": "%r2", "last": "%r3"}, fixed={"start": "%a2", "end": "%a3", "lo": "%a4"}, traits=(IDS,),
         fields=("from", "order", "to", "found")),
    Loop("s2list_find_among_few", "loop.2", "s2list/proofs/find/among_few/Invariants.antt", "invariant-loop-size",
         others={"base": "%r2", "size": "%r3", "below": "%r4"}, traits=(IDS,), fields=("left",),
         fixed={"start": "%a1", "end": "%a2", "lo": "%a3", "mark": "%r1"}),
)


PLANS = {
    "s2u_version": Plan(),
    "s2u_is_cell": CELL,
    "s2u_level": CELL,
    "s2u_face": CELL,
    "s2u_size": CELL,
    "s2u_range_min": CELL,
    "s2u_range_max": CELL,
    "s2u_parent": Plan(cells=("id",), tier="gate"),
    "s2u_child": Plan(cells=("id",), tier="gate"),
    "s2u_next": Plan(cells=("id",), tier="gate"),
    "s2u_prev": Plan(cells=("id",), tier="gate"),
    "s2u_cell_contains": PAIR,
    "s2u_cell_intersects": PAIR,
    "s2u_common_ancestor": Plan(is_apart=True, tier="full"),
    "s2u_from_face_ij": Plan(named=STEPS, turns=TURNS, tier="gate"),
    "s2u_square_of": Plan(cells=("id",), named=STEPS, turns=TURNS, tier="full"),
    "s2u_file_count": Plan(FILES, lists={"bytes": 9}, tier="gate"),
    "s2u_file_cell": Plan(FILES, arrays=("bytes",), tier="gate"),
    "s2u_token": Plan(TEXTS, cells=("id",), rooms={"text": digits_of_token}, tier="gate"),
    "s2u_debug": Plan(TEXTS, cells=("id",), rooms={"text": bytes_of_debug}, tier="full"),
    "s2u_from_token": Plan(TEXTS, lists={"text": 16}, tier="gate", witnesses={
        "n": "digits_value 16 text.now * 16 ^ (16 - length text.now)"}),
    "s2u_from_debug": Plan(TEXTS, lists={"text": 32}, tier="full", witnesses={"n": DEBUGGED}),
    "s2u_compare": Plan(QUESTIONS, arrays=("xs", "ys"), tier="gate", loops=(Loop(
        "s2union_c_questions_s2u_compare", "loop.2", "s2union_c/proofs/questions/s2u_compare/Invariants.antt",
        "invariant-loop-k", "k", at="%r6", end="%r5"),)),
    "s2u_contains_cell": Plan(QUESTIONS, is_apart=True, arrays=("ids",), tier="full", loops=SEARCH,
                              spoilt="s2list_", laws=(
        Law("s2list/proofs/Checking.antt", "packed_from_local", "each cell of a union ends before the next begins",
            {"u": "ids"}),
        Law("s2list/proofs/Asking.antt", "held_there", "the first cell of a union that ends after the first leaf of a "
            "cell holds it exactly if the union does", {"u": "ids", "c": "cell"}, {"at": "s2list_find_find_counted"}))),
    "s2u_levels": Plan(MANY, arrays=("ids", "out"), tier="full", loops=(Loop(
        "s2union_c_many_cells_s2u_levels", "loop.5", "s2union_c/proofs/many_cells/s2u_levels/Invariants.antt",
        "invariant-loop-k", "k", at="%r6", end="%r11", others={"first": "%r5"}, writes=("out",)),)),
    "s2u_range_mins": relatives("FirstLeaf"),
    "s2u_range_maxes": relatives("LastLeaf"),
}
LAWS = {law.name: law for plan in PLANS.values() for law in plan.laws}  # all of these have to be checked by Coq
