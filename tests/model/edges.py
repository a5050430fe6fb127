#!/usr/bin/env python3
"""Prints the edges, rows that the tests of C++, Go, Rust, Python and the page all ask, in the form of vectors.py.

vectors.py asks regular questions and a plain model answers. Here the answers are written by hand: what is refused and
how it is said, which of several faults comes first, the version, the ends of ranges, empty unions. A binding that lacks
a call names it in its test; what it can't be asked because a type forbids it, there counts as refused.
"""

from model import unions as model
from model.random_cells import FACE
from model.vectors import numbers, shown

WHOLE = [face * FACE for face in (1, 3, 5, 7, 9, 11)]
FIRST_LEAF, LAST_LEAF = 1, 12 * FACE - 1
END = 12 * FACE + 1  # S2's number after the last leaf, which is no cell
LAST = 2**30 - 1  # the last coordinate of a face
CHILDREN = [model.identifier(1, place) for place in range(4)]
NO_CELLS = 0, 2, 12 * FACE, 2**64 - 1
REFUSALS = {
    "memory": (-2, "out of memory"), "no_cell": (-3, "not a cell"),
    "no_union": (-4, "not a normalized list of cells"), "argument": (-5, "argument out of range"),
    "many": (-6, "too many cells"), "file_short": (-10, "union file: bytes are missing"),
    "file_version": (-11, "union file: unknown version"),
    "file_trailing": (-12, "union file: bytes after the last cell"),
    "file_cell": (-13, "union file: a number that is not a cell"),
}


def says():
    """What is said in words."""
    yield "version", model.VERSION
    for name, (status, text) in REFUSALS.items():
        yield "text_of", name, str(status), text


def cells():
    """Numbers that are no cells, levels that a cell hasn't, and the first and last cells."""
    for number in NO_CELLS:
        for call in ("level", "face", "range_min", "range_max", "size", "next", "previous", "children", "token",
                     "debug", "square"):
            yield call, number, "!no_cell"
        for call in ("contains", "intersects", "common_ancestor"):
            yield call, number, FACE, "!no_cell"
            yield call, FACE, number, "!no_cell"
        for level in ("0", "31"):
            yield "parent", number, level, "!no_cell"
    for level in ("1", "30", "31"):
        yield "parent", FACE, level, None
    yield "children", LAST_LEAF, None
    for first, last in ((FIRST_LEAF, LAST_LEAF), (CHILDREN[0], 12 * FACE - CHILDREN[0]), (FACE, 11 * FACE)):
        yield "previous", first, None
        yield "next", last, None
    yield "next", 2 * FACE - 1, 2 * FACE + 1
    yield "common_ancestor", 2 * FACE - 1, 2 * FACE + 1, None


def many_cells():
    """One of many cells that has no answer, and none at all."""
    for number in NO_CELLS:
        for call in ("levels", "range_mins", "range_maxes", "token_fields"):
            yield call, [FACE, number, 0], "!no_cell 1"
        yield "parents", [number, FACE], "0", "!no_cell 0"
    yield "parents", [CHILDREN[0], FACE, CHILDREN[1]], "1", "!argument 1"
    for point in ((6, 0, 0), (0, LAST + 1, 0), (0, 0, LAST + 1)):
        yield "from_points", numbers(0, 0, 0, *point), "!argument 1"
    for call in ("levels", "range_mins", "range_maxes", "token_fields", "from_points"):
        yield call, "", ""
    yield "parents", "", "30", ""


def lists_and_texts():
    """The first fault of several, and what comes in as nothing."""
    for number in NO_CELLS:
        yield "normalise", [number], "!no_cell 0"
        yield "normalise", [FACE, number, 0], "!no_cell 1"
        yield "is_union", [number], False
    for given in ([FACE, FACE], [3 * FACE, FACE], [CHILDREN[0], FACE], CHILDREN):
        yield "is_union", given, False
    yield "normalise", [3 * FACE, *CHILDREN, FACE], [FACE, 3 * FACE]
    yield "is_union", "", True
    yield "normalise", "", ""
    for call in ("from_tokens", "named"):
        for text in (b"", b" ", b"\t\r\n ,,"):
            yield call, text, ""
        for text, place in ((b"x", 0), (b"x y", 0), (b" ,x 04", 2), (b"04 x y", 3), (b"04\x0004", 0), (b"04 2", 3)):
            yield call, text, f"!no_cell {place}"


def files():
    """What is wrong with the bytes of a file: the version first, then bytes that are missing, and the cells last."""
    def head(count, version=1):
        return bytes([version]) + count.to_bytes(8, "little")

    def cell(number):
        return number.to_bytes(8, "little")

    for data, fault in (
        (b"", "short"), (b"\1", "short"), (head(0)[:8], "short"), (head(1), "short"), (head(2) + cell(0), "short"),
        (head(2**61), "short"), (head(2**64 - 1) + cell(FACE), "short"), (b"\0", "version"), (b"\2", "version"),
        (head(0, 2) + b"\0", "version"), (head(1, 255), "version"), (head(0) + b"\0", "trailing"),
        (head(1) + cell(0) + b"\0", "trailing"), (head(1) + cell(FACE) + cell(0), "trailing"),
        (head(1) + cell(0), "cell"), (head(2) + cell(FACE) + cell(2), "cell"), (head(2) + cell(2) + cell(FACE), "cell"),
    ):
        yield "decode", data, f"!file_{fault}"
        yield "file_check", data, f"!file_{fault}"
    for given in ([FACE, FACE], [3 * FACE, FACE], CHILDREN):
        yield "decode", model.file(given), model.normal(model.runs(given))
        yield "file_check", model.file(given), False


def ranges():
    for first, last, found in ((FIRST_LEAF, LAST_LEAF, WHOLE), (FACE, 11 * FACE, WHOLE), (FACE, FACE, [FACE]),
                               (LAST_LEAF, LAST_LEAF, [LAST_LEAF]), (3 * FACE, FACE, "!argument"), (3, 1, "!argument")):
        yield "range", first, last, found
    for number in NO_CELLS:
        yield "range", number, FACE, "!no_cell"
        yield "range", 3 * FACE, number, "!no_cell"
    for leaf in (FIRST_LEAF, 7, LAST_LEAF, END):
        yield "leaves", leaf, leaf, ""
    yield "leaves", FIRST_LEAF, END, WHOLE
    yield "leaves", LAST_LEAF, END, [LAST_LEAF]
    for begin, end in ((3, 1), (LAST_LEAF, 1), (END, 1), (END, LAST_LEAF), (FACE, FACE), (FACE, END), (FACE, 11 * FACE),
                       (FIRST_LEAF, FACE)):
        yield "leaves", begin, end, "!argument"


def cuts_and_coverings():
    """What is out of range comes before what is too many, also of the empty union."""
    whole, outside, row = numbers(0, 0, LAST, 0, LAST), numbers(6, 0, LAST, 3, 3), numbers(0, 0, LAST, 3, 3)
    for union in (FACE, ""):
        for cut in ("31 1", "0 0", "0 4", "30 0", "31 0"):
            yield "denormalised", union, cut, "!argument"
        for call in ("outer", "inner"):
            yield call, union, "31", "!argument"
            for place, level in ((whole, "31"), (outside, "30"), (row, "31")):
                yield f"{call}_in", union, place, level, "!argument"
    yield "denormalised", FACE, "30 1", "!many"
    yield "denormalised", "", "30 3", ""
    for call in ("outer", "inner"):
        yield call, "", "0", ""
        yield call, "", "30", ""
        yield f"{call}_of_rectangle", outside, "31", "!argument"
        yield f"{call}_of_rectangle", row, "31", "!argument"
        yield f"{call}_of_rectangle", row, "30", "!many"
        yield f"{call}_in", FACE, row, "30", "!many"
        yield f"{call}_in", "", row, "30", ""
        yield f"{call}_in", 3 * FACE, row, "30", ""


def sets():
    """Empty unions on both sides, and cells that are none."""
    for call, left, right in (("union", [FACE], [FACE]), ("intersection", "", ""), ("difference", [FACE], ""),
                              ("symmetric_difference", [FACE], [FACE])):
        yield call, "", "", ""
        yield call, [FACE], "", left
        yield call, "", [FACE], right
    for call in ("difference", "symmetric_difference"):
        yield call, WHOLE, WHOLE, ""
        yield call, [FACE], [FACE], ""
    yield "intersection", [FACE], [3 * FACE], ""
    for union, others in (("", WHOLE), (WHOLE, ""), (WHOLE[1:], [FACE]), ([FACE], WHOLE[1:])):
        yield "complement", union, others
    for one, other, holds in (("", "", True), ([FACE], "", True), ("", [FACE], False)):
        yield "union_contains", one, other, holds
        yield "union_intersects", one, other, False
    for one, other, order in (("", "", 0), ("", [FACE], -1), ([FACE], "", 1), ([FACE], [FACE], 0)):
        yield "compare", one, other, str(order)
    for union in ("", [FACE]):
        for call in ("contains_cell", "intersects_cell", "cells_at", "intersection_with_cell"):
            for number in NO_CELLS:
                yield call, union, number, "!no_cell"
        for call in ("contains_cells", "intersects_cells"):
            yield call, union, "", ""
            yield call, union, [FACE, 2, 0], "!no_cell 1"
    for call, answer in (("contains_cell", False), ("intersects_cell", False), ("cells_at", ""),
                         ("intersection_with_cell", "")):
        yield call, "", FACE, answer
    yield "intersection_with_cell", [FACE], 3 * FACE, ""
    yield "leaf_count", "", "0"
    yield "leaf_count", WHOLE, str(6 * 4**30)
    yield "ancestors", "", ""
    yield "tokens", "", ""
    yield "encode", "", model.file([])
    yield "decode", model.file([]), ""
    yield "file_check", model.file([]), True


def rows():
    """Each row as texts: a call, its arguments and its answer."""
    for part in (says, cells, many_cells, lists_and_texts, files, ranges, cuts_and_coverings, sets):
        for row in part():
            yield list(map(shown, row))


if __name__ == "__main__":
    for row in rows():
        print(*row, sep="\t")
