"""The edges of edges.py and the questions of vectors.py, asked of the module for Python, and of files by UnionFile.
A method that only forwards to its call is asked as its row in tools/methods.toml says.
"""

import contextlib
import io
import re
import sys
from pathlib import Path

from model import edges, vectors
import numpy
import pytest
import s2union
from s2union import Union, UnionFile

sys.path.append(str(Path(__file__).resolve().parents[3] / "tools"))
import in_python  # noqa: E402
import languages  # noqa: E402
import methods  # noqa: E402

LACKING = {"leaves", "compare"}
NO_ANSWER = {"parent", "children", "next", "previous", "common_ancestor"}  # what is refused by no answer elsewhere
NAMES = {int(status): name for name, (status, _) in edges.REFUSALS.items()}


def cell(text):
    return int(text, 16)


def cells(text):
    return [cell(word) for word in text.split()]


def numbers(text):
    return [int(word) for word in text.split()]


def union(text):
    return Union(cells(text))


def file(text):
    return UnionFile(union(text).to_bytes())


READ = {"union": union, "file": file, "cell": cell, "cells": cells}
NAMED = {"contains_cell": "__contains__", "file_contains_cell": "__contains__", "contains": "issuperset",
         "outer_of": "outer", "inner_of": "inner"}  # methods with names of their own
OTHERWISE = {"encode", "tokens", "outer_in", "inner_in", "denormalised_len", "file_cell", "file_count"}


def way(method):
    """How a method of a union or of a file is asked a question."""
    name = NAMED.get(method.call.name, in_python.Python().name_of(method))

    def answer(*given):
        words = [READ[languages.form_of(method, it)](given[field]) if it.is_list or it.kind == "u64" else
                 numbers(given[field])[place or 0] for it, field, place in languages.fields(method)]
        found = getattr(words[0], name)(*words[1:], *[100_000] * len(method.row.get("more", [])))
        return str(found) if method.is_count else found
    return answer


def ways():
    """The ways to answer each question, by its name."""
    found = {name: [answer] for name, answer in ASK.items()}
    for method in methods.methods().values():
        if method.has_receiver and method.call.name not in OTHERWISE and method.question not in LACKING:
            found.setdefault(method.question, []).append(way(method))
    return found


def text_of(name, status):
    try:
        s2union._refuse(int(status))
    except (ValueError, MemoryError) as error:
        return str(error).removeprefix("s2union: ")


def by_file(data):
    try:
        return len(UnionFile(data)) == len(Union.from_bytes(data))
    except ValueError as error:
        if "not normalized" in str(error):
            return False
        raise


def from_points(points):
    """By arrays: of a list, the place of what is out of range isn't said."""
    return s2union.from_points(*numpy.array(numbers(points), "int64").reshape(-1, 3).T).tolist()


def rectangle_of(call):
    return lambda place, level: Union.covering(*numbers(place), int(level), inner=call == "inner")


def within(call):
    return lambda given, place, level: getattr(union(given), call)(int(level), rectangle=numbers(place))


def of_one(name):
    return lambda number: getattr(s2union, name)(cell(number))


def of_two(name):
    return lambda a, b: getattr(s2union, name)(cell(a), cell(b))


def in_decimal(ask):
    """The answer to a question as a text: numbers that are no cells."""
    return lambda given: re.sub("[][(),]", "", str(ask(given)))


def of_many(name):
    return lambda given: getattr(s2union, name)(cells(given))


ASK = {
    "version": lambda: ".".join(map(str, s2union.version())), "text_of": text_of,
    "next": of_one("next_cell"), "previous": of_one("previous_cell"),
    **{name: of_one(name) for name in ("range_min", "range_max", "token", "debug")},
    **{name: in_decimal(of_one(name)) for name in ("level", "face", "size", "square")},
    "levels": in_decimal(of_many("levels")),
    "children": lambda number: [s2union.child(cell(number), k) for k in range(4)],
    "parent": lambda number, level: s2union.parent(cell(number), int(level)),
    **{name: of_two(name) for name in ("contains", "intersects", "common_ancestor")},
    **{name: of_many(name) for name in ("range_mins", "range_maxes", "is_union")},
    "token_fields": lambda given: b"".join(it.ljust(16, b"\0") for it in s2union.token_fields(cells(given))),
    "parents": lambda given, level: s2union.parents(cells(given), int(level)),
    "from_points": from_points,
    "normalise": union,
    "from_tokens": lambda text: Union.from_tokens(bytes.fromhex(text)),
    "named": lambda text: s2union.from_tokens(bytes.fromhex(text)),
    "decode": lambda data: Union.from_bytes(bytes.fromhex(data)),
    "file_check": lambda data: by_file(bytes.fromhex(data)),
    "encode": lambda given: union(given).to_bytes(), "tokens": lambda given: " ".join(union(given).tokens()).encode(),
    "range": lambda first, last: Union.from_range(cell(first), cell(last)),
    **{f"{name}_of_rectangle": rectangle_of(name) for name in ("outer", "inner")},
    **{f"{name}_in": within(name) for name in ("outer", "inner")},
    "intersection_with_cell": lambda given, number: union(given) & Union([cell(number)]),
    "is_cell": of_one("is_cell"), "from_token": lambda text: s2union.from_token(bytes.fromhex(text).decode()),
    "from_debug": lambda text: s2union.from_debug(bytes.fromhex(text).decode()),
    "from_face_ij": lambda point: s2union.from_face_ij(*numbers(point)),
}


def refusal(call, error):
    """The name of what was refused, by its exception, and its place if the row has one."""
    name = NAMES.get(getattr(error, "status", 0), str(error))
    place = re.search(r"at place (\d+)", str(error))
    return "none" if call in NO_ANSWER and name == "argument" else f"!{name} {place[1]}" if place else f"!{name}"


ROWS = [row for row in edges.rows() if row[0] not in LACKING]
WAYS = ways()


def answered(call, answer, given):
    """An answer as the rows have it."""
    try:
        found = answer(*given)
        found = edges.shown(list(found) if isinstance(found, Union) else found)
    except ValueError as error:
        found = refusal(call, error)
    # by the union of the cell, which is made from a list
    return found.replace("!no_cell 0", "!no_cell") if call == "intersection_with_cell" else found


@pytest.mark.parametrize("row", ROWS, ids=lambda row: row[0])
def test_each(row):
    call, *given, wanted = row
    assert {answered(call, answer, given) for answer in WAYS[call]} == {wanted}


def test_against_the_model():
    said = io.StringIO()
    with contextlib.redirect_stdout(said):
        vectors.main(100)
    rows = [line.split("\t") for line in said.getvalue().splitlines()]
    for call, *given, wanted in rows:
        if call not in LACKING:
            assert {answered(call, answer, given) for answer in WAYS[call]} == {wanted}, (call, given)
    assert {row[0] for row in [*rows, *ROWS]} - LACKING == set(WAYS)
