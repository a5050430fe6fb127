"""The questions that all languages are asked: cells that have leaves in common, empty lists, and each edge."""

from collections import Counter

from model import edges
from model import unions as model
from model.random_cells import Random

ROWS = list(edges.rows())
OF_LISTS = {"decode", "file_check", "levels", "range_mins", "range_maxes", "token_fields", "parents", "from_points",
            "normalise", "is_union", "named", "from_tokens", "denormalised", "outer", "inner", "outer_in", "inner_in",
            "union", "intersection", "difference", "symmetric_difference", "complement", "union_contains",
            "union_intersects", "compare", "contains_cell", "contains_cells", "intersects_cell", "intersects_cells",
            "cells_at", "intersection_with_cell", "leaf_count", "ancestors", "tokens", "encode"}


def meet(one, other):
    (a, b), (c, d) = model.run(one), model.run(other)
    return max(a, c) < min(b, d)


def test_empty_lists_are_asked():
    assert {call for call, *given, _ in ROWS if "" in given} == OF_LISTS


def test_a_level_that_is_too_deep_is_asked_where_one_cell_too_many_is():
    answers = {tuple(given): answer for *given, answer in ROWS}
    many = [given for given, answer in answers.items() if answer == "!many" and given[-1] == "30"]
    assert {answers.get((*given[:-1], "31")) for given in many} == {"!argument"}


def test_random_lists_have_cells_that_meet():
    random = Random(1)
    found = Counter()
    for _ in range(1000):
        cell = random.cell()
        cells = random.cells(near=[cell])
        found["beside others"] += any(meet(cell, one) for one in cells)
        cells = random.cells()
        found["empty"] += not cells
        found["among themselves"] += any(meet(*pair) for pair in zip(cells, cells[1:]))
    assert 20 <= found["empty"] <= 100
    assert min(found["beside others"], found["among themselves"]) >= 400
