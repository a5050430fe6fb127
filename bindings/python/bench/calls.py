"""The time of single calls of the module for Python, and of calls for many cells, in nanoseconds: calls.py. The module
is on PYTHONPATH. Where pywraps2, S2's own module, is there too, it is asked the same."""
import timeit
from bisect import bisect

import numpy
from s2union import (Union, from_points, level, levels, parent, parents, range_max, range_min, range_mins, token,
                     token_fields)
from s2union_geo import leaf, leaves, points

MANY = 1_000_000


def best(call, number, turns=9):
    return 1e9 * min(timeit.repeat(call, number=number, repeat=turns)) / number


def rows(title, calls, number, cells=1, least=0.0):
    for name, call in calls.items():
        print(f"{title} {name}: {best(call, number) / cells - least:.1f} ns")


def of_s2(a, b, cell, empty):
    try:
        import pywraps2
    except ImportError:
        print("pywraps2 is not there")
        return
    leaf, xs, ys = pywraps2.S2CellId(cell), pywraps2.S2CellUnion(), pywraps2.S2CellUnion()
    xs.Init([pywraps2.S2CellId(each).id() for each in a])
    ys.Init([pywraps2.S2CellId(each).id() for each in b])
    rows("pywraps2", {"level": leaf.level, "parent": lambda: leaf.parent(5), "in": lambda: xs.Contains(leaf),
                      "isdisjoint": lambda: xs.Intersects(ys)}, 3000, least=empty)


def beside(cell, part):
    """The cells of one without a part of it: three beside each cell from the part up."""
    found = []
    for above in range(level(part) - 1, level(cell) - 1, -1):
        whole = parent(part, above)
        quarter = (whole & -whole) // 4
        found += [whole + k * quarter for k in (-3, -1, 1, 3) if not range_min(whole + k * quarter) <= part
                  <= range_max(whole + k * quarter)]
    return sorted(found)


def small_with_large(random):
    """A union of two cells, one inside a cell of a large one and one apart from it, with the large one: each operation,
    with its answer by plain Python."""
    drawn = random.integers(0, 6 * 2**60, MANY, dtype=numpy.uint64).tolist()
    large = Union(parent(2 * number + 1, 14 + number % 7) for number in drawn)
    ids, holder = list(large), len(large) // 2
    inside = range_min(ids[holder])
    apart = next(cell for number in range(1, 2**60, 2**50 + 2) if not large.intersects_cell(cell := parent(number, 24)))
    small = Union([inside, apart])
    rest = ids[:holder] + beside(ids[holder], inside) + ids[holder + 1:]
    both, left = ids[:], rest[:]
    both.insert(bisect(both, apart), apart)
    left.insert(bisect(left, apart), apart)
    for name, call, wanted, number in (
            ("small & large", lambda: small & large, [inside], 3000),
            ("large & small", lambda: large & small, [inside], 3000),
            ("small - large", lambda: small - large, [apart], 3000), ("large - small", lambda: large - small, rest, 3),
            ("small | large", lambda: small | large, both, 3), ("small ^ large", lambda: small ^ large, left, 3)):
        assert list(call()) == wanted, name
        rows("s2union", {name: call}, number)


def places(random):
    x, y = random.uniform(-180, 180, MANY), random.uniform(-90, 90, MANY)
    cells = leaves(x, y)
    rows("s2union_geo", {"leaf": lambda: leaf(2.3522, 48.8566)}, 3000)
    rows("s2union_geo, a place of many,", {"leaves": lambda: leaves(x, y), "points": lambda: points(cells)}, 1, MANY)


def main():
    a, b = Union(range(1, 800, 8)), Union(range(5, 800, 8))
    cell, random = a[50], numpy.random.default_rng(1)
    empty = best(lambda: cell, 3000)
    rows("s2union", {"level": lambda: level(cell), "parent": lambda: parent(cell, 5), "in": lambda: cell in a,
                     "isdisjoint": lambda: a.isdisjoint(b), "token": lambda: token(cell)}, 3000, least=empty)
    of_s2(a, b, cell, empty)
    drawn = random.integers(0, 6 * 2**60, MANY, dtype=numpy.uint64) * numpy.uint64(2) + numpy.uint64(1)
    drawn %= numpy.uint64(12 << 60)
    numbers = drawn.tolist()
    face, i, j = (random.integers(0, most, MANY) for most in (6, 2**30, 2**30))
    rows("a cell of many,", {
        "parents": lambda: parents(drawn, 5), "range_mins": lambda: range_mins(drawn),
        "levels": lambda: levels(drawn), "token_fields": lambda: token_fields(drawn),
        "from_points": lambda: from_points(face, i, j),
        "levels of a list": lambda: levels(numbers), "Union of a list": lambda: Union(numbers)}, 1, MANY)
    for count in (1, 8, 64):
        x, y = Union(range(1, 8 * count, 8)), Union(range(5, 8 * count, 8))
        rows(f"s2union, of {count},", {
            "in": lambda: cell in x, ">=": lambda: x >= y, "&": lambda: x & y, "|": lambda: x | y, "-": lambda: x - y,
            "contains_cells of 4,096": lambda: x.contains_cells(drawn[:4096])}, 300)
    small_with_large(random)
    places(random)


if __name__ == "__main__":
    main()
