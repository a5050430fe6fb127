#!/usr/bin/env python3
"""Prints questions with the plain model's answers, for bindings that are not Python: vectors.py [ROUNDS].

A line is a call, its arguments and its answer, with tabs between them. A number is in hexadecimal if it is a cell, and
in decimal if not; a list has blanks between its cells; bytes and texts are in hexadecimal. An answer is 'yes', 'no' or
'none', or '!' and the name of a refusal: with the place of the first number that is no cell, if there is one.
"""

import sys

from model import unions as model
from model.random_cells import FACE, Random

peer_model = model.plain
random = Random(20261126)
LAST = 2**30 - 1
# The edges of what is asked of unions: no leaf, all of them, a face, the first and the last leaf.
EDGES = [], [face * FACE for face in (1, 3, 5, 7, 9, 11)], [FACE], [1], [12 * FACE - 1]


def shown(value):
    if value is None:
        return "none"
    if isinstance(value, bool):
        return "yes" if value else "no"
    if isinstance(value, bytes):
        return value.hex()
    if isinstance(value, (list, tuple)):
        return " ".join(map(shown, value))
    return value if isinstance(value, str) else f"{value:x}"


def say(call, *arguments):
    """A line: the last argument is the answer."""
    print(call, *map(shown, arguments), sep="\t")


def numbers(*values):
    return " ".join(map(str, values))


def cells(number):
    placed = model.cell(number)
    say("is_cell", number, placed is not None)
    if placed is None:
        return
    level, place = placed
    first, end = model.run(number)
    say("level", number, str(level))
    say("face", number, str(place // 4**level))
    say("range_min", number, 2 * first + 1)
    say("range_max", number, 2 * end - 1)
    say("size", number, str(end - first))
    say("next", number, model.identifier(level, place + 1) if place + 1 < 6 * 4**level else None)
    say("previous", number, model.identifier(level, place - 1) if place else None)
    for wanted in range(31):
        above = model.identifier(wanted, place // 4 ** (level - wanted)) if wanted <= level else None
        say("parent", number, str(wanted), above)
    say("children", number, [model.identifier(level + 1, 4 * place + k) for k in range(4)] if level < 30 else None)
    say("token", number, model.token(number))
    say("debug", number, model.debug(number))
    say("from_token", model.token(number).upper().encode(), number)
    say("from_debug", model.debug(number).encode(), number)
    square = peer_model.square(placed)
    say("square", number, numbers(*square))
    face, i, j, side = square
    i, j = random.randrange(i, i + side), random.randrange(j, j + side)
    say("from_face_ij", numbers(face, i, j), peer_model.identifier(peer_model.leaf_at(face, i, j)))


def two_cells():
    a = random.cell()
    b = random.near(a)
    (a0, a1), (b0, b1) = model.run(a), model.run(b)
    say("contains", a, b, a0 <= b0 and b1 <= a1)
    say("intersects", a, b, max(a0, b0) < min(a1, b1))
    both = [k for k in range(31) if len({leaf // 4 ** (30 - k) for leaf in (a0, a1 - 1, b0, b1 - 1)}) == 1]
    say("common_ancestor", a, b, model.identifier(both[-1], a0 // 4 ** (30 - both[-1])) if both else None)


def lists():
    """A list of cells, and the union that it makes; sometimes with a number in it that is no cell."""
    given = random.cells()
    normal = model.normal(model.runs(given))
    say("normalise", given, normal)
    say("is_union", given, given == normal)
    say("is_union", normal, True)
    say("encode", normal, model.file(normal))
    say("decode", model.file(given), normal)
    say("file_check", model.file(given), given == normal)
    say("tokens", normal, " ".join(map(model.token, normal)).encode())
    words = [random.choice((model.token, model.debug, lambda cell: model.token(cell).upper()))(cell) for cell in given]
    text = "".join(word + random.choice((" ", ",", "\t", "\n", "\r\n", ", ")) for word in words)
    say("from_tokens", text.encode(), normal)
    say("named", text.encode(), given)
    wrong = random.choice(("x", "0c;", "2", "0/4", "6/", "\0", "0" * 17, "é"))
    for call in ("from_tokens", "named"):
        say(call, (text + wrong + random.choice(("", " 04", ",y"))).encode(), f"!no_cell {len(text)}")
    place = random.randrange(len(given) + 1)
    damaged = given[:place] + [random.choice((0, 2, 2**64 - 1))] + given[place:]
    say("normalise", damaged, f"!no_cell {place}")
    say("is_union", damaged, False)
    say("decode", model.file(damaged), "!file_cell")
    return normal


def many_cells():
    """Calls for many cells."""
    given = [random.cell() for _ in range(random.randrange(9))]
    placed = [model.cell(cell) for cell in given]
    say("levels", given, numbers(*(level for level, _ in placed)))
    say("range_mins", given, [2 * model.run(cell)[0] + 1 for cell in given])
    say("range_maxes", given, [2 * model.run(cell)[1] - 1 for cell in given])
    say("token_fields", given, b"".join(model.token(cell).encode().ljust(16, b"\0") for cell in given))
    wanted = random.randint(0, min([level for level, _ in placed], default=30))
    say("parents", given, str(wanted),
        [model.identifier(wanted, place // 4 ** (level - wanted)) for level, place in placed])
    points = [(random.randrange(6), random.randrange(2**30), random.randrange(2**30)) for _ in range(4)]
    say("from_points", numbers(*sum(points, ())),
        [peer_model.identifier(peer_model.leaf_at(*point)) for point in points])


def files(normal):
    data = model.file(normal)
    for wrong, why in ((data[:random.randrange(len(data))], "short"), (data + b"\0", "trailing"),
                       (bytes([random.randint(2, 255)]) + data[1:], "version"),
                       (data[:1] + b"\xff" * 8 + data[9:], "short")):
        say("decode", wrong, "!file_" + why)
        say("file_check", wrong, "!file_" + why)


def sets(a):
    b = lists()
    if random.random() < 0.7 and a:
        b = model.normal(model.runs([random.near(random.choice(a)) for _ in range(random.randrange(9))]))
    of_two(a, b)


def of_two(a, b):
    """What is asked of unions, and of two of them."""
    x, y = model.runs(a), model.runs(b)
    both = model.common(x, y)
    less, more = model.common(x, model.rest(y)), model.common(y, model.rest(x))
    say("union", a, b, model.normal(x + y))
    say("intersection", a, b, model.normal(both))
    say("difference", a, b, model.normal(less))
    say("symmetric_difference", a, b, model.normal(less + more))
    say("complement", a, model.normal(model.rest(x)))
    say("union_contains", a, b, not more)
    say("union_intersects", a, b, bool(both))
    for other in (b, a, a[:-1], a[:-1] + [12 * FACE - 1]):
        say("compare", a, other, str((a > other) - (a < other)))
        say("compare", other, a, str((other > a) - (other < a)))
    say("leaf_count", a, str(model.count(x)))
    say("ancestors", a, model.ancestors(a))
    asked = [random.near(random.choice(a or [FACE])) for _ in range(3)] + [random.cell()]
    for cell in asked:
        one = [model.run(cell)]
        say("contains_cell", a, cell, not model.common(one, model.rest(x)))
        say("intersects_cell", a, cell, bool(model.common(one, x)))
        say("intersection_with_cell", a, cell, model.normal(model.common(one, x)))
        say("cells_at", a, cell, [c for c in a if model.common(one, [model.run(c)])])
    say("contains_cells", a, asked, [not model.common([model.run(cell)], model.rest(x)) for cell in asked])
    say("intersects_cells", a, asked, [bool(model.common([model.run(cell)], x)) for cell in asked])


def ranges_and_cuts(a):
    first = random.cell()
    last = random.near(first) if random.random() < 0.5 else random.cell()
    begin, end = model.run(first)[0], model.run(last)[1]
    say("range", first, last, model.normal([(begin, end)]) if begin < end else "!argument")
    begin, end = sorted(random.randrange(6 * 4**30) for _ in range(2))
    say("leaves", 2 * begin + 1, 2 * end + 1, model.normal([(begin, end)]))
    say("leaves", 2 * begin + 1, 2 * 6 * 4**30 + 1, model.normal([(begin, 6 * 4**30)]))
    say("leaves", 2 * end + 3, 2 * begin + 1, "!argument")
    least = random.level_from(a)
    a = model.normal(model.runs([c for c in a if model.cell(c)[0] > least - 5]))
    modulus = random.randint(1, 3)
    say("denormalised", a, numbers(least, modulus), model.cut(a, least, modulus))


def coverings(a):
    level = random.randint(0, 30)
    say("outer", a, str(level), model.normal(model.around(model.runs(a), level)))
    say("inner", a, str(level), model.normal(model.within(model.runs(a), level)))
    face, side = random.randrange(6), 2 ** random.randint(0, 4)
    i, j = random.randrange(2**30 - side), random.randrange(2**30 - side)
    leaves = [peer_model.leaf_at(face, i + k % side, j + k // side)[1] for k in range(side * side)]
    square = model.joined([(leaf, leaf + 1) for leaf in leaves])
    level = random.randint(20, 30)
    place = numbers(face, i, i + side - 1, j, j + side - 1)
    say("outer_of_rectangle", place, str(level), model.normal(model.around(square, level)))
    say("inner_of_rectangle", place, str(level), model.normal(model.within(square, level)))
    part = some_near(square)
    both = model.common(model.runs(part), square)
    say("outer_in", part, place, str(level), model.normal(model.around(both, level)))
    say("inner_in", part, place, str(level), model.normal(model.within(both, level)))


def some_near(square):
    """A union of cells around leaves of a square, beside it, and of any others."""
    leaves = [2 * random.choice(square)[0] + 1 for _ in range(random.randrange(5))]
    given = [random.near(leaf) for leaf in leaves]
    given += [model.identifier(k, (leaf >> 1) // 4 ** (30 - k)) for leaf in leaves for k in (random.randint(24, 30),)]
    return model.normal(model.runs(given + [random.cell() for _ in range(random.randrange(3))]))


def refusals():
    face = [FACE]
    for least, modulus in ((31, 1), (0, 0), (0, 4)):
        say("denormalised", face, numbers(least, modulus), "!argument")
    say("denormalised", face, numbers(30, 1), "!many")
    for call in ("outer", "inner"):
        say(call, face, "31", "!argument")
    for place in ((6, 0, 0, 0, 0), (0, 1, 0, 0, 0), (0, 0, 0, 3, 2), (0, 0, LAST + 1, 0, 0), (0, 0, 0, 0, LAST + 1)):
        say("outer_of_rectangle", numbers(*place), "30", "!argument")
        say("inner_of_rectangle", numbers(*place), "30", "!argument")
        say("outer_in", face, numbers(*place), "30", "!argument")
        say("inner_in", face, numbers(*place), "30", "!argument")
    say("outer_of_rectangle", numbers(0, 0, LAST, 3, 3), "30", "!many")
    say("inner_of_rectangle", numbers(0, 0, LAST, 3, 3), "30", "!many")
    for call in ("outer_in", "inner_in"):
        say(call, face, numbers(0, 0, LAST, 3, 3), "30", "!many")
        say(call, face, numbers(0, 0, 0, 0, 0), "31", "!argument")
    for place in ((6, 0, 0), (0, LAST + 1, 0), (0, 0, LAST + 1)):
        say("from_face_ij", numbers(*place), "!argument")
    for text in ("", "x", "0", "00000000000000001", "0c ", "0/", "1/4"):
        say("from_token", text.encode(), "!no_cell")
    for text in ("", "x", "6/", "0/4", "0", "0/" + 31 * "0", "0c"):
        say("from_debug", text.encode(), "!no_cell")


def main(rounds):
    corners = [peer_model.identifier(peer_model.leaf_at(face, i, j))
               for face in range(6) for i in (0, LAST) for j in (0, LAST)]
    for number in corners + [0, 1, 2, FACE, 12 * FACE, 12 * FACE + 1, 2**64 - 1]:
        cells(number)
    refusals()
    for _ in range(rounds):
        cells(random.number())
        two_cells()
        many_cells()
        a = lists()
        files(a)
        sets(a)
        ranges_and_cuts(a)
        coverings(a)
    for a in EDGES:
        for b in EDGES:
            of_two(a, b)


if __name__ == "__main__":
    main(int(sys.argv[1]) if len(sys.argv) > 1 else 300)
