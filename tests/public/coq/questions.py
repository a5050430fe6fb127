"""Prints questions about pairs of unions, with the library's answers, a line each, as s2union-check --lines reads them:
questions.py LIBRARY PAIRS COASTS [--spoilt]. There are as many pairs of random unions near each other as PAIRS says,
and as many of pieces of the coasts of the world as COASTS says. With --spoilt, each answer is changed in one place."""
import ctypes
import random
import sys
from pathlib import Path

OF_TWO = ("union", "intersection", "difference", "symmetric_difference")
RELATIONS = ("contains", "intersects")
COVERINGS = ("outer", "inner")
OF_RECTANGLES = {"outer of a rectangle": "outer", "inner of a rectangle": "inner"}
QUESTIONS = (*OF_TWO, "complement", "normalise", "denormalise", *COVERINGS, *OF_RECTANGLES, *RELATIONS)
LAND, LAND_LEVEL = Path(__file__).resolve().parents[3] / "page" / "land.cells", 8  # the land, in cells of this level
LEAVES = 6 * 4 ** 30
MOST = 8
MOST_CUT = 300
ROOM = 4000
SIDE = 2 ** 30


def array(cells):
    return (ctypes.c_uint64 * max(1, len(cells)))(*cells)


def listed(cells):
    return array(cells), ctypes.c_size_t(len(cells))


def made(library, name, *arguments):
    """The list that a call makes."""
    out, count = (ctypes.c_uint64 * ROOM)(), ctypes.c_size_t()
    status = getattr(library, f"s2u_{name}")(*arguments, out, ctypes.c_size_t(ROOM), ctypes.byref(count))
    if status != 0:
        sys.exit(f"s2u_{name} answers {status}")
    return out[:count.value]


def normal(library, cells):
    out, count = array(cells), ctypes.c_size_t()
    if library.s2u_normalise(out, ctypes.c_size_t(len(cells)), ctypes.byref(count)) != 0:
        sys.exit("s2u_normalise has no answer")
    return out[:count.value]


def cutting(library, cells, chooser):
    """Levels to which a union is cut into few cells."""
    count = ctypes.c_uint64()
    while True:
        words = chooser.randrange(31), chooser.randrange(1, 4)
        levels = [ctypes.c_uint32(word) for word in words]
        if library.s2u_denormalised_len(*listed(cells), *levels, ctypes.byref(count)) != 0:
            sys.exit("s2u_denormalised_len has no answer")
        if count.value <= MOST_CUT or not words[0]:
            return words, levels, count.value <= MOST_CUT


def cell(level, place):
    return (2 * place + 1) * 4 ** (30 - level)


def some_cells(chooser):
    near, cells = chooser.randrange(LEAVES), []
    for _ in range(chooser.randrange(MOST + 1)):
        level = chooser.choice([0, 1, 2, 3, 28, 29, 30, chooser.randrange(31)])
        step = chooser.randrange(-4 ** chooser.randrange(1, 6), 4 ** chooser.randrange(1, 6))
        leaf = min(LEAVES - 1, max(0, near + step)) if chooser.random() < .8 else chooser.randrange(LEAVES)
        place = leaf >> 2 * (30 - level)
        cells.append(cell(level, place))
        if chooser.random() < .2 and level:
            cells += [cell(level, place // 4 * 4 + child) for child in range(4)]
    return cells


def places_of_land():
    """The places of the land's cells at their level, in order."""
    text = LAND.read_bytes()
    numbers = [int.from_bytes(text[at:at + 8], "little") for at in range(9, len(text), 8)]
    found = []
    for number in numbers:
        leaves, least = number & -number, 4 ** (30 - LAND_LEVEL)
        first = (number - leaves) // 2 // least
        found += range(first, first + leaves // least)
    return found


class Coasts:
    """Pieces of the coasts of the world, at any depth of the curve."""

    def __init__(self):
        places = places_of_land()
        self.squares = {}  # by the cell of a level, the places of the land in it
        for level in (3, 4, 5):
            within = 4 ** (LAND_LEVEL - level)
            for place in places:
                self.squares.setdefault((level, place // within), []).append(place % within)
        self.coasts = [key for key, land in self.squares.items() if len(land) < 4 ** (LAND_LEVEL - key[0])]

    def pair(self, chooser):
        """Two pieces, one of them moved along the curve, at one place of one depth."""
        level, place = chooser.choice(self.coasts)
        others = chooser.choice([key for key in self.coasts if key[0] == level]) if chooser.random() < .5 else (
            level, place)
        deep, many = LAND_LEVEL - level, 4 ** (LAND_LEVEL - level)
        at_level = chooser.randrange(31 - deep)
        first = chooser.randrange(6 * 4 ** at_level) * many
        moved = chooser.randrange(many)
        return ([cell(at_level + deep, first + it) for it in self.squares[level, place]],
                [cell(at_level + deep, first + (it + moved) % many) for it in self.squares[others]])


class Rect(ctypes.Structure):
    _fields_ = [(name, ctypes.c_uint32) for name in ("face", "i0", "i1", "j0", "j1")]


def rectangle(chooser):
    """A level, and a rectangle that has few cells of it."""
    level = chooser.randrange(31)
    block = 2 ** (30 - level)
    bounds = []
    for _ in range(2):
        least = chooser.randrange(SIDE) // block * block if chooser.random() < .2 else chooser.randrange(SIDE)
        bounds += [least, min(SIDE - 1, least + chooser.randrange(1 + chooser.choice([1, 3, 15]) * block))]
    return level, [chooser.randrange(6), *bounds]


def spoilt(cells, chooser):
    if not cells:
        return [cell(30, 0)]
    at, how = chooser.randrange(len(cells)), chooser.randrange(3)
    if how == 0:
        return cells[:at] + cells[at + 1:]
    if how == 1:
        return cells[:at] + [cells[at] ^ 1 << chooser.randrange(62)] + cells[at + 1:]
    return cells[:at] + [cells[at]] + cells[at:]


def asked(library, name, cells, others, chooser):
    """A question about cells, and its answer: its words, the lists, and the cells or yes or no."""
    a, b = normal(library, cells), normal(library, others)
    if name in OF_TWO:
        return name, a, b, made(library, name, *listed(a), *listed(b))
    if name in RELATIONS:
        return name, a, b, getattr(library, f"s2u_{name}")(*listed(a), *listed(b)) == 1
    if name in OF_RECTANGLES:
        level, bounds = rectangle(chooser)
        name = OF_RECTANGLES[name]
        return f"{name} {level}", bounds, ["rectangle"], made(
            library, name, ctypes.byref(Rect(*bounds)), ctypes.c_uint32(level), ctypes.c_size_t(ROOM))
    if name in COVERINGS:
        level = chooser.randrange(31)
        return f"{name} {level}", a, [], made(library, f"{name}_of", *listed(a), ctypes.c_uint32(level),
                                              ctypes.c_size_t(ROOM))
    if name == "complement":
        return name, a, [], made(library, name, *listed(a))
    if name == "normalise":
        return name, cells, [], a
    words, levels, is_short = cutting(library, a, chooser)
    a = a if is_short else []
    return f"{name} {words[0]} {words[1]}", a, [], made(library, "denormalised", *listed(a), *levels)


def told(answer):
    return " ".join(map(str, answer)) if isinstance(answer, list) else "yes" if answer else "no"


def main(path, pairs, of_coasts, spoils):
    library, chooser, coasts = ctypes.CDLL(path), random.Random(20), Coasts()
    for pair in range(pairs + of_coasts):
        cells, others = (some_cells(chooser), some_cells(chooser)) if pair < pairs else coasts.pair(chooser)
        for name in QUESTIONS:
            name, a, b, out = asked(library, name, cells, others, chooser)
            if spoils:
                out = spoilt(out, chooser) if isinstance(out, list) else not out
            print(name, "/", *a, "/", *b, "/", told(out))


if __name__ == "__main__":
    main(sys.argv[1], int(sys.argv[2]), int(sys.argv[3]), "--spoilt" in sys.argv[4:])
