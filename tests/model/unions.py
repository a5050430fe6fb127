"""The plain model of cells and unions by identifiers: a union is the sorted list of its runs."""

from functools import cache
from pathlib import Path

from model import calculator as plain

LEAVES = plain.LEAVES
VERSION = (Path(__file__).resolve().parents[2] / "VERSION").read_text().strip()
cell = cache(plain.cell_of)
joined = plain.joined


def identifier(level, place):
    return plain.identifier((level, place))


def run(number):
    """The first leaf of a cell, and the one after its last."""
    return plain.run_of(cell(number))


def normal(runs):
    """The normal form: the largest cells, from the left."""
    return [plain.identifier(each) for each in plain.normal_form(joined(runs))]


def runs(cells):
    return joined([run(number) for number in cells])


def common(xs, ys):
    return joined([(max(a, c), min(b, d)) for a, b in xs for c, d in ys])


def meet(xs, ys):
    """Whether there is a leaf in both."""
    return any(a < d and c < b for a, b in xs for c, d in ys)


def rest(xs):
    """The leaves that are not in the runs."""
    edges = [0] + [edge for pair in joined(xs) for edge in pair] + [LEAVES]
    return joined(zip(edges[::2], edges[1::2]))


def count(xs):
    return sum(end - first for first, end in joined(xs))


def cut(cells, least, modulus):
    """Each cell cut to the least level that is wanted."""
    made = []
    for number in cells:
        level, place = cell(number)
        wanted = next((k for k in range(level, 31) if k >= least and (k - least) % modulus == 0), 30)
        steps = 4 ** (wanted - level)
        made += [identifier(wanted, place * steps + k) for k in range(steps)]
    return made


def around(xs, level):
    """The cells of a level that share a leaf with the runs."""
    unit = 4 ** (30 - level)
    return joined([(first // unit * unit, -(-end // unit) * unit) for first, end in xs])


def within(xs, level):
    """The cells of a level that lie in the runs."""
    unit = 4 ** (30 - level)
    return joined([(-(-first // unit) * unit, end // unit * unit) for first, end in joined(xs)])


def tiles(xs, level):
    """The cells of a level that share a leaf with the runs, each with the cells of what it shares with them."""
    return [(tile, normal(common(xs, [run(tile)]))) for tile in cut(normal(around(xs, level)), level, 1)]


def ancestors(cells):
    """The cells and all their ancestors, each once."""
    placed = [cell(each) for each in cells]
    return sorted({identifier(k, place // 4 ** (level - k)) for level, place in placed for k in range(level + 1)})


def file(cells):
    return b"\x01" + len(cells).to_bytes(8, "little") + b"".join(number.to_bytes(8, "little") for number in cells)


def faults_of_files():
    """Bytes that are no file of cells, each with what is wrong with them."""
    good = file([identifier(5, k) for k in (1, 7, 60)])
    faults = [(good[:k], "bytes are missing") for k in range(len(good))]
    faults += [(bytes([k]) + good[1:], "unknown version") for k in (0, 2, 255)]
    faults += [(good + bytes(k), "bytes after the last cell") for k in (1, 8, 100)]
    wrongs = [good[:17] + number.to_bytes(8, "little") + good[25:] for number in (0, 2, 2**64 - 1)]
    faults += [(wrong, "a number that is not a cell") for wrong in wrongs]
    return faults + [(good[:1] + b"\xff" * 8 + good[9:], "bytes are missing")]


@cache
def token(number):
    return f"{number:016x}".rstrip("0")


@cache
def debug(number):
    return plain.debug(cell(number))
