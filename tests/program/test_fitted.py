"""Pictures of the part in which unions lie are read back, and compared with what a plain way makes of the cells."""
import os
import random
import re
import struct
import tempfile
import unittest
from xml.etree import ElementTree

import pytest

from model import calculator as model
from process import ran

SIDE = 2**30
LAYER = re.compile(r"<g class='c(\d)'>\n<svg x='0' y='320' width='4096' height='2720' viewBox='0 0 (\d+) (\d+)'>\n"
                   r"<path d='(.*?)'/>\n</svg>\n<rect x='0' y='(\d+)' width='64' height='64'/>"
                   r"<text x='96' y='(\d+)'>(.*?): (\d+) cells</text>\n</g>\n")
PIECE = re.compile(r"M(\d+),(\d+)h(\d+)v(\d+)h-\3z")


def edges(face, i, j, size):
    """The edges of a square on the unfolded faces, in leaves: left, top, right, bottom."""
    left, bottom = (face + 1) // 2 * SIDE + i, (3 - face // 2) * SIDE - j
    return left, bottom - size, left + size, bottom


def part_of(unions):
    """The unit, the deepest level and the edges, in units, of the part in which cells lie."""
    all_edges = [edges(*model.square(cell)) for union in unions for cell in union] or [(0, 0, 4 * SIDE, 3 * SIDE)]
    lefts, tops, rights, bottoms = zip(*all_edges)
    left, top, right, bottom = min(lefts), min(tops), max(rights), max(bottoms)
    margin = max(right - left, bottom - top) // 16
    left, top, right, bottom = max(left - margin, 0), max(top - margin, 0), right + margin, bottom + margin
    level = 30
    while max(right - left, bottom - top) >> (30 - level) > 2047:
        level -= 1
    unit = 2 ** (30 - level)
    return unit, level, (left // unit, top // unit, right // unit + 1, bottom // unit + 1)


def drawn(union, unit, level, part):
    """The rectangles, in units from the part's left and top: of cells, equal ones in a row once, cut by the part."""
    found, last = [], None
    for depth, place in union:
        cell = (min(depth, level), place >> 2 * max(depth - level, 0))
        if cell != last:
            square = [edge // unit for edge in edges(*model.square(cell))]
            assert [edge * unit for edge in square] == list(edges(*model.square(cell)))
            left, top = max(square[0], part[0]), max(square[1], part[1])
            right, bottom = min(square[2], part[2]), min(square[3], part[3])
            if left < right and top < bottom:
                found.append((left - part[0], top - part[1], right - left, bottom - top))
        last = cell
    return found


class Fitted(unittest.TestCase):
    def setUp(self):
        folder = tempfile.TemporaryDirectory()
        self.addCleanup(folder.cleanup)
        self.folder = folder.name

    def picture(self, **tokens):
        """The layers of the picture of files with these tokens, and the unions."""
        for name, words in tokens.items():
            script = (f"add a {words}\n" if words else "") + f"save a {name}\n"
            status, out, _ = ran("run", "--dir", self.folder, "--limit", "1000000", script=script.encode())
            self.assertEqual(status, 0, out)
        status, out, error = ran("draw", "--fit", "--dir", self.folder, *tokens)
        self.assertEqual((status, error), (0, b""))
        text = out.decode()
        ElementTree.fromstring(text)
        unions = []
        for name in tokens:
            with open(os.path.join(self.folder, name), "rb") as it:
                data = it.read()
            ids = struct.unpack(f"<{(len(data) - 9) // 8}Q", data[9:])
            unions.append([model.cell_of(cell) for cell in ids])
        return text, unions

    def check(self, **tokens):
        text, unions = self.picture(**tokens)
        unit, level, part = part_of(unions)
        deeper = f"Cells deeper than level {level} are drawn as cells of level {level}."
        self.assertIn(f"<text x='0' y='272'>{deeper}</text>", text)
        rows = LAYER.findall(text)
        self.assertEqual(len(rows), len(tokens))
        faces = text[text.index("<g class='face'>"):text.index("<g class='c0'>")]
        wanted = [drawn([(0, face)], unit, level, part) for face in range(6)]
        self.assertEqual([tuple(map(int, it)) for it in PIECE.findall(faces)], [it for row in wanted for it in row])
        for k, (row, union, name) in enumerate(zip(rows, unions, tokens)):
            color, width, height, path, y, text_y, called, count = row
            self.assertEqual((int(width), int(height)), (part[2] - part[0], part[3] - part[1]))
            self.assertEqual((int(color), int(y), int(text_y), called, int(count)),
                             (k % 8, 3104 + 96 * k, 3160 + 96 * k, name, len(union)))
            self.assertEqual(PIECE.sub("", path), "")
            self.assertEqual([tuple(map(int, it)) for it in PIECE.findall(path)], drawn(union, unit, level, part))

    def test_pictures(self):
        self.check(one="0/1")
        self.check(leaf="0000000000000001")
        self.check(corner="9ffffffffffffffd b000000000000001")
        self.check(nothing="")
        self.check(nothing="", all="1 3 5 7 9 b")
        self.check(**{f"f{k}": "0/1 0/3" for k in range(300)})
        self.check(france="47e7 47e1 0d50d", germany="479 47b1", far="47e66e1d8f8be23b")

    def test_random_pictures(self):
        choose = random.Random(29)
        for _ in range(20):
            near = choose.randrange(6 * 4**12)
            names = {f"f{k}": " ".join(f"{((near * 4**10 + choose.randrange(4**10)) * 2 + 1) << 16:016x}"
                                       for _ in range(choose.randrange(1, 40))) for k in range(choose.randrange(1, 12))}
            self.check(**names)

    def test_what_is_refused(self):
        for words, out in ((["absent"], b"error missing\n"), (["a/b"], b"error name\n")):
            self.assertEqual(ran("draw", "--fit", "--dir", self.folder, *words)[:2], (1, out))
        for words in (["f", "--curve"], ["--cells", "1"], []):
            self.assertEqual(ran("draw", "--fit", *words)[:2], (2, b""))


# Words that are no file's name: the first byte that isn't fit, and what to write instead.
NOT_NAMES = [("world/France.outer", b"6 is '/'", b"; write --dir 'world/' France.outer"),
             ("/srv/x", b"1 is '/'", b"; write --dir '/srv/' x"), ("/x", b"1 is '/'", b"; write --dir '/' x"),
             ("a/b/", b"2 is '/'", b""), ("a b/c", b"2 is ' '", b"; write --dir 'a b/' c"), (".x", b"1 is '.'", b"")]


@pytest.mark.parametrize("command", ["check", "draw", "draw --fit", "draw x"])
@pytest.mark.parametrize("word,byte,instead", NOT_NAMES)
def test_notes(command, word, byte, instead):
    """Where a word is no file's name, the answer stays, and standard error says why and what to write."""
    why = (b" is not a file name (1 to 64 letters, digits, '.', '_' or '-'; it must not begin with '.' or '-'; "
           b"--dir names the folder): byte ")
    note = b"s2calc: '" + word.encode() + b"'" + why + byte + instead + b"\n"
    assert ran(*command.split(), word) == (1, b"error name\n", note)


def test_notes_on_several_words():
    assert ran("draw", "a/b", "c", "d/e")[2].count(b"\n") == 2
    assert ran("draw", *["a/b"] * 1000, "x" * 100_000)[2].count(b"\n") == 1001
    assert ran("check", "absent") == (1, b"error missing\n", b"")
