"""Pictures are read back into the cells that they show."""
import filecmp
import os
import random
import re
import resource
import shutil
import struct
import subprocess
import tempfile
import unittest
from xml.etree import ElementTree

import pytest

from model import calculator as model
from process import PROGRAM, SECONDS, TOP, answered, ran


def cell_at(level, left, top, side):
    """The cell with a rectangle in a picture: the faces are in three rows of two, each row one further right."""
    column, row = left // 1024, 2 - top // 1024
    face = column + row
    i, j = left - 1024 * column << 20, 1024 * (3 - row) - top - side << 20
    cell = (level, model.leaf_at(face, i, j)[1] // 4 ** (30 - level))
    assert model.square(cell) == (face, i, j, side << 20)
    return cell


class Picture:
    """What is seen in a picture: its cells, the points of its line, and its notes."""

    def __init__(self, text):
        line = r"(?:<polyline class='curve' points='(.*?)'/>\n)?"
        drawn = re.search(rf"<g id='cells'>\n(.*?)</g>\n{line}<g id='edges'>", text, re.S)
        shape = re.compile(r"<rect class='l(\d)' x='(\d+)' y='(\d+)' width='(\d+)' height='\4'/>")
        rectangles = [[int(number) for number in shape.fullmatch(line).groups()] for line in drawn[1].splitlines()]
        self.cells = [cell_at(*rectangle) for rectangle in rectangles]
        self.middles = [(left + side // 2, top + side // 2) for _, left, top, side in rectangles]
        self.line = drawn[2] and [tuple(map(int, point.split(","))) for point in drawn[2].split()]
        self.count = int(re.search(r"<text [^>]*>cells: (\d+)</text>", text)[1])
        small = re.search(r"<text [^>]*>(\d+) deeper than level 9, drawn as cells of level 9</text>", text)
        self.small = int(small[1]) if small else 0


class Overlay:
    """What is seen in a picture of several files: the color, the cells, the line and the legend of each."""

    LAYER = re.compile(
        r"<g class='c(\d)'>\n<path d='(.*?)'/>\n(?:<polyline class='curve' points='(.*?)'/>\n)?"
        r"<rect x='2144' y='(\d+)' width='64' height='64'/><text x='2240' y='(\d+)'>(.*?): (\d+) cells</text>\n</g>\n"
    )
    SQUARE = re.compile(r"M(\d+),(\d+)h(\d+)v\3h-\3z")

    def __init__(self, text):
        between = text[text.index("</g>\n", text.index("<g id='faces'>")) + 5:text.index("<g id='edges'>")]
        parts = self.LAYER.split(between)
        assert not any(parts[::8]), parts[::8]
        rows = [parts[at:at + 7] for at in range(1, len(parts), 8)]
        squares = [[tuple(map(int, square)) for square in self.SQUARE.findall(row[1])] for row in rows]
        for row in rows:
            assert not self.SQUARE.sub("", row[1])
        levels = [[(11 - side.bit_length(), left, top, side) for left, top, side in row] for row in squares]
        self.colors = [int(row[0]) for row in rows]
        self.cells = [[cell_at(*square) for square in row] for row in levels]
        self.middles = [[(left + side // 2, top + side // 2) for left, top, side in row] for row in squares]
        self.lines = [row[2] and [tuple(map(int, point.split(","))) for point in row[2].split()] for row in rows]
        self.places = [(int(row[3]), int(row[4])) for row in rows]
        self.legend = [(row[5], int(row[6])) for row in rows]


def seen(cells):
    """The cells as they are seen: those deeper than level 9 as their ancestors, and equal ones in a row once."""
    larger = [(min(level, 9), place // 4 ** max(level - 9, 0)) for level, place in cells]
    return [cell for n, cell in enumerate(larger) if n == 0 or cell != larger[n - 1]]


REFUSED = [("absent", b"missing"), ("short", b"format"), ("folder", b"file"), ("../f", b"name"), ("", b"name")]
REFUSED_OF_SEVERAL = [("f absent", b"missing"), ("f f short absent", b"format"), ("absent short", b"missing"),
                      ("f <b>", b"name"), ("absent ../f", b"name"), ("f a&b", b"name"), (" f", b"name")]


@pytest.mark.parametrize("names,refusal", REFUSED + REFUSED_OF_SEVERAL)
def test_refusals_of_files(names, refusal, tmp_path):
    (tmp_path / "f").write_bytes(struct.pack("<BQQ", 1, 1, model.identifier((0, 1))))
    (tmp_path / "short").write_bytes(struct.pack("<BQB", 1, 1, 0))
    (tmp_path / "folder").mkdir()
    assert answered("draw", "--dir", tmp_path, *names.split(" ")) == (1, b"error " + refusal + b"\n")


@pytest.mark.parametrize("words", ["X", "1 3 2", "", "0/4 1"])
def test_refusals_of_cells(words):
    assert ran("draw", "--cells", *words.split(" ")) == (1, b"error cell\n", b"")


class Pictures(unittest.TestCase):
    """Pictures are read back into the cells that they show."""

    def setUp(self):
        self.folder = tempfile.mkdtemp()
        self.addCleanup(shutil.rmtree, self.folder)
        self.random = random.Random(1)

    def some_cells(self, count, deepest):
        levels = [self.random.randrange(deepest + 1) for _ in range(count)]
        return [(level, self.random.randrange(6 * 4**level)) for level in levels]

    def write(self, name, cells):
        with open(os.path.join(self.folder, name), "wb") as file:
            numbers = [model.identifier(cell) for cell in cells]
            file.write(struct.pack("<BQ%dQ" % len(numbers), 1, len(numbers), *numbers))

    def draws(self, words, cells):
        """The picture that the words ask for has these cells, in their order, and the line if the words ask for it."""
        status, out, error = ran("draw", *words)
        self.assertEqual((status, error), (0, b""))
        picture = Picture(out.decode())
        self.assertEqual(picture.cells, seen(cells))
        self.assertEqual(picture.line, picture.middles if "--curve" in words else None)
        self.assertEqual((picture.count, picture.small), (len(cells), sum(level > 9 for level, _ in cells)))
        ElementTree.fromstring(out)

    def test_cells_in_their_order(self):
        for name in (model.token, model.debug):
            for options in ([], ["--curve"]):
                cells = self.some_cells(5000, 9)
                self.draws([*options, "--cells", *map(name, cells)], cells)
        twice = [(1, 3), (1, 3), (0, 5), (1, 3)]
        self.draws(["--cells", *map(model.token, twice), "--curve"], twice)

    def test_all_cells_of_a_level_along_the_curve(self):
        for level in range(4):
            cells = [(level, place) for place in range(6 * 4**level)]
            words = ["--curve", "--cells", *map(model.debug, cells)]
            self.draws(words, cells)
            line = Picture(ran("draw", *words)[1].decode()).line
            side = 1024 >> level
            steps = {abs(a - c) + abs(b - d) for (a, b), (c, d) in zip(line, line[1:])}
            self.assertEqual(steps, {side}, "each cell is next to the one before")

    def test_cells_too_small_to_be_seen(self):
        deep = [(30, 0), (30, 1), (10, 0), (9, 0), (10, 4), (9, 0), (29, 6 * 4**29 - 1)]
        self.draws(["--cells", *map(model.token, deep)], deep)
        cells = self.some_cells(300, 30)
        self.draws(["--curve", "--cells", *map(model.token, cells)], cells)

    def test_files_in_normal_form(self):
        # Not in order, repeated, inside one another, and all children of some cells.
        cells = self.some_cells(400, 12) + [(0, 2)]
        cells += [(level + 1, 4 * place + k) for level, place in self.some_cells(50, 8) for k in range(4)]
        self.random.shuffle(cells)
        self.write("f", cells + cells[:100])
        self.write("none", [])
        normal = model.normal_form(model.joined(map(model.run_of, cells)))
        self.assertLess(len(normal), len(cells))
        self.draws(["--dir", self.folder, "f"], normal)
        self.draws(["f", "--curve", "--dir", self.folder], normal)
        self.draws(["--dir", self.folder, "none"], [])
        self.assertEqual(ran("draw", "f", cwd=self.folder), ran("draw", "--dir", self.folder, "f"))

    def overlays(self, files, *options):
        """The picture of these files, by their names and cells, has their cells and their legend."""
        for name, cells in files:
            self.write(name, cells)
        status, out, error = ran("draw", "--dir", self.folder, *options, *(name for name, cells in files))
        self.assertEqual((status, error), (0, b""))
        picture = Overlay(out.decode())
        self.assertEqual(picture.colors, [k % 8 for k in range(len(files))])
        self.assertEqual(picture.cells, [seen(cells) for name, cells in files])
        self.assertEqual(picture.lines, picture.middles if "--curve" in options else [None] * len(files))
        self.assertEqual(picture.legend, [(name, len(cells)) for name, cells in files])
        self.assertEqual(picture.places, [(2240 + 96 * k, 2296 + 96 * k) for k in range(len(files))])
        image = ElementTree.fromstring(out)
        more = max(0, len(files) - 9)
        self.assertEqual(image.get("height"), str(824 + 24 * more))
        self.assertEqual(image.get("viewBox"), f"-96 -112 4288 {3296 + 96 * more}")

    def test_several_files(self):
        lists = [model.normal_form(model.joined(map(model.run_of, self.some_cells(60, 14)))) for _ in range(20)]
        files = [(f"{k}_-.", cells) for k, cells in enumerate(lists)]
        for count in (2, 3, 9, 10, 20):
            self.overlays(files[:count])
        self.overlays(files[:3], "--curve")
        self.overlays([("a", lists[0]), ("none", []), ("a", lists[0])])
        self.overlays([(f"f{k}", [(9, k)]) for k in range(1000)])

    def test_too_many_files(self):
        self.write("f", [(0, 1)])
        self.assertEqual(ran("draw", "--dir", self.folder, *["f"] * 65536), (1, b"error too-many\n", b""))

    def test_a_million_cells(self):
        # Every second cell of level 9, and then leaves, four in each cell of level 9.
        self.write("most", [(9, place) for place in range(0, 6 * 4**9, 2)])
        status, out, error = ran("draw", "--dir", self.folder, "most")
        self.assertEqual((status, error, out.count(b"<rect class='l9' ") - 1), (0, b"", 3 * 4**9))
        leaves = range(0, 10**6 * 4**20, 4**20)
        self.write("most", [(30, place) for place in leaves])
        status, out, error = ran("draw", "--dir", self.folder, "most")
        self.assertEqual((status, error, out.count(b"<rect class='l9' ") - 1), (0, b"", 10**6 // 4))
        self.assertIn(b">1000000 deeper than level 9,", out)
        status, out, error = ran("draw", "--dir", self.folder, "most", "--curve")
        points = re.search(rb"<polyline class='curve' points='(.*?)'", out)[1].split()
        self.assertEqual((status, error, len(points)), (0, b"", 10**6 // 4))
        for option in ("--curve", "--fit"):
            status, out, error = ran("draw", "--dir", self.folder, option, "most", "most")
            self.assertEqual((status, error, out.count(b">most: 1000000 cells<")), (0, b"", 2))

    def test_out_of_memory(self):
        def little_memory():
            resource.setrlimit(resource.RLIMIT_AS, (64 << 20, 64 << 20))

        self.write("most", [(9, place) for place in range(0, 6 * 4**9, 2)])
        done = ran("draw", "--dir", self.folder, "most", preexec_fn=little_memory)
        self.assertEqual(done, (1, b"error memory\n", b""))

    def test_the_pictures_of_the_pages_are_current(self):
        made = os.path.join(TOP, "docs", "pictures")
        subprocess.run(["bash", os.path.join(made, "make.sh"), self.folder, PROGRAM], check=True, timeout=SECONDS)
        names = [name for name in os.listdir(made) if name.endswith(".svg")]
        self.assertEqual(sorted(names), sorted(os.listdir(self.folder)))
        self.assertEqual(filecmp.cmpfiles(made, self.folder, names, shallow=False), (names, [], []))
