"""The map of a union for a notebook, `_repr_html_`: that it is XML, and where it draws what."""

import re
import unittest
import unittest.mock
import xml.etree.ElementTree as ElementTree
from pathlib import Path

import numpy
import pytest
from s2union import CellUnion, parents
from s2union_geo import circle, covering, leaf, leaves, maps, outline

SVG = "{http://www.w3.org/2000/svg}"
MOST = 200_000  # characters of a map
WORLD = CellUnion.from_tokens("1 3 5 7 9 b")
RING = CellUnion.from_tokens("04 0c") - CellUnion.from_tokens("041 0c4")
LAND = Path(__file__).resolve().parents[3] / "page" / "land.cells"


def box(west, south, east, north):
    return {"type": "Polygon", "coordinates": [[[west, south], [east, south], [east, north], [west, north],
                                                [west, south]]]}


UNIONS = {
    "none": CellUnion(), "the sphere": WORLD, "a leaf": CellUnion([leaf(2.35, 48.85)]),
    "a leaf at a pole": CellUnion([leaf(0, 90)]), "a pole": circle(0, -90, 300000)[0],
    "a face at a pole": CellUnion.from_tokens("5"), "a face on the date line": CellUnion.from_tokens("7"),
    "on the date line": covering(box(170, -25, 190, -10)), "its western side": covering(box(170, -25, 179.9, -10)),
    "a small zone": circle(10.75, 59.91, 3000)[0], "with a hole": RING,
    "two parts": covering(box(0, 0, 1, 1)) | covering(box(5, 5, 6, 6)),
    "long and thin": covering({"type": "LineString", "coordinates": [[0, 50], [30, 50]]}, max_cells=400),
}


class Map:
    """The drawing of a union, read from the HTML."""

    def __init__(self, union):
        self.html = union._repr_html_()
        root = ElementTree.fromstring(self.html)
        self.svg, self.words = root.find(f"{SVG}svg"), root.find("div").text
        self.texts = [(text.text, int(text.get("x")), int(text.get("y"))) for text in self.svg.findall(f"{SVG}text")]
        self.size = [int(number) for number in self.svg.get("viewBox").split()[2:]]
        paths = self.svg.findall(f"{SVG}path")
        self.shapes = [path.get("d") for path in paths if path.get("fill") == maps.BLUE]
        self.borders = [path.get("d") for path in paths if path.get("stroke") == maps.BLUE]
        self.land = [path.get("d") for path in paths if path.get("fill") == maps.GRAY]
        self.lines = [path.get("d") for path in paths if path.get("stroke") == maps.GRAY]

    def rings(self):
        """The positions of each ring of the shape, closed."""
        found = []
        for begin, moves in re.findall(r"M([-\d ]+)(?:l([-\d ]+))?z", *self.shapes):
            steps = numpy.array(moves.split(), int).reshape(-1, 2)
            places = numpy.cumsum([numpy.array(begin.split(), int), *steps], axis=0)
            found.append(numpy.array([*places, places[0]]))
        return found


def places_of(union, goes_over=False):
    """The positions of each ring of the outline; east of the date line, a turn more, if the map goes over it."""
    rings = [numpy.array(ring) for polygon in outline(union)["coordinates"] for ring in polygon]
    return [ring + [360 * (goes_over and ring[:, 0].max() < 0), 0] for ring in rings]


def line_through(known, found):
    """The factor and the rest of the best line from numbers to numbers, and the greatest distance from it."""
    factor, rest = numpy.polyfit(known, found, 1)
    return factor, rest, abs(factor * known + rest - found).max()


def lines_of(wanted, rings):
    """The lines from longitudes to the right and from latitudes up, through the sides of the rings' boxes."""
    known, found = ([numpy.array([(ring[:, axis].min(), ring[:, axis].max()) for ring in those]) for axis in (0, 1)]
                    for those in (wanted, rings))
    found[1] = found[1][:, ::-1]  # the north is up
    return [line_through(numbers.ravel(), units.ravel()) for numbers, units in zip(known, found)]


@pytest.mark.parametrize("name", UNIONS)
def test_each_is_xml_without_a_network_or_a_script(name):
    found = Map(UNIONS[name])
    assert len(found.html) < MOST
    assert re.findall(r"\w+://[\w./]*", found.html) == ["http://www.w3.org/2000/svg"]
    assert {element.tag.replace(SVG, "") for element in found.svg.iter()} == {"svg", "path", "text", "rect"}
    assert 0 < found.size[0] <= 6400 and 0 < found.size[1] <= 4000
    assert found.size == [10 * int(found.svg.get(side)) for side in ("width", "height")]
    assert len(found.lines) >= 4 and len({text for text, _, _ in found.texts}) >= 3
    assert bool(found.shapes[0]) == bool(UNIONS[name])


@pytest.mark.parametrize("name", ["a leaf", "a face on the date line", "on the date line", "its western side",
                                  "a small zone", "with a hole", "two parts", "a face at a pole", "the sphere"])
def test_each_position_of_the_outline_is_on_the_map(name):
    """By one line from longitudes to the right and one from latitudes up, and the words of the grid are by the same."""
    found, wanted = Map(UNIONS[name]), places_of(UNIONS[name], goes_over="on the date line" in name)
    rings = found.rings()
    assert len(rings) == len(wanted)
    x, y = lines_of(wanted, rings)
    assert x[0] > 0 > y[0] and max(x[2], y[2]) <= 1
    for ring, drawn in zip(wanted, rings):
        units = ring * [x[0], y[0]] + [x[1], y[1]]
        assert all(abs(drawn - place).max(axis=1).min() <= 2 for place in units)
    for text, right, down in found.texts:
        number, _, end = text.partition("°")
        if end in (" W", " E", "") and number != "0" and down == found.size[1] - 40:
            known = [(sign * float(number) + turn) * x[0] + x[1] for sign in (1, -1) for turn in (0, 360)
                     if (sign < 0) == (end == " W") or not end]
            assert min(abs(right - place) for place in known) <= 2, text
        elif end in (" N", " S"):
            assert abs(float(number) * (-1 if end == " S" else 1) * y[0] + y[1] - down - 30) <= 2, text


@pytest.mark.parametrize("name", ["a leaf", "a face on the date line", "on the date line", "its western side",
                                  "a small zone", "with a hole", "two parts", "long and thin"])
def test_air_is_around_a_union(name):
    """From 4 to 30 percent of the longer side of the map on the side where the union is nearest to the edge."""
    found = Map(UNIONS[name])
    places = numpy.concatenate(found.rings())
    least = min(*places.min(0), *(found.size - places.max(0)))
    assert 0.04 < least / max(found.size) < 0.3


def test_no_border_lies_on_the_edge_of_the_map():
    """Of a face at a pole the southern side alone is a border; the sphere has none."""
    sides = [re.findall(r"([lm])(-?\d+) (-?\d+)", *Map(union).borders) for union in (CellUnion.from_tokens("5"), WORLD)]
    drawn = [[(int(x), int(y)) for kind, x, y in each if kind == "l"] for each in sides]
    assert sum(abs(x) for x, _ in drawn[0]) == 6400 and max(abs(y) for _, y in drawn[0]) < 400
    assert drawn[1] == [] != sides[1]


def test_the_line_below():
    assert Map(CellUnion()).words == "no cells"
    assert Map(CellUnion.from_tokens("1")).words == "1 cell of level 0, 85,011,012 km²"
    assert Map(RING).words.startswith(f"{len(RING)} cells of levels ") and "simplified" not in Map(RING).words
    assert Map(UNIONS["a leaf"]).words.endswith("e-11 km²")


def test_many_cells_are_fewer_on_the_map():
    """A covering of them, none of whose places is missing; also where all lie apart, and each is a dot."""
    random = numpy.random.default_rng(47)
    near, far = (CellUnion(parents(leaves(random.uniform(-east, east, count), random.uniform(0, 80, count)), 16))
                 for east, count in ((5, 300_000), (179, 30_000)))
    for union in near, far:
        found = Map(union)
        assert len(found.html) < MOST and f"{len(union):,} cells" in found.words
        level = int(re.search("simplified on the map, to cells of level ([0-9]+)$", found.words)[1])
        assert union <= union.outer(level) and 0 < len(union.outer(level)) <= 5000
        assert len(found.rings()) == len(places_of(union.outer(level)))
        assert len(found.html) > 2000
    large = CellUnion(parents(leaves(random.uniform(-180, 180, 5000), random.uniform(-75, 75, 5000)), 7))
    assert len(large) < 5000 and "simplified" in Map(large).words and len(Map(large).html) < MOST
    few = CellUnion(parents(leaves(random.uniform(-179, 179, 5000), random.uniform(-80, 80, 5000)), 20))
    assert len(few) == 5000 == len(Map(few).rings()) and "simplified" not in Map(few).words


def test_land_is_below_a_wide_map_if_it_is_there():
    wide, narrow = covering(box(-10, 35, 40, 70)), covering(box(0, 45, 5, 50))
    for file in LAND, Path("nowhere"):
        with unittest.mock.patch.object(maps, "LAND", file):
            lands = [Map(union).land for union in (WORLD, wide, narrow)]
            assert [len(land) for land in lands] == [file == LAND, file == LAND, 0]
    assert maps.LAND.read_bytes() == LAND.read_bytes()


@pytest.mark.parametrize("apart, wanted", [(45, 45), (60, 45), (31, 45), (3, 5), (1.5, 2), (1, 1), (0.3, 0.5),
                                           (0.011, 0.02), (6e-8, 1e-7), (5e-8, 5e-8)])
def test_lines_are_a_round_number_of_degrees_apart(apart, wanted):
    assert maps.step_of(apart) == pytest.approx(wanted)


@pytest.mark.parametrize("number, step, wanted", [
    (0, 5, "0°"), (-30, 30, "30° W"), (-180, 45, "180°"), (2.5, 0.5, "2.5° E"), (12.3, 0.02, "12.30° E"),
    (1e-9, 1e-7, "0.0000000°")])
def test_degrees_have_the_digits_of_the_step(number, step, wanted):
    assert maps.in_degrees(number, step, "EW") == wanted


matplotlib = pytest.importorskip("matplotlib")
matplotlib.use("agg")


@pytest.mark.parametrize("name", UNIONS)
def test_a_plot_has_the_outline(name):
    axes = UNIONS[name].plot()
    rings = places_of(UNIONS[name])
    drawn = [patch.get_path() for patch in axes.patches]
    assert len(drawn) == bool(rings)
    for path in drawn:
        assert numpy.array_equal(path.vertices, numpy.concatenate(rings))
        assert (path.codes == path.MOVETO).sum() == (path.codes == path.CLOSEPOLY).sum() == len(rings)
    matplotlib.pyplot.close(axes.figure)


def test_a_plot_fills_no_hole():
    figure, axes = matplotlib.pyplot.subplots(figsize=(4, 4), dpi=50)
    axes.set_position([0, 0, 1, 1])
    axes.axis("off")
    zone = box(0, 0, 3, 3)
    zone["coordinates"].append([[1, 1], [1, 2], [2, 2], [2, 1], [1, 1]])
    assert covering(zone, max_cells=2000).plot(ax=axes, color="black") is axes
    axes.set(xlim=(0, 3), ylim=(0, 3))
    figure.canvas.draw()
    pixels = numpy.asarray(figure.canvas.buffer_rgba())[:, :, 0]
    assert pixels.shape == (200, 200) and pixels[100, 100] == 255 and pixels[30, 30] == pixels[100, 30] == 0
    matplotlib.pyplot.close(figure)


def test_a_plot_takes_options_and_has_the_width_of_its_middle():
    near, far = circle(10, 0, 90000)[0].plot(), circle(10, 60, 90000)[0].plot(hatch="/", edgecolor="red")
    assert near.get_aspect() == pytest.approx(1, abs=1e-3) and far.get_aspect() == pytest.approx(2, abs=1e-2)
    assert far.patches[0].get_hatch() == "/" and far.patches[0].get_edgecolor()[:3] == (1, 0, 0)
    assert CellUnion().plot(ax=near) is near and len(near.patches) == 1
    with pytest.raises(AttributeError, match="colour"):
        WORLD.plot(ax=near, colour="red")
    for axes in near, far:
        matplotlib.pyplot.close(axes.figure)


def test_a_plot_says_what_is_missing():
    with unittest.mock.patch.dict("sys.modules", {"s2union_geo.plots": None, "matplotlib": None}):
        with pytest.raises(ModuleNotFoundError, match="s2union_geo.plots"):
            WORLD.plot()
