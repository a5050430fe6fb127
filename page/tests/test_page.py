"""Drives the page of --page in Chromium and compares what it answers with the library, by its module for Python. The
tests that are slow may be left out (-m "not slow")."""
import base64
import json
import math
import random
import struct
import time
from pathlib import Path

import pytest
from model.edges import REFUSALS
from model.edges import rows as edge_rows
from s2union import Union, debug, from_face_ij, from_token, level, parent, size, square, to_signed, token
from s2union_geo import interior, leaves, to_geojson
from selenium import webdriver
from selenium.common.exceptions import WebDriverException
from selenium.webdriver.common.action_chains import ActionChains
from selenium.webdriver.common.by import By
from selenium.webdriver.common.keys import Keys
from selenium.webdriver.support.ui import Select

HERE = Path(__file__).resolve().parent
TOP = HERE.parents[1]
SIDE = 2**30
SECONDS = 600  # on a machine with much else to do
FAULTS = {
    "short": (b"\1\3\0\0", "bytes are missing"),
    "other version": (b"\2" + bytes(8), "unknown version"),
    "trailing": (b"\1" + bytes(9), "bytes after the last cell"),
    "no cell": (b"\1" + struct.pack("<QQ", 1, 2), "a number that is not a cell"),
}


def browser(downloads, is_short):
    options = webdriver.ChromeOptions()
    size_of_window = "--window-size=860,600" if is_short else "--window-size=1280,800"
    for word in ("--headless=new", "--no-sandbox", size_of_window, "--force-device-scale-factor=1",
                 "--disable-dev-shm-usage", "--disable-gpu"):
        options.add_argument(word)
    options.add_experimental_option("prefs", {"download.default_directory": str(downloads)})
    options.set_capability("goog:loggingPrefs", {"browser": "ALL"})
    made = started(options)
    made.set_script_timeout(SECONDS)
    made.set_page_load_timeout(SECONDS)
    return made


def started(options, again=2):
    """Chromium, which its driver gives up on after a minute."""
    try:
        return webdriver.Chrome(options=options)
    except WebDriverException:
        if not again:
            raise
        return started(options, again - 1)


def random_union(choice, count, depth):
    """A union of random cells, many of them near one another."""
    leaves = [from_face_ij(choice.randrange(6), choice.randrange(SIDE), choice.randrange(SIDE)) for _ in range(8)]
    cells = []
    while len(cells) < count:
        near = parent(choice.choice(leaves), choice.randrange(1, 8))
        cells.append(parent(leaf_in(choice, near), choice.randrange(level(near), depth)))
    return Union(cells)


def middle(face, i, j, side):
    """The longitude and latitude of the middle of a square, by S2's projection from the cube."""
    u, v = ((4 * s * s - 1) / 3 if s >= 0.5 else (1 - 4 * (1 - s) ** 2) / 3 for s in ((2 * i + side) / 2 / SIDE,
                                                                                     (2 * j + side) / 2 / SIDE))
    x, y, z = ((1, u, v), (-u, 1, v), (-u, -v, 1), (-1, -v, -u), (v, -1, -u), (v, u, -1))[face]
    return math.degrees(math.atan2(y, x)), math.degrees(math.atan2(z, math.hypot(x, y)))


def is_inside(rings, x, y):
    """Whether an odd number of the rings' edges is to the north of a place, as it is or a turn away."""
    edges = [edge for ring in rings for edge in zip(ring, [*ring[1:], ring[0]])]
    return any(sum((a[0] <= at) != (b[0] <= at) and a[1] + (at - a[0]) / (b[0] - a[0]) * (b[1] - a[1]) > y
                   for a, b in edges) % 2 == 1 for at in (x - 360, x, x + 360))


def distance_to(lines, x, y):
    """How far a place, as it is or a turn away, is from lines, in degrees of the map."""
    def to_edge(a, b, at):
        dx, dy = b[0] - a[0], b[1] - a[1]
        part = max(0, min(1, ((at - a[0]) * dx + (y - a[1]) * dy) / (dx * dx + dy * dy or 1)))
        return math.hypot(a[0] + part * dx - at, a[1] + part * dy - y)
    return min(to_edge(a, b, at) for line in lines for a, b in zip(line, line[1:] or line)
               for at in (x - 360, x, x + 360))


def parts_of(shape):
    """The rings of each polygon of GeoJSON, its lines, and its points."""
    given = shape.get("coordinates")
    parts = {"Polygon": lambda: ([given], [], []), "MultiPolygon": lambda: (given, [], []),
             "LineString": lambda: ([], [given], []), "MultiLineString": lambda: ([], given, []),
             "Point": lambda: ([], [], [given]), "MultiPoint": lambda: ([], [], given)}
    if shape["type"] in parts:
        return parts[shape["type"]]()
    below = shape.get("features") or shape.get("geometries") or [shape["geometry"]]
    return [sum(each, []) for each in zip(*map(parts_of, below))]


def triangles(choice, count):
    """Triangles of a tenth of a degree, anywhere, and how many leaves they have together, about."""
    made, area = [], 0
    for _ in range(count):
        x, y = choice.uniform(-179, 179), math.degrees(math.asin(choice.uniform(-0.99, 0.99)))
        a, b, c = ([x + choice.uniform(-0.05, 0.05), y + choice.uniform(-0.05, 0.05)] for _ in "abc")
        area += abs((b[0] - a[0]) * (c[1] - a[1]) - (c[0] - a[0]) * (b[1] - a[1])) / 2 * math.cos(math.radians(y))
        made.append([[a, b, c, a]])
    return made, 6 * 4**30 * math.radians(math.radians(area)) / (4 * math.pi)


def leaf_in(choice, cell):
    """A random leaf of a cell: the place of a leaf along the curve is an odd number."""
    low = cell & -cell
    return choice.randrange(cell - low + 1, cell + low, 2)


class TestPage:
    """The page in a browser, and what it has to answer."""

    choice = random.Random(52)
    a, b = random_union(choice, 300, 20), random_union(choice, 300, 24)

    @pytest.fixture(scope="class", autouse=True)
    def in_browser(self, request, tmp_path_factory):
        asked, here = request.config.option, request.cls
        here.downloads = tmp_path_factory.mktemp("page")
        here.folder, here.driver = Path(asked.page).resolve(), browser(here.downloads, asked.short)
        yield
        if asked.figures:
            here().figures()
        if asked.screenshot:
            here().screenshot()
        here.driver.quit()

    def open(self):
        self.driver.get((self.folder / "index.html").as_uri())
        end = time.monotonic() + SECONDS
        while not self.run("return typeof s2page !== 'undefined'"):
            assert time.monotonic() < end, self.status()
            time.sleep(0.05)

    def run(self, code, *arguments):
        return self.driver.execute_script(code, *arguments)

    def status(self):
        return self.driver.find_element(By.ID, "status").text

    def click(self, name):
        """Clicks a button, and waits until no GeoJSON is covered."""
        self.clicked(self.driver.find_element(By.ID, name))
        self.wait()

    def clicked(self, button):
        """Clicks a button, and waits until the page has done what that asks for at once. The driver may be back before,
        and what was said last is still said then."""
        self.run("""globalThis.heard = arguments[0].disabled;
            document.addEventListener('click', () => { globalThis.heard = true; }, {once: true});""", button)
        button.click()
        end = time.monotonic() + SECONDS
        while not self.run("return globalThis.heard"):
            assert time.monotonic() < end, self.status()
            time.sleep(0.02)

    def wait(self):
        """Waits until the page says something, and covers nothing."""
        end = time.monotonic() + SECONDS
        while not self.status() or self.driver.find_element(By.ID, "work").is_displayed():
            assert time.monotonic() < end, self.status()
            time.sleep(0.02)

    def drop(self, name, data):
        """Drops a file on the page, and waits until the page says something of it."""
        self.run("""document.getElementById('status').textContent = '';
            const bytes = Uint8Array.from(atob(arguments[1]), (letter) => letter.charCodeAt(0));
            const dropped = new DataTransfer();
            dropped.items.add(new File([bytes], arguments[0]));
            document.body.dispatchEvent(new DragEvent('drop', {dataTransfer: dropped, cancelable: true}));
            """, name, base64.b64encode(data).decode())
        self.wait()

    def paste(self, text, where="body"):
        """Pastes a text into the page, or into a part of it."""
        self.run("""const [text, where] = arguments;
            const clipboardData = new DataTransfer();
            clipboardData.setData('text', text);
            document.querySelector(where).dispatchEvent(new ClipboardEvent('paste', {clipboardData, bubbles: true}));
            """, text, where)
        self.wait()

    def begin(self):
        """The page anew, with two unions."""
        self.open()
        self.drop("a", self.a.to_bytes())
        self.drop("b", self.b.to_bytes())

    def count(self):
        return self.run("return s2page.regions.length")

    def last(self):
        """The bytes of the file of the last union."""
        return base64.b64decode(self.run("""const region = s2page.regions.at(-1);
            const bytes = s2page.core.encode(region.ids);
            return btoa(Array.from(bytes, (byte) => String.fromCharCode(byte)).join(''));"""))

    def set(self, name, value):
        field = self.driver.find_element(By.ID, name)
        field.clear()
        field.send_keys(str(value))

    def choose(self, **names):
        """Chooses A and B, as first and second, and the size of a cell, by their names."""
        for name, chosen in names.items():
            Select(self.driver.find_element(By.ID, name)).select_by_visible_text(chosen)

    def chosen(self):
        return [Select(self.driver.find_element(By.ID, name)).first_selected_option.text
                for name in ("first", "second")]

    def names(self):
        return self.run("return s2page.regions.map((region) => region.name)")

    def press(self, *keys):
        """Presses keys in the picture."""
        self.driver.find_element(By.ID, "picture").send_keys(*keys)

    def click_of(self, words):
        """Clicks a button of a union's line, by its text and the name of the union."""
        self.clicked(self.driver.find_element(By.CSS_SELECTOR, f'#legend button[aria-label="{words}"]'))

    def saved(self, words, name):
        """What a button of a union's line saves, under this name.

        Chromium lays an empty file of that name before it moves its own, `.crdownload` or hidden, over it. Nothing that
        is saved is empty.
        """
        self.click_of(words)
        file, end = self.downloads / name, time.monotonic() + SECONDS
        while not file.exists() or not file.stat().st_size or any(
                other.name.endswith(".crdownload") or other.name.startswith(".") for other in self.downloads.iterdir()):
            assert time.monotonic() < end, list(self.downloads.iterdir())
            time.sleep(0.05)
        data = file.read_bytes()
        file.unlink()
        return data

    # ---- the tests

    def test_operations(self):
        wanted = {"union": self.a | self.b, "intersection": self.a & self.b, "difference": self.a - self.b,
                  "symmetric": self.a ^ self.b, "complement": ~self.a}
        for name, union in wanted.items():
            self.begin()
            self.click(name)
            assert self.last() == union.to_bytes(), name
            assert f"{len(union)} cell" in self.status(), self.status()

    def test_all_and_nothing(self):
        self.open()
        self.set("texts", "1 3 5 7 9 b")
        self.click("add")
        assert self.last() == Union.from_tokens("1 3 5 7 9 b").to_bytes()
        self.click("complement")
        assert self.last() == Union().to_bytes() and "0 cells, 0 leaves" in self.status(), self.status()
        self.choose(first="cells 1", second="cells 1")
        for name in ("difference", "symmetric"):
            self.click(name)
            assert self.last() == Union().to_bytes() and "0 cells, 0 leaves" in self.status(), (name, self.status())
        self.run("s2page.view.draw()")

    def test_coverings(self):
        for number in (0, 9, 30):
            self.begin()
            self.set("level", number)
            self.click("outer")
            assert self.last() == self.a.outer(number).to_bytes(), number
            self.click("inner")
            assert self.last() == self.a.inner(number).to_bytes(), number

    def test_denormalised(self):
        for least, modulus in ((0, 1), (4, 2), (1, 3)):
            self.begin()
            self.set("level", least)
            self.set("modulus", modulus)
            self.click("denormalise")
            ids = self.a.denormalised(least, modulus)
            assert self.last() == struct.pack(f"<BQ{len(ids)}Q", 1, len(ids), *ids)

    def test_chosen_unions(self):
        """A and B stay what was chosen, and what was computed with; where nothing was, they are the last two."""
        self.begin()
        self.drop("c", self.b.to_bytes())
        assert self.chosen() == ["b", "c"]
        self.choose(first="a", second="b")
        self.click("union")
        self.click("intersection")
        assert self.names()[3:] == ["a or b", "a and b"] and self.last() == (self.a & self.b).to_bytes()
        self.drop("d", self.b.to_bytes())
        assert self.chosen() == ["a", "b"]
        self.press(Keys.CONTROL, "z")
        assert self.chosen() == ["a", "b"]
        self.click_of("remove a")
        assert self.chosen() == ["a or b", "b"], "a is gone"
        self.press(Keys.CONTROL, "z")
        assert self.chosen() == ["a", "b"], "a is there again"

    def test_computed_with(self):
        """What was computed with without being chosen stays too."""
        self.begin()
        for name in ("union", "intersection", "difference", "symmetric", "complement"):
            self.click(name)
        assert self.names()[2:] == ["a or b", "a and b", "a without b", "a xor b", "all but a"]

    def test_many_files(self):
        """500 files at once are one step of the history, and are shown once; each has a table of its own size."""
        self.open()
        shown, entries = self.driver.execute_async_script("""const done = arguments[0];
            const {core, observer, view} = s2page;
            observer.disconnect();
            [view.canvas.width, view.canvas.height] = [100, 75];
            const frame = () => new Promise((go) => requestAnimationFrame(() => setTimeout(go)));
            let shown = 0;
            const count = (object, name) => {
              const call = object[name];
              object[name] = (...words) => { shown++; call.apply(object, words); };
            };
            const files = Array.from({length: 500}, (_, k) => new File([core.encode(core.read('04 3/021'))], `${k}`));
            (async () => {
              await frame(); // that of the empty page
              count(s2page, 'show');
              count(view, 'draw');
              await s2page.open(files);
              await frame();
              done([shown, s2page.regions.reduce((sum, region) => sum + region.drawn.table.length, 0)]);
            })();""")
        assert self.names() == [f"{k}" for k in range(500)] and self.status() == "500 unions added."
        assert shown == 2 and entries <= 500 * 6, (shown, entries)
        self.press(Keys.CONTROL, "z")
        assert self.count() == 0
        self.press(Keys.CONTROL, "y")
        assert self.count() == 500

    def test_many_refusals(self):
        """Of many refusals the first are said, and how many more there are."""
        self.open()
        for count, more in ((100, ["and 95 more refused"]), (5, [])):
            self.driver.execute_async_script("""const [count, done] = arguments;
                s2page.open(Array.from({length: count}, (_, k) => new File([''], `${k}`))).then(done);""", count)
            said = self.status().split("; ")
            assert said[0] == "0: refused: union file: bytes are missing" and said[5:] == more, said

    def test_saving(self):
        self.begin()
        self.click("intersection")
        both = self.a & self.b
        assert self.saved("save a and b", "a_and_b.cells") == both.to_bytes()
        assert self.saved("tokens a and b", "a_and_b.txt") == " ".join(both.tokens()).encode()

    def test_cut_lists(self):
        """A list that was cut is shown and saved as it was cut; operations take its union."""
        self.open()
        self.click("land")
        self.set("texts", "1")
        self.click("add")
        self.set("level", 1)
        self.click("denormalise")
        children = Union.from_tokens("1").denormalised(1)
        name, file = "denormalized 1/1 of cells 1", "denormalized_1_1_of_cells_1"
        assert self.saved(f"save {name}", f"{file}.cells") == struct.pack("<BQ4Q", 1, 4, *children)
        assert self.saved(f"tokens {name}", f"{file}.txt") == " ".join(map(token, children)).encode()
        drawn, edges = self.run("""const [whole, cut] = s2page.regions;
            const {view} = s2page;
            const colors = (region) => {
              view.layers = [region];
              view.fit();
              view.draw();
              const [column, row] = PLACES_OF_FACES[0];
              const [[x, y], [end]] = [view.pixelAt(column + 0.05, row + 0.3), view.pixelAt(column + 0.95, row + 0.3)];
              const from = Math.floor(y) * view.image.width;
              return new Set(view.pixels.slice(from + Math.ceil(x), from + Math.floor(end))).size;
            };
            return [cut.drawn.count, [colors(whole), colors(cut)]];""")
        assert drawn == 4 and edges == [1, 2], (drawn, edges)
        self.choose(first=name, second="cells 1")
        self.click("intersection")
        assert self.last() == Union.from_tokens("1").to_bytes()

    def test_a_chosen_file(self):
        self.open()
        file = self.downloads / "chosen"
        file.write_bytes(self.a.to_bytes())
        self.driver.find_element(By.ID, "files").send_keys(str(file))
        while not self.count():
            time.sleep(0.02)
        assert self.last() == self.a.to_bytes()

    def test_other_orders(self):
        """A file whose cells are in any order is the union of them."""
        self.open()
        ids = [*self.a, *self.a]
        self.choice.shuffle(ids)
        self.drop("shuffled", struct.pack(f"<BQ{len(ids)}Q", 1, len(ids), *ids))
        assert self.last() == self.a.to_bytes()

    def test_refusals(self):
        self.begin()
        for name, (data, fault) in FAULTS.items():
            self.drop(name, data)
            assert self.status() == f"{name}: refused: union file: {fault}", self.status()
            assert self.count() == 2
        for wrong in ("31", "", "-1", "1.5"):
            self.set("level", wrong)
            self.click("outer")
            assert self.status() == "outer: refused: argument out of range" and self.count() == 2, self.status()

    def test_refusals_and_the_history(self):
        """What is refused is no step of the history, and leaves what was undone."""
        self.begin()
        self.click("undo")
        self.drop("short", FAULTS["short"][0])
        self.set("texts", "x")
        self.click("add")
        assert self.names() == ["a"] and self.driver.find_element(By.ID, "redo").is_enabled(), self.status()
        self.click("redo")
        assert self.names() == ["a", "b"], self.status()
        self.drop("short", FAULTS["short"][0])
        self.click("undo")
        assert self.names() == ["a"], self.status()

    def test_no_memory(self):
        """Of several files for which there is no memory together, none is added, and all stays as it was."""
        self.begin()
        self.click("union")
        self.click("undo")
        before = self.state()
        self.driver.execute_async_script("""const [done] = arguments;
            const {core} = s2page;
            const length = Math.max(20_000, core.calls.memory.buffer.byteLength / 16);
            const bytes = core.encode(BigUint64Array.from({length}, (_, k) => BigInt(4 * k + 1)));
            const {grow} = WebAssembly.Memory.prototype;
            const most = core.front + 2.5 * bytes.length; // one at a time is looked at in twice its size
            WebAssembly.Memory.prototype.grow = function (pages) {
              if (this.buffer.byteLength + 65536 * pages > most) throw new RangeError('it may not grow');
              return grow.call(this, pages);
            };
            s2page.open(['x', 'y', 'z'].map((name) => new File([bytes], name))).then(() => {
              WebAssembly.Memory.prototype.grow = grow;
              done();
            });""")
        assert self.status() == "3 files: refused: out of memory" and self.state() == before, self.status()
        self.click("intersection")
        assert self.last() == (self.a & self.b).to_bytes() and self.count() == 3

    def test_no_memory_for_a_change(self):
        """Nothing is changed where a change, an undo or a redo finds no memory; then all goes on."""
        self.begin()
        self.click("union")
        self.click("undo")
        before = self.state()
        self.run("s2page.core.keep = () => { throw new Refusal(MEMORY, 0); }")
        for what, way in (("undo", lambda: self.click("undo")), ("redo", lambda: self.click("redo")),
                          ("remove a", lambda: self.click_of("remove a")), ("or", lambda: self.click("union")),
                          ("1 files", lambda: self.drop("c", self.a.to_bytes()))):
            way()
            assert self.status() == f"{what}: refused: out of memory" and self.state() == before, self.status()
        self.run("delete s2page.core.keep")
        self.click("redo")
        assert self.names() == ["a", "b", "a or b"] and self.last() == (self.a | self.b).to_bytes()

    def state(self):
        """What the page has, and shows of it."""
        legend = [it.text for it in self.driver.find_elements(By.CSS_SELECTOR, "#legend .name")]
        steps = [self.driver.find_element(By.ID, name).is_enabled() for name in ("undo", "redo")]
        counts = self.run("return [s2page.past.length, s2page.future.length, s2page.core.laid.length]")
        return self.names(), legend, self.chosen(), steps, counts

    def test_files_that_can_not_be_read(self):
        """A folder, or what the browser may not read, is refused by its name, and the files beside it are added."""
        self.open()
        self.driver.execute_async_script("""const [bytes, done] = arguments;
            const file = new File([Uint8Array.from(atob(bytes), (letter) => letter.charCodeAt(0))], 'a');
            const arrayBuffer = () => Promise.reject(new DOMException('it is a folder', 'NotReadableError'));
            const files = [{name: 'photos', arrayBuffer}, file, {name: 'maps', arrayBuffer}];
            s2page.open(files).then(() => done(), () => done());
            """, base64.b64encode(self.a.to_bytes()).decode())
        assert self.count() == 1 and self.last() == self.a.to_bytes()
        said = self.status()
        assert said == "photos: refused: it is a folder; maps: refused: it is a folder", said

    def test_two_loads_at_once(self):
        """Files that are chosen while others are still read are all added."""
        self.open()
        names = self.driver.execute_async_script("""const done = arguments[0];
            const field = document.getElementById('files');
            const hold = {}; // what lets the reading of a file go on
            const read = Blob.prototype.arrayBuffer;
            Blob.prototype.arrayBuffer = function () {
              return new Promise((go) => { hold[this.name] = () => go(read.call(this)); });
            };
            const choose = (...names) => {
              const chosen = new DataTransfer();
              for (const name of names) chosen.items.add(new File([s2page.core.encode(s2page.core.read('1'))], name));
              field.files = chosen.files;
              field.dispatchEvent(new Event('change'));
            };
            const turn = () => new Promise((go) => setTimeout(go, 50));
            (async () => {
              choose('a');
              choose('b', 'c', 'd');
              for (const name of 'abcd') {
                while (!hold[name]) await turn();
                hold[name]();
              }
              while (s2page.regions.length < 4) await turn();
              done(s2page.regions.map((region) => region.name));
            })();""")
        assert names == ["a", "b", "c", "d"], names

    def test_a_file_that_is_too_large(self):
        """It is refused by its size, and isn't read."""
        self.begin()
        self.driver.execute_async_script("""const done = arguments[0];
            const size = 9 + 8 * 8_000_000 + 1;
            s2page.open([{name: 'film', size, arrayBuffer: () => Promise.reject(new Error('was read'))}]).then(done);
            """)
        assert self.status() == "film: refused: too many bytes for the page" and self.count() == 2, self.status()

    def test_what_can_not_be_saved(self):
        """A list for which there is no memory is refused by its name."""
        self.begin()
        self.run("s2page.core.tokens = () => { throw new RangeError('Array buffer allocation failed'); }")
        self.click_of("tokens b")
        assert self.status() == "tokens b: refused: Array buffer allocation failed", self.status()

    @pytest.mark.slow
    def test_names_of_results(self):
        """The name of a result of results of results is short."""
        self.begin()
        for count in range(2, 9):
            self.click("union")
            for name in ("first", "second"):
                Select(self.driver.find_element(By.ID, name)).select_by_index(count)
        names = self.names()
        assert names[2] == "a or b" and max(map(len, names)) < 90, [len(name) for name in names]
        assert self.last() == (self.a | self.b).to_bytes()

    @pytest.mark.slow
    def test_order_of_keys(self):
        """Tab goes from top to bottom, also where the picture stands over the panel."""
        size = self.driver.get_window_size()
        for width, first, last in ((1280, "files", "picture"), (600, "picture", "files")):
            self.driver.set_window_size(width, 900)
            self.open()
            order = []
            while last not in order and len(order) < 40:
                ActionChains(self.driver).send_keys(Keys.TAB).perform()
                order.append(self.run("return document.activeElement.id"))
            assert first in order[:-1] and last in order, (width, order)
        self.driver.set_window_size(size["width"], size["height"])

    def test_unions_that_stay(self):
        """A union that is added is copied into the module's memory, and those that lie there stay where they are."""
        self.begin()
        lists, copied, wrong = self.run("""const core = s2page.core;
            const sizes = [];
            const bytes = core.bytes;
            const copies = (lists) => {
              sizes.length = 0;
              core.bytes = (at, size) => {
                sizes.push(size);
                return bytes.call(core, at, size);
              };
              core.keep(lists);
              core.bytes = bytes;
              return [...sizes];
            };
            const [a, b] = s2page.regions.map((region) => region.union);
            const c = core.union(a, b);
            const same = (x, y) => x.length === y.length && x.every((id, k) => id === y[k]);
            const copied = [copies([a, b, c]), copies([a, c])];
            const isForgotten = same(core.union(a, b), c); // c lies where b did
            copied.push(copies([c, a, b]));
            return [[a, b, c].map((list) => list.byteLength), copied, isForgotten && same(core.union(a, b), c)
              && same(core.difference(c, a), core.difference(b, a)) ? 0 : 1];""")
        a, b, c = lists
        assert copied == [[c], [c], [c, a, b]] and not wrong, (lists, copied, wrong)

    def test_edges(self):
        """What edges.py asks, of the calls that the page makes, without numbers that are no cells in questions about a
        cell: the page asks these of its own cells alone."""
        self.open()
        rows = [row for row in edge_rows()
                if not (row[0] in ("contains_cell", "intersects_cell") and row[-1] == "!no_cell")]
        names = {text: name for name, (_, text) in REFUSALS.items()}
        calls, answers = self.run((HERE / "edges.js").read_text(), [row[:-1] for row in rows], names)
        asked = [row for row in rows if row[0] in calls]
        wrong = [(row, answer) for row, answer in zip(asked, answers) if answer != row[-1]]
        assert not wrong and len(asked) == len(answers) and {row[0] for row in asked} == set(calls), wrong

    def test_texts(self):
        self.open()
        self.set("texts", "64c, 3/021 1")
        self.click("add")
        assert self.last() == Union.from_tokens("64c, 3/021 1").to_bytes()
        for text, place in (("64c nonsense 1", 4), ("nonsense 1", 0)):
            self.set("texts", text)
            self.click("add")
            assert self.status() == f"texts: refused: not a cell at place {place}" and self.count() == 1, self.status()
        self.drop("lines", b"04\t0c\r\n14")
        assert self.last() == Union.from_tokens("04 0c 14").to_bytes()

    def test_byte_order_marks(self):
        """The mark that Windows puts before a text is dropped, in a file and in what is pasted."""
        self.open()
        point = '{"type": "Point", "coordinates": [2.35, 48.86]}'
        for text, wanted in (("04 0c", Union.from_tokens("04 0c")), (point, Union(leaves([2.35], [48.86]).tolist()))):
            for way in (lambda: self.drop("marked", ("\ufeff" + text).encode()), lambda: self.paste("\ufeff" + text)):
                way()
                assert self.last() == wanted.to_bytes(), self.status()
        self.paste("\ufeff04 x")
        assert self.status() == "what was pasted: refused: not a cell at place 3" and self.count() == 4, self.status()

    def test_numbers(self):
        """Numbers of 17 digits and more, with a sign or without, among tokens; a list of cells may be a file too."""
        self.open()
        ids = [*self.a][::7]
        words = [str(to_signed(id)) if k % 3 == 0 else token(id) if k % 3 == 1 else str(id)
                 for k, id in enumerate(ids)]
        assert all(len(word.lstrip("-")) > 16 for word in words[::3] + words[2::3]), "none of them is taken for a token"
        assert any(word[0] == "-" for word in words)
        self.drop("numbers.txt", "\n".join(words).encode())
        assert self.last() == Union(ids).to_bytes() and self.names() == ["numbers.txt"]
        for word, place in (("18446744073709551616", 3), ("-9223372036854775809", 3), ("00000000000000000", 3)):
            self.set("texts", f"04 {word} 0c")
            self.click("add")
            assert self.status() == f"texts: refused: not a cell at place {place}" and self.count() == 1, self.status()
        self.set("texts", f"{2**60} {to_signed(11 * 2**60)} x")
        self.click("add")
        assert self.status() == "texts: refused: not a cell at place 41", self.status()

    def test_lists_of_other_languages(self):
        """Brackets and quotes around lists, as Python, JSON and PostgreSQL write them, are blanks."""
        self.open()
        ids = [*self.a][::9]
        for text in (str(ids), json.dumps([token(id) for id in ids]), str(tuple(map(debug, ids))),
                     "{" + ",".join(str(to_signed(id)) for id in ids) + "}", repr({token(id) for id in ids}),
                     "{" + ",".join(f'"{token(one)} {token(other)}"' for one, other in zip(ids, ids[1:])) + "}"):
            self.drop("list", text.encode())
            assert self.last() == Union(ids).to_bytes(), (text, self.status())
        self.drop("list", b'["89c25", "x"]')
        assert self.status() == "list: refused: not a cell at place 11" and self.count() == 6, self.status()

    def test_pastes_and_drops_of_texts(self):
        self.open()
        self.paste("04 0c")
        dropped = """const dataTransfer = new DataTransfer();
            dataTransfer.setData('text', arguments[0]);
            document.body.dispatchEvent(new DragEvent('drop', {dataTransfer, cancelable: true}));"""
        self.run(dropped, json.dumps({"type": "Point", "coordinates": [2.35, 48.86]}))
        self.wait()
        assert self.names() == ["cells 1", "cells 2"], self.status()
        assert self.last() == Union(leaves([2.35], [48.86]).tolist()).to_bytes()
        self.run(dropped, "no")
        assert self.status() == "what was dropped: refused: not a cell at place 0" and self.count() == 2
        for field in ("#texts", "#place"):  # it takes what is pasted into it, and the page doesn't
            self.paste("04 0c", field)
            assert self.count() == 2, field

    def test_geojson(self):
        """A covering has each leaf of polygons, lines and points of each type, and none that is far from them; holes
        are left out, and a polygon may go on across the date line, to both sides."""
        self.open()
        hole = [[12, 42], [12, 46], [16, 46], [16, 42], [12, 42]]
        polygon = {"type": "Polygon", "coordinates": [[[5, 40], [20, 38], [25, 48], [8, 50], [5, 40]], hole]}
        beyond = [[[[170, -10], [190, -15], [185, 5], [170, -10]]], [[[-60, 70], [60, 65], [0, 89], [-60, 70]]]]
        west = [[[x - 360, y] for x, y in ring] for ring in beyond[0]]
        small = [[2.35, 48.85], [2.36, 48.85], [2.355, 48.86]]  # open, as is the next, whose ends have one longitude
        ends = [[10, 10], [14, 12], [13, 15], [10, 16]]
        south = [[-180, -90], [180, -90], [180, -75], [0, -70], [-180, -75]]
        line = {"type": "LineString", "coordinates": [[2.35, 48.85], [13.4, 52.5], [37.6, 55.75]]}
        points = {"type": "MultiPoint", "coordinates": [[2.35, 48.86], [13.4, 52.5], [-182, -1], [37.6, 55.75, 144]]}
        shapes = [
            polygon, line, points, {"type": "MultiPolygon", "coordinates": beyond},
            {"type": "Polygon", "coordinates": west}, {"type": "Polygon", "coordinates": [small]},
            {"type": "Polygon", "coordinates": [ends]}, {"type": "Polygon", "coordinates": [south]},
            {"type": "LineString", "coordinates": [[10, 60], [10.25, 60]]},  # it bends away from the shortest line
            {"type": "MultiLineString",
             "coordinates": [[[0, 0], [3, 4]], [[179, 9], [184, 12]], [[-182, 5], [-178, 6]]]},
            {"type": "Point", "coordinates": [2.35, 48.86]}, {"type": "Feature", "properties": {}, "geometry": polygon},
            {"type": "GeometryCollection", "geometries": [polygon, line, points]},
            {"type": "FeatureCollection", "features": [{"type": "Feature", "geometry": it} for it in (line, polygon)]},
        ]
        assert len({shape["type"] for shape in shapes}) == 9
        for shape in shapes:
            self.drop(shape["type"], json.dumps(shape).encode())
            self.has_shape(Union.from_bytes(self.last()), shape)
        assert self.count() == len(shapes), self.status()

    def has_shape(self, union, shape):
        """Compares the covering of a shape with a plain look at 3,000 places around it, and with Python's."""
        polygons, lines, points = parts_of(shape)
        edges = [[*ring, ring[0]] for rings in polygons for ring in rings] + lines + [[point] for point in points]
        xs, ys = zip(*((x, y) for line in edges for x, y, *_ in line))
        wide, high = (max(xs) - min(xs)) / 9, (max(ys) - min(ys)) / 9
        places = [(self.choice.uniform(min(xs) - wide, max(xs) + wide),
                   self.choice.uniform(max(min(ys) - high, -90), min(max(ys) + high, 90))) for _ in range(3000)]
        near = 0.02 * (max(ys) - min(ys) or max(xs) - min(xs))
        found = union.contains_cells(leaves(*zip(*places)).tolist())
        inside = [any(is_inside(rings, x, y) for rings in polygons) for x, y in places]
        lost = [place for place, is_in, has in zip(places, inside, found) if is_in and not has]
        more = [place for place, is_in, has in zip(places, inside, found)
                if has and not is_in and distance_to(edges, *place) > near]
        assert not lost and not more and (0 < sum(inside) < 3000) == bool(polygons), (shape, lost[:3], more[:3])
        along = [(x + (u - x) * k / 50, y + (v - y) * k / 50) for line in lines
                 for (x, y), (u, v) in zip(line, line[1:]) for k in range(51)] + [(x, y) for x, y, *_ in points]
        assert not along or all(union.contains_cells(leaves(*zip(*along)).tolist())), shape
        if not polygons:
            assert union.leaf_count() <= (6 * 4**30 / 10**5 if lines else len(points)), shape
        for rings in polygons:
            closed = [[*ring, ring[0]] if ring[0] != ring[-1] else ring for ring in rings]
            assert interior({"type": "Polygon", "coordinates": closed}, 2000) <= union, shape

    def test_many_small_polygons(self):
        """Each of many shapes is covered by itself, so their union is hardly larger than they are."""
        self.many_small_polygons(2_500)

    def test_many_short_lines(self):
        """So is each of many lines."""
        self.open()
        lines = [ring[:2] for (ring,) in triangles(self.choice, 2_500)[0]]
        self.drop("many", json.dumps({"type": "MultiLineString", "coordinates": lines}).encode())
        union = Union.from_bytes(self.last())
        assert all(union.contains_cells(leaves(*zip(*sum(lines, []))).tolist()))
        assert union.leaf_count() < 6 * 4**30 / 10**4, (union.leaf_count() / 6 / 4**30, self.status())

    @pytest.mark.slow
    def test_a_great_many_small_polygons(self):
        self.many_small_polygons(20_000)

    def many_small_polygons(self, count):
        self.open()
        made, wanted = triangles(self.choice, count)
        self.drop("many", json.dumps({"type": "MultiPolygon", "coordinates": made}).encode())
        union = Union.from_bytes(self.last())
        middles = [[sum(corner[k] for corner in ring[:3]) / 3 for k in (0, 1)] for (ring,) in made]
        assert all(union.contains_cells(leaves(*zip(*middles)).tolist()))
        assert wanted < union.leaf_count() < 4 * wanted, (union.leaf_count() / wanted, self.status())
        times = float(self.status().partition("at most ")[2].split()[0])
        assert 0.99 < times * wanted / union.leaf_count() < 3, (times, union.leaf_count() / wanted)
        assert "cells at borders are of level 1" in self.status(), self.status()

    def test_too_many_positions(self):
        """They are refused before any shape is covered."""
        self.begin()
        made = self.driver.execute_async_script("""const done = arguments[0];
            const ring = JSON.stringify(Array(1_000_001).fill([0, 0]));
            s2page.open([new File([`{"type": "Polygon", "coordinates": [${Array(4).fill(ring)}]}`], 'many')]).then(
              () => done(at('status').textContent));""")
        assert made == "many: refused: there are more than 4000000 positions" and self.count() == 2, made

    def test_stopping(self):
        """While GeoJSON is covered the page answers; if that is stopped, nothing is changed, and all goes on."""
        self.begin()
        self.click("undo")
        shapes = [triangles(self.choice, 300)[0] for _ in range(10)]
        text = json.dumps({"type": "FeatureCollection", "features": [
            {"type": "Feature", "id": k, "geometry": {"type": "MultiPolygon", "coordinates": it}}
            for k, it in enumerate(shapes)]})
        for kind in ("texts", "files"):
            frames, parts, drawn = self.driver.execute_async_script("""const [kind, text, done] = arguments;
                const [parts, count] = [[], s2page.regions.length];
                let frames = 0;
                if (kind === 'texts') {
                  at('texts').value = text;
                  at('add').click();
                } else {
                  s2page.open([new File([s2page.core.encode(s2page.regions[0].ids)], 'first'), new File([text], 'long'),
                    new File([text], 'longer')]);
                }
                const look = () => {
                  if (!at('work').hidden) {
                    frames++;
                    parts.push(at('part').value);
                  }
                  if (parts.at(-1) > 0.02 && frames > 5) {
                    at('stop').click();
                    setTimeout(() => done([frames, parts, s2page.regions.length - count]), 200);
                  } else requestAnimationFrame(look);
                };
                look();""", kind, text)
            assert frames > 5 and parts == sorted(parts) and parts[-1] < 1 and not drawn, (frames, parts)
            assert self.status().endswith(": stopped; nothing was added"), self.status()
            assert self.names() == ["a"] and self.driver.find_element(By.ID, "redo").is_enabled()
        assert self.run("return at('texts').value") == text, "what was not added stays in its field"
        self.drop("point", b'{"type": "Point", "coordinates": [2.35, 48.86]}')
        assert self.last() == Union(leaves([2.35], [48.86]).tolist()).to_bytes()

    @pytest.mark.slow
    def test_features(self):
        """Each name of a collection's features has its own union, in one step of the history; if a feature has no name,
        or there are too many, all are one union."""
        def feature(k, **more):
            x, y = 7 * (k % 50) - 170, 8 * (k // 50) - 50
            ring = [[x, y], [x + 3, y], [x + 3, y + 2], [x, y]]
            return {"type": "Feature", "geometry": {"type": "Polygon", "coordinates": [ring]}, **more}
        def dropped(features):
            self.open()
            self.drop("world", json.dumps({"type": "FeatureCollection", "features": features}).encode())
            return self.names()
        features = [feature(0, properties={"name": "Oz"}), feature(1, properties={"NAME": " Id "}),
                    feature(2, properties=None, id=7), feature(3, properties={"name": "Oz"}),
                    {"type": "Feature", "geometry": None, "properties": {}}]
        assert dropped(features) == ["Oz", "Id", "7"] and self.status() == "3 unions added.", self.status()
        found = Union.from_tokens(self.run("return s2page.core.tokens(s2page.regions[0].ids)"))
        self.has_shape(found, {"type": "FeatureCollection", "features": [features[0], features[3]]})
        self.press(Keys.CONTROL, "z")
        assert self.count() == 0
        for whole in ([*features, feature(4)], [feature(k, id=k + 1) for k in range(501)], features[:1]):
            assert dropped(whole) == ["world"]
        assert dropped([*features, {"type": "Circle", "id": 9}]) == [] and "it is no GeoJSON" in self.status()

    def test_land(self):
        """The land of the sample is pale below all unions, unless it is hidden."""
        self.open()
        look = """const view = s2page.view;
            view.kind = arguments[0];
            view.fit();
            view.draw();
            return [[20, 0], [-100, 40], [130, -25], [-150, 0], [-30, 30]].map(([x, y]) => {
              const {face, i, j} = s2page.core.square(s2page.core.leavesOf(Float64Array.of(x, y))[0]);
              const [px, py] = view.pixelAt(...view.planeAt(face, i / SIDE, j / SIDE)).map(Math.floor);
              return view.pixels[py * view.image.width + px] === wordOf(...view.colors.land);
            });"""
        assert [self.run(look, kind) for kind in ("faces", "map")] == 2 * [[True, True, True, False, False]]
        self.click("land")
        assert self.run(look, "map") == 5 * [False]
        self.click("land")
        self.set("texts", "1 3 5 7 9 b")
        self.click("add")
        assert self.run(look, "map") == 5 * [False]

    @pytest.mark.slow
    def test_geojson_that_is_none(self):
        self.open()
        for text, said in (('{"type": "Circle"}', "it is no GeoJSON"), ('{"a": {}}', "it is no GeoJSON"),
                           ('{"type"', "JSON"), ("{}", "there is no cell"), ("[]", "there is no cell"),
                           ('{"type": "Feature", "geometry": null}', "there is no cell"),
                           ('{"type": "Point", "coordinates": [0, 91]}', "position 0 is out of range"),
                           ('{"type": "Point", "coordinates": ["x", 0]}', "position 0 is out of range"),
                           ('{"type": "Point", "coordinates": ["1", "2"]}', "position 0 is out of range"),
                           ('{"type": "Point", "coordinates": [null, null]}', "position 0 is out of range"),
                           ('{"type": "Point"}', "it is no GeoJSON"), ('{"type": "Polygon"}', "it is no GeoJSON"),
                           ('{"type": "LineString", "coordinates": [1, 2]}', "it is no GeoJSON"),
                           ('{"type": "Polygon", "coordinates": [7]}', "it is no GeoJSON"),
                           ('{"type": "FeatureCollection", "features": 1}', "it is no GeoJSON")):
            self.set("texts", text)
            self.click("add")
            assert self.status().startswith("texts: refused: ") and said in self.status(), self.status()
            assert self.count() == 0

    def test_geojson_out(self):
        """It is what s2union_geo makes of the same union."""
        self.begin()
        self.set("texts", "1 5 b 3c")
        self.click("add")
        for name, union in (("a", self.a), ("cells 3", Union.from_tokens("1 5 b 3c"))):
            made = json.loads(self.saved(f"GeoJSON {name}", f"{name.replace(' ', '_')}.geojson"))
            wanted = to_geojson(union, name=name)["features"]
            assert [it["properties"] for it in made["features"]] == [it["properties"] for it in wanted]
            for it, other in zip(made["features"], wanted):
                ring, same = it["geometry"]["coordinates"][0], other["geometry"]["coordinates"][0]
                assert len(ring) == len(same) and all(math.dist(x, y) < 1e-9 for x, y in zip(ring, same)), (ring, same)

    def test_outline_out(self):
        """It is what s2union_geo makes of the same union."""
        self.begin()
        made = json.loads(self.saved("outline a", "a.geojson"))
        wanted = to_geojson(self.a, dissolve=True, name="a")
        (one,), (same,) = made["features"], wanted["features"]
        assert one["properties"] == same["properties"] and one["geometry"]["type"] == "MultiPolygon"
        ours, others = ([ring for polygon in it["geometry"]["coordinates"] for ring in polygon] for it in (one, same))
        assert [len(ring) for ring in ours] == [len(ring) for ring in others]
        for ring, other in zip(ours, others):
            assert all(math.dist(x, y) < 1e-9 for x, y in zip(ring, other)), (ring, other)

    def test_the_most_polygons(self):
        """GeoJSON is made of 200,000 cells, and of no more."""
        self.open()
        made = self.run("""const core = {token: () => '', square: () => ({face: 0, i: 0, j: 0, size: 1}),
              degreesOf: ({length}) => new Float64Array(length)};
            return [200_000, 200_001].map((length) => {
              core.denormalisedCount = () => BigInt(length);
              core.denormalised = () => ({length});
              try {
                return cellsOf(core, {}, []).features.length;
              } catch (error) {
                return error.message;
              }
            });""")
        assert made == [200_000, "too many cells for GeoJSON"], made

    def test_going_to_many_cells(self):
        """A union of more cells than are framed one by one is shown too."""
        self.open()
        first = from_token("47e66e1d8f8be23b")
        self.drop("many", Union([first + 4 * k for k in range(20_001)]).to_bytes())
        self.click_of("go to many")
        face, i, j, side = square(first)
        x, y, width, height, scale = self.run("""const [face, s, t] = arguments;
            const {view} = s2page;
            const [x, y] = view.pixelAt(...view.planeAt(face, s, t));
            return [x, y, view.canvas.width, view.canvas.height, view.pixelsOf(6) / view.canvas.height];""",
                                              face, (i + 0.5) / SIDE, (j + 0.5) / SIDE)
        assert self.status() == "many: shown." and 0 < x < width and 0 < y < height and scale > 0.3, (x, y, scale)

    def test_going_to_unions(self):
        """A union is shown whole, and as closely as it fits, in both pictures."""
        self.open()
        for text in ("47e66e1d8f8be23b", "89c25 89c3", "1 5", "47e7 6ac4"):
            self.set("texts", text)
            self.click("add")
            name = self.names()[-1]
            self.click_of(f"go to {name}")
            for kind in ("faces", "map"):
                width, height, pixels = self.run("""const {view} = s2page;
                    view.kind = arguments[0];
                    const squares = Array.from(s2page.regions.at(-1).union, (id) => s2page.core.square(id));
                    const pixel = (face, i, j) => view.pixelAt(...view.planeAt(face, i / SIDE, j / SIDE));
                    const pixels = squares.flatMap(({face, i, j, size}) => [0.1, 0.9].map(
                      (part) => pixel(face, i + part * size, j + part * size)));
                    return [view.canvas.width, view.canvas.height, pixels];""", kind)
                assert all(0 < x < width and 0 < y < height for x, y in pixels), (text, kind, pixels)
                spans = [(max(each) - min(each)) / most for each, most in zip(zip(*pixels), (width, height))]
                assert max(spans) > 0.4 or text == "47e66e1d8f8be23b", (text, kind, spans)
            assert self.status() == f"{name}: shown."
        self.run("s2page.add('none', s2page.core.read(''))")
        self.click_of("go to none")
        assert self.status() == "go to none: refused: it has no cell"

    def test_places(self):
        """The leaf at a place is said, and the cell that the picture shows there, as wide as a finger or wider."""
        self.open()
        for text, latitude, longitude in (("+48.86, 2.35", 48.86, 2.35), (".5, -.5", 0.5, -0.5),
                                          ("-33.,151.21", -33, 151.21), ("\ufeff48.86 2.35", 48.86, 2.35),
                                          ("\u221233.87; \u2212151.21", -33.87, -151.21)):
            self.click("fit")
            self.set("place", text)
            self.click("go")
            leaf = leaves([longitude], [latitude]).tolist()[0]
            cell, width = self.run("""const {view} = s2page;
                const [x, y] = [view.canvas.width / 2, view.canvas.height / 2];
                return [s2page.core.token(s2page.cellAt(x, y)), view.pixelsOf(9)];""")
            said = f"leaf {token(leaf)}. The cell of it that the picture shows: token {token(parent(leaf, 9))}; "
            assert self.status().startswith(said) and 23.9 < width < 24.1, (text, self.status(), cell, width)
        self.run("s2page.view.zoom(64, 9, 9)")
        self.click("go")
        assert self.run("return s2page.view.pixelsOf(9)") > 1000, "a picture that is closer stays as close"
        self.set("place", "48.86, 2.35")
        leaf = leaves([2.35], [48.86]).tolist()[0]
        for words, deep in (("city, 8 km", 10), ("leaf, 8 mm", 30), ("country, 250 km", 5)):
            self.choose(size=words)
            self.click("go")
            said = f"leaf {token(leaf)}. The cell of it of this size: token {token(parent(leaf, deep))}; "
            assert self.status().startswith(said), self.status()
            marked, width, goal = self.run("""const {view} = s2page, {canvas, context} = view;
                view.draw();
                const color = (x) => String(context.getImageData(canvas.width / 2 + x, canvas.height / 2, 1, 1).data);
                return [view.marked.size, view.pixelsOf(arguments[0]), color(9) !== color(7)];""", deep)
            assert marked == 2 ** (30 - deep) and 23.9 < width < 24.1 and goal, (words, marked, width, goal)
        self.choose(size="as in the picture")
        for text in ("+-1, 2", "1,, 2", ".,.", "1e1, 2", "--1, 2", "91, 0"):
            self.set("place", text)
            self.click("go")
            assert self.status().startswith("place: refused: "), (text, self.status())

    @pytest.mark.slow
    def test_going_to_places(self):
        """The picture's middle is at the latitude and longitude, and the leaf there is said."""
        self.open()
        for text, latitude, longitude in (("48.86, 2.35", 48.86, 2.35), ("-33.87 151.21", -33.87, 151.21),
                                          ("0;0", 0, 0), (" 90°, -180° ", 90, -180), ("40.7,-74", 40.7, -74)):
            self.set("place", text)
            self.click("go")
            for kind in ("faces", "map"):
                found = self.run("""const {view} = s2page;
                    view.kind = arguments[0];
                    return s2page.core.token(s2page.core.leafAt(
                      ...view.leafAt(view.canvas.width / 2, view.canvas.height / 2)));""", kind)
                face, i, j, _ = square(from_token(found))
                wanted = square(leaves([longitude], [latitude]).tolist()[0])
                assert face == wanted[0] and abs(i - wanted[1]) < 2 and abs(j - wanted[2]) < 2, (text, kind, found)
            assert self.status().startswith("leaf "), self.status()
        self.driver.find_element(By.ID, "place").send_keys(Keys.ENTER)
        assert self.status().startswith("leaf "), self.status()
        for text in ("91, 0", "0, 181", "x", "1, 2, 3", ""):
            self.set("place", text)
            self.click("go")
            assert self.status().startswith("place: refused: "), self.status()

    def test_markup(self):
        """A name with markup is shown as text."""
        self.open()
        name = "<img src=x onerror=document.title='bad'>"
        self.drop(name, self.a.to_bytes())
        assert self.driver.find_element(By.CSS_SELECTOR, "#legend .name").text == name
        assert not self.driver.find_elements(By.TAG_NAME, "img") and "bad" not in self.driver.title

    def test_history(self):
        self.begin()
        self.click("union")
        self.click("undo")
        assert self.count() == 2
        self.click("redo")
        assert self.last() == (self.a | self.b).to_bytes()
        self.press(Keys.CONTROL, "z")
        assert self.count() == 2
        self.press(Keys.CONTROL, Keys.SHIFT, "z")
        assert self.last() == (self.a | self.b).to_bytes()
        self.press(Keys.CONTROL, "z")
        self.press(Keys.CONTROL, "y")
        assert self.count() == 3

    def test_undo_and_then_a_change(self):
        """After a change, what was undone before it is gone."""
        self.begin()
        self.click("undo")
        self.click("sample")
        assert not self.driver.find_element(By.ID, "redo").is_enabled()
        self.press(Keys.CONTROL, "y")
        assert self.status() == "Nothing to redo." and self.names() == ["a", "land"], self.status()
        for _ in range(3):
            self.press(Keys.CONTROL, "z")
        assert self.status() == "Nothing to undo." and self.count() == 0, self.status()

    def test_pointer(self):
        self.begin()
        for kind in ("faces", "map"):
            self.run("s2page.view.kind = arguments[0]", kind)
            for _ in range(50):
                px, py = self.choice.randrange(900), self.choice.randrange(600)
                facts = dict(self.run("return s2page.point(arguments[0], arguments[1])", px, py))
                place = self.run("return s2page.view.leafAt(arguments[0], arguments[1])", px, py)
                assert bool(facts) == bool(place)
                if place:
                    leaf = from_face_ij(*place)
                    cell = parent(leaf, int(facts["level"]))
                    assert (facts["token"], facts["debug text"]) == (token(cell), debug(cell))
                    assert facts["leaves"] == str(size(cell))
                    assert facts["square"] == "face {}, i {}, j {}, side {}".format(*square(cell))
                    east, north = (float(word.split("°")[0]) for word in facts["middle"].split(", "))
                    assert math.dist((east, north), middle(*square(cell))) < 1e-6, (facts, middle(*square(cell)))
                    for name, union in (("a", self.a), ("b", self.b)):
                        said = "contains it" if cell in union else "has none of it"
                        if said != "contains it" and union.intersects(Union([cell])):
                            said = "shares a part of it"
                        assert facts[name] == said

    def test_the_union_on_top(self):
        """The cell under the pointer is that of the topmost union that is shown. One that is hidden isn't drawn."""
        self.open()
        for name in ("3", "2c"):
            self.drop(name, Union.from_tokens(name).to_bytes())
        face, i, j, side = square(from_token("2c"))
        self.run("s2page.view.center(...arguments)", face, (i + side / 2) / SIDE, (j + side / 2) / SIDE, 200)
        looked = """const [done, {canvas, context}] = [arguments[0], s2page.view];
            const [x, y] = [canvas.width / 2, canvas.height / 2];
            s2page.draw();
            requestAnimationFrame(() => setTimeout(() =>
              done([Object.fromEntries(s2page.point(x, y)).token, [...context.getImageData(x - 9, y, 1, 1).data]])));"""
        token_above, above = self.driver.execute_async_script(looked)
        self.driver.find_element(By.CSS_SELECTOR, '#legend input[aria-label="show 2c"]').click()
        token_below, below = self.driver.execute_async_script(looked.replace("s2page.draw();", ""))
        assert (token_above, token_below) == ("2c", "3") and above != below, (above, below)

    def test_keys(self):
        self.begin()
        self.driver.find_element(By.ID, "picture").send_keys("++", Keys.ARROW_LEFT, "-", Keys.ENTER)
        assert "token" in self.status() or "no cell" in self.status(), self.status()
        moved = """const place = () => JSON.stringify(s2page.view.place), before = place();
            const event = new KeyboardEvent('keydown', {key: '+', ctrlKey: arguments[0], bubbles: true});
            document.getElementById('picture').dispatchEvent(event);
            return place() !== before;"""
        assert self.run(moved, False) and not self.run(moved, True)  # with Ctrl it is the browser's own
        self.driver.find_element(By.ID, "texts").send_keys("04", Keys.CONTROL, "z")
        assert self.count() == 2  # what was undone is in the field
        assert self.driver.find_element(By.ID, "status").get_attribute("aria-live") == "polite"
        unnamed = self.run("""return [...document.querySelectorAll('button, input, select, textarea')].filter((it) =>
            !(it.textContent || it.getAttribute('aria-label') || it.labels?.length)).length""")
        assert unnamed == 0, unnamed

    def test_curve(self):
        """The page's own way to a leaf, by which it draws, is that of the library."""
        self.open()
        places = [[self.choice.randrange(6), *(self.choice.choice([0, SIDE - 1, self.choice.randrange(SIDE)])
                   for _ in "ij")] for _ in range(2000)]
        found = self.run("""return arguments[0].map((place) => {
            const half = new Uint32Array(2);
            leafHalves(...place, half);
            return [half[1], half[0]];
        })""", places)
        assert [upper << 32 | lower for upper, lower in found] == [from_face_ij(*place) for place in places]

    def test_corners(self):
        """The corners of cells are where S2 has them, to a nanodegree, and lead back to their leaf."""
        self.open()
        rows = [line.split() for line in (HERE / "corners.txt").read_text().splitlines()]
        corners = [[int(word) for word in row[:3]] for row in rows]
        found = self.run("""return arguments[0].map(([face, i, j]) => geographic(face, i / SIDE, j / SIDE))""", corners)
        for row, (longitude, latitude) in zip(rows, found):
            turn = (longitude - float(row[3]) + 180) % 360 - 180
            assert abs(latitude - float(row[4])) < 1e-9, row
            assert abs(turn) < 1e-9 or abs(latitude) > 89.999999, row

    def test_pictures(self, pytestconfig):
        """The pixels of the cells of the sample are those of the stored pictures."""
        for kind in ("faces", "map"):
            stored = HERE / f"{kind}.png"
            self.picture(kind)
            if pytestconfig.option.pictures:
                stored.write_bytes(base64.b64decode(self.run("return s2page.view.hidden.toDataURL()").split(",")[1]))
            wrong = self.driver.execute_async_script("""const [url, done] = arguments;
                const stored = new Image();
                stored.onload = () => {
                  const canvas = document.createElement('canvas');
                  [canvas.width, canvas.height] = [stored.width, stored.height];
                  canvas.getContext('2d').drawImage(stored, 0, 0);
                  const wanted = canvas.getContext('2d').getImageData(0, 0, stored.width, stored.height).data;
                  const found = s2page.view.image.data;
                  done(found.length === wanted.length ? found.filter((it, k) => it !== wanted[k]).length : -1);
                };
                stored.src = url;""", "data:image/png;base64," + base64.b64encode(stored.read_bytes()).decode())
            assert 0 <= wrong <= 100, (kind, wrong)

    def picture(self, kind):
        self.open()
        self.click("land")
        self.click("sample")
        self.run("""const view = s2page.view;
            s2page.observer.disconnect();
            document.documentElement.dataset.theme = 'light';
            s2page.paint();
            [view.canvas.width, view.canvas.height, view.kind] = [400, 300, arguments[0]];
            view.fit();
            view.draw();""", kind)

    def test_coarse_pictures(self):
        """A coarse picture shows the same as a fine one: the cells and the ground are in the same places."""
        self.open()
        self.click("land")
        self.set("texts", "1 5 9")
        self.click("add")
        coarse, fine = self.run("""const {view} = s2page;
            s2page.observer.disconnect();
            view.fit();
            const places = PLACES_OF_FACES.flatMap(
              ([column, row]) => [[column + 0.3, row + 0.7], [column + 0.8, row + 0.6]]);
            const colors = (step) => {
              view.draw(step);
              return places.map((place) => String(view.context.getImageData(...view.pixelAt(...place), 1, 1).data));
            };
            return [colors(4), colors(1)];""")
        assert coarse == fine and len(set(fine)) == 2, (coarse, fine)

    def test_many_unions(self):
        """Each of many unions is drawn, and over those before it: of forty, each face has six or seven."""
        self.open()
        self.click("land")
        found, wanted = self.run("""const view = s2page.view;
            for (let k = 0; k < 40; k++) s2page.add(`${k}`, s2page.core.read('13579b'[k % 6]));
            view.kind = 'faces';
            view.fit();
            view.draw();
            const faces = [0, 1, 2, 3, 4, 5];
            const found = faces.map((face) => {
              const [column, row] = PLACES_OF_FACES[face];
              const [px, py] = view.pixelAt(column + 0.5, row + 0.5).map(Math.floor);
              return view.pixels[py * view.image.width + px];
            });
            const wanted = faces.map((face) => wordOf(...s2page.regions.filter((_, k) => k % 6 === face).reduce(
              (under, {color}) => under.map((part, k) => part + (color[k] - part) * OPACITY), view.colors.face)));
            return [found, wanted];""")
        assert found == wanted and len(set(found)) > 1, (found, wanted)

    def test_touch(self):
        """One finger moves the picture, also after another was cancelled, and two zoom it; so do mouse and wheel."""
        self.begin()
        box = self.driver.find_element(By.ID, "picture").rect
        x, y = box["x"] + box["width"] / 2, box["y"] + box["height"] / 2
        place = "return [s2page.view.place.x, s2page.view.place.scale]"
        before = self.run(place)
        self.touch("touchStart", [(x, y)])
        self.touch("touchMove", [(x - 50, y)])
        self.touch("touchEnd", [])
        after = self.run(place)
        assert abs(after[0] - before[0] - 50 / before[1]) < 1e-9 and after[1] == before[1], (before, after)
        self.touch("touchStart", [(x - 20, y), (x + 20, y)])
        self.touch("touchMove", [(x - 20, y), (x + 60, y)])
        self.touch("touchEnd", [])
        assert abs(self.run(place)[1] / after[1] - 2) < 1e-6
        self.driver.execute_cdp_cmd("Input.dispatchMouseEvent", {"type": "mouseWheel", "x": x, "y": y, "deltaX": 0,
                                                                 "deltaY": -100})
        assert self.run(place)[1] > 2 * after[1]
        self.touch("touchStart", [(x - 20, y)])
        self.touch("touchCancel", [])
        before = self.run(place)
        self.touch("touchStart", [(x, y)])
        self.touch("touchMove", [(x - 50, y)])
        self.touch("touchEnd", [])
        after = self.run(place)
        assert after[0] > before[0] and after[1] == before[1], (before, after)

    def touch(self, kind, points):
        self.driver.execute_cdp_cmd("Input.dispatchTouchEvent", {
            "type": kind, "touchPoints": [{"x": x, "y": y, "id": k} for k, (x, y) in enumerate(points)]})

    @pytest.mark.slow
    def test_leaves(self):
        """A leaf is seen alone in the closest picture, and still as a dot in one of all."""
        self.open()
        for kind in ("faces", "map"):
            for _ in range(10):
                place = [self.choice.randrange(6), self.choice.randrange(SIDE), self.choice.randrange(SIDE)]
                self.open()
                self.click("land")
                self.drop("leaf", Union([from_face_ij(*place)]).to_bytes())
                near, far, dots = self.run("""const [kind, face, i, j] = arguments;
                    const view = s2page.view;
                    view.kind = kind;
                    view.fit();
                    view.draw();
                    const ground = new Set([view.colors.ground, view.colors.face].map((color) => wordOf(...color)));
                    const dots = view.pixels.filter((it) => !ground.has(it)).length;
                    const [s, t] = [(i + 0.5) / SIDE, (j + 0.5) / SIDE];
                    const [column, row] = PLACES_OF_FACES[face];
                    const [x, y] = kind === 'faces' ? [column + s, row + 1 - t] : geographic(face, s, t);
                    Object.assign(view.place, {x, y, scale: SCALES[kind][1]});
                    view.draw();
                    const at = (px, py) => ground.has(view.pixels[py * view.image.width + px]);
                    const [px, py] = [view.image.width >> 1, view.image.height >> 1];
                    return [at(px, py), at(px, py - 200), dots];""", kind, *place)
                assert not near and far and 1 <= dots <= 400, (kind, place, near, far, dots)

    def test_no_module(self):
        """A browser that can't run the module says why."""
        page = (self.folder / "index.html").read_text().replace('const MODULE = "', 'const MODULE = "AAAA')
        broken = self.downloads / "broken.html"
        broken.write_text(page)
        self.driver.get(broken.as_uri())
        self.wait()
        assert "can't run the page" in self.status(), self.status()

    def test_no_error(self):
        """Nothing was said to the console in any test, so nothing was refused by the page's own policy."""
        wrong = [entry for entry in self.driver.get_log("browser") if entry["level"] == "SEVERE"]
        assert not wrong, wrong

    # ---- what is shown elsewhere

    def screenshot(self):
        """The picture of page/README.md."""
        self.driver.set_window_size(1280, 930)
        self.open()
        self.click("sample")
        self.set("texts", "0/2 1/0 1/3 2/1 2/2")
        self.click("add")
        self.driver.find_element(By.CSS_SELECTOR, "input[value=map]").click()
        self.choose(first="land", second="cells 2")
        self.click("intersection")
        picture = self.driver.find_element(By.ID, "picture")
        ActionChains(self.driver).move_to_element_with_offset(picture, 200, 30).perform()
        self.run("const said = document.getElementById('status'); "  # without the time, which a stand-in may have taken
                 "said.textContent = said.textContent.replace(/ Computed.*/, '')")
        time.sleep(1)
        self.driver.save_screenshot(str(TOP / "docs/pictures/page.png"))

    def figures(self):
        """The times of a million cells, beside the same in BigInt."""
        self.open()
        self.run((HERE / "bigint.js").read_text() + "\nglobalThis.inBigInt = inBigInt;")
        for line in self.driver.execute_async_script((HERE / "figures.js").read_text()):
            print(f"figure: {line}")
        xs, ys = scattered(1), scattered(2)
        for name, operation in (("union", xs.__or__), ("intersection", xs.__and__), ("difference", xs.__sub__)):
            print(f"figure: {name} by the module for Python: {min(timed(operation, ys) for _ in range(5)):.1f} ms")


def scattered(state):
    """The union that figures.js makes from this number."""
    ids, cell = [], 1 << 36
    while len(ids) < 1_050_000:
        state = (state * 1664525 + 1013904223) % 2**32
        if state < 0x40000000:
            ids.append(cell)
        cell += 1 << 37
    return Union(ids)


def timed(operation, other):
    begun = time.perf_counter()
    operation(other)
    return 1000 * (time.perf_counter() - begun)
