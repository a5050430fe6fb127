"""Unions on a cluster of worker processes, after docs/DASK.md: ten million cells and ten million points in 96 parts by
range of identifiers, on 1, 2 and 4 workers, and with a worker that is killed. The answers are those of one process. The
joins of that page and of docs/ENGINES.md find all pairs.

S2UNION_CELLS is how many cells there are, and WORLD the folder of the countries. The Python of the pages is in
dask_page.py and engines.py."""

import contextlib
import os
import signal
import time
import unittest

import dask_page
import engines
import numpy
import pandas
from dask import bag, dataframe, delayed
from dask.distributed import Client, LocalCluster, wait

from model import random_cells
import s2union
from s2union import Union

CELLS = int(os.environ.get("S2UNION_CELLS", 10_000_000))
SPHERE = Union.from_tokens("1 3 5 7 9 b")
PARTS = SPHERE.denormalised(2)


def leaves(part, count, seed):
    """Random leaves of a part."""
    random = numpy.random.default_rng([seed, part])
    places = random.integers(0, s2union.size(part), count, numpy.uint64)
    return numpy.uint64(s2union.range_min(part)) + numpy.uint64(2) * places


def cells(part):
    """Random cells of a part, of levels 10 to 20, in any order."""
    random = numpy.random.default_rng([1, part])
    found = leaves(part, CELLS // len(PARTS), 2)
    bits = numpy.uint64(1) << (2 * (30 - random.integers(10, 21, len(found)))).astype(numpy.uint64)
    return found & (~bits + numpy.uint64(1)) | bits


def points(part):
    """Random leaves of a part as signed numbers, as a table has them."""
    return leaves(part, CELLS // len(PARTS), 3).view(numpy.int64)


def regions():
    """Twelve rectangles, two on each face, which lie in several parts."""
    corners = [(k % 6, 10**8 * (k // 6) + 12_345_678 * k) for k in range(12)]
    return [Union.covering(face, i, i + 3 * 10**8, i, i + 2 * 10**8, level=10) for face, i in corners]


def counted(points, regions):
    """How many points of a part lie in each region. It cuts the regions to the part first."""
    here = Union.from_range(points.min(), points.max())
    return numpy.array([(region & here).contains_cells(points).sum() for region in regions])


def slowly(part):
    """The union of a part, made no quicker than a worker can be killed."""
    time.sleep(0.05)
    return Union(cells(part))


class OnACluster(unittest.TestCase):
    @classmethod
    def setUpClass(cls):
        began = time.perf_counter()
        cls.union = Union(numpy.concatenate([cells(part) for part in PARTS]))
        print(f"one process, no Dask: the union of all has {len(cls.union):,} cells: {since(began)}", flush=True)
        cls.regions = regions()
        every = numpy.concatenate([points(part) for part in PARTS])
        began = time.perf_counter()
        cls.counts = [int(region.contains_cells(every).sum()) for region in cls.regions]
        print(f"one process, no Dask: points joined with regions: {since(began)}", flush=True)

    def test_1_2_and_4_workers(self):
        for workers in (1, 2, 4):
            with on(workers) as client:
                say = f"{workers} worker{'s' if workers > 1 else ''}, load {os.getloadavg()[0]:.1f}: "
                given = held(client, cells)
                began = time.perf_counter()
                unions = client.map(Union, given)
                wait(unions)
                say += f"the union of each part {since(began)}; "
                began = time.perf_counter()
                tree = bag.from_delayed(map(delayed, unions)).reduction(one, Union.of, split_every=8)
                whole = client.compute(tree)
                wait(whole)
                say += f"the union of unions as a tree {since(began)}; "
                began = time.perf_counter()
                made = whole.result()
                say += f"its {8 * len(made) / 1e6:.0f} MB here {since(began)}; "
                self.assertEqual(made, self.union)
                given = held(client, points)
                [near] = client.scatter([self.regions], broadcast=True)
                began = time.perf_counter()
                counts = client.gather(client.map(counted, given, regions=near))
                say += f"the join {since(began)}"
                self.assertEqual(sum(counts).tolist(), self.counts)
                print(say, flush=True)

    def test_a_worker_is_killed(self):
        with on(4) as client:
            workers = client.run(os.getpid)
            unions = client.map(slowly, PARTS)
            while sum(future.done() for future in unions) < len(PARTS) // 2:
                time.sleep(0.01)
            lost = max(workers, key=lambda worker: len(client.has_what()[worker]))
            kept = len(client.has_what()[lost])
            os.kill(workers[lost], signal.SIGKILL)
            made = client.gather(client.submit(Union.of, unions))
            self.assertEqual(made.to_bytes(), self.union.to_bytes())
            self.assertGreater(kept, 0)
            self.assertNotIn(workers[lost], client.run(os.getpid).values())
            print(f"a worker was killed that held {kept} of the {len(PARTS)} unions", flush=True)


def span(cell):
    """The least and the greatest number of a cell's leaves."""
    lowest = cell & -cell
    return cell - lowest + 1, cell + lowest - 1


class TheJoinOfThePage(unittest.TestCase):
    """with_regions of docs/DASK.md beside a loop over all pairs: points in any order, parts of any points or none."""

    def setUp(self):
        self.random = random_cells.Random(20261127)

    def parts(self):
        """Leaves, as signed numbers: those of one cell, of any cells, sorted or not, one, or none."""
        for turn in range(120):
            cells = [self.random.cell(0, 3)] if turn % 2 else [self.random.cell() for _ in range(9)]
            count = self.random.choice([0, 1, 2, 40])
            leaves = [self.random.randint(*span(self.random.choice(cells))) | 1 for _ in range(count)]
            yield sorted(leaves) if turn % 3 == 0 else leaves

    def test_all_pairs(self):
        regions = {f"region {k}": self.random.cells(20, low=0) for k in range(12)}
        given, pairs = {name: Union(cells) for name, cells in regions.items()}, 0
        for leaves in self.parts():
            part = pandas.DataFrame({"leaf": numpy.array(leaves, "uint64").view("int64"), "id": range(len(leaves))})
            wanted = sorted((k, name) for k, leaf in enumerate(leaves) for name, cells in regions.items()
                            if any(first <= leaf <= last for first, last in map(span, cells)))
            made = dask_page.with_regions(part, given)
            self.assertEqual(sorted(zip(made.id, made.region)), wanted, leaves)
            self.assertEqual([random_cells.signed(leaves[k]) for k in made.id], made.leaf.tolist())
            pairs += len(wanted)
        self.assertGreater(pairs, 100)

    def test_floats(self):
        """A column that had missing values is of floats, which are rounded: no function of the pages takes it."""
        union = Union([5180949494577750587])
        floats, part = pandas.Series([5180949494577750587, None]).dropna(), pandas.Series([union.to_bytes()])
        for call in (lambda: engines.tile_of(floats), lambda: engines.lies_in(floats, part),
                     lambda: dask_page.with_regions(pandas.DataFrame({"leaf": floats}), {"Paris": union})):
            with self.assertRaisesRegex(TypeError, "drop or fill missing values before they make floats"):
                call()
        self.assertEqual(len(dask_page.with_regions(pandas.DataFrame({"leaf": floats[:0]}), {"Paris": union})), 0)
        missing = pandas.Series([5180949494577750587, None], dtype="Int64")
        for call in (lambda: engines.tile_of(missing), lambda: engines.lies_in(missing, part.repeat(2)),
                     lambda: dask_page.with_regions(pandas.DataFrame({"leaf": missing}), {"Paris": union})):
            with self.assertRaises((TypeError, ValueError)):
                call()
        whole = missing.dropna()
        self.assertEqual(engines.tile_of(whole).tolist(), [5180265471382913024])
        self.assertEqual(engines.lies_in(whole, part).tolist(), [True])


class OverTheCountries(unittest.TestCase):
    """Random points joined with the countries of the earth by the functions of the pages: all pairs."""

    @classmethod
    def setUpClass(cls):
        import earth
        leaves, regions = earth.points(), earth.coverings(os.environ["WORLD"])
        cls.pairs = earth.all_pairs(leaves, regions)
        cls.regions = {name: Union(cells) for name, cells in regions.items()}
        cls.points = pandas.DataFrame({"leaf": leaves.view("int64"), "id": range(len(leaves))})

    def pairs_are(self, joined):
        said = list(zip(joined.id.tolist(), joined.name.tolist()))
        self.assertEqual((len(said), set(said)), (len(self.pairs), self.pairs))

    def test_parts_in_no_order(self):
        """24 parts as they come, and one that is empty."""
        parts = [self.points[k::24] for k in range(24)] + [self.points[:0]]
        self.pairs_are(pandas.concat([dask_page.with_regions(part, self.regions) for part in parts])
                       .rename(columns={"region": "name"}))

    def test_by_dask(self):
        table = dataframe.from_pandas(self.points, npartitions=24)
        meta = {"leaf": "int64", "id": "int64", "region": str}
        joined = table.map_partitions(dask_page.with_regions, self.regions, meta=meta).compute(scheduler="threads")
        self.pairs_are(joined.rename(columns={"region": "name"}))

    def tiles(self):
        """A row for each tile of level 5 and each country that meets it: a loop over the tiles."""
        for name, region in self.regions.items():
            for tile in region.outer(5).denormalised(5):
                yield name, s2union.to_signed(tile), (region & Union([tile])).to_bytes()

    def test_by_tile_as_in_spark(self):
        """The functions of docs/ENGINES.md, and the key in plain arithmetic, over a join of pandas."""
        tiles = pandas.DataFrame(self.tiles(), columns=["name", "tile", "part"])
        tile = engines.tile_of(self.points.leaf)
        self.assertEqual(tile.tolist(), ((self.points.leaf & -2**50) | 2**50).tolist())
        met = self.points.assign(tile=tile).merge(tiles, on="tile")
        self.pairs_are(met[engines.lies_in(met.leaf, met.part)])
        self.assertEqual(engines.lies_in(met.leaf[:0], met.part[:0]).tolist(), [])

    def test_by_cell_in_plain_arithmetic(self):
        """A row for each cell, none larger than a tile."""
        cells = pandas.DataFrame([(name, s2union.to_signed(cell)) for name, region in self.regions.items()
                                  for cell in region.denormalised(5)], columns=["name", "cell"])
        half = (cells.cell & -cells.cell) - 1
        cells = cells.assign(tile=(cells.cell & -2**50) | 2**50, first=cells.cell - half, last=cells.cell + half)
        met = self.points.assign(tile=(self.points.leaf & -2**50) | 2**50).merge(cells, on="tile")
        self.pairs_are(met[met.leaf.between(met["first"], met["last"])])


@contextlib.contextmanager
def on(workers):
    """A client of a new cluster of worker processes."""
    with LocalCluster(n_workers=workers, threads_per_worker=1, dashboard_address=None) as cluster:
        with Client(cluster) as client:
            yield client


def held(client, made):
    """What is made of each part, in the memory of the workers."""
    futures = client.map(made, PARTS)
    wait(futures)
    return futures


def one(unions):
    """The union in a part of a bag, which is one union."""
    return unions


def since(began):
    return f"{time.perf_counter() - began:.2f} s"
