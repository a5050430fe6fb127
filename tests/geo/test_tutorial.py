"""What docs/TUTORIAL.md shows, and that it is true: beside plain tests by polygons, and S2's distances."""
import json
from pathlib import Path
from random import Random

import numpy
import page
import pywraps2 as s2
from s2union_geo import leaves
from s2union import Union
from shapely.geometry import Point, shape
from which import covering, features_of, which

EARTH = 6371.01  # its radius, in kilometers


class Borders:
    """The lines of a feature. A point is inside if a way to the North Pole crosses them an odd number of times."""

    def __init__(self, file):
        lines = json.loads(Path(file).read_text())["features"][0]["geometry"]["coordinates"]
        edges = numpy.concatenate([numpy.hstack([line[:-1], line[1:]]) for line in map(numpy.array, lines)])
        self.west, self.south, self.east, self.north = edges.T

    def have(self, longitude, latitude):
        west, east = ((side - longitude + 180) % 360 - 180 for side in (self.west, self.east))
        crossed = ((west < 0) != (east < 0)) & (abs(west - east) < 180)
        west, east, south, north = (side[crossed] for side in (west, east, self.south, self.north))
        return numpy.count_nonzero(south + (north - south) * west / (west - east) > latitude) % 2 == 1


def random_points(count, box=(-180, -90, 180, 90)):
    """Points that lie evenly on the part of the sphere in this box."""
    random = Random(20261126)
    low, high = numpy.sin(numpy.radians([box[1], box[3]]))
    longitude = numpy.array([random.uniform(box[0], box[2]) for _ in range(count)])
    return longitude, numpy.degrees(numpy.arcsin([random.uniform(low, high) for _ in range(count)]))


class Tutorial(page.Page):
    name = "TUTORIAL.md"

    def union(self, name):
        return Union.from_bytes(Path(self.file(name)).read_bytes())

    def printed(self, part):
        """What the page prints for the first command that has this part."""
        return next(wanted for command, wanted, _ in self.ran if part in command)

    def test_page(self):
        self.page_holds()

    def test_pictures(self):
        """The pictures and the files that the commands make are those of the pages."""
        for made in ("world.svg", "uganda.svg", "picture/land.outer", "picture/lakes.outer", "countries/Uganda.outer"):
            shown = Path(page.TOP, "docs", "pictures", Path(made).name.lower())
            self.assertEqual(Path(self.file(made)).read_bytes(), shown.read_bytes(), made)

    def test_cities(self):
        """Each city's country is that of the polygons."""
        features = features_of(self.file("countries.geojson"))
        polygons = [(feature["properties"]["name"], shape(feature["geometry"])) for feature in features]
        points = numpy.loadtxt(self.file("cities.txt"), usecols=(0, 1))
        names, _ = which(features, self.file("countries"), points[:, 0], points[:, 1])
        for name, point in zip(names, map(Point, points)):
            self.assertEqual([found for found, polygon in polygons if polygon.contains(point)],
                             [] if name == "-" else [name])

    def test_water_and_land(self):
        """Of 3,000 points: those in the inner covering are within the coasts, and those are in the outer covering."""
        longitude, latitude = random_points(3000)
        cells = leaves(longitude, latitude)
        for name, share in (("land", 0.29), ("lakes", 0.02)):
            borders = Borders(self.file(f"{name}.geojson"))
            inside = numpy.array([borders.have(*point) for point in zip(longitude, latitude)])
            self.assertAlmostEqual(inside.mean(), share, delta=0.02)
            self.assertFalse((self.union(f"{name}.inner").contains_cells(cells) & ~inside).any())
            self.assertFalse((inside & ~self.union(f"{name}.outer").contains_cells(cells)).any())

    def test_shares_of_lakes(self):
        """The share of lake among random points of the polygon is within the bounds that the page gives."""
        lakes = Borders(self.file("lakes.geojson"))
        polygons = {feature["properties"]["name"]: shape(feature["geometry"])
                    for feature in features_of(self.file("countries.geojson"))}
        lines = self.printed("import area").split("\n")[:-1]
        self.assertEqual(len(lines), 3)
        for line in lines:
            name, least, most = line.replace("%", "").replace(": ", " ").replace(" to ", " ").split()
            polygon = polygons[name]
            points = [point for point in zip(*random_points(4000, polygon.bounds)) if polygon.contains(Point(point))]
            share = numpy.mean([lakes.have(*point) for point in points])
            self.assertTrue(float(least) / 100 < share < float(most) / 100)

    def test_the_flight(self):
        """The corridor has the points within 50 km; the countries are those whose polygons are so near."""
        way = s2.S2Polyline()
        way.InitFromS2LatLngs([s2.S2LatLng.FromDegrees(30.05, 31.25), s2.S2LatLng.FromDegrees(-26.2, 28.05)])
        steps = [s2.S2LatLng(way.Interpolate(k / 2000)) for k in range(2001)]
        steps = numpy.array([[step.lng().degrees(), step.lat().degrees()] for step in steps])
        longitude, latitude = random_points(3000, (27, -27, 33, 31))
        near = numpy.array([kilometers(steps, point) < 50 for point in zip(longitude, latitude)])
        self.assertGreater(near.sum(), 100)
        cells = leaves(longitude, latitude)
        self.assertFalse((near & ~self.union("flight.outer").contains_cells(cells)).any())
        self.assertFalse((self.union("flight.inner").contains_cells(cells) & ~near).any())
        crossed = []
        for feature in features_of(self.file("countries.geojson")):
            polygon = shape(feature["geometry"])
            if any(polygon.contains(Point(step)) for step in steps[::10]) or any(
                    kilometers(steps, point) < 50 for point in border(polygon)):
                crossed.append(feature["properties"]["file"])
        self.assertEqual(self.printed('world/flight.{kind}').split("\n")[:2],
                         [" ".join(sorted(crossed))] * 2)

    def test_what_has_changed(self):
        """The leaves that were lost are those of both coverings that are no longer in Sudan's."""
        features = {feature["properties"]["file"]: feature for feature in features_of(self.file("countries.geojson"))}
        sudan, south = (covering(self.file("countries"), features[name], "outer") for name in ("Sudan", "S._Sudan"))
        lost = self.union("countries/lost")
        longitude, latitude = random_points(20000, (21, 3, 39, 23))
        cells = leaves(longitude, latitude)
        wanted = south.contains_cells(cells) & ~sudan.contains_cells(cells)
        self.assertGreater(wanted.sum(), 1000)
        self.assertEqual(lost.contains_cells(cells).tolist(), wanted.tolist())
        ours, theirs = s2.S2CellUnion(), s2.S2CellUnion()
        ours.Init(list(lost))
        theirs.Init(list(sudan))
        self.assertFalse(ours.Intersects(theirs))
        ours.Init(list(lost) + list(sudan))
        theirs.Init(list(south) + list(sudan))
        self.assertEqual(*([cell.id() for cell in union.cell_ids()] for union in (ours, theirs)))

    def test_dry_land(self):
        longitude, latitude = random_points(20000)
        cells = leaves(longitude, latitude)
        wanted = self.union("land.outer").contains_cells(cells) & ~self.union("lakes.inner").contains_cells(cells)
        self.assertEqual(self.union("dry").contains_cells(cells).tolist(), wanted.tolist())


def kilometers(steps, point):
    """How far the nearest of the steps is from the point."""
    x, y, to_x, to_y = numpy.radians([*steps.T, *numpy.full((2, len(steps)), numpy.array(point)[:, None])])
    half = numpy.sin((to_y - y) / 2)**2 + numpy.cos(y) * numpy.cos(to_y) * numpy.sin((to_x - x) / 2)**2
    return 2 * EARTH * numpy.arcsin(numpy.sqrt(half.min()))


def border(polygon):
    """Points of the polygon's border, at most a twentieth of a degree apart, near the flight."""
    for part in getattr(polygon, "geoms", [polygon]):
        line = part.exterior
        for k in range(int(line.length * 20) + 1):
            point = line.interpolate(k / 20)
            if 25 < point.x < 35:
                yield point.x, point.y
