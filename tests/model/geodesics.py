"""Plain polygons with geodesic edges, for model.maps: what is inside, how far edges are, and what has no coverings.

A polygon whose corners lie on one half of the sphere is projected from the center to the plane that touches the middle
of that half. Its geodesics are straight lines there, so that a place is inside if an odd number of them pass on one
side of it, counted in fractions. The proved code counts crossings from cell to cell on six faces of a cube.
"""
import math
from fractions import Fraction
from itertools import product
from random import Random

from model.calculator import leaf_at

NORMALS = [each for each in product((-1, 0, 1), repeat=3) if any(each)]
SURE = 1e-7  # radians: far more than the margin, 2 centimeters, and than what is rounded here
WIDEST = 2.44  # radians: a cell of level k is no longer than this / 2^k
random = Random(20261202)


def point_of(longitude, latitude):
    x, y = math.radians(longitude), math.radians(latitude)
    return math.cos(x) * math.cos(y), math.sin(x) * math.cos(y), math.sin(y)


def times(a, b):
    return sum(p * q for p, q in zip(a, b))


def across(a, b):
    return a[1] * b[2] - a[2] * b[1], a[2] * b[0] - a[0] * b[2], a[0] * b[1] - a[1] * b[0]


def unit(a):
    size = math.hypot(*a)
    return tuple(p / size for p in a) if size else a


def angle(a, b):
    return math.atan2(math.hypot(*across(a, b)), times(a, b))


def leaf_of(point):
    """The leaf at a point. Of a point on a border of leaves it may be another one beside it."""
    axis = max(range(3), key=lambda k: abs(point[k]))
    face = axis + 3 * (point[axis] < 0)
    x, y, z = point
    u, v = ((y / x, z / x), (-x / y, z / y), (-x / z, -y / z), (z / x, y / x), (z / y, -x / y), (-y / z, -x / z))[face]

    def along(w):
        far = (math.sqrt(1 + 3 * abs(w)) / 2) * 2**30
        return min(2**30 - 1, int(far if w >= 0 else 2**30 - far))

    return 2 * leaf_at(face, along(u), along(v))[1] + 1


class Polygon:
    """Rings of positions in degrees, each closed, as edges between points."""

    def __init__(self, rings):
        points = [[point_of(*position) for position in ring] for ring in rings]
        self.edges = [(a, b) for ring in points for a, b in zip(ring, ring[1:])]
        self.corners = [a for a, _ in self.edges]
        lows = {normal: min((times(normal, corner) for corner in self.corners), default=1.0) for normal in NORMALS}
        self.normal = max(lows, key=lows.get)
        self.low = lows[self.normal]
        self.longest = max((angle(a, b) for a, b in self.edges), default=0.0)
        self.normal = unit(self.normal)
        self.axes = self.plane()
        self.lines = [(self.flat(a), self.flat(b)) for a, b in self.edges] if self.low > SURE else []

    def faults(self):
        """What may be said of it: None if it may have coverings."""
        if not self.edges:
            return {None}
        found = {"spread"} if self.low < SURE else set()
        if self.low > -SURE:
            found |= {"long_edge"} if self.longest > math.radians(127.999) else set()
            found |= {None} if self.longest < math.radians(151) else set()
        return found

    def plane(self):
        first = unit(across(self.normal, (0.6, 0.48, 0.64)))
        return first, across(self.normal, first)

    def flat(self, point):
        high = times(self.normal, point)
        return tuple(Fraction(times(axis, point) / high) for axis in self.axes)

    def has(self, point):
        if times(self.normal, point) <= SURE:
            return False
        x, y = self.flat(point)

        def passes(a, b):
            if (a[0] <= x) == (b[0] <= x):
                return False
            wide = b[0] - a[0]
            return ((a[1] - y) * wide + (x - a[0]) * (b[1] - a[1])) * wide > 0

        return sum(passes(a, b) for a, b in self.lines) % 2 == 1

    def far(self, point):
        """How far the nearest edge is, in radians."""
        def from_edge(a, b):
            normal = across(a, b)
            size = math.hypot(*normal)
            ends = min(angle(point, a), angle(point, b))
            if size < 1e-9:
                return ends
            beside = times(across(normal, a), point) > 0 > times(across(normal, b), point)
            return abs(math.asin(max(-1.0, min(1.0, times(normal, point) / size)))) if beside else ends

        return min((from_edge(a, b) for a, b in self.edges), default=math.inf)


def some_points(polygons):
    """Points at corners and edges, a little beside them, and anywhere."""
    edges = [edge for polygon in polygons for edge in polygon.edges]
    for _ in range(150 if edges else 0):
        a, b = random.choice(edges)
        part, near = random.random(), 10 ** random.uniform(-7, 0)
        yield unit(tuple(p + part * (q - p) + random.uniform(-near, near) for p, q in zip(a, b)))
    for _ in range(60):
        yield unit(tuple(random.uniform(-1, 1) for _ in range(3)))


def first_fault(rings_of_each, told):
    """Whether an answer may be that of a shape: no fault, or one with the number of its polygon."""
    name, part = told or (None, len(rings_of_each))
    found = [Polygon(rings).faults() for rings in rings_of_each]
    return all(None in each for each in found[:part]) and (told is None or name in found[part])


def has(cells, leaf):
    return any(abs(leaf - cell) <= (cell & -cell) - 1 for cell in cells)


def compare(rings_of_each, level, outer, inner):
    """What is wrong with two coverings, point by point; of few cells there is no level."""
    polygons = [Polygon(rings) for rings in rings_of_each]
    if any(each.edges and each.low < SURE for each in polygons):
        return  # corners next to the border of the half, of which nothing is sure here
    for point in some_points(polygons):
        leaf, far = leaf_of(point), min((each.far(point) for each in polygons), default=math.inf)
        in_outer, in_inner, inside = has(outer, leaf), has(inner, leaf), any(each.has(point) for each in polygons)
        is_right = in_outer or not in_inner
        if far > SURE:
            is_right = is_right and (in_outer or not inside) and (inside or not in_inner)
        if level is not None and in_outer and not in_inner:
            is_right = is_right and far <= WIDEST / 2**level + SURE
        if not is_right:
            yield f"point {point}: inside {inside}, outer {in_outer}, inner {in_inner}, {far} away"
