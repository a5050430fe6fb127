"""Polygons of directions as the definition has them, leaf by leaf, in plain Python: docs/STATEMENT.md has the words.

A direction is three whole numbers, x, y and z. An edge is two directions, in the frame of a face w, u and v. Where the
proved code asks for signs, this asks for the numbers themselves: whether an edge meets a square is a question of which
fractions of the way from one end to the other lie in it.
"""
from fractions import Fraction

from model.calculator import leaf_at

SIDE = 2**30
WHOLE = 3 * 2**60
FRAMES = (
    lambda x, y, z: (x, y, z),
    lambda x, y, z: (y, -x, z),
    lambda x, y, z: (z, -x, -y),
    lambda x, y, z: (-x, -z, -y),
    lambda x, y, z: (-y, -z, x),
    lambda x, y, z: (-z, y, x),
)


def along(t):
    """Where the border before leaf t / 2 of a row lies, or the middle of that leaf if t is odd."""
    return t * t - SIDE**2 if t >= SIDE else SIDE**2 - (2 * SIDE - t) ** 2


def middle(first, size):
    """The middle leaf of the cell: the one at the upper right of its center."""
    return along(2 * (first + size // 2) + 1)


def meets(a, b, square):
    """Whether some direction between a and b, ends included, lies in the closed square."""
    u0, u1, v0, v1 = square
    least, most = Fraction(0), Fraction(1)
    for weights in ((-u0, WHOLE, 0), (u1, -WHOLE, 0), (-v0, 0, WHOLE), (v1, 0, -WHOLE)):
        at_a, at_b = (sum(k * x for k, x in zip(weights, end)) for end in (a, b))
        # the fractions r of the way at which (1 - r) at_a + r at_b is at least 0
        if at_a < 0 and at_b < 0:
            return False
        if at_a < 0:
            least = max(least, Fraction(-at_a, at_b - at_a))
        elif at_b < 0:
            most = min(most, Fraction(at_a, at_a - at_b))
    return least <= most


def turn(a, b, c):
    """On which side of the edge from a to b the direction c lies: the determinant of the three."""
    return (
        a[0] * (b[1] * c[2] - b[2] * c[1])
        - a[1] * (b[0] * c[2] - b[2] * c[0])
        + a[2] * (b[0] * c[1] - b[1] * c[0])
    )


def crosses(a, b, p, q, towards):
    """Whether the edge from a to b crosses the piece of a way from p to q; `towards` tells on which side of the way's
    line an end lies."""
    from_a, from_b, at_p, at_q = towards(a) >= 0, towards(b) >= 0, turn(a, b, p) >= 0, turn(a, b, q) >= 0
    return from_a != from_b and at_p != at_q and at_p == from_b


def crosses_row(a, b, v, u0, u1):
    u0, u1 = sorted((u0, u1))
    return u0 < u1 and crosses(a, b, (WHOLE, u0, v), (WHOLE, u1, v), lambda c: WHOLE * c[2] - v * c[0])


def crosses_column(a, b, u, v0, v1):
    v0, v1 = sorted((v0, v1))
    return v0 < v1 and crosses(a, b, (WHOLE, u, v0), (WHOLE, u, v1), lambda c: u * c[0] - WHOLE * c[1])


class Polygon:
    """Rings of directions, with a leaf that is known to lie outside, and a margin."""

    def __init__(self, rings, outside, margin=0):
        edges = [(ring[k - 1], ring[k]) for ring in rings for k in range(len(ring))]
        self.edges = [[(frame(*a), frame(*b)) for a, b in edges] for frame in FRAMES]
        self.margin = margin
        self.ways = {}
        self.outside = self.is_odd(*outside)

    def is_odd_face(self, face):
        """Whether the way from the middle of face 0 to that of the face, from each face to the next, is crossed an odd
        number of times."""
        if face == 0:
            return False
        m, odd = middle(0, SIDE), self.way(face - 1, 0, 0, SIDE)
        crossed = crosses_row if face % 2 else crosses_column
        for a, b in self.edges[face - 1]:
            odd ^= crossed(a, b, m, m, WHOLE)
        for a, b in self.edges[face]:
            odd ^= crossed(a, b, m, -WHOLE, m)
        return odd

    def way(self, face, i, j, size):
        """Whether the way to the middle of the cell, from that of each of its ancestors to the next, first along the
        row and then along the column, is crossed an odd number of times. The answer about a cell is kept."""
        key = face, i, j, size
        if key not in self.ways:
            self.ways[key] = self.is_odd_face(face) if size == SIDE else self.way_from_parent(face, i, j, size)
        return self.ways[key]

    def way_from_parent(self, face, i, j, size):
        double = 2 * size
        parent_i, parent_j = i // double * double, j // double * double
        odd = self.way(face, parent_i, parent_j, double)
        u0, v0, u1, v1 = middle(parent_i, double), middle(parent_j, double), middle(i, size), middle(j, size)
        for a, b in self.edges[face]:
            odd ^= crosses_row(a, b, v0, u0, u1) ^ crosses_column(a, b, u1, v0, v1)
        return odd

    def is_odd(self, face, i, j):
        return self.way(face, i, j, 1)

    def is_inside(self, face, i, j):
        return self.is_odd(face, i, j) != self.outside

    def is_touched(self, face, i, j):
        d = self.margin
        square = along(2 * i) - d, along(2 * i + 2) + d, along(2 * j) - d, along(2 * j + 2) + d
        return any(meets(a, b, square) for a, b in self.edges[face])

    def leaves(self, face, columns, rows):
        """Of all leaves of a rectangle: the numbers of those that are outer ones, and of those that are inner ones."""
        outer, inner = set(), set()
        for x in columns:
            for y in rows:
                touched, inside = self.is_touched(face, x, y), self.is_inside(face, x, y)
                leaf = leaf_at(face, x, y)[1]
                if touched or inside:
                    outer.add(leaf)
                if inside and not touched:
                    inner.add(leaf)
        return outer, inner
