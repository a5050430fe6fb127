"""The area of cells in square kilometers, for the prompt; not proved. The earth is a sphere with its mean radius, as in
S2 and s2union_geo; it is flattened, so an area there differs by less than 1 percent."""
import math

EARTH = 6371.01  # kilometers, as S2Earth has it
SIDE = 1 << 30  # leaves along a face
SMALL = SIDE >> 11  # from this side on the middle of a cell stands for all of it, to seven digits
MANY = 20000  # cells: more of them are counted by their ancestors
DEEP = 7  # the level of those
# Of a cell's orientation and a child's place along the curve: the child's i and j as two bits, and its orientation.
STEPS = [[(ij, turn ^ flip) for ij, flip in zip(order, (1, 0, 0, 3))]
         for turn, order in enumerate(((0, 1, 3, 2), (0, 2, 3, 1), (3, 2, 0, 1), (3, 1, 0, 2)))]


def square(cell):
    """The corner with the lowest coordinates, and the side, in leaves."""
    lowest, turn, i, j = cell & -cell, cell >> 61 & 1, 0, 0
    depth = 30 - (lowest.bit_length() - 1) // 2
    for level in range(1, depth + 1):
        ij, turn = STEPS[turn][cell >> 61 - 2 * level & 3]
        i, j = 2 * i + (ij >> 1), 2 * j + (ij & 1)
    side = SIDE >> depth
    return i * side, j * side, side


def on_cube(begin, side):
    """Where a side begins and ends on the cube's face, from -1 to 1, and its length there."""
    s, length = begin / SIDE, side / SIDE
    low = (4 * s * s - 1) / 3 if s >= 0.5 else (1 - 4 * (1 - s) ** 2) / 3
    width = 4 * length * (2 * s + length if s >= 0.5 else 2 - 2 * s - length) / 3
    return low, low + width, width


def corner(u, v):
    """The area, on the unit sphere, over the rectangle of the cube's face from its middle to here."""
    return math.atan(u * v / math.sqrt(1 + u * u + v * v))


def area_of_cell(cell):
    """The area of one cell: by its corners, or of a small one by its middle, where differences would lose digits."""
    i, j, side = square(cell)
    (left, right, width), (low, high, height) = on_cube(i, side) if side < SIDE else (-1, 1, 2), \
        on_cube(j, side) if side < SIDE else (-1, 1, 2)
    if side > SMALL:
        return EARTH**2 * (corner(right, high) - corner(left, high) - corner(right, low) + corner(left, low))
    u, v = (left + right) / 2, (low + high) / 2
    return EARTH**2 * width * height / (1 + u * u + v * v) ** 1.5


def area(tokens):
    """The area of cells that share no leaf, in words. Of many, those in one cell of level 7 have the share of its area
    that they have of its leaves, which is right to 2 percent."""
    cells = [int(token.ljust(16, "0"), 16) for token in tokens]
    if len(cells) <= MANY:
        return shown(math.fsum(map(area_of_cell, cells)))
    whole, leaves = 1 << 60 - 2 * DEEP, {}
    large = [cell for cell in cells if cell & -cell >= whole]
    for cell in cells:
        if cell & -cell < whole:
            above = cell & -2 * whole | whole
            leaves[above] = leaves.get(above, 0) + (cell & -cell)
    parts = (area_of_cell(above) * count / whole for above, count in leaves.items())
    return "about " + shown(math.fsum([*map(area_of_cell, large), *parts]))


def shown(value):
    return f"{value:.0f} km2" if value >= 1e5 else f"{value:.6g} km2"
