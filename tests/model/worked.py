"""Worked unions, by their tokens, which are asked of the program and of the library."""

LEAF = "0000000000000001"

# Cells, and the union that has their leaves.
NORMAL = (
    ("", ""),
    ("04 0c 14 1c", "1"),
    ("0c 14 1c 01 03 05 07", "1"),
    ("0c 04 04", "04 0c"),
    ("04 1 05", "1"),
    ("0c 14 1c 24", "0c 14 1c 24"),
    ("b 9 7 5 3 1", "1 3 5 7 9 b"),
)

# Two unions, whether the first contains the second, and whether they share a leaf.
HELD = (
    ("1", "04 0c", True, True),
    ("04 0c", "1", False, True),
    ("04 0c", "0c", True, True),
    ("04 0c", "14", False, False),
    ("04 0c 14", "1", False, True),
    ("04 0c 14 24", "04", True, True),
    ("04 0c 14 24", "24", True, True),
)

# A union, the least level and the modulus, and the cells of its wanted levels.
CUT = (
    ("04", 0, 2, "01 03 05 07"),
    (LEAF, 29, 3, LEAF),
    ("1 " + LEAF, 1, 3, "04 0c 14 1c"),
    ("", 5, 1, ""),
)
