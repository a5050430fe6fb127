"""What docs/ENGINES.md says of cells in plain SQL, for the tests of databases."""

import re
import sqlite3
from pathlib import Path

PAGE = (Path(__file__).resolve().parents[2] / "docs" / "ENGINES.md").read_text()
UNIT = 2**50  # the lowest bit of a cell of level 5, of which the page speaks


def statements(fence, part=""):
    """The statements of the page's first block that begins with this fence and has this part."""
    blocks = re.findall(rf"^```{fence}\n(.*?)^```$", PAGE, re.M | re.S)
    return [each for each in next(block for block in blocks if part in block).split(";\n") if each.strip()]


CUT, JOIN = statements("sql", "CREATE TABLE region_cells"), statements("sql", "JOIN region_cells")[0]


def in_sqlite(points, regions):
    """The pairs of the page's join in SQLite without an extension: the places of points, which are signed leaves, and
    the names of regions, which have signed cells. And the database."""
    database = sqlite3.connect(":memory:")
    database.execute("CREATE TABLE places (place int, leaf bigint)")
    database.execute("CREATE TABLE coverings (name text, cell bigint)")
    database.executemany("INSERT INTO places VALUES (?, ?)", enumerate(points))
    database.executemany("INSERT INTO coverings VALUES (?, ?)",
                         [(name, cell) for name, cells in regions.items() for cell in cells])
    for statement in CUT:
        database.execute(statement)
    return database.execute(JOIN).fetchall(), database


def key(cell, level):
    """The expressions of the page's table, for this cell and this level: two for the cell of the level that holds it,
    and its first and its last leaf."""
    found = re.findall(r"^\| [^|]* \| `([^`]*\bcell\b[^`]*)` \|$", PAGE, re.M)
    unit = 4 ** (30 - level)
    for expression in found:
        numbers = expression.replace(r"\|", "|").replace(str(2 * UNIT), str(2 * unit)).replace(str(UNIT), str(unit))
        yield re.sub(r"\bcell\b", f"({cell})", numbers)


def questions(random):
    """Cells of all faces and levels, each with a level that is no deeper, and with a cell near it."""
    from model import unions as model
    for face in range(6):
        for level in range(31):
            for _ in range(4):
                cell = model.identifier(level, face * 4**level + random.randrange(4**level))
                yield cell, random.randint(0, level), random.near(cell)
