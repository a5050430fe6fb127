"""Where the shared library libs2union is looked for, and what is said if it can't be loaded."""

from __future__ import annotations

import os

NAME = "libs2union.so.1"


def path() -> str:
    """The library's path; its name alone, if the system has to look for it."""
    given = os.environ.get("S2UNION_LIBRARY")
    folder = os.path.dirname(os.path.abspath(__file__))
    near = [os.path.join(folder, above, NAME) for above in ("", "..", os.path.join("..", ".."))]
    return given if given else next((place for place in near if os.path.exists(place)), NAME)


def refuse(fault: str) -> None:
    """Raises the error of a library that can't be loaded for a fault."""
    given = os.environ.get("S2UNION_LIBRARY")
    where = f"S2UNION_LIBRARY is {given!r}" if given else (
        f"{NAME} is not beside the module, not in the two folders above it, and not where the system looks; "
        "set S2UNION_LIBRARY to its path")
    raise ImportError(f"s2union needs the shared library {NAME}, which `tools/library PREFIX` of its sources "
                      f"puts into PREFIX/lib, and can't load it ({fault}). {where}.")
