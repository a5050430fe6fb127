"""The room that a result is first given, by the lengths of the lists that its call is given."""
import re
import tomllib
from pathlib import Path

TABLE = tomllib.loads((Path(__file__).parent / "methods.toml").read_text(encoding="utf-8"))
FIRST_ROOMS = {name: row["room"] for name, row in TABLE["call"].items() if "room" in row} | TABLE["room"]
# s2union.hpp fills nothing before a call, and goes on with less if there is no memory for this: each cell that is left
# out of the sphere takes up to three cells a level. It gives texts and files their own size, and inner coverings of
# polygons the room of outer ones.
CPP_HAS_NONE = ("tokens", "encode", "polygon_inner", "polygon_inner_up_to")
CPP_ROOMS = {name: room for name, room in FIRST_ROOMS.items() if name not in CPP_HAS_NONE} | \
    {"complement": "64 * n + 90"}


def room_lengths(room):
    """The lengths that a room is made of, in the order of the lists."""
    return sorted(set(re.findall(r"\bn[xy]?\b", room)))


# What languages write for the lesser of two numbers, and for a division without a rest, where it isn't that of C.
LEAST = {"C": r"(\1 < \2 ? \1 : \2)", "C++": r"std::min(\1, \2)", "Go": r"smaller(\1, \2)",
         "Java": r"Math.min(\1, \2)", "JavaScript": r"Math.min(\1, \2)", "Python": r"min(\1, \2)",
         "Rust": r"\1.min(\2)"}
PARTS = {"JavaScript": r"Math.floor(\1 / \2)", "Python": r"\1 // \2"}


def room_in(language, room):
    room = re.sub(r"min\((\w+), (\w+)\)", LEAST[language], room)
    return re.sub(r"(\w+) / (\d+)", PARTS.get(language, r"\1 / \2"), room)
