"""The table of the library's calls, as the sources declare them.

The exports of crates/s2union_c have the name of each call, its arguments with their kinds, which of them are lists and
which are written, and its result. The comment before its prototype in s2union.h has what is said of it: a sentence, its
cost, each argument, the result, the errors, S2's name, and since when it is there.
"""
import re
from pathlib import Path
from typing import NamedTuple

SOURCES = "crates/s2union_c/src"
HEADER = "crates/s2union_c/include/s2union.h"

EXPORT = re.compile(r'^pub extern "C" fn s2u_(\w+)\((.*?)\) -> (\w+)$', re.S | re.M)
C_TYPES = {"i64": "int64_t", "u8": "uint8_t", "u32": "uint32_t", "u64": "uint64_t", "i32": "int32_t", "usize": "size_t",
           "f64": "double"}
# The name of a list's length in C; of one that is written, `room`; of any other, `n`.
LENGTHS = {"xs": "nx", "ys": "ny", "cells": "m", "ends": "lists", "work": "work_room", "outer": "outer_room",
           "inner": "inner_room", "rings": "rings_room"}
IN_PLACE = "ids"  # a list that is written under this name is read too
SAID = re.compile(r"/\*\*((?:(?!\*/)[\s\S])*?)\*/\n(?:u?int\d+_t) s2u_(\w+)\([^()]*\);")
STEPS = re.compile(r" ((?:N|Log n|N log n) steps\b[^.]*)\.")


class Argument(NamedTuple):
    """An argument: its name, what it consists of, whether it is a list, and whether it is written."""

    name: str
    kind: str
    is_list: bool
    is_written: bool

    @property
    def length(self):
        own = "room" if self.is_written and self.name != IN_PLACE else "n"
        return LENGTHS.get(self.name, own)

    @property
    def is_pointer(self):
        return self.is_list or self.is_written or self.kind not in C_TYPES

    @property
    def is_text(self):
        return self.is_list and self.name == "text"


class Call(NamedTuple):
    """An export: its name without s2u_, its arguments, its result, and whether it takes memory."""

    name: str
    arguments: list
    result: str
    takes_memory: bool

    @property
    def form(self):
        """The form that calls share which can be called in one loop."""
        return tuple(it[1:] for it in self.arguments), self.result

    @property
    def given(self):
        return [it for it in self.arguments if not it.is_written]

    @property
    def out(self):
        """The list that it makes, if it makes one."""
        return next((it for it in self.arguments if it.is_list and it.is_written), None)

    @property
    def answers_each(self):
        """Whether it answers each number of a list."""
        return self.arguments[-1:] != [] and self.arguments[-1].name == "bad"


class Status(NamedTuple):
    """A status: its name without S2U_, its number, and its text if it is a refusal."""

    name: str
    number: int
    text: str


class Said(NamedTuple):
    """The comment of the header on a call: a sentence, its steps, its result, the statuses with their reasons, its name
    in S2, and since when it is there."""

    sentence: str
    steps: str
    returns: str
    refusals: dict
    s2: str
    since: str


def snake(name):
    """The name in C of a structure."""
    return re.sub(r"(?<!^)(?=[A-Z])", "_", name).lower()


def text_of(path):
    return path.read_text(encoding="utf-8")


def argument_of(word):
    name, _, kind = word.strip().partition(": ")
    mode, bare = re.fullmatch(r"(&mut |&)?(.*)", kind).groups()
    is_list = bare.startswith("[")
    return Argument(name, bare.strip("[]"), is_list, mode == "&mut ")


def calls(top):
    """The exports, in the order of their names."""
    found = []
    for source in sorted(Path(top, SOURCES).glob("*.rt")):
        for name, words, result in EXPORT.findall(text_of(source)):
            arguments = [word for word in re.split(r",\s*", words.strip().rstrip(",")) if word]
            own = [word for word in arguments if word != "alloc: Global"]
            found.append(Call(name, [argument_of(word) for word in own], result, own != arguments))
    return sorted(found)


def said_in(comment):
    """The parts of a comment of the header; of the text before its tags the first sentence, which may have steps."""
    text, *tags = re.split(r"\s@(?=\w)", re.sub(r"\s*\n \* ?", " ", comment).strip())
    words = [tag.partition(" ") for tag in tags]
    found = {name: rest.strip() for name, _, rest in words}
    refused = [rest.strip().removeprefix("S2U_").partition(" ") for name, _, rest in words if name == "retval"]
    refusals = {name: why for name, _, why in refused}
    steps = STEPS.search(text)
    sentence = re.match(r"(?:\[pure\] )?(.*?\.)(?: |$)(?!g\.)", text)[1]
    s2 = next((f"{name} {rest}".strip() for name, _, rest in words if name.startswith("s2{")), "")
    s2 = re.sub(r"^s2\{(.*)\}", r"`\1`", s2)
    return Said(sentence, steps[1][0].lower() + steps[1][1:] if steps else "", found.get("return", ""), refusals, s2,
                found.get("since", ""))


def said(header):
    """The comment of the header on each call, by its name."""
    return {name: said_in(comment) for comment, name in SAID.findall(header)}


def statuses(header):
    enum = re.search(r"/\*\* The statuses\. \*/\nenum \{(.*?)\};", header, re.S)[1]
    texts = dict(re.findall(r'case S2U_(\w+): return "(.*?)";', header))
    return [Status(name, int(number), texts.get(name, "")) for name, number in re.findall(r"S2U_(\w+) = (-?\d+)", enum)]


class Fault(NamedTuple):
    """A fault of a shape: its name without S2U_FAULT_, its number, its text, and what the header says of it."""

    name: str
    number: int
    text: str
    says: str


def faults(header):
    """The faults of a shape, in the order of their numbers."""
    texts = dict(re.findall(r'case S2U_FAULT_(\w+):\s+return "(.*?)";', header))
    return [Fault(name, int(number), texts.get(name, ""), says)
            for name, number, says in re.findall(r"S2U_FAULT_(\w+) = (\d+),? +/\*\*< (.*?) \*/", header)]


def work_of_maps(header):
    """The work that coverings on the map may take if nothing else is asked for."""
    return 1 << int(re.search(r"#define S2U_MAP_WORK \(UINT64_C\(1\) << (\d+)\)", header)[1])


def limits(header):
    """The limits that are numbers, by their names without S2U_, and the names of those that are computed."""
    numbers = {name: int(number) for name, number in re.findall(r"#define S2U_(MOST_\w+) (\d+)\b", header)}
    return numbers, re.findall(r"#define S2U_(MOST_\w+)\(", header)


def constants(header, *names):
    """The statuses and limits with these names, or all refusals, as 'NAME = NUMBER'."""
    numbers = {status.name: status.number for status in statuses(header)} | limits(header)[0]
    refusals = [status.name for status in statuses(header) if status.text]
    return [f"{name} = {numbers[name]}" for name in names or refusals]


def is_of_polygon(call):
    return call.name.startswith("polygon_") or is_of_cover(call)


def is_of_shape(call):
    """Whether a call covers a shape as users write it, and tells its fault."""
    return any(it.kind == "ShapeFault" for it in call.arguments) and not is_of_reading(call)


def is_of_reading(call):
    """Whether a call reads a shape as users write it to lists."""
    return any(it.kind == "Ring" for it in call.arguments)


def is_of_cover(call):
    """Whether s2union_cover.h makes a call for all: it takes degrees, makes two coverings, or reads a shape."""
    return any(it.kind in ("f64", "Ring") or it.name == "inner_len" for it in call.arguments)
