"""The calls of s2union.h as functions of Python, in C (calls.h), with their types (_library.pyi) and the room that what
each makes is first given (_rooms.py). Functions that _library.c has by hand stay there.
"""
import re
from pathlib import Path

from declared import C_TYPES, HEADER, IN_PLACE, calls, faults, is_of_cover, is_of_shape, limits, snake, statuses
from declared import text_of
from layout import filled, folded
from rooms import FIRST_ROOMS, room_in, room_lengths

LIBRARY = "bindings/python/s2union/_library.c"

RENAMED = {"next": "next_cell", "prev": "previous_cell", "range": "range_"}  # what a name of Python would hide
# What a number is called in a refusal, with the least and the most that it may be. The others of 64 bits are cells.
PLACE = ("a place", "0", "UINT64_MAX")
COORDINATE = ("0", "LAST_PLACE")
NUMBERS = {"level": ("a level", "0", "30"), "min": ("a level", "0", "30"), "modulus": ("a modulus", "1", "3"),
           "child": ("a child's number", "0", "3"), "face": ("a face", "0", "5"), "i": ("i", *COORDINATE),
           "j": ("j", *COORDINATE), "most": ("most", "0", "INT64_MAX"), "k": PLACE,
           "least": ("a level", "0", "30"), "deepest": ("a level", "0", "30"),
           "margin": ("a margin", "0", "UINT64_C(1152921504606846976)"),
           "cells": ("a number of cells", "0", "INT64_MAX"), "work": ("work", "0", "UINT64_MAX")}
QUESTION = re.compile(r"^(?:file_)?(?:is_|contains|intersects)|^cell_(?:contains|intersects)")  # answered by yes or no
SEARCHES = {"contains_cell", "intersects_cell"}  # so short that they keep the interpreter's lock


class Function:
    """A function of Python that makes a call of the library: the words that it takes, and its text in C."""

    def __init__(self, call):
        self.call = call
        self.name = RENAMED.get(call.name, call.name)
        self.given = [it for it in call.arguments if not it.is_written]
        self.written = [it for it in call.arguments if it.is_written]
        self.lists = [it for it in self.given if it.is_list]
        self.cells = [it.name for it in self.given if it.kind == "u64" and not it.is_list and it.name not in NUMBERS]
        self.out = next((it for it in self.written if it.is_list), None)
        self.last = self.written[-1].name if self.written else ""
        self.reads_shape = is_of_shape(call)
        self.makes_list = self.out is not None and (self.last == "len" or self.reads_shape)
        self.makes_entries = self.out is not None and self.last == "bad"
        self.takes = (["what", "room"] if self.makes_list else []) + [it.name for it in self.given]

    @property
    def is_regular(self):
        """Whether its arguments say all that there is to say. A text, and what is no number, are read by hand, if they
        don't stand for a shape."""
        if self.reads_shape:
            return True
        numbers = all(it.kind in C_TYPES for it in self.written)
        lone = len(self.written) < 2 or (len(self.written) == 2 and (self.makes_list or self.makes_entries))
        is_text = any(it.is_text for it in self.given) or (self.makes_list and self.out.is_text)
        return numbers and lone and not is_text and not any(it.is_list and it.name == IN_PLACE for it in self.written)

    @property
    def kind(self):
        return {0: "METH_NOARGS", 1: "METH_O"}.get(len(self.takes), "METH_VARARGS")

    def word(self, name):
        return "words" if len(self.takes) == 1 else f"WORD({self.takes.index(name)})"

    def taken(self, argument):
        """The check of an argument that is given."""
        word = self.word(argument.name)
        if argument.is_list:
            kind = "parts" if argument is self.parts else "list"
            return f"as_{kind}({word}, sizeof({c_element(argument)}), &{argument.name})"
        if argument.kind not in C_TYPES:
            return f"as_{snake(argument.kind)}({word}, &{argument.name})"
        if argument.name in self.cells:
            return f"as_cell({word}, &{argument.name})"
        what, least, most = NUMBERS[argument.name]
        return f'as_number({word}, "{what}", {least}, {most}, &{argument.name})'

    def passed(self):
        for it in self.call.arguments:
            if it.is_list and it.is_written:
                yield from (f"(void*)(at + {self.parts.name}.done * unit)", f"{self.parts.name}.n{self.width}") \
                    if self.makes_entries else ("out.at", "out.n")
            elif it is self.parts:
                yield from (f"(void*){it.name}.at", f"{it.name}.n")
            elif it.is_list:
                yield from (f"{it.name}.at", f"{it.name}.n")
            elif self.makes_entries and it.is_written:
                yield f"&{self.parts.name}.bad"
            elif it.is_written or it.kind not in C_TYPES:
                yield f"&{it.name}"
            else:
                yield it.name if it.kind == "u64" else f"({C_TYPES[it.kind]}){it.name}"

    @property
    def parts(self):
        """The list each of whose numbers has an entry."""
        return self.lists[-1] if self.makes_entries else None

    @property
    def width(self):
        """How often more elements there are than entries."""
        return " * S2U_MOST_TOKEN" if self.out.name == "text" else ""

    def declared(self):
        kinds = {}
        for it in self.given:
            kind = f"s2u_{snake(it.kind)}" if it.kind not in C_TYPES else "uint64_t"
            kind = kind if not it.is_list else "HELD Parts" if it is self.parts else "HELD List"
            kinds.setdefault(kind, []).append(f"{it.name} = {{0}}" if it.is_list else it.name)
        for it in self.written:
            if not it.is_list and not self.makes_entries:
                kinds.setdefault(c_element(it), []).append(f"{it.name} = {'0' if it.kind in C_TYPES else '{0}'}")
        if self.makes_list:
            kinds.setdefault("uint64_t", []).append("room")
            kinds["Room"] = ["out"]
        return [f"  {kind} {', '.join(names)};" for kind, names in kinds.items()]

    def checked(self):
        checks = [f"has(words, {len(self.takes)})"] if len(self.takes) > 1 else []
        # Numbers first, since an __index__ runs what it likes, and lists must stay from when they are looked at.
        numbers = [it for it in self.given if not it.is_list]
        beside = [it for it in numbers if it.name in NUMBERS] if self.cells and not self.lists else []
        checks += [self.taken(it) for it in numbers if it not in beside]
        if self.makes_list:
            checks.append('as_number(WORD(1), "room", 0, UINT64_MAX, &room)')
        checks += [self.taken(it) for it in self.lists]
        if self.makes_list:
            checks.append(f"take(&out, room, sizeof({c_element(self.out)}))")
        if not checks:
            return ["  (void)words;"]
        lines = filled("  if (", [f"!{check}" for check in checks], " || ", ")", "      ")
        lines[-1] += " return NULL;" if len(lines) == 1 else "\n    return NULL;"
        return lines + [f"  if (!{self.taken(it)}) return refused_beside(module, {self.cells[0]});" for it in beside]

    def body(self):
        call = f"LIBRARY({self.call.name})({', '.join(self.passed())})"
        count = str(len(self.cells))
        cells = f"(uint64_t[]){{{', '.join(self.cells)}}}" if self.cells else "NULL"
        keeps_lock = self.call.name in SEARCHES or not self.lists and not self.makes_list
        if not self.written and keeps_lock:
            return [f"  return {self.answered(call, cells, count)};"]
        if keeps_lock and not self.makes_list:
            return [f"  int32_t status = {call};", f"  return written(status, {self.last});"]
        assigned = f"status = {call}" if self.written else f"answer = {call}"
        done = f"    {assigned};" if keeps_lock else f"    UNLOCKED({assigned});"
        if self.makes_list and not keeps_lock:
            done = f"    CANCELLABLE(status, {call});"
        if not self.written:
            kind = C_TYPES[self.call.result]
            return [f"  {kind} answer;", done[2:], f"  return {self.answered('answer', cells, count)};"]
        if self.makes_entries:
            name = self.parts.name
            return [f"  size_t unit = sizeof({c_element(self.out)}){self.width};", "  int32_t status = S2U_OK;",
                    f"  PyObject* entries = entries_of(&{name}, unit);", "  if (!entries) return NULL;",
                    "  char* at = PyByteArray_AsString(entries);",
                    f"  UNLOCKED(while (has_part(&{name})) {assigned});",
                    f"  return entered(status, entries, &{name});"]
        if self.makes_list:
            made = "both_of(status, &out, len, outer, &fault, WORD(0))" if self.reads_shape else \
                f"listed(module, status, &out, len, WORD(0), {cells}, {count})"
            return ["  int32_t status;", "  do {", done, "  } while (is_larger_now(status, &out, len));",
                    f"  return {made};"]
        return ["  int32_t status;", done[2:], f"  return written(status, {self.last});"]

    def answered(self, call, cells, count):
        if self.call.result == "u32":
            return f"PyLong_FromUnsignedLong({call})"
        if self.call.result == "u64":
            return f"PyLong_FromUnsignedLongLong({call})" if self.lists else f"found(module, {call}, {cells}, {count})"
        if self.call.name == "compare":
            return f"PyLong_FromLong({call})"
        return f"{'asked' if QUESTION.match(self.call.name) else 'counted'}(module, {call}, {cells}, {count})"

    def text(self):
        head = f"static PyObject* py_{self.name}(PyObject* module, PyObject* words) {{"
        lines = [head, *self.declared(), *self.checked(), *self.body(), "}"]
        return [part for line in lines for part in folded(line)]


def c_element(argument):
    return C_TYPES.get(argument.kind, f"s2u_{snake(argument.kind)}")


def numbers(header):
    """The names of the numbers that the module has: the statuses, the limits, and the work of maps."""
    return [*(status.name for status in statuses(header)), *limits(header)[0], "MAP_WORK"]


def by_hand_in(text):
    """The functions of the module that are written by hand, with how they take their words."""
    kinds = {"given": "METH_O", "words": "METH_VARARGS"}
    return {name: kinds[words] for name, words in
            re.findall(r"^static PyObject\* py_(\w+)\(PyObject\* module, PyObject\* (\w+)\)", text, re.M)}


def in_c(top):
    """calls.h, which _library.c includes."""
    table, header = calls(top), text_of(Path(top, HEADER))
    own = by_hand_in(text_of(Path(top, LIBRARY)))
    functions = [each for each in map(Function, table) if each.is_regular or each.name in own]
    texts = [function.text() for function in functions if function.name not in own]
    names = numbers(header)
    kinds = [f"X({each.name}, {own.get(each.name, each.kind)})" for each in functions]

    def of_names(name, words):
        lines = filled("  ", words, " ", "", "  ")
        return [f"#define {name}(X) \\", *(f"{line} \\" for line in lines[:-1]), lines[-1], ""]

    lines = ["/* The calls of s2union.h and the functions that make them. _library.c says what they take. */",
             *of_names("CALLS", [f"X({call.name})" for call in table]), *of_names("METHODS", kinds),
             *of_names("NUMBERS", [f"X({name})" for name in names]),
             *of_names("FAULTS", [f"X({fault.name})" for fault in faults(header)]),
             "typedef struct Calls {", "#define CALL(name) __typeof__(s2u_##name)* s2u_##name;", "  CALLS(CALL)",
             "} Calls;", "", "#define LIBRARY(name) ((Calls*)PyModule_GetState(module))->s2u_##name"]
    for text in texts:
        lines += ["", *text]
    return "\n".join(lines) + "\n"


# What functions that are written by hand take and answer; a list has the type of its bytes.
TYPES_BY_HAND = {
    "square_of": ("id: SupportsIndex", "tuple[int, int, int, int]"), "token": ("id: SupportsIndex", "str"),
    "debug": ("id: SupportsIndex", "str"), "from_token": ("text: Text", "int"), "from_debug": ("text: Text", "int"),
    "tokens": ("ids: List", "str"), "from_tokens": ("text: Text", "bytes"), "normalise": ("ids: List", "bytes"),
    "union_of_many": ("ids: List, ends: List", "bytes"),
    "cells_at": ("ids: List, cell: SupportsIndex", "tuple[int, int]"), "bits": ("id: SupportsIndex", "int"),
    "to_signed": ("id: SupportsIndex", "int"), "list_of": ("each: Iterable[SupportsIndex]", "bytes"),
    "leaf": ("longitude: object, latitude: object", "int"),
    "leaves": ("longitudes: List, latitudes: List", "bytearray"),
    "middles": ("ids: List", "bytearray"),
    **dict.fromkeys(("outline", "boundary"), ("ids: List", "tuple[bytes, bytes, bytes]")),
    "coverings": ("positions: List, rings: List, options: Options, which: int", "Covered"),
    "coverings_of_wkb": ("wkb: List, options: Options, which: int", "Covered"),
    "shape_of_geojson": ("text: List", "tuple[bytes, bytes]"),
    "coverings_of_circle": ("longitude: float, latitude: float, radius: float, options: Options, which: int",
                            "Covered"),
    "level_within": ("meters: float", "int"), "edge_neighbors": ("cell: SupportsIndex", "bytes"),
    **dict.fromkeys(("neighbors", "vertex_neighbors"), ("cell: SupportsIndex, level: SupportsIndex", "bytes")),
    "expanded": ("ids: List, level: SupportsIndex", "bytes"),
    "rect_bound": ("ids: List", "tuple[float, float, float, float]"),
    "zones": ("shapes: object", "object"),
    "pairs": ("zones: object, longitudes: List, latitudes: List, borders: SupportsIndex", "bytes"),
    "area": ("ids: List", "float"),
    "number": ("number: SupportsIndex, most: int, name: str", "int"), "refuse": ("status: int, what: str", "NoReturn"),
}


def types_of(function):
    """The types of what a function of Python takes and answers."""
    kinds = {"what": "str", "room": "int"}
    for it in function.given:
        kinds[it.name] = "List" if it.is_list else "SupportsIndex" if it.kind in C_TYPES else "Iterable[SupportsIndex]"
    if function.makes_list:
        answer = "tuple[bytes, bytes]" if function.reads_shape else "bytes"
    elif function.makes_entries:
        answer = "tuple[bytearray, int, int]"
    elif QUESTION.match(function.call.name) and not function.written:
        answer = "bool"
    else:
        has_none = function.call.result == "u64" and not function.lists and function.name in OPTIONAL
        answer = "int | None" if has_none else "int"
    return ", ".join(f"{name}: {kinds[name]}" for name in function.takes), answer


OPTIONAL = {"parent", "child", "next_cell", "previous_cell", "common_ancestor"}


def types(top):
    """_library.pyi."""
    table, header = calls(top), text_of(Path(top, HEADER))
    functions = [each for each in map(Function, table) if not is_of_cover(each.call)]
    found = {each.name: types_of(each) for each in functions} | TYPES_BY_HAND
    lines = ["# The types of _library.c.", "from __future__ import annotations", "",
             "from typing import Iterable, NoReturn, SupportsIndex, Tuple, Union", "",
             "List = Union[bytes, memoryview]", "Text = Union[str, bytes, bytearray]",
             "Options = Tuple[int, int, int, int, float]",
             "Covered = Union[Tuple[bytes, bytes], Tuple[int, int, int, str]]", ""]
    lines += [f"{name}: int" for name in numbers(header)]
    lines.append("")
    for name, (takes, answer) in sorted(found.items()):
        lines += folded(f"def {name}({', '.join(f'__{word}' for word in takes.split(', ') if word)}) -> {answer}: ...")
    return "\n".join(lines) + "\n"


def rooms(_):
    """_rooms.py."""
    lines = ['"""The room that what a call makes is first given, by the lengths of its lists."""']
    for name, room in FIRST_ROOMS.items():
        given = ", ".join(f"{length}: int" for length in room_lengths(room))
        lines += ["", "", f"def {RENAMED.get(name, name)}({given}) -> int:", f"    return {room_in('Python', room)}"]
    return "\n".join(lines) + "\n"
