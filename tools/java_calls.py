"""The numbers of the calls of Java, for Calls.java and for s2union.c, and what makes each call there: calls.h."""
import re
from pathlib import Path

from declared import C_TYPES, HEADER, calls, constants, faults, is_of_polygon, is_of_shape, text_of, work_of_maps
from layout import filled
from rooms import FIRST_ROOMS, room_in

SOURCE = "bindings/java/s2union.c"

BY_JAVA_ITSELF = {"is_cell", "level", "face", "parent", "range_min", "range_max", "size", "cell_contains",
                  "cell_intersects"}  # what takes two instructions
NATIVES = {"from_face_ij", "square_of", "cells_at", "from_points"}  # s2union.c has one for each
IN_ANOTHER_FORM = {"normalise": "normalised(lists, len)", "union_of_many": "united(lists, len)"}
READS_ALL = {"is_union", "leaf_count", "denormalised_len", "file_check", "file_leaf_count"}


def of_java(table):
    """The calls that Java makes by one native, of which it has no polygons in whole numbers."""
    return [call for call in table if call.name not in BY_JAVA_ITSELF | NATIVES and not is_of_polygon(call)
            and not is_of_shape(call)]


def java_numbers(table, source):
    """The calls of the table and those of each switch of the source, as 'NAME = NUMBER': no two have one number."""
    number = 0
    switches = re.findall(r"switch \(call\) \{\n(.*?)\n +default:", source, re.S)
    for names in [[call.name.upper() for call in of_java(table)], *(re.findall(r"case (\w+):", it) for it in switches)]:
        yield [f"{name} = {number + place}" for place, name in enumerate(names)]
        number += len(names)


def java_case(call):
    """The text that makes a call of Java's lists, of which the last is written, two numbers and a rectangle."""
    if call.name in IN_ANOTHER_FORM:
        return IN_ANOTHER_FORM[call.name]
    numbers, lists, words = iter("ab"), iter("01"), []
    for it in call.arguments:
        if it.is_list:
            kind = "TEXT" if it.is_text else "BYTES" if it.kind == "u8" else "LIST"
            words.append(f"{kind}({'OUT' if it.is_written else next(lists)})")
        elif it.is_written:
            words.append("len" if it.kind == "usize" else "number")
        else:
            cast = "" if it.kind in ("u64", "Rect") else f"({C_TYPES[it.kind]})"
            words.append("rect" if it.kind == "Rect" else f"{cast}{next(numbers)}")
    return f"{'' if call.result == 'i32' else '(int64_t)'}s2u_{call.name}({', '.join(words)})"


JAVA_FORMS = ["", "/* Which lists of a call are bytes, of which the last is written, and when it ends soon: always, if",
              " * few cells are asked, or if one of two unions is short. */", "enum { OUT = 2, LISTS = 3 };",
              "enum { NEVER, SOON, SOON_IF_FEW, SOON_IF_ONE_IS_SHORT };",
              "typedef struct {", "  int is_bytes[LISTS], when;", "} form;"]


def java_form(call):
    """Which of Java's lists are bytes, and when a call ends soon, so that long lists aren't copied."""
    lists = [it for it in call.arguments if it.is_list]
    given = [it for it in lists if not it.is_written]
    kinds = [int(it.kind == "u8") for it in given[:2]]
    is_of_bytes = any(it.is_written and it.kind == "u8" for it in lists)
    when = "NEVER" if call.name in READS_ALL or not given else "SOON"
    if given != lists:
        is_soon = len(given) == 2 and call.name not in IN_ANOTHER_FORM
        soon = "SOON_IF_FEW" if call.arguments[-1].name == "bad" else "SOON_IF_ONE_IS_SHORT"
        when = soon if is_soon else "NEVER"
    return f"{{{{{', '.join(map(str, [*kinds, 0, 0][:2]))}, {int(is_of_bytes)}}}, {when}}}"


def java_rooms(table):
    """The cases of the room that what a call makes is first given, by the lengths of its lists."""
    known = {call.name for call in table if call in of_java(table) or is_of_shape(call)}
    for name, room in FIRST_ROOMS.items():
        if name in known:
            own = room_in("Java", room).replace("nx", "n").replace("ny", "m")
            yield f"      case {name.upper()}: return {own};"


def read(top):
    """The exports, the source in C, and the header."""
    return calls(top), text_of(Path(top, SOURCE)), text_of(Path(top, HEADER))


def in_java(top):
    """The numbers of the calls for Java: those of the table, and of each switch of the source, begin a line."""
    table, source, header = read(top)
    words = ", ".join(constants(header, "ROOM", "MEMORY", "MOST_TOKEN", "MOST_DEBUG"))
    lines = [f"  static final int {words};", f"  static final long MAP_WORK = {work_of_maps(header)}L;"]
    for numbers in java_numbers(table, source):
        lines += filled("  static final int ", numbers, ", ", ";", "      ")
    lines += ["  /** The room that what a call makes is first given, by the lengths of its lists. */",
              "  private static long roomOf(int call, long n, long m) {", "    switch (call) {", *java_rooms(table),
              "      default: throw new Refusal(Refusal.ARGUMENT, 0);", "    }", "  }"]
    return lines


def faults_in_java(top):
    """The faults of a shape, in the order of their numbers, each with its text."""
    for fault in faults(text_of(Path(top, HEADER))):
        yield f"    /** {fault.says[0].upper()}{fault.says[1:]}. */"
        yield f'    {fault.name}("{fault.text}"),'


def in_c(top):
    """The same numbers for the source itself, and what makes the calls of the table."""
    table, source, _ = read(top)
    lines = ["/* Made of the exports and of the cases of s2union.c, which includes it twice. */", "#ifndef LIST"]
    for numbers in java_numbers(table, source):
        lines += filled("enum { ", numbers, ", ", " };", "  ")
    lines += JAVA_FORMS + ["", f"static const form forms[{len(of_java(table))}] = {{"]
    forms = [(call.name.upper(), java_form(call)) for call in of_java(table)]
    lines += [f"  [{name}] = {form}," for name, form in forms if form != "{{0, 0, 0}, NEVER}"]
    head = "static int64_t called(jint call, const passed* lists, uint64_t a, uint64_t b, const s2u_rect* rect,"
    lines += ["};", "#else", head, "                      size_t* len, uint64_t* number) {", "  switch (call) {"]
    lines += [f"    case {call.name.upper()}: return {java_case(call)};" for call in of_java(table)]
    return "\n".join([*lines, "    default: return S2U_ARGUMENT;", "  }", "}", "#endif", ""])
