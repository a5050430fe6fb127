"""The calls of s2union.h as safe functions of Rust over slices, with the statuses and the limits: calls.rs."""
import textwrap
from pathlib import Path

from declared import C_TYPES, HEADER, IN_PLACE, calls, faults, is_of_shape, limits, statuses, text_of, work_of_maps
from layout import WIDTH
from rooms import FIRST_ROOMS, room_in, room_lengths


OF_SHAPES = ["Place", "Ring", "ShapeFault"]  # structures that no caller sees


def argument_of(it):
    if it.is_list:
        is_made = it.is_written and it.name != IN_PLACE
        element = f"MaybeUninit<{it.kind}>" if is_made else it.kind
        return f"{it.name}: &{'mut ' if it.is_written else ''}[{element}]"
    return f"{it.name}: {'&mut ' if it.is_written else '&' if it.is_pointer else ''}{it.kind}"


def parts_of(it):
    """What an argument is among those of C: each with its name and type, and with the words that pass it."""
    if not it.is_list:
        return [(argument_of(it), it.name)]
    mode, call = ("mut", "as_mut_ptr()") if it.is_written else ("const", "as_ptr()")
    cast = ".cast()" if it.is_written and it.name != IN_PLACE else ""
    return [(f"{it.name}: *{mode} {it.kind}", f"{it.name}.{call}{cast}"),
            (f"{it.length}: usize", f"{it.name}.len()")]


def wrapped(head, words, tail, indent):
    """A list of words between parentheses, in one line if it fits, else with each word in its own."""
    line = f"{indent}{head}({', '.join(words)}){tail}"
    if len(line) <= WIDTH:
        return line
    return "\n".join([f"{indent}{head}(", *(f"{indent}    {word}," for word in words), f"{indent}){tail}"])


def unsafe(name, words):
    line = f"    unsafe {{ {name}({', '.join(words)}) }}"
    return [line] if len(line) <= WIDTH else ["    unsafe {", wrapped(name, words, "", "        "), "    }"]


def makers(table):
    """The calls that make a list, as a macro has them that defines each."""
    lines = ["", "/// The calls that make a list, with the room that it is first given: `$define!` takes them.",
             "macro_rules! makers {", "    ($define:ident) => {", "        $define! {"]
    for call in (call for call in table if call.name in FIRST_ROOMS and not is_of_shape(call)):
        given = [it for it in call.arguments if not it.is_written]
        lengths = {it.length: f"{it.name}.len()" for it in given if it.is_list}
        room = ", ".join(lengths[length] for length in room_lengths(FIRST_ROOMS[call.name]))
        made = next(it.kind for it in call.arguments if it.is_list and it.is_written)
        line = f"{call.name}({', '.join(map(argument_of, given))}) -> [{made}] in rooms::{call.name}({room});"
        lines += textwrap.wrap(line, WIDTH, initial_indent=" " * 12, subsequent_indent=" " * 16)
    return [*lines, "        }", "    };", "}", "pub(crate) use makers;"]


def fault_names(header):
    """The faults of a shape, as an enumeration with their texts."""
    own = [("".join(word.capitalize() for word in fault.name.split("_")), fault) for fault in faults(header)]
    lines = ["", "/// Why a text of GeoJSON, or bytes of WKB, are no shape of polygons. Since 1.5.",
             "#[derive(Clone, Copy, Debug, PartialEq, Eq, Hash)]", "#[non_exhaustive]", "pub enum FaultName {"]
    for name, fault in own:
        lines += [f"    /// {fault.says[0].upper()}{fault.says[1:]}.", f"    {name} = {fault.number},"]
    lines += ["    /// A fault of a later version of the library.", "    Other,", "}", "", "impl FaultName {",
              "    pub(crate) fn of(name: usize) -> FaultName {", "        match name {"]
    lines += [f"            {fault.number} => FaultName::{name}," for name, fault in own]
    lines += ["            _ => FaultName::Other,", "        }", "    }", "}", "",
              "impl std::fmt::Display for FaultName {",
              "    fn fmt(&self, f: &mut std::fmt::Formatter<'_>) -> std::fmt::Result {",
              "        f.write_str(match self {"]
    lines += [f'            FaultName::{name} => "{fault.text}",' for name, fault in own]
    return [*lines, '            FaultName::Other => "unknown fault",', "        })", "    }", "}"]


def whole(top):
    table, header = calls(top), text_of(Path(top, HEADER))
    numbers = limits(header)[0]
    kinds = sorted({it.kind for call in table for it in call.arguments} - {*C_TYPES, *OF_SHAPES})
    lines = ["//! The calls of s2union.h over slices, made of its exports. Every call is total: a pointer goes",
             "//! with the length of what it points to, and nothing else is asked of it. Lists that a call writes need",
             "//! hold nothing before.",
             "#![allow(dead_code)]", "", "use std::mem::MaybeUninit;", "",
             f"use crate::maps::{{{', '.join(OF_SHAPES)}}};", f"use crate::{{{', '.join(kinds)}}};", ""]
    for status in statuses(header):
        lines.append(f"pub const {status.name}: i32 = {status.number};")
    lines += [f"pub const {name}: usize = {number:_};" for name, number in numbers.items()]
    lines.append(f"pub const MAP_WORK: u64 = {work_of_maps(header)};")
    lines += fault_names(header)
    lines += ["", "/// The room that what a call makes is first given.", "pub mod rooms {"]
    for name, room in FIRST_ROOMS.items():
        given = ", ".join(f"{length}: usize" for length in room_lengths(room))
        lines.append(f"    pub fn {name}({given}) -> usize {{ {room_in('Rust', room)} }}")
    lines += ["}", *makers(table)]
    lines += ["", "/// What a refusal says.", "pub fn text(status: i32) -> &'static str {", "    match status {"]
    lines += [f'        {status.name} => "{status.text}",' for status in statuses(header) if status.text]
    lines += ['        _ => "unknown refusal",', "    }", "}", "", 'extern "C" {']
    for call in table:
        words = [part[0] for it in call.arguments for part in parts_of(it)]
        lines.append(wrapped(f"fn s2u_{call.name}", words, f" -> {call.result};", "    "))
    lines.append("}")
    for call in table:
        own = [argument_of(it) for it in call.arguments]
        passed = [part[1] for it in call.arguments for part in parts_of(it)]
        lines += ["", wrapped(f"pub fn {call.name}", own, f" -> {call.result} {{", ""),
                  "    // SAFETY: each list goes with its length, and what is written is borrowed alone.",
                  *unsafe(f"s2u_{call.name}", passed), "}"]
    return "\n".join(lines) + "\n"
