"""The calls as functions of R: by .Call in C (calls.h), in R with their checks, and on the help page; and the questions
of its tests. R has the calls that are asked of whole lists or of files; package s2 has those of single cells.
"""
import ast
import re
from pathlib import Path

import declared
import languages
from declared import C_TYPES
from layout import WIDTH, filled, folded
from rooms import FIRST_ROOMS, room_in

CHECKS = {"cells": "cells_of", "bytes": "bytes_of", "text": "text_of", "cell": "cell_of", "number": "number_of"}
BEFORE_1_5 = {"normalise", "union", "intersection", "difference", "symmetric_difference", "contains", "intersects",
              "contains_cells", "intersects_cells", "tokens", "from_tokens", "encode", "decode", "file_contains_cells"}
IN_PLACE = {"normalise"}  # s2union.c has it by hand


class Called(languages.Expression):
    """An expression of the table in R, where a method is a function."""

    def visit_Call(self, it):
        name = it.func.attr if isinstance(it.func, ast.Attribute) else it.func.id
        words = ([it.func.value] if isinstance(it.func, ast.Attribute) else []) + it.args
        if name == "join":
            return f"as.character({self.visit(words[1].args[0])})"
        if isinstance(it.func, ast.Name) and name in self.language.MADE:
            return self.language.MADE[name].format(self.visit(words[0]))
        return f"{self.language.name_of(self.methods[name])}({', '.join(map(self.visit, words))})"


class R(languages.Language):
    NAME, NONE = "r", "NULL"
    SINCE = 1.5
    MADE = {"cell": "s2u_from_tokens({})", "union": "s2u_from_tokens({})", "len": "length({})",
            "file": "s2u_encode(s2u_from_tokens({}))"}
    RENAMED = {"ids": "x", "xs": "x", "ys": "y"}
    OF_FILES = {"xs": "bytes", "ys": "other"}

    def has(self, method):
        call = method.call
        if self.NAME in method.lacked_by or declared.is_of_shape(call):
            return declared.is_of_shape(call) and self.NAME not in method.lacked_by
        is_of_lists = method.is_of_union or method.is_of_file or method.makes_union or call.given[:1] and \
            call.given[0].is_text and call.out is not None
        asks_one = not method.makes_union and any(self.form(it) == "cell" for it in call.given)
        return bool(super().has(method) and is_of_lists) and not asks_one and method.written is None and \
            call.result == "i32" and not any(it.kind not in C_TYPES for it in call.given)

    def owner(self, method):
        return ""

    def name_of(self, method):
        return f"s2u_{method.call.name}"

    def named(self, method, it):
        return (self.OF_FILES if method.is_of_file else {}).get(it.name) or super().named(method, it)

    def form(self, it):
        """What an argument is in R."""
        if it.is_list:
            return "text" if it.is_text else "bytes" if it.kind == "u8" else "cells"
        return "cell" if it.kind == "u64" and it.name not in ("work", "k") else "number"

    def parameters(self, method):
        """The arguments, each with its name and what it is. No covering of a union has more cells than that."""
        for it in method.given:
            if it.name != "most" or declared.is_of_shape(method.call):
                yield self.named(method, it), self.form(it)
        yield from ((name, "number") for name in method.row.get("more", []))

    def usual(self, name, method):
        """What an argument is if it isn't given."""
        is_of_shape, is_few = declared.is_of_shape(method.call), method.call.name.endswith("_up_to")
        return {"most": "" if is_few else " = 1e6", "work": " = 2^28" if is_of_shape else ""}.get(name, "")

    def head(self, method):
        return ", ".join(f"{name}{self.usual(name, method)}" for name, _ in self.parameters(method))

    def whole(self, methods, method, *_):
        """The function."""
        name, is_of_shape = method.call.name, declared.is_of_shape(method.call)
        checks = [f"{'utf8_of' if is_of_shape and kind == 'text' else CHECKS[kind]}({word})"
                  for word, kind in self.parameters(method)]
        asked = f".Call({', '.join([f'C_{name}', *checks])})"
        made = method.call.out is not None and method.call.out.kind == "u64" or name in IN_PLACE
        wrapped = f"both_of({asked})" if is_of_shape else f"new_s2_cell({asked})" if made else asked
        line = f"s2u_{name} <- function({self.head(method)}) {wrapped}"
        return [line] if len(line) <= WIDTH else [line[:-len(wrapped) - 1], f"  {wrapped}"]

    # ---- in C

    def passed(self, method):
        """The words that pass the arguments to the call, and before them the lines that read its lists."""
        before, words = [], []
        is_free, is_of_shape = method.row.get("static"), declared.is_of_shape(method.call)
        for it in method.call.arguments:
            name, of = self.named(method, it), f"of_{self.named(method, it)}"
            if it.is_written:
                words.append("out, room" if it.is_list else f"&{it.name}")
            elif it.is_list and it.kind == "u64":
                before.append(f"list {of} = {'list_of' if is_free or it.name == 'cells' else 'region'}({name});")
                words.append(f"{of}.ids, {of}.n")
            elif it.is_list:
                is_file = method.is_of_file and not is_free
                before.append(f"raw {of} = {'file_of' if is_file else 'raw_of'}({name});")
                words.append(f"{'(const char*)' if it.is_text else ''}{of}.at, {of}.n")
            elif it.name == "most" and not is_of_shape:
                words.append(f"of_{self.named(method, method.given[0])}.n")
            else:
                words.append(f"{ {'cell': 'cell_in', 'number': 'count_in'}[self.form(it)] }({name})"
                             if it.kind == "u32" or not is_of_shape else f"whole_in({name})")
        return before, words

    def room(self, method):
        """The room that what it makes is first given; if the table says nothing, that of its list."""
        of = {it.length: f"of_{self.named(method, it)}.n" for it in method.given if it.is_list}
        return re.sub(r"\bn[xy]?\b", lambda it: of[it[0]], room_in("C", FIRST_ROOMS.get(method.call.name, "n")))

    def in_c(self, method):
        """The function that .Call asks."""
        call, (before, words) = method.call, self.passed(method)
        names = [name for name, _ in self.parameters(method)]
        head = f"static SEXP r_{call.name}({', '.join(f'SEXP {name}' for name in names)}) {{"
        if call.answers_each:
            of = self.named(method, method.given[0])
            at = "ids" if method.given[0].kind == "u64" else "at"
            return [f"ASKS({call.name})", head, f"  {before[0]}",
                    f"  return answers_of(ask_{call.name}, of_{of}.{at}, of_{of}.n, {names[1]});", "}"]
        asked = f"s2u_{call.name}({', '.join(words)})"
        if call.out is None:
            answer = f"answer({asked})" if method.is_question else f"Rf_ScalarInteger({asked})"
            return [head, *(f"  {line}" for line in before), f"  return {answer};", "}"]
        is_of_shape = declared.is_of_shape(call)
        kind = "char" if call.out.is_text else C_TYPES[call.out.kind]
        greatest = "INT_MAX" if call.out.is_text else "SIZE_MAX"
        most = "whole_in(most)" if "most" in method.row.get("more", []) else greatest
        made = "lists_in(out, outer, len)" if is_of_shape else \
            f"{'text_in' if call.out.is_text else 'raw_in' if call.out.kind == 'u8' else 'vector_of'}(out, len)"
        checked = f"check_shape(status, &fault, {int(method.given[0].is_text)})" if is_of_shape else \
            f"check(status, {'len' if method.given[0].is_text else '0'})"
        more = ["size_t outer;", "s2u_shape_fault fault;"] if is_of_shape else []
        fill = f"FILL({kind}, {self.room(method)}, {most}, {asked});"
        lines = [*before, *more, fill, f"{checked};", f"return {made};"]
        return [head, *(part for line in lines for part in folded(f"  {line}")), "}"]

    # ---- the questions of the tests, and the examples with their answers

    def question(self, _, method, *__):
        if declared.is_of_shape(method.call):  # as maps.R asks it
            return []
        given = []
        for it, field, place in languages.fields(method):
            form, own = languages.form_of(method, it), f"g[{field + 1}]"
            given.append(f"numbers({own})[{(place or 0) + 1}]" if form == "number" else f"{form}({own})")
        return [f'ask("{method.question}", function(g) {self.name_of(method)}({", ".join(given)}))']

    def example_of(self, methods, method):
        """An example and its answer."""
        own = method.own(self.NAME)
        tree = ast.parse(own.get("example") or method.example, mode="eval").body
        asked = own.get("asked") or Called(self, methods).visit(tree.value if method.answers else tree)
        if method.answers:
            return asked, f"c({', '.join(str(it).upper() for it in method.answers)})"
        answer = method.answer
        if method.makes_union or method.call.name in IN_PLACE:
            return f"s2u_tokens({asked})", f'"{answer}"'
        if asked.startswith("as.character("):
            return asked, f"c({', '.join(f'{chr(34)}{it}{chr(34)}' for it in answer.split())})"
        return asked, answer.upper() if answer in ("true", "false") else f'"{answer}"' if method.call.out and \
            method.call.out.is_text else answer

    def listed(self, words):
        tokens = " ".join(re.findall(r'"(\w+)"', words))
        return f's2u_from_tokens("{tokens}")'

    def examples(self, methods, method, *_):
        """In the tests an example beside its answer."""
        if "example" not in method.row and "example" not in method.own(self.NAME):
            return []
        asked, answer = self.example_of(methods, method)
        return filled("shows(", [asked, answer], ", ", ")", "      ")


class Help(R):
    """The page s2union.Rd."""

    def aliases(self, _, method, *__):
        return [f"\\alias{{{self.name_of(method)}}}"]

    def usage(self, _, method, *__):
        return [f"{self.name_of(method)}({self.head(method)})"]

    def code(self, word):
        return f"\\code{{{word}}}"

    def marked(self, methods, text):
        words = re.sub(r"\b(true|false)\b", lambda it: f"`{it[0].upper()}`", text)
        return super().marked(methods, words.replace("%", "\\%"))

    def sentence(self, methods, method):
        """Of two unions that of the header, which calls them xs and ys."""
        has_two = len([it for it in method.given if it.is_list]) == 2 and not method.call.answers_each
        said = method.said.sentence if has_two and not method.is_of_file else method.sentence
        also = method.row.get("also")
        return self.marked(methods, re.sub(r"\b([xy])s\b", r"`\1`", said) + (f" {also}" if also else ""))

    def values(self, methods, method, *_):
        """What a function returns, and its errors that not all have."""
        is_of_shape = declared.is_of_shape(method.call)
        returns = "a list of both, \\code{outer} and \\code{inner}" if is_of_shape else self.marked(
            methods, method.own(self.NAME).get("returns", method.returns))
        said = [self.sentence(methods, method), f"It returns {returns}."]
        said += [f"\\code{{S2U_{name}}}: {self.marked(methods, why)}." for name, why in method.errors()
                 if name in ("ARGUMENT", "MANY", "SHAPE")]
        said += [] if method.call.name in BEFORE_1_5 else [f"Since {self.since(method)}."]
        return self.lines(f"\\item{{\\code{{{self.name_of(method)}}}}}{{{' '.join(said)}}}", "")

    def arguments(self, methods, own, page):
        """The arguments that the page doesn't have by hand, each once."""
        by_hand = {word.strip() for words in re.findall(r"^\\item\{(.*?)\}", page, re.M) for word in words.split(",")}
        found = {}
        for method in own:
            named = {self.named(method, it): it.name for it in method.given}
            for name, _ in self.parameters(method):
                if name not in by_hand:
                    found.setdefault(name, self.marked(methods, method.row.get(named.get(name, name)) or
                                                       method.general["argument"][named.get(name, name)]))
        return [line for name, said in found.items() for line in self.lines(f"\\item{{{name}}}{{{said}.}}", "")]

    def examples(self, methods, method, *_):
        if "example" not in method.row or method.call.name in BEFORE_1_5:
            return []
        return [self.example_of(methods, method)[0]]


def in_c(top):
    """calls.h, which s2union.c includes."""
    import methods

    language, found = R(), methods.methods(top)
    own = [it for it in found.values() if language.has(it)]
    made = [it for it in own if it.call.name not in IN_PLACE]
    faults = declared.faults(declared.text_of(Path(top, declared.HEADER)))
    lines = ["/* The calls of s2union.h as functions of R, which s2union.c tells how. */", ""]
    lines += ["static const char* name_of_fault(size_t fault) {", "  switch (fault) {",
              *(f'    case {it.number}: return "S2U_FAULT_{it.name}";' for it in faults),
              "    default: return NULL;", "  }", "}"]
    for method in made:
        lines += ["", *language.in_c(method)]
    calls = [f"CALL({it.call.name}, {len(list(language.parameters(it)))})" for it in own]
    listed = filled("  ", calls, ", ", "", "  ")
    return "\n".join([*lines, "", "#define MADE_CALLS \\", *(f"{line} \\" for line in listed[:-1]), listed[-1], ""])
