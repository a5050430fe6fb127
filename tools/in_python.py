"""The docstrings of Python: each stands in a function that is written by hand, whose arguments and result it tells."""
import ast
import re
import textwrap

import languages
from layout import folded
from python_calls import RENAMED

NAMES = {"next": "next_cell", "prev": "previous_cell", "cell_contains": "contains", "cell_intersects": "intersects",
         "square_of": "square", "range": "from_range", "encode": "to_bytes", "decode": "from_bytes",
         "token_fields": "tokens"}
ERRORS = {"NO_CELL": "NotACellError", "ARGUMENT": "OutOfRangeError", "MANY": "TooManyCellsError",
          "SHAPE": "ShapeError"}
CHANGED = "The bytes were changed since they were checked, and are no union file."
NO_MEMORY = "There is no memory for the result."
DEF = re.compile(r"^ *def \w+\((?:[^()]|\([^()]*\))*\)(?: -> .*)?:\n\Z", re.M)


def as_sentence(text):
    """A text as a sentence."""
    return text[:1].upper() + text[1:].rstrip(".") + "."


def kind_of(annotation):
    """A type, as docstrings write it."""
    kinds = {"SupportsIndex": "int", "Cells": "CellUnion, or cells", "Self": "CellUnion", "str | bytes": "str or bytes",
             "Any": "", "Bytes": "bytes, or a buffer without gaps",
             "str | Bytes": "str, bytes, or a buffer without gaps"}
    found = kinds.get(annotation, annotation.replace(" | ", " or "))
    return re.sub(r"^(list|tuple)\[(\w+).*\]$", r"\1 of \2", found)


def section(title, lines):
    return ["", title, "-" * len(title), *lines] if lines else []


class Python(languages.Language):
    NAME, NONE = "python", "None"
    JOINED = "{1}"
    MADE = {"cell": "from_token({})", "union": "CellUnion.from_tokens({})", "len": "len({})",
            "file": "UnionFile(CellUnion.from_tokens({}).to_bytes())"}
    READS_SHAPES, USUAL = True, {"work": "_library.MAP_WORK"}
    NO_POLYGON = ("""'{"type": "Polygon", "coordinates": []}'""", "bytes([0, 0, 0, 0, 6, 0, 0, 0, 0])")

    def name_of(self, method):
        own = self.name_of_reader(method, "rust")
        return own or NAMES.get(method.call.name, method.call.name.removeprefix("file_"))

    # ---- what is said

    def marked(self, _, text):
        """A text as Python writes its powers and what isn't there."""
        return re.sub(r"\b(\d+|\))\^(\d+|\()", r"\1**\2", text.replace("{none}", self.NONE))

    def sentence(self, methods, method):
        said = super().sentence(methods, method)
        return re.sub("^Its cells", "The cells of the union", said)  # numpydoc takes Its for a verb

    def parameters(self, methods, method, head):
        """The arguments of the function, each with its type and its sentence."""
        tree = ast.parse(textwrap.dedent(head) + "    pass").body[0]
        general, own = method.general["python"], method.own(self.NAME)
        for word in tree.args.args:
            if word.arg in ("self", "cls"):
                continue
            there = {"cell": "id", "number": "child"}.get(word.arg, word.arg)
            named = "file" if "other: UnionFile" in head else word.arg
            said = own.get(word.arg) or method.row.get(there) or general.get(named) or method.general["argument"][there]
            kind, _, text = said.rpartition(" : ")
            kind = kind or kind_of(ast.unparse(word.annotation)) + ", optional" * (word.arg in self.USUAL)
            yield word.arg, kind, as_sentence(self.marked(methods, text))

    def raises(self, methods, method, head):
        """The errors of the function, each with when it comes."""
        own, general = method.own(self.NAME), method.general["python"]
        found = {ERRORS[name]: why for name, why in method.errors() if name in ERRORS}
        if "NotACellError" in found and "NO_CELL" not in method.row:
            found["NotACellError"] = general["not_a_cell_of_many" if "cells: " in head else "not_a_cell"]
        if "other: Cells" in head:
            found |= {"NotACellError": general["not_a_cell_among"], "TypeError": general["no_int"]}
        if "other: UnionFile" in head:
            found["TypeError"] = general["no_file"]
        if method.is_of_file:
            found["UnionFileError"] = CHANGED
        if method.reads_shape or (method.call.out and method.call.arguments[-1].name == "len" and self.owner(method)):
            found["OutOfMemoryError"] = NO_MEMORY
        found |= own.get("raises", {})
        return {name: as_sentence(self.marked(methods, why)) for name, why in found.items() if why}

    def entries(self, method):
        """The sentence about entries, one for each cell; nothing of another result."""
        out, general = method.call.out, method.general["python"]
        if not method.call.answers_each:
            return ""
        return general["mask"] if out.name == "answers" else general["numbers" if out.kind == "u8" else "relatives"]

    def comment(self, methods, method, before):
        """The docstring of the function whose head is the last thing before it."""
        own, head = method.own(self.NAME), DEF.search(before)[0]
        indent = re.match(" *", head)[0] + " " * 4
        width = self.WIDTH - len(indent)

        def wrapped(text):
            return textwrap.wrap(text, width, initial_indent="    ", subsequent_indent="    ", break_on_hyphens=False)

        first = textwrap.wrap('"""' + self.sentence(methods, method), width, break_on_hyphens=False)
        given = [line for name, kind, text in self.parameters(methods, method, head)
                 for line in [f"{name} : {kind}", *wrapped(text)]]
        returned = ast.unparse(ast.parse(textwrap.dedent(head) + "    pass").body[0].returns)
        kind, _, text = own.get("returns", self.entries(method) or method.returns).rpartition(" : ")
        errors = [line for name, why in self.raises(methods, method, head).items() for line in [name, *wrapped(why)]]
        notes = [f"S2: {self.marked(methods, method.s2).replace('`', '``')}."] if own.get("s2", method.s2) else []
        said = [*first, "", f".. versionadded:: {own.get('since', method.said.since)}", *section("Parameters", given),
                *section("Returns", [kind or kind_of(returned), *wrapped(as_sentence(self.marked(methods, text)))]),
                *section("Raises", errors),
                *section("Notes", notes), *section("Examples", self.example(methods, method)), '"""']
        return [(indent + line).rstrip() for line in said]

    # ---- examples

    def shown(self, method, text):
        if method.call.answers_each:  # all entries, where others show one
            text = re.sub(r"\[\d\]$|\[\d\](?=\)$)", "", text)
        return f"{text}.tokens()" if method.makes_union else text

    def answer(self, method):
        """The answer as Python shows it."""
        answer = method.answer
        if method.answers:
            return repr(method.answers)
        if method.makes_union or method.example.startswith('" ".join('):
            return repr(answer.split())
        if answer in ("true", "false"):
            return answer.capitalize()
        return repr(answer) if re.match(r"token\(|debug\(", method.example) else answer

    def example(self, methods, method, *_):
        own = method.own(self.NAME).get("example")
        if own:
            return own.strip("\n").split("\n")
        if method.reads_shape:
            return [f">>> outer, inner = {self.name_of(method)}({self.asked_of_none(method)})",
                    ">>> len(outer), len(inner)", "(0, 0)"]
        tree = ast.parse(method.example, mode="eval").body
        return [f">>> {self.shown(method, languages.Expression(self, methods).visit(tree))}",
                method.own(self.NAME).get("answer") or self.answer(method)]

    # ---- methods that are made whole

    def whole(self, methods, method, *_):
        """A method of a union or a file, alone or with another one or a cell, that forwards to its call; or a function
        that reads a shape; nothing of another form."""
        if method.reads_shape:
            return self.of_shape(methods, method)
        call, (own, *others) = method.call, method.given or [None]
        if not method.has_receiver or call.answers_each or call.out and call.out.kind != "u64" or len(others) > 1 or \
                any(it.kind not in (own.kind, "u64") for it in others):
            return []
        of, kind = ("self._bytes", "UnionFile") if method.is_of_file else ("self._ids", "Cells")
        other = f"_wanted(UnionFile, other){of[4:]}" if method.is_of_file else f"_union_of(other){of[4:]}"
        words = [("other", kind, other) if it.is_list else ("cell", "SupportsIndex", "cell") for it in others]
        name = RENAMED.get(call.name, call.name)
        length, held = ("self._bytes.nbytes", f"_unchanging({of})") if method.is_of_file else ("len(self)", of)
        passed = ", ".join([of, *(it[2] for it in words)])
        result, answer = "bool" if method.is_question else "int", f"_library.{name}({passed})"
        if call.out and others:
            result, answer = "Self", f"self._with(_library.{name}, _union_of(other), _rooms.{name})"
        elif call.out:
            made = f'_library.{name}("", _rooms.{name}({length}), {held})'
            result, answer = ("Self", f"self._holding({made})") if method.makes_union else (
                "list[int]", f"_cells_in({made}).tolist()")
        given = ", ".join([f"self{': Self' * (result == 'Self')}", *(f"{it[0]}: {it[1]}" for it in words)])
        head = f"    def {self.name_of(method)}({given}) -> {result}:"
        return [head, *self.comment(methods, method, head + "\n"), f"        return {answer}", ""]

    def aliases(self, _, method, *__):
        """The name of a function that reads a shape, for those of the module; nothing of another one."""
        return [f'           "{self.name_of(method)}",'] if method.reads_shape else []

    def of_shape(self, methods, method):
        """A function that reads a shape."""
        name, (shape, *numbers) = method.call.name, method.given
        words = [f"{shape.name}: {'str | Bytes' if shape.is_text else 'Bytes'}"]
        words += [f"{it.name}: SupportsIndex{' = ' * (it.name in self.USUAL)}{self.USUAL.get(it.name, '')}"
                  for it in numbers]
        start = f"def {self.name_of(method)}("
        head = [f"{start}{', '.join(words[:-1])},", f"{' ' * len(start)}{words[-1]}) -> tuple[CellUnion, CellUnion]:"]
        said = ", ".join(f"{it.name} {{{it.name}}}" for it in numbers)
        read = f"_text_given({shape.name})" if shape.is_text else f"_unchanging(_bytes_in({shape.name}))"
        given = [f'f"{said}"', f"_rooms.{name}()", read, *(it.name for it in numbers)]
        body = folded(f"    return _both(_library.{name}({', '.join(given)}))")
        return [*head, *self.comment(methods, method, "\n".join([*head, ""])), *body, "", ""]
