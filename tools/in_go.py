"""The functions of Go on unions, files and rectangles that only forward: calls.go, with an example for each in
example_calls_test.go, and the questions of its tests. Those on one cell are Go's own, and stand by hand.
"""
import ast
import re

import languages
from rooms import FIRST_ROOMS, room_lengths

OF = {"CellUnion": ("cu", "ids"), "UnionFile": ("f", "file"), "Rect": ("rect", "")}
MADE = "out, room, length"
CALL = "func(out *C.uint64_t, room C.size_t, length *C.size_t) C.int32_t {"
LISTS_OF_TWO = "func(xs *C.uint64_t, nx C.size_t, ys *C.uint64_t, ny C.size_t,"
CALL_OF_EACH = "func(cells *C.uint64_t, m C.size_t, answers *C.uint8_t, bad *C.size_t) C.int32_t {"
LONGEST = 112  # characters of a line, with its tab
CORNERS = ("Face", "I0", "I1", "J0", "J1")
MOST = "10"  # cells of a covering in an example


def camel(name):
    return "".join(word.capitalize() for word in name.split("_"))


class Go(languages.Language):
    NAME, BETWEEN, NONE, SINCE = "go", "\n\n", "0", 0.2

    def has(self, method):
        """Whether it is made: it asks a union, a file or a rectangle, and answers by yes or no, by a number, by an
        answer to each cell, or by cells."""
        kinds = [it.kind for it in method.given]
        is_of_these = method.has_receiver or kinds[:1] == ["Rect"]
        out = method.call.out
        is_simple = method.is_question or (method.is_count and not self.is_refused(method)) or \
            (out and method.call.name in FIRST_ROOMS and out.kind == "u64") or \
            (method.call.answers_each and out.name == "answers")
        return super().has(method) and bool(is_of_these and is_simple)

    def owner(self, method):
        return "UnionFile" if method.is_of_file else "Rect" if method.given[0].kind == "Rect" else "CellUnion"

    def is_function(self, method):
        """Whether it is a function of unions, which makes one."""
        return method.makes_union and all(it.is_list and it.kind == "u64" for it in method.given)

    def name_of(self, method):
        own = method.own(self.NAME).get("name") or \
            re.sub(r"Cell(s?)$", r"CellID\1", camel(method.call.name.removeprefix("file_")))
        return ("CellUnionFrom" if self.is_function(method) else "") + own

    def is_refused(self, method):
        return method.call.answers_each or bool({"ARGUMENT", "MANY"} & set(method.said.refusals))

    def parameters(self, method):
        """The other arguments, each with its type and the words that pass it."""
        for it in method.given[1:]:
            if it.is_list and it.name == "ys":
                yield "other", self.owner(method), "ys, ny"
            elif it.is_list:
                yield "ids", "...CellID", "cells, m"
            elif it.kind == "Rect":
                yield "rect", "Rect", "&corners"
            elif it.kind == "u64":
                yield "id", "CellID", "C.uint64_t(id)"
            else:
                yield it.name, "int", f"atLeastZero({it.name})" if it.name == "most" else f"narrowed({it.name})"

    def result(self, method):
        if method.call.answers_each:
            return "([]bool, error)"
        if method.call.out:
            made = "CellUnion" if method.makes_union else "[]CellID"
            return f"({made}, error)" if self.is_refused(method) else made
        return "bool" if method.is_question else "int64"

    def body(self, method):
        """The lines of its body, without their indent."""
        name, (of, field) = method.call.name, OF[self.owner(method)]
        of = "x" if self.is_function(method) else of
        pointer = "pointerToBytes" if method.is_of_file else "pointerTo"
        given = [passed for _, _, passed in self.parameters(method)]
        has_two = "ys, ny" in given
        if self.is_function(method) and has_two:
            return [f"return x.with(y, roomOf{camel(name)}, {LISTS_OF_TWO}", "\t" + CALL.removeprefix("func("),
                    f"\treturn C.s2u_{name}(xs, nx, ys, ny, {MADE})", "})"]
        at = "xs, nx" if has_two else "at, n"
        lines = [f"{at} := {pointer}({of}.{field})"] if field else []
        lines += [f"ys, ny := {pointer}(other.{field})"] if has_two else []
        lines += ["corners := rect.corners()"] if "&corners" in given or not field else []
        call = ", ".join([at if field else "&corners", *given])
        if method.call.answers_each:
            return [*lines, f"return asked(ids, {CALL_OF_EACH}", f"\treturn C.s2u_{name}({call}, answers, m, bad)",
                    "})"]
        if method.call.out:
            room = f"roomOf{camel(name)}({f'len({of}.{field})' if room_lengths(FIRST_ROOMS[name]) else ''})"
            is_sure = not self.is_refused(method)
            head = f"return {'always(' * is_sure}{'made' if method.makes_union else 'listed'}("
            if len(head + room + CALL) > LONGEST:
                lines, room = [*lines, f"most := {room}"], "most"
            return [*lines, f"{head}{room}, {CALL}", f"\treturn C.s2u_{name}({call}, {MADE})",
                    "})" + ")" * is_sure]
        if method.written:
            return [*lines, "var found C.uint64_t", f"answer(C.s2u_{name}({call}, &found))", "return int64(found)"]
        asked = f"C.s2u_{name}({call})"
        return [*lines, f"return answer({asked})" if method.is_question else f"return int64({asked})"]

    # ---- comments

    def code(self, word):
        return word

    def errors(self, method):
        """The errors that its result has, each with when it comes."""
        if method.call.answers_each:
            yield "A PlaceError has the place of the first number that is no cell."
        elif self.is_refused(method):
            for name in [name for name in method.said.refusals if name != "ROOM"]:
                why = method.general[self.NAME].get(name) or method.row.get(name) or method.said.refusals[name]
                yield f"Err{name.capitalize()}: {why}."

    def sentence(self, methods, method):
        """Of a function of two unions that of the header, which calls them xs and ys."""
        steps = f" It takes {method.said.steps}." if method.said.steps else ""
        said = re.sub(r"\b([xy])s\b", r"\1", method.said.sentence) + steps if self.is_function(method) else \
            super().sentence(methods, method)
        return said[0].lower() + said[1:]

    def comment(self, methods, method, *_):
        kind = "the union of " if method.makes_union else "a new list of " if method.call.out and \
            not method.call.answers_each else ""
        more = [f"{name} is {self.argument(methods, method, name)}." for name, kind_of, _ in self.parameters(method)
                if kind_of == "int"]
        if method.is_count:
            more.append(f"It is {self.returns(methods, method)}.")
        said = f"{self.name_of(method)} is {kind}{self.sentence(methods, method)}"
        text = " ".join([said, *more, *self.errors(method), f"Since {self.since(method)}."])
        return self.lines(text, "// ")

    def whole(self, methods, method, *_):
        taken = list(self.parameters(method))
        words = ", ".join(f"{name} {kind}" for name, kind, _ in taken).replace("level int, most int", "level, most int")
        of = OF[self.owner(method)][0]
        head = f"func ({of} {self.owner(method)}) {self.name_of(method)}({words}) {self.result(method)} {{"
        if self.is_function(method):
            given = "x, y" if len(method.given) == 2 else "x"
            head = f"func {self.name_of(method)}({given} CellUnion) {self.result(method)} {{"
        return [*self.comment(methods, method), head, *("\t" + line for line in self.body(method)), "}"]

    # ---- examples

    def example(self, methods, method, *_):
        """A function that shows what a method answers."""
        shown = Shown(self, methods)
        own = method.own(self.NAME).get("shows", {})
        lines, output = shown.printed(method)
        more = own.get("lines", "").strip("\n")
        lines += (more.replace("union.", "file.") if method.is_of_file else more).splitlines()
        output = [output, *own.get("output", "").strip("\n").splitlines()]
        name = f"{'' if self.is_function(method) else self.owner(method) + '_'}{self.name_of(method)}"
        said = [f"// Output: {output[0]}"] if len(output) == 1 else ["// Output:", *(f"// {line}" for line in output)]
        return [f"func Example{name}() {{", *("\t" + line for line in [*lines, *said]), "}"]

    # ---- the questions of the tests

    def question(self, _, method, *__):
        given = []
        for it, field, place in languages.fields(method):
            form = "rect" if it.kind == "Rect" else languages.form_of(method, it)
            more = "..." if form == "cells" else ""
            given.append(f"g.numbers({field})[{place or 0}]" if form == "number" else f"g.{form}({field}){more}")
        given += ["most"] if any(it.name == "most" for it in method.given) else []
        of = "s2union" if self.is_function(method) else given.pop(0)
        answer = f"{of}.{self.name_of(method)}({', '.join(given)})"
        return [f'\t{{"{method.question}", func(g given) string {{ return shown({answer}) }}}},']


class Shown(languages.Expression):
    """An expression of the table in Go, and the lines before it that make what it asks."""

    def __init__(self, language, methods):
        super().__init__(language, methods)
        self.made = []

    def printed(self, method):
        """The lines that print what a method answers, and the answer."""
        tree, answer = ast.parse(method.example, mode="eval").body, method.answer
        if method.answers:
            own, answer = self.visit(tree.value), f"[{' '.join(str(it).lower() for it in method.answers)}] <nil>"
        elif isinstance(tree, ast.Compare):
            own = f"{self.visit(tree.left)} == {self.visit(tree.comparators[0]).replace(' ', '')}"
        elif isinstance(tree.func, ast.Attribute) and tree.func.attr == "join":  # of tokens
            own, answer = f"s2union.Tokens({self.visit(tree.args[0].args[0])})", f"[{answer}] <nil>"
        elif getattr(tree.func, "id", "") == "is_empty":
            self.made.append(f"covering, err := {self.visit(tree.args[0])}")
            return [*self.made, "fmt.Println(covering.Len(), err)"], "0 <nil>"
        else:
            own, answer = self.visit(tree), answer + " <nil>" * self.language.is_refused(method)
        return [*self.made, f"fmt.Println({own})"], answer

    def named(self, it, name):
        """What a method is given or asked of, which has lines before it under this name."""
        kind = it.func.id if isinstance(it, ast.Call) else type(it).__name__
        text = it.args[0].value if isinstance(it, ast.Call) else ""
        if kind == "file":
            file, bytes_of = ("other", "bytesOfY") if name == "y" else ("file", "bytes")
            self.made += [f'{name}, _ := s2union.CellUnionFromTokens("{text}")',
                          f"{bytes_of}, _ := {name}.MarshalBinary()", f"{file}, _ := s2union.NewUnionFile({bytes_of})"]
            return file
        if kind == "union":
            self.made.append(f'{name}, _ := s2union.CellUnionFromTokens("{text}")')
        elif kind == "cell":
            name = "cell"
            self.made.append(f'cell, _ := s2union.CellIDFromToken("{text}")')
        elif kind == "List":
            name = "cells..."
            tokens = " ".join(word.args[0].value for word in it.elts)
            self.made.append(f'cells, _ := s2union.CellIDsFromTokens("{tokens}")')
        elif kind == "Tuple":
            name = "edge"
            words = [self.visit(word).replace("(1 << 30) - 1", "1<<30 - 1") for word in it.elts]
            corners = ", ".join(f"{corner}: {word}" for corner, word in zip(CORNERS, words))
            self.made.append(f"edge := s2union.Rect{{{corners}}}")
        else:
            return self.visit(it)
        return name

    def visit_Call(self, it):
        is_method = isinstance(it.func, ast.Attribute)
        method = self.methods[it.func.attr if is_method else it.func.id]
        words = ([it.func.value] if is_method else []) + it.args
        has_two = len(words) == 2 and all(isinstance(word, ast.Call) and word.func.id in ("union", "file")
                                          for word in words)
        names = ["x", "y"] if has_two else ["union"] * len(words)
        given = [self.named(word, name) for word, name in zip(words, names)]
        given += [MOST] * any(arg.name == "most" for arg in method.given)
        of = "s2union" if self.language.is_function(method) else given.pop(0)
        return f"{of}.{self.language.name_of(method)}({', '.join(given)})"
