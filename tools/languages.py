"""What languages share as to the table of methods: names, texts, examples, and the questions of their tests."""
import ast
import re
import textwrap


def camel(name):
    return re.sub(r"_(.)", lambda it: it[1].upper(), name)


class Language:
    """A language: what it calls things, and how it writes what the table has. Each has a module of its own."""

    NAME, WIDTH, LONG, NONE, BETWEEN = "", 120, "", "none", "\n"
    SINCE = 1.1  # the first version with a package
    CUT = 2  # the spaces before the second line of an example
    JOINED = "{1}.join({0})"  # a list of texts, with a text between two
    MADE = {}  # what makes a cell, a union or a file of tokens
    RESULTS = {}  # the types of a union, cells, a text, bytes, and yes or no
    RENAMED = {}  # arguments that have another name than in the header
    READS_SHAPES = False  # whether what reads a shape is made, which else stands by hand
    USUAL = {}  # what arguments of that are, if they are left out
    NO_POLYGON = ("", "")  # a text and bytes of a shape without a polygon

    def has(self, method):
        """Whether it is made in the language."""
        return self.NAME not in method.lacked_by and (self.READS_SHAPES or not method.reads_shape)

    def owner(self, method):
        """The class that has a method, or nothing if the module has it."""
        if method.is_of_file:
            return "UnionFile"
        return "CellUnion" if (method.makes_union or method.has_receiver) and not method.reads_shape else ""

    def name_of(self, method):
        """The name of a method: its own one in the language or in both, or that of the call without its class."""
        own = method.own(self.NAME).get("name") or method.row.get("camel")
        return own or camel(re.sub("^(?:file|cell)_", "", method.call.name))

    def name_of_reader(self, method, other):
        """The name of what reads a shape, as in the other language if it has no other; nothing of another method."""
        return method.own(self.NAME).get("name") or (method.reads_shape and method.own(other).get("name"))

    def asked_of_none(self, method):
        """What an example asks of a call that reads a shape, if its row has no example: no polygon, at a level, and if
        that is asked for with many cells."""
        shape, *numbers = method.given
        needed = [it for it in numbers if it.name not in self.USUAL]
        return ", ".join([self.NO_POLYGON[not shape.is_text], *["6", "1000"][:len(needed)]])

    def named(self, method, it):
        """The name of an argument."""
        return method.own(self.NAME).get(it.name) or self.RENAMED.get(it.name, it.name)

    def usual_result(self, method):
        """The type of what it answers, if that is one of RESULTS."""
        out = method.call.out
        kind = "" if not out else ("union" if method.makes_union else "cells") if out.kind == "u64" else \
            "text" if out.is_text else "bytes"
        return self.RESULTS.get(kind or ("answer" if method.is_question else ""))

    def since(self, method):
        return method.own(self.NAME).get("since") or max(self.SINCE, float(method.said.since or 0))

    # ---- what is said

    def code(self, word):
        return f"`{word}`"

    def marked(self, methods, text):
        """A text whose words in `..` are told as the language does: the calls among them by the names of their
        methods."""
        return re.sub(r"`(.*?)`", lambda it: self.code(self.name_of(methods[it[1]]) if it[1] in methods else it[1]),
                      text.replace("{none}", self.NONE))

    def sentence(self, methods, method):
        """The header's sentence, which tells of the union by its name, with its steps and what the language adds; that
        of the row, if the header tells of what C alone has."""
        own, header = method.own(self.NAME), method.said.sentence
        is_of_c = re.search(r"s2u_|S2U_|\b[xy]s\b|\bids\b", header) or method.call.answers_each or \
            own.get("is_of_row", method.row.get("is_of_row"))
        said = own.get("says") or (method.row.get("says", header) if is_of_c else header)
        steps = f" It takes {method.said.steps}." if method.said.steps else ""
        also = own.get("also") or method.row.get("also")
        return self.marked(methods, said) + steps + (f" {also}" if also else "")

    def argument(self, methods, method, name):
        """The sentence on an argument, by its name in the language."""
        own = method.own(self.NAME).get(f"{name}_is")
        return self.marked(methods, own or method.argument(name, self.RENAMED, self.NAME))

    def returns(self, methods, method):
        return self.marked(methods, method.own(self.NAME).get("returns", method.returns))

    def lines(self, text, first, more=""):
        """A text in lines that begin with `first`, and all but the first of them also with `more`."""
        return textwrap.wrap(text, self.WIDTH, initial_indent=first, subsequent_indent=first + more,
                             break_on_hyphens=False, break_long_words=False)

    # ---- examples

    def listed(self, words):
        return f"[{words}]"

    def array(self, words):
        """A list that other arguments follow."""
        return words

    def compared(self, left, right):
        return f"{left} == {right}"

    def long(self, words):
        return words

    def called(self, method, given):
        own = self.owner(method)
        return f"{own}{'.' * bool(own)}{self.name_of(method)}({given})"

    def shown(self, _, text):
        """What is asked, as what is shown."""
        return text

    def answer(self, method):
        return method.answer

    def example(self, methods, method, indent):
        """The lines of an example, which is cut before the method if it is too long for one."""
        own = method.own(self.NAME)
        text = own.get("example") or self.shown(method, Expression(self, methods).visit(
            ast.parse(method.example, mode="eval").body))
        text += f" // {own.get('answer') or self.answer(method)}"
        if len(indent + text) <= self.WIDTH:
            return [indent + text]
        at = text.rfind(f".{self.name_of(method)}(")
        return [indent + text[:at], indent + " " * self.CUT + text[at:]]


class Expression(ast.NodeVisitor):
    """An expression of the table, as a language writes it that has words of C for it."""

    def __init__(self, language, methods):
        self.language = language
        self.methods = methods

    def visit_Constant(self, it):
        if isinstance(it.value, str):
            return f'"{it.value}"'
        return str(it.value) if it.value < 2 ** 31 else f"0x{it.value:016x}{self.language.LONG}"

    def visit_List(self, it):
        return self.language.listed(", ".join(map(self.visit, it.elts)))

    def visit_Tuple(self, it):
        return ", ".join(map(self.visit, it.elts))

    def visit_Subscript(self, it):
        return f"{self.visit(it.value)}[{self.visit(it.slice)}]"

    def visit_BinOp(self, it):
        sign = {ast.LShift: "<<", ast.Sub: "-"}[type(it.op)]
        left = f"({self.visit(it.left)})" if isinstance(it.left, ast.BinOp) else self.visit(it.left)
        return f"{left} {sign} {self.visit(it.right)}"

    def visit_Compare(self, it):
        own = self.visit(it.comparators[0])
        return self.language.compared(self.visit(it.left), own if isinstance(it.left, ast.Subscript) else
                                      self.language.long(own))

    def visit_Call(self, it):
        name = it.func.attr if isinstance(it.func, ast.Attribute) else it.func.id
        given = ", ".join(self.passed(word, len(it.args) == 1) for word in it.args)
        if isinstance(it.func, ast.Attribute):
            own = self.visit(it.func.value)
            if name == "join":
                return self.language.JOINED.format(own, given)
            method = self.methods.get(name)
            return f"{own}.{self.language.name_of(method) if method else camel(name)}({given})"
        if name in self.language.MADE:
            return self.language.MADE[name].format(given)
        return self.language.called(self.methods[name], given)

    def passed(self, word, is_alone):
        """An argument; Java makes an array of a list that others follow."""
        words = self.visit(word)
        return words if is_alone or not isinstance(word, ast.List) else self.language.array(words)


# ---- the questions of the tests


def fields(method):
    """Each argument with the field of a question that has it, and its place there: each list, cell and rectangle has a
    field, and other numbers share one; a level has its own."""
    field, shared = -1, 0
    for it in method.given:
        if it.name == "most":
            continue
        is_number = it.kind == "u32" and it.name != "level"
        if not (is_number and shared):
            field, shared = field + 1, 0
        yield it, field, shared if is_number else None
        shared += is_number


def form_of(method, it):
    """How a question has an argument."""
    is_free = method.row.get("static")
    if not it.is_list:
        return "cell" if it.kind == "u64" else "number"
    if it.is_text or it.kind == "u8":
        return "text" if it.is_text else "bytes" if is_free or not method.is_of_file else "file"
    return "union" if method.is_of_union and it.name != "cells" and not is_free else "cells"
