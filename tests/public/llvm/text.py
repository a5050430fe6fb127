"""LLVM's text, as the library's source has it in src/s2union.ll: its functions with their instructions, its constant
tables and the ranges that loads name. A line that this doesn't know is an error with the file and the line."""
import re
from typing import NamedTuple

NAME = r"%[\w.]+"
VALUE = r"[^\s,]+"
TYPE = r"\{[^}]*\}|\[[^\]]*\]|\S+"
BINARY = "add|sub|mul|udiv|urem|and|or|xor|shl|lshr|ashr"
# Each form of an instruction, with the name of the method of the machine that runs it.
FORMS = [(name, re.compile(form)) for name, form in (
    ("alloca", rf"({NAME}) = alloca ({TYPE}), align (\d+)"),
    ("load", rf"({NAME}) = load ({TYPE}), ptr ({VALUE}), align (\d+)((?:, !(?:noundef|range) !\d+)*)"),
    ("store", rf"store ({TYPE}) ({VALUE}), ptr ({VALUE}), align (\d+)"),
    ("place", rf"({NAME}) = getelementptr (inbounds )?i8, ptr ({VALUE}), (i\d+) ({VALUE})"),
    ("convert", rf"({NAME}) = (zext|sext|trunc) (i\d+) ({VALUE}) to (i\d+)"),
    ("address", rf"({NAME}) = ptrtoint ptr ({VALUE}) to i64"),
    ("compare", rf"({NAME}) = icmp (\w+) (i\d+|ptr) ({VALUE}), ({VALUE})"),
    ("binary", rf"({NAME}) = ({BINARY}) (i\d+) ({VALUE}), ({VALUE})"),
    ("extract", rf"({NAME}) = extractvalue ({TYPE}) ({VALUE}), (\d+)"),
    ("insert", rf"({NAME}) = insertvalue ({TYPE}) ({VALUE}), (\S+) ({VALUE}), (\d+)"),
    ("call", rf"(?:({NAME}) = )?call (?:void|{TYPE}) @([\w.$]+)\((.*)\)"),
    ("jump", r"br label %([\w.]+)"),
    ("branch", rf"br i1 ({VALUE}), label %([\w.]+), label %([\w.]+)"),
    ("switch", rf"switch (i\d+) ({VALUE}), label %([\w.]+) \[(.*)\]"),
    ("give", rf"ret (void|(?:{TYPE}) {VALUE})"),
    ("never", r"(unreachable)"),
)]
CASE = re.compile(r"i\d+ (-?\d+), label %([\w.]+)")
FUNCTION = re.compile(r"define (.*?)@([\w.$]+)\((.*)\) (?:#\d+|nounwind) \{")
CONSTANT = re.compile(r'@([\w.]+) = private unnamed_addr constant \[(\d+) x i8\] (?:c"(.*)"|zeroinitializer), '
                      r"align (\d+)")
RANGE = re.compile(r"(!\d+) = !\{i(\d+) (-?\d+), i\d+ (-?\d+)\}")
# Lines outside functions that say nothing about what a function answers.
SILENT = re.compile(r"|;.*|declare .*|attributes .*|source_filename = .*|target .*|!\d+ = !\{(?:!\".*\")?\}|!llvm\..*")


class Unknown(Exception):
    """The text has a form that isn't known here."""


class Instruction(NamedTuple):
    """An instruction: its form, what the form's groups hold, and where it stands."""

    form: str
    parts: tuple
    line: int


class Function(NamedTuple):
    """A function: the names of its arguments, which of them have to be defined, and whether its answer has, and its
    blocks, by their labels."""

    parameters: list
    defined: list
    is_defined: bool
    blocks: dict


class Constant(NamedTuple):
    """A constant table: its bytes, and to what its address is aligned."""

    content: bytes
    align: int


class Text:
    """The text of a module. Functions are read when they are first asked for."""

    def __init__(self, path, content=None):
        self.path = path
        with open(path, encoding="utf-8") as it:
            self.lines = (content if content is not None else it.read()).split("\n")
        self.constants, self.ranges, self.heads, self.read = {}, {}, {}, {}
        at = 0
        while at < len(self.lines):
            at = self.outside(at)

    def unknown(self, line):
        return Unknown(f"{self.path}:{line + 1}: not known: {self.lines[line].strip()}")

    def outside(self, at):
        """Reads what begins at a line outside functions; the line after it."""
        line = self.lines[at]
        if found := FUNCTION.fullmatch(line):
            end = self.lines.index("}", at)
            self.heads[found[2]] = (found[1], found[3], at, end)
            return end + 1
        if found := CONSTANT.fullmatch(line):
            content = bytes(int(found[2])) if found[3] is None else bytes_of(found[3])
            if len(content) != int(found[2]):
                raise self.unknown(at)
            self.constants[found[1]] = Constant(content, int(found[4]))
        elif found := RANGE.fullmatch(line):
            self.ranges[found[1]] = (int(found[3]), int(found[4]))
        elif not SILENT.fullmatch(line):
            raise self.unknown(at)
        return at + 1

    def function(self, name):
        """The function with this name."""
        if name not in self.heads:
            raise Unknown(f"{self.path}: no function {name}")
        if name not in self.read:
            marks, arguments, begin, end = self.heads[name]
            arguments = [argument for argument in arguments.split(",") if argument]
            names = [re.findall(NAME, argument)[-1] for argument in arguments]
            defined = ["noundef" in argument for argument in arguments]
            self.read[name] = Function(names, defined, "noundef" in marks, self.blocks(begin + 1, end))
        return self.read[name]

    def blocks(self, at, end):
        """The blocks in these lines, the first one first; LLVM leaves its label out at times."""
        blocks = {"": (block := [])}
        while at < end:
            line = self.lines[at].split(" ; ")[0].strip()
            begin = at
            if line.startswith("switch") and line.endswith("["):
                while not line.endswith("]"):
                    at += 1
                    line += " " + self.lines[at].strip()
            if found := re.fullmatch(r"([\w.]+):(?: +;.*)?", line):
                block = blocks[found[1]] = []
            elif line:
                block.append(self.instruction(line, begin))
            at += 1
        return {label: block for label, block in blocks.items() if block}

    def instruction(self, line, at):
        for name, form in FORMS:
            if found := form.fullmatch(line):
                return Instruction(name, found.groups(), at + 1)
        raise self.unknown(at)

    def reached(self, name, known=None):
        """The names of the function and of all that it calls, as far as the text has them."""
        known = [] if known is None else known
        if name in self.heads and name not in known:
            known.append(name)
            for block in self.function(name).blocks.values():
                for instruction in block:
                    if instruction.form == "call":
                        self.reached(instruction.parts[1], known)
        return known


def plain_name(name):
    """The name of a function without what the compiler adds to it for the types that it is made for."""
    return re.sub(r"_[0-9a-f]{16}$", "", name)


def bytes_of(text):
    """The bytes that LLVM writes as characters, a backslash twice, or as a backslash with two hexadecimal digits."""
    return bytes(int(word[1:], 16) if len(word) == 3 else ord(word[0])
                 for word in re.findall(r"\\[0-9A-F]{2}|\\\\|[^\\]", text))


def arguments_of(text):
    """The arguments of a call, each as its type and its value."""
    words = [word.split() for word in re.split(r", (?![^{]*\})", text) if word]
    return [(" ".join(word[:-1]), word[-1]) for word in words]


def width(name):
    """The bits of an integer's type."""
    return int(name[1:])


def size_of(name):
    """The bytes of a type."""
    if name == "ptr":
        return 8
    if re.fullmatch(r"i\d+", name):
        return max(1, width(name) // 8)
    if found := re.fullmatch(r"\[(\d+) x (.*)\]", name):
        return int(found[1]) * size_of(found[2])
    if name.startswith("{"):
        return fields_of(name)[1]
    raise Unknown(f"the type {name}")


def fields_of(name):
    """The fields of a structure's type, each as (offset, type), and the bytes of the type."""
    at, most, fields = 0, 1, []
    for field in re.findall(r"[^\s,{}]+", name):
        size = size_of(field)
        at = (at + size - 1) // size * size
        fields.append((at, field))
        at, most = at + size, max(most, size)
    return fields, (at + most - 1) // most * most
