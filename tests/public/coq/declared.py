"""Types and constants of Rust as declarations of definitions: text(crates, name) is the module of a type, such as
Rattle.s2file.specs.declared.fault.FileFault, or of the constants of a file, or None if it is another module.

An enum is a data type, in which a variant with names has them in their order; a structure is a record of its fields, or
what its model says, if it has one; a number has no width; and a reference is a record whose field `now` is what it
leads to. Anything else is an error with the file."""
import re
from pathlib import Path

from antt import Bad

NAME = re.compile(r"Rattle\.(\w+)\.specs\.declared((?:\.[a-z_]+)*)\.(\w+)(?:\.TheVariants)?")
PLAIN = dict.fromkeys(("u8", "u16", "u32", "u64", "u128", "usize"), "ℕ") | {"bool": "Bool", "str": "(List ℕ)"}
PLAIN |= dict.fromkeys(("i8", "i16", "i32", "i64", "i128", "isize"), "ℤ")
# Types of Rust's library: how many arguments each has.
OF_STD = {"Option": 1, "Result": 2, "Vec": 1, "String": 0, "Global": 0, "GhostList": 1, "PhantomData": 1}
HEAD = r"^(?:pub(?:\(crate\))? )?(enum|struct|type) {name}\b(?:<([^>]*)>)?\s*([{{(;=])"
CONSTANT = re.compile(r"^(?:pub(?:\(crate\))? )?const (\w+): u(?:8|16|32|64|size) = (.*);$", re.M)
TEXT = re.compile(r'^(?:pub(?:\(crate\))? )?const (\w+): &str =\s+"((?:[^"\\]|\\.)*)";', re.M | re.S)
ARITHMETIC = re.compile(r"[\d() +*<-]+")
COMMENT = re.compile(r"^\s*//.*\n|^\s*#\[.*\]\n", re.M)
TYPE_USED = re.compile(r"^(?:pub )?use ((?:\w+::)+)(?:\{([^}]*)\}|(\w+(?: as \w+)?));", re.M)
GHOST_USED = re.compile(r"^\s*ghost use ([\w.]+)\.\{([^}]*)\};", re.M)
TOKEN = re.compile(r"\s*('\w+|[\w:]+|[&<>\[\](),;])")
PRELUDE = f"use Rattle.std.specs.Prelude.{{ℕ, ℤ, Bool, List, Bor, {', '.join(OF_STD)}}}\n"


def text(crates, name):
    found = NAME.fullmatch(name)
    if not found or not (Path(crates) / found[1]).is_dir():
        return None
    path = Path(crates) / found[1] / "src" / f"{found[2][1:].replace('.', '/') or 'lib'}.rt"
    if not path.is_file():
        return None
    if found[3] == "TheConstants":
        return constants(crates, path)
    return Declared(crates, found[1], path, found[3]).text()


def numbers(crates, path):
    """The constants of a file that are sums and products of numbers, also of those of other crates' first files."""
    source = path.read_text(encoding="utf-8")
    known, found = {}, {}
    for crate in {*re.findall(r"\b(\w+)::[A-Z]", source), *re.findall(r"^use (\w+)::", source, re.M)}:
        if (first := Path(crates) / crate / "src" / "lib.rt").is_file() and first != path:
            known |= numbers(crates, first)
    for name, written in CONSTANT.findall(source):
        for other, value in known.items():
            written = re.sub(rf"\b(?:\w+::)?{other}\b", str(value), written)
        written = re.sub(r" as \w+", "", written).replace("_", "")
        if ARITHMETIC.fullmatch(written):
            known[name] = found[name] = eval(written)  # digits and operators alone
    return found


def constants(crates, path):
    """The constants of a file that are numbers or texts."""
    found = numbers(crates, path)
    lines = [f"abbrev pub {name} : ℕ\n{name} = {value}\n" for name, value in found.items()]
    for name, written in TEXT.findall(path.read_text(encoding="utf-8")):
        letters = re.sub(r"\\\n\s*", "", written).replace("\n", "\\n")
        lines.append(f"abbrev pub {name} : Bor (List ℕ)\n{name} = record {{ now = \"{letters}\" }}\n")
    if not lines:
        raise Bad(f"{path}: no constant that is a number or a text")
    return PRELUDE + "".join(lines)


def closing(source, at):
    """Where the bracket closes that opens at a place."""
    depth = 0
    for end in range(at, len(source)):
        depth += (source[end] in "{([") - (source[end] in "})]")
        if depth == 0:
            return end
    raise Bad("no closing bracket")


def parts_of(body):
    """The pieces between commas outside of all brackets."""
    parts, depth = [""], 0
    for letter in body:
        depth += (letter in "{([<") - (letter in "})]>")
        if letter == "," and depth == 0:
            parts.append("")
        else:
            parts[-1] += letter
    return [part.strip() for part in parts if part.strip()]


class Declared:
    """A type of a file."""

    def __init__(self, crates, crate, path, name):
        self.crates, self.crate, self.path, self.name = Path(crates), crate, path, name
        self.source = COMMENT.sub("", path.read_text(encoding="utf-8"))
        self.uses = [PRELUDE]
        heads = list(re.finditer(HEAD.format(name=name), self.source, re.M))
        if len(heads) != 1:
            raise self.bad(f"the type {name} isn't known")
        self.head = heads[0]
        given = [each.strip() for each in (self.head[2] or "").split(",") if each.strip()]
        self.params = [each for each in given if not each.startswith("'")]

    def bad(self, what):
        return Bad(f"{self.path}: {what}")

    def text(self):
        if self.head[1] == "type":
            return self.of_type()
        model = re.search(rf"^impl(?:<[^{{]*>)? Model for {self.name}\b[^{{]*\{{", self.source, re.M)
        whole = self.of_model(model) if model else self.of_parts()
        return "".join(dict.fromkeys(self.uses)) + whole

    def of_type(self):
        """Another name of a type."""
        kind = self.kind(self.source[self.head.end():self.source.index(";", self.head.end())])
        return "".join(dict.fromkeys(self.uses)) + self.alias(kind)

    def alias(self, kind):
        """The type as another name of a type."""
        kinds = "".join("Type 0 → " for _ in self.params)
        return f"abbrev pub {self.name} : {kinds}Type 0\n{' '.join([self.name, *self.params])} = {kind}\n"

    def of_model(self, model):
        """The text of the model of a structure."""
        block = self.source[model.end() - 1:closing(self.source, model.end() - 1)]
        value = re.search(r"ghost Value = \{ (.*?) \};", block)
        if not value or any(":" in each for each in self.params):
            raise self.bad(f"the model of {self.name} isn't known")
        for used in (GHOST_USED.findall(block) or GHOST_USED.findall(self.source)):
            self.uses.append(f"use {used[0]}.{{{used[1]}}}\n")
        return self.alias(value[1])

    def of_parts(self):
        """A record of a structure's fields, or a data type of an enum's variants."""
        if any(":" in each for each in self.params):
            raise self.bad(f"{self.name} has a parameter of a trait")
        begin = self.head.end() - 1
        body = self.source[begin + 1:closing(self.source, begin)] if self.head[3] != ";" else ""
        params = f" ({' '.join(self.params)} : Type 0)" if self.params else ""
        is_enum = self.head[1] == "enum"
        if not is_enum and self.head[3] != "{":
            raise self.bad(f"{self.name} has no names for its fields")
        rows = map(self.variant if is_enum else self.field, parts_of(body))
        return f"pub {'data' if is_enum else 'record'} {self.name}{params} : Type 0 where\n" + "".join(rows)

    def field(self, part):
        found = re.fullmatch(r"(?:pub(?:\(crate\))? )?(\w+): (.*)", part, re.S)
        if not found:
            raise self.bad(f"{self.name}: not known: {part.partition(':')[0]}")
        return f"  pub {found[1]} : {self.kind(found[2])}\n"

    def variant(self, part):
        found = re.fullmatch(r"(\w+)\s*(?:\((.*)\)|\{(.*)\})?", part, re.S)
        if not found:
            raise self.bad(f"{self.name}: not known: {part}")
        kinds = [self.kind(each) for each in parts_of(found[2] or "")]
        kinds += [self.kind(each.partition(":")[2]) for each in parts_of(found[3] or "")]
        whole = " ".join([self.name, *self.params])
        return f"  {found[1]} : {' → '.join([*kinds, whole])}\n"

    # ---- types

    def kind(self, written):
        """A type of Rust as one of the definitions."""
        words = TOKEN.findall(written)
        found = self.kind_at(words)
        if words:
            raise self.bad(f"{self.name}: the type {written} isn't known")
        return found

    def kind_at(self, words):
        word = words.pop(0)
        if word == "&":
            if words[0].startswith("'"):
                words.pop(0)
            if words[0] == "mut":
                raise self.bad(f"{self.name}: a reference that may write")
            return f"(Bor {self.kind_at(words)})"
        if word == "[":
            found = f"(List {self.kind_at(words)})"
            self.want(words, "]")
            return found
        if word == "(":
            return f"({' × '.join(self.kinds_up_to(words, ')'))})"
        arguments = []
        if words and words[0] == "<":
            words.pop(0)
            arguments = self.kinds_up_to(words, ">")
        return self.named(word, arguments)

    def want(self, words, wanted):
        if not words or words.pop(0) != wanted:
            raise self.bad(f"{self.name}: a type without its {wanted}")

    def kinds_up_to(self, words, end):
        found = []
        while words and words[0] != end:
            if words[0].startswith("'"):
                words.pop(0)
            else:
                found.append(self.kind_at(words))
            if words and words[0] == ",":
                words.pop(0)
        self.want(words, end)
        return found

    def named(self, word, arguments):
        name = word.rpartition("::")[2]
        if name in PLAIN:
            return PLAIN[name]
        if name in self.params:
            return name
        if OF_STD.get(name) != len(arguments):
            name = self.other(word, name)
        return f"({' '.join([name, *arguments])})" if arguments else name

    def other(self, word, name):
        """A type of another file, or this one, which is then used."""
        crate, place, there = self.place_of(word, name)
        found = [path for path in sorted((self.crates / crate / "src").rglob("*.rt"))
                 if re.search(HEAD.format(name=there), path.read_text(encoding="utf-8"), re.M)]
        found = [path for path in found if path == self.path] or [path for path in found if path.stem == place] or found
        if len(found) != 1:
            raise self.bad(f"{self.name}: the type {name} isn't known")
        module = ".".join(found[0].relative_to(self.crates / crate / "src").with_suffix("").parts)
        known = f"{there}_of_{crate}" if there == self.name else there
        self.uses.append(f"use Rattle.{crate}.specs.declared.{module}.{there}.{{{there} as {known}}}\n")
        return known

    def place_of(self, word, name):
        """The crate, the file and the name there of a type, by the path before its name or by a line `use`."""
        path = word.split("::")[:-1]
        first = (self.crates / self.crate / "src" / "lib.rt").read_text(encoding="utf-8")
        for source in (first, self.source) if not path else ():
            for before, many, one in TYPE_USED.findall(source):
                for each in (many or one).split(","):
                    there, _, known = each.strip().partition(" as ")
                    if (known or there) == name and before != "crate::":
                        path, name = before.split("::")[:-1], there
        crate = path[0] if path and (self.crates / path[0]).is_dir() else self.crate
        return crate, path[-1] if path else self.path.stem, name
