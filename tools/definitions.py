"""The definitions of crates/NAME/specs, the contracts of the public items of crates/NAME/src, and which of the former
the latter need. A definition that a public contract needs, itself or through others, belongs to the statement."""
import functools
import re
from dataclasses import dataclass, field
from pathlib import Path

ROOT = Path(__file__).resolve().parent.parent
DEFINITION = re.compile(r"^( *)(?:abbrev pub|unfoldable pub|pub record|pub data) (?!mod\b)(\S+)")
USE = re.compile(r"^\s*(?:ghost )?use (Rattle\.[\w.]+?)(?:\.\{(.*)\}| as (\w+));?$", re.M)
WORD = re.compile(r"[^\s(){}\[\],;\"`]+")
BINDER = re.compile(r"[({]([^(){}:]+?) : ")
LAMBDA = re.compile(r"λ ([^.]*)\. ")


@dataclass
class Item:
    """A definition of specs/, or a type, trait, constant or function of src/."""
    key: tuple
    file: Path
    line: int
    text: str
    sentence: list = field(default_factory=list)
    uses: list = field(default_factory=list)
    inside: str = ""

    @property
    def name(self):
        return self.key[-1]

    @property
    def constructors(self):
        """The constructors of a data type."""
        is_data = self.text.startswith("pub data ")
        return re.findall(r"^  (\S+) :", self.text, re.M) if is_data else []


def crates():
    """The crates from the bottom up."""
    below = {}
    for line in (ROOT / "crates.txt").read_text().splitlines():
        name, _, libraries = line.partition(":")
        below[name.split()[0]] = libraries.split()
    order = []

    def visit(name):
        for library in below.get(name, []):
            visit(library)
        if name in below and name not in order:
            order.append(name)

    for name in below:
        visit(name)
    return order


def imports_of(text):
    """What a file's names stand for: (module, name) for each name, and the module of each alias."""
    names, aliases = {}, {}
    for module, listed, alias in USE.findall(text):
        if alias:
            aliases[alias] = module
        for entry in filter(None, (part.strip() for part in listed.split(","))):
            name, _, other = entry.partition(" as ")
            names[other or name] = (module, name)
            for word in filter(None, name.split("◌")) if "◌" in name else []:
                names[word] = (module, name)
    return names, aliases


def words_of(text):
    """The words of a term that may be names of definitions: no bound variable, no field, nothing in quotes."""
    text = re.sub(r'"(?:[^"\\]|\\.)*"', " ", text)
    bound = {"_"}
    for names in BINDER.findall(text) + LAMBDA.findall(text) + re.findall(r"\blet (\w+)", text):
        bound.update(WORD.findall(names))
    for word in WORD.findall(text):
        first, _, rest = word.partition(".")
        if first and first not in bound:
            yield first, rest.partition(".")[0]


def equations(name, text):
    """The parts of a definition with their own variables: its signature, and each equation."""
    indent = re.match(r" *", text)[0]
    parts = re.split(rf"^(?={indent}{re.escape(name)} )", text, flags=re.M)
    for part in parts:
        left, equals, right = part.partition(" = ")
        if equals and left.lstrip().startswith(f"{name} "):
            variables = {word for word in WORD.findall(left) if word[0].islower() or word[0] in "λρ"}
            yield left, right, variables - {name}
        else:
            yield part, "", set()


def uses_of(text, name, names, aliases, own):
    """The keys of the definitions that a definition names."""
    found = []
    fields = set(re.findall(r"^ +pub (\w+) :", text, re.M)) if "record" in text.split("\n")[0] else set()
    for left, right, variables in equations(name, text):
        for first, second in words_of(left + " \n " + right):
            if first in variables or first in fields or first == name:
                continue
            if first in aliases and second:
                found.append((aliases[first], second))
            elif first in names:
                found.append(names[first])
            elif first in own:
                found.append(own[first])
    return list(dict.fromkeys(found))


@functools.cache
def crate_of_file(file):
    return file.relative_to(ROOT / "crates").parts[0]


@functools.cache
def spec_module(file):
    crate = crate_of_file(file)
    inner = file.relative_to(ROOT / "crates" / crate / "specs").with_suffix("")
    return ".".join(["Rattle", crate, "specs", *inner.parts])


def read_specs(file):
    """The definitions of a file: each with the comment above it."""
    lines = file.read_text().splitlines()
    module = spec_module(file)
    items, comment, header, inside = [], [], [], ""
    for number, line in enumerate(lines, 1):
        definition = DEFINITION.match(line)
        if header or line.startswith("module _ "):
            header.append(line)
            if line.endswith(" where"):
                comment, header, inside = [], [], "\n".join([*comment, *header])
            continue
        if line and not line.startswith(" ") and not line.startswith("--") and not definition and not items:
            inside = ""
        if line.strip().startswith("--"):
            comment.append(line)
        elif definition:
            if not definition[1]:
                inside = ""
            items.append(Item((module, definition[2]), file, number, line + "\n", comment, inside=inside))
            comment = []
        elif line.startswith("use ") or not line.strip():
            if items and not line.startswith("use "):
                items[-1].text += "".join(text + "\n" for text in comment)
            comment = []
        elif items:
            items[-1].text += "".join(text + "\n" for text in comment) + line + "\n"
            comment = []
    names, aliases = imports_of("\n".join(lines))
    own = {word: item.key for item in items for word in [*item.name.split("◌"), *item.constructors] if word}
    for item in items:
        bare = re.sub(r"^ *(?:--|unfolding ).*\n", "", item.text, flags=re.M)
        item.uses = uses_of(bare, item.name, names, aliases, own)
        if item.inside:
            item.uses += uses_of(item.inside, "", names, aliases, own)
    return items


# The sources.
NAMED = re.compile(r"\b(fn|struct|enum|trait|type|const|static|impl|mod|macro_rules!) *(\w*)")
KINDS = {"struct": "type", "enum": "type", "trait": "type", "type": "type", "const": "const", "fn": "fn"}
CONSTANT = re.compile(r"[A-Z][A-Z0-9_]+")
CLAUSE = re.compile(r"\b(?:ensures|requires)(?: \w+)?\s*\{")


def closing(text, at):
    """The place behind the bracket that closes the one at this place."""
    pairs = {"{": "}", "(": ")", "[": "]"}
    opened, closed = text[at], pairs[text[at]]
    depth = 0
    for place in range(at, len(text)):
        depth += (text[place] == opened) - (text[place] == closed)
        if depth == 0:
            return place + 1
    raise ValueError(f"nothing closes {text[at:at + 40]}")


def blanked(text):
    """A source with its comments, strings and characters blanked, each character in its place."""
    def blank(found):
        return re.sub(r"[^\n]", " ", found[0])
    return re.sub(r'//[^\n]*|b?"(?:[^"\\]|\\.)*"|b?\'(?:[^\'\\\n]|\\[^\n]{1,5}?)\'', blank, text, flags=re.S)


def end_of_item(text, at):
    """The place behind an item that begins here: behind its body, or its semicolon. With it the place of its body."""
    place = at
    while place < len(text):
        clause = CLAUSE.match(text, place)
        if clause:
            place = closing(text, clause.end() - 1)
        elif text[place] in "([":
            place = closing(text, place)
        elif text[place] == "{":
            return closing(text, place), place
        elif text[place] == ";":
            return place + 1, place
        else:
            place += 1
    return len(text), len(text)


@dataclass
class Piece:
    """A part of a source: its kind, its name, its text without comments, and its place in the file."""
    kind: str
    name: str
    text: str
    head: str
    start: int
    body: int
    public: bool
    attributes: str
    inner: list = field(default_factory=list)


def pieces(text, start, end):
    """The items of a source, or of a block in it, from place to place."""
    found, at = [], start
    while at < end:
        rest = re.compile(r"\s*((?:#!?\[[^\n]*\]\s*|\w+![^;{]*;\s*)*)((?:pub(?:\([^)]*\))? )?)(ghost )?"
                          r"((?:unsafe |const |extern(?: \S+)? )*)").match(text, at, end)
        begin = rest.end()
        if begin >= end:
            break
        if rest[3]:
            stop = begin
            while text[stop] != ";":
                stop = closing(text, stop) if text[stop] == "{" else stop + 1
            found.append(Piece("ghost", re.match(r"(use|\w+)", text[begin:])[0], text[begin:stop + 1], "", begin, stop,
                               True, ""))
            at = stop + 1
            continue
        stop, body = end_of_item(text, rest.start(2))
        named = NAMED.search(text, rest.start(2), stop)
        kind, name = (named[1], named[2]) if named and named.start() <= body else ("other", "")
        piece = Piece(kind, name, text[rest.start(2):stop], text[rest.start(2):body], rest.start(2), body,
                      rest[2] == "pub ", rest[1])
        if kind in ("impl", "trait"):
            piece.inner = pieces(text, body + 1, stop - 1)
        found.append(piece)
        at = stop
    return found


def exported_names(crate):
    """What a library hands out: the names of lib.rt, and the modules that are public as they are."""
    root = ROOT / "crates" / crate / "src" / "lib.rt"
    text = blanked(root.read_text()) if root.exists() else ""
    modules = set(re.findall(r"^pub mod (\w+);", text, re.M))
    names = set()
    for path, listed in re.findall(r"^pub use ([\w:]+?)(?:::\{([^}]*)\})?;", text, re.M):
        names.update(part.strip() for part in listed.split(",") if part.strip())
        if not listed:
            names.add(path.rpartition("::")[2])
    return modules, names


def source_module(file):
    return ".".join(file.relative_to(ROOT / "crates").with_suffix("").parts[2:])  # below the crate's src


def rust_paths(text):
    """The paths of the names of a source that it takes from elsewhere."""
    paths = {}
    for path, listed in re.findall(r"^use (\w+(?:::\w+)*)(?:::\{([^}]*)\})?;", text, re.M):
        for entry in filter(None, (part.strip() for part in listed.split(","))) if listed else [""]:
            inner, _, other = entry.partition(" as ")
            whole = "::".join(filter(None, [path, inner.removesuffix("self").removesuffix("::")]))
            paths[other or whole.rpartition("::")[2]] = whole
    return paths


class Source:
    """A file of src/ with its items."""

    def __init__(self, crate, file):
        self.crate, self.file = crate, file
        self.text = file.read_text()
        self.blank = blanked(self.text)
        self.names, self.aliases = imports_of(re.sub(r"//[^\n]*", "", self.text))
        self.paths = rust_paths(self.blank)
        self.rust = {name: (path.split("::")[0], path.split("::")[-1]) for name, path in self.paths.items()}
        self.pieces = pieces(self.blank, 0, len(self.blank))
        self.types = {piece.name for piece in self.pieces if piece.kind in ("struct", "enum", "trait", "type")}

    def uses(self, clause):
        """The keys of the definitions and constants that a clause or a ghost item names, and its other words."""
        found = []
        for first, second in words_of(clause):
            if first in self.aliases and second:
                found.append((self.aliases[first], second))
            elif first in self.names:
                found.append(self.names[first])
            elif CONSTANT.fullmatch(first):
                library, name = self.rust.get(first, (self.crate, first))
                found.append((self.crate if library in ("crate", "super") else library, "const", name))
            else:
                found.append((self.crate, "word", first))
        return found

    def type_uses(self, head):
        """The keys of the types and traits that a signature or a list of fields names."""
        found = []
        for name in re.findall(r"\b[A-Z]\w*", head):
            library, real = self.rust.get(name, (self.crate, name))
            if name in self.types or name in self.rust:
                found.append((self.crate if library in ("crate", "super") else library, "type", real))
        return found

    def constant_uses(self, piece):
        """The keys of the constants that a constant is made from."""
        value = piece.text.partition(" = ")[2]
        for library, name in re.findall(r"\b(?:(\w+)::)?([A-Z][A-Z_]+)\b", value):
            library = library or self.rust.get(name, (self.crate,))[0]
            yield (self.crate if library == "crate" else library, "const", name)

    def clauses(self, piece):
        """The texts of the clauses of a function."""
        for clause in CLAUSE.finditer(self.blank, piece.start, piece.body):
            yield self.text[clause.end():closing(self.blank, clause.end() - 1) - 1]
        for member in re.finditer(r"\bghost \w+: \{", piece.head):
            at = piece.start + member.end()
            yield self.text[at:closing(self.blank, at - 1) - 1]

    def text_of(self, piece):
        return self.text[piece.start:piece.start + len(piece.text)]


class House:
    """All crates: their definitions, and which of them the public contracts need."""

    def __init__(self):
        self.crates = crates()
        self.definitions, self.constructors, self.sources, self.values = {}, {}, {}, {}
        for crate in self.crates:
            folder = ROOT / "crates" / crate
            for file in sorted((folder / "specs").rglob("*.antt")):
                for item in read_specs(file):
                    self.definitions[item.key] = item
                    self.constructors.update({(item.key[0], name): item.key for name in item.constructors})
            self.sources[crate] = [Source(crate, file) for file in sorted((folder / "src").rglob("*.rt"))]
        self.exports = {crate: exported_names(crate) for crate in self.crates}
        self.items = dict(self.definitions)
        for crate in self.crates:
            for source in self.sources[crate]:
                self.add_items(source)

    def add_items(self, source):
        """Adds the types, traits, constants and functions of a source, each with what its public meaning needs."""
        values = {re.search(r" for (\w+)", piece.head)[1]: source.text_of(ghost) for piece in source.pieces
                  if piece.kind == "impl" and " Model for " in piece.head
                  for ghost in piece.inner if ghost.name == "Value"}
        for piece in source.pieces:
            if piece.kind in ("struct", "enum", "type"):
                key, value = (source.crate, "type", piece.name), values.get(piece.name)
                if value:
                    self.values[key] = re.search(r"\{ (.*) \}", value)[1]
                self.add(source, piece, key, source.uses(value) if value else source.type_uses(piece.text))
            elif piece.kind == "trait":
                self.add(source, piece, (source.crate, "type", piece.name), self.uses_of_block(source, piece))
            elif piece.kind == "const":
                self.add(source, piece, (source.crate, "const", piece.name), source.constant_uses(piece))
            elif piece.kind == "fn" and self.is_public(source, piece):
                self.add(source, piece, (source.crate, "fn", piece.name), self.uses_of_function(source, piece))
            elif piece.kind == "impl" and " for " in piece.head:
                self.add_members(source, piece)

    def add_members(self, source, block):
        """Adds what a type is as one of a trait, where a contract sees that: the ghost members and types of an impl."""
        named = re.search(r"(\w+)(?:<[^{]*>)? for (\w+)", without_parameters(block.head))
        if not named:
            return
        members = [piece for piece in block.inner if piece.kind == "ghost" and piece.name != "use"]
        types = [piece for piece in block.inner if piece.kind == "type"]
        key = (source.crate, "impl", f"{named[1]} for {named[2]}")
        uses = [use for piece in members for use in source.uses(source.text_of(piece))]
        uses += [use for piece in types for use in source.type_uses(piece.text)]
        self.add(source, block, key, uses)
        listed = [*map(source.text_of, types), *(f"ghost {source.text_of(piece)}" for piece in members)]
        head = source.text[block.start:block.body].strip()
        self.items[key].text = "\n    ".join([f"{head} {{", *listed]) + "\n}"

    def add(self, source, piece, key, uses):
        line = source.text.count("\n", 0, piece.start) + 1
        self.items[key] = Item(key, source.file, line, source.text_of(piece), comment_above(source.text, piece.start),
                               list(dict.fromkeys(uses)))

    def uses_of_function(self, source, piece):
        found = [use for clause in source.clauses(piece) for use in source.uses(clause)]
        return found + source.type_uses(re.sub(r"\bghost.*", "", piece.head.split("ensures")[0]))

    def uses_of_block(self, source, block):
        """What the members of a trait or of an impl of one need."""
        found = []
        for piece in block.inner:
            if piece.kind == "ghost" and piece.name != "use":
                found += source.uses(source.text_of(piece))
            elif piece.kind == "fn":
                found += self.uses_of_function(source, piece)
        return found

    def value_of(self, key):
        """What a value of a type with a model is in a contract."""
        return self.values.get(key)

    def resolved(self, key):
        """The key of the item that an import names, or None for what the kit defines."""
        if key in self.items:
            return key
        if key in self.constructors:
            return self.constructors[key]
        if len(key) == 3:
            return None
        declared = re.match(r"Rattle\.(\w+)\.specs\.declared\.(.*)$", key[0])
        if declared:
            parts = declared[2].split(".")
            if parts[-1] == "TheConstants":
                found = (declared[1], "const", key[1])
            else:
                found = (declared[1], "type", [part for part in parts if not part.startswith("The")][-1])
            return found if found in self.items else None
        return None

    def closure(self, roots, left_out=()):
        """What these keys need, with themselves, in the order in which a reader meets it, without what is left out and
        what only that needs."""
        seen = {}
        def visit(key):
            key = self.resolved(key)
            if key is None or key in seen or key in left_out:
                return
            seen[key] = self.items[key]
            for use in self.items[key].uses:
                visit(use)
        for root in roots:
            visit(root)
        return seen

    def public_roots(self):
        """The keys that the public contracts of all crates name."""
        found = []
        for crate in self.crates:
            for source in self.sources[crate]:
                found += self.roots_of(source)
        return list(dict.fromkeys(found))

    def is_exported(self, crate, name, module):
        modules, names = self.exports[crate]
        return name in names or module.split(".")[0] in modules

    def is_public(self, source, piece):
        """Whether a crate hands this item out, to Rattle or to C."""
        module = source_module(source.file)
        exported = module in ("lib", "main") or self.is_exported(source.crate, piece.name, module)
        return piece.public and exported or "no_mangle" in piece.attributes

    def roots_of(self, source):
        found = []
        for piece in source.pieces:
            if piece.kind == "impl":
                found += self.roots_of_impl(source, piece, source_module(source.file))
            elif piece.kind in KINDS and self.is_public(source, piece):
                found.append((source.crate, KINDS[piece.kind], piece.name))
        return found

    def shows(self, source, block):
        """Whether an impl is one of an exported type, or of another crate's."""
        named = re.search(r"(?:\w+::)*([A-Z]\w*)", without_parameters(block.head).rpartition(" for ")[2])
        name = named and named[1]
        home = self.module_of(source.crate, name) or source_module(source.file)
        return name not in source.types and name not in source.rust or self.is_exported(source.crate, name, home)

    def roots_of_impl(self, source, piece, module):
        """What an impl shows: the public methods of an exported type, and all of a trait that both sides know."""
        if not self.shows(source, piece):
            return []
        trait = without_parameters(piece.head).rpartition(" for ")[0]
        if not trait:
            return [use for inner in piece.inner if inner.kind == "fn" and inner.public
                    for use in self.uses_of_function(source, inner)]
        trait_name = re.search(r"(?:\w+::)*([A-Z]\w*)", trait)[1]
        own = trait_name in source.types or source.rust.get(trait_name, ("std",))[0] in ("crate", "super")
        if trait_name == "Model" or own and not self.is_exported(
                source.crate, trait_name, self.module_of(source.crate, trait_name) or module):
            return []
        return self.uses_of_block(source, piece)

    def module_of(self, crate, name):
        item = self.items.get((crate, "type", name))
        return source_module(item.file) if item else None


def without_parameters(head):
    """The head of an impl from its trait or type on."""
    return re.sub(r"^(?:unsafe )?impl\s*(<(?:[^<>]|<[^<>]*>)*>)?\s*", "", head)


def comment_above(text, at):
    """The lines of the comment above a place, without those of attributes."""
    lines = text[:at].splitlines()
    while lines and lines[-1].lstrip().startswith("#["):
        lines.pop()
    found = []
    while lines and lines[-1].lstrip().startswith("//") and not lines[-1].startswith("//!"):
        found.insert(0, lines.pop())
    return found
