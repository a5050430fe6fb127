"""The contract of each public function, in Rattle's own form and in the words of the module that
tools/compiled_statement.py makes, and the lemmas by which the kit checks that each is the one that the crate proves."""
import re
from dataclasses import dataclass

from compiled_statement import NAME, OF_CRATES, PAGE, PIECE, is_named, libraries, used
from definitions import (BINDER, CLAUSE, CONSTANT, LAMBDA, WORD, Piece, Source, closing, comment_above, source_module,
                         without_parameters)

HEAD = """\
//! The contract of each public function, in the words of STATEMENT.txt: `Page` here. `tools/statement` makes it from
//! crates/, and `tests/run statement` has the kit check that each is the contract that the crate proves, with the types
//! of the arguments and the result. A module here is a file of a crate. A method stands with its type before its name,
//! and with `this` for `self`. Bodies are left out. STATEMENT.txt ends with the meanings of the kit's words in both.
#![tactic(auto)]"""
# The function whose proof has the kit read the lemmas. No other function here is proved, and none is called.
READER = "read"
UNTOLD = "{ unreachable!() }"
# A method's value in its clauses.
SELF = re.compile(r"(?<![\w'])self\b")


def signature_of(head):
    """The head of a function up to its clauses."""
    return head[:min([found.start() for found in CLAUSE.finditer(head)], default=len(head))]


def name_of(clause):
    """The name of a clause; what it is, if it has none."""
    return clause[0].rstrip("{ ").removeprefix("ensures ")


@dataclass
class Call:
    """A public function, or a method of a public type."""
    source: Source
    piece: Piece
    block: Piece = None

    @property
    def module(self):
        """The module of its file here."""
        return "_".join([self.source.crate, *source_module(self.source.file).split(".")])

    @property
    def subject(self):
        """The type of a method, with its parameters."""
        return without_parameters(self.block.head).partition(" where")[0].strip() if self.block else ""

    @property
    def owner(self):
        return re.match(r"\w*", self.subject)[0]

    @property
    def name(self):
        return f"{self.owner}_{self.piece.name}" if self.block else self.piece.name

    @property
    def label(self):
        return f"{self.module}-{self.name}"

    @property
    def head(self):
        """The text before the body, without comments, as that of a function that is no method is laid out."""
        text = re.sub(r"//[^\n]*", "", self.source.text[self.piece.start:self.piece.body]).rstrip()
        return re.sub(r"^    ", "", text, flags=re.M) if self.block else text

    @property
    def is_generic(self):
        """Whether it has a type as a parameter."""
        return bool(re.search(r"[<,] *(?:const )?[A-Z]\w*\s*[:,>]", f"{self.generics_of_impl}{self.own_generics}")
                    or "impl " in self.signature)

    @property
    def signature(self):
        return signature_of(self.head)

    @property
    def generics_of_impl(self):
        found = re.match(r"impl\s*(<(?:[^<>]|<[^<>]*>)*>)", self.block.head) if self.block else None
        return found[1] if found else ""

    @property
    def own_generics(self):
        found = re.search(r"fn \w+(<(?:[^<>]|<[^<>]*>)*>)?", self.signature)
        return found[1] or ""


def calls(house, crates):
    """The public functions and methods of these crates."""
    for crate in crates:
        for source in house.sources[crate]:
            for piece in source.pieces:
                if piece.kind == "fn" and piece.name != "main" and house.is_public(source, piece):
                    yield Call(source, piece)
                elif piece.kind == "impl" and " for " not in without_parameters(piece.head):
                    if house.shows(source, piece):
                        yield from (Call(source, inner, piece) for inner in piece.inner
                                    if inner.kind == "fn" and inner.public)


class Contracts:
    """The contracts and their lemmas, beside the module of definitions."""

    def __init__(self, compiled):
        self.compiled, self.house = compiled, compiled.house
        self.calls = list(calls(self.house, compiled.crates))
        self.of_page = {item.key for item in compiled.items if not is_named(item)}
        self.shut = set(compiled.crates) - libraries()
        for source in {call.source.file: call.source for call in self.calls}.values():
            for key in source.names.values():
                compiled.take(key, f"of_{key[0].split('.')[-1]}")

    # Paths.

    def exported(self, crate, name, module, between="::"):
        """The path below a crate by which others name this item of a module of it."""
        modules, names = self.house.exports[crate]
        if crate not in self.shut and name in names or module in ("lib", "main"):
            return name
        return between.join([*module.split("."), name])

    def own(self, call):
        """The module of the contract in its crate."""
        name = call.owner or call.piece.name
        home = self.house.module_of(call.source.crate, call.owner) if call.block else None
        path = self.exported(call.source.crate, name, home or source_module(call.source.file), ".")
        last = [call.piece.name] if call.block else []
        return ".".join(["Rattle", call.source.crate, "specs.contracts", path, *last])

    def own_constant(self, source, name):
        """Whether a constant is one of this source."""
        item = self.house.items.get((source.crate, "const", name))
        return item is not None and item.file == source.file

    def rust_uses(self, source, heads):
        """The `use` lines that these heads of functions of a source need. A clause names constants by them, and the
        types of variants."""
        words = {word for head in heads for word in re.findall(r"(?<![\w:.'])\w+", signature_of(head))}
        words.update(word for head in heads for word in re.findall(r"\w+", head) if CONSTANT.fullmatch(word))
        words.update(word for head in heads for word in re.findall(r"\b([A-Z]\w*)\.", head))
        found = {name: path for name, path in source.paths.items() if name in words}
        module = source_module(source.file)
        found.update({name: f"crate::{name}" for name in words if name in source.types
                      or self.own_constant(source, name) and self.house.is_exported(source.crate, name, module)})
        lines = {}
        for name, path in sorted(found.items()):
            library, *inner = path.split("::")
            if library in ("crate", "super"):
                home = self.house.module_of(source.crate, inner[-1]) or ".".join(inner[:-1]) or "lib"
                path = f"{source.crate}::{self.exported(source.crate, inner[-1], home)}"
            parent, _, last = path.rpartition("::")
            lines.setdefault(parent, []).append(last if last == name else f"{last} as {name}")
        yield from (f"use {parent}::{{{', '.join(names)}}};" for parent, names in sorted(lines.items()))

    # Texts.

    def text(self):
        """The file of the contracts."""
        sections = {}
        for call in self.calls:
            sections.setdefault(call.module, []).append(call)
        heads, keys = {call.label: self.renamed(call) for call in self.calls}, set()
        for text, named in heads.values():
            keys.update(named)
        lines = [HEAD, *(f"ghost {line};" for line in self.ghost_uses(keys))]
        for module, members in sections.items():
            inner = self.section(members, [heads[call.label][0] for call in members])
            lines += ["", f"mod {module} {{", *(f"    {line}" if line else "" for line in inner), "}"]
        return "\n".join([*lines, "", f"fn {READER}() {{}}"]) + "\n"

    def section(self, members, heads):
        """The text of a module: of the functions of a file."""
        yield from self.rust_uses(members[0].source, heads)
        for call, head in zip(members, heads):
            yield ""
            yield from (line.strip() for line in comment_above(call.source.text, call.piece.start))
            yield from [*head.split("\n"), UNTOLD]

    def ghost_uses(self, words):
        """The `use` lines of these names: of definitions the page's own, of all else the crates'."""
        compiled = self.compiled
        of_page = {compiled.names[key] for key in words if key in compiled.hidden or key in self.of_page}
        uses = compiled.uses(lambda key, name: key in words and name not in of_page)
        uses.update({PAGE: of_page} if of_page else {})
        return used(uses)

    def renamed(self, call):
        """The head of a function with the names of the page, and the keys of these names."""
        parts, keys = self.parts(call)
        return "".join(text for _, text in parts), keys

    def parts(self, call):
        """The head of a function up to its clauses and each of these, by their names, with the names of the page, and
        the keys of these names."""
        text, keys, found = self.plain_signature(call), [], []
        bound = {"result", "this", *re.findall(r"(\w+)\s*:", text)}
        for clause in CLAUSE.finditer(call.head):
            end = closing(call.head, clause.end() - 1)
            inner = SELF.sub("this", call.head[clause.end():end - 1])
            found.append((name_of(clause), f"\n    {clause[0]}{self.clause(call.source, inner, bound, keys)}}}"))
        return [("head", text), *found], keys

    def words(self):
        """The words of the kit that the contracts use."""
        keys = {key for call in self.calls for key in self.parts(call)[1]}
        return {name for module, name in keys if not OF_CRATES.match(module)} - {"[]"}

    def clause(self, source, text, bound, keys):
        """A clause with the names of the page, whose keys join `keys`; what is bound keeps its name."""
        names = self.compiled.names
        keys.extend(key for word, key in source.names.items() if word == "[]" and word in text)
        own = bound | {name for found in BINDER.findall(text) + LAMBDA.findall(text) for name in WORD.findall(found)}

        def replaced(found):
            first, dot, rest = found[0].partition(".")
            key = source.names.get(first)
            if found[0].startswith(("--", '"')) or first in own:
                return found[0]
            if dot and first in source.aliases:
                key, dot, rest = (source.aliases[first], rest), "", ""
                self.compiled.take(key, f"of_{key[0].split('.')[-1]}")
            if self.own_constant(source, first) and not self.house.is_exported(
                    source.crate, first, source_module(source.file)):
                return str(self.compiled.number(source.crate, first))
            if not key:
                return found[0]
            keys.append(key)
            return found[0] if "◌" in key[1] else names[key] + dot + rest

        return PIECE.sub(replaced, text)

    def plain_signature(self, call):
        """The head of the function up to its clauses, as that of a function that is no method."""
        text = re.sub(r'extern "C" ', "", call.signature).rstrip()
        if not call.block:
            return text
        merged = ", ".join(part[1:-1] for part in (call.generics_of_impl, call.own_generics) if part)
        text = re.sub(r"fn (\w+)(?:<(?:[^<>]|<[^<>]*>)*>)?", f"fn {call.name}<{merged}>" if merged else
                      f"fn {call.name}", text, count=1)
        text = re.sub(r"(\(\s*)(&(?:'\w+ )?)?(mut )?self\b", lambda found: f"{found[1]}this: {found[2] or ''}"
                      f"{found[3] or '' if found[2] else ''}{call.subject}", text, count=1)
        text = re.sub(r"\bSelf\b", call.subject, text)
        front, arrow, result = text.partition(" -> ")
        if merged.startswith("'") and "this: &" in front and re.search(r"&(?!')|'_", result):
            front = front.replace(merged, merged + ", 'this", 1).replace("this: &", "this: &'this ", 1)
            result = re.sub(r"&(?!')", "&'this ", result).replace("'_", "'this")
        return front + arrow + result

    # Lemmas.

    def lemmas(self):
        """The lemmas by which the kit checks the contracts."""
        lines = ["-- Each contract of the page is the crate's own, with its signature.",
                 "use Rattle.std.specs.Prelude.{◌≡◌, refl}", "use seplogic.Ra.Ura.{Ura}", "use types.Logic.{Logic}"]
        for call in self.calls:
            lines += [f"use {self.own(call)} as own-{call.label}",
                      f"use Rattle.{NAME}.specs.contracts.{call.module}.{call.name} as page-{call.label}"]
        for call in self.calls:
            given = "" if call.is_generic else " 𝓛"
            bound = "" if call.is_generic else "{M : Type 1} {𝓤 : Ura M} (𝓛 : Logic 𝓤) → "
            lines += ["", f"same-{call.label} : {bound}page-{call.label}.spec{given} ≡ own-{call.label}.spec{given}",
                      f"same-{call.label}{given} = refl"]
        return "\n".join(lines) + "\n"

    def write(self, folder):
        """Writes a crate with the definitions, the contracts and their lemmas."""
        # The kit reads a file of lemmas only if a proof that is asked for imports a name of it.
        lemmas = {"Same": self.compiled.lemmas(), "Contracts": self.lemmas()}
        first = {module: re.search(r"^(\S+) :", text, re.M)[1] for module, text in lemmas.items()}
        lemmas = {module: text.replace(f"\n{first[module]} :", f"\npub {first[module]} :", 1)
                  for module, text in lemmas.items()}
        read = [f"use Rattle.{NAME}.proofs.{module}.{{{name}}}" for module, name in first.items()]
        for part, text in {"src/lib.rt": self.text(), "specs/Lib.antt": "pub mod Page\n",
                           "specs/Page.antt": self.compiled.page(self.words()),
                           "proofs/Lib.antt": "mod Same\nmod Contracts\n",
                           "proofs/Same.antt": lemmas["Same"], "proofs/Contracts.antt": lemmas["Contracts"],
                           f"proofs/{READER}/Answers.antt": "\n".join(read) + "\n"}.items():
            (folder / part).parent.mkdir(parents=True, exist_ok=True)
            (folder / part).write_text(text)
