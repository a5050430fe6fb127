"""The statement's definitions as one module that Rattle's kit reads, and the lemmas by which the kit checks that each
says what the crates' own definition of that name says. tools/compiled_contracts.py adds the contracts. tools/statement
writes both, and tests/statement.py has them checked."""
import re
import textwrap

import kit_words
from definitions import BINDER, LAMBDA, ROOT, WORD, closing, equations, imports_of, spec_module

NAME, PAGE = "statement", "Rattle.statement.specs.Page"
HEAD = """\
-- The statement, as one module that Rattle's kit reads: every definition that a public contract needs, each once,
-- under a name that nothing else has here, after all that it needs. STATEMENT.rt has the contracts. `tools/statement`
-- makes both from crates/, and `tests/run statement` has the kit check that each says what the crates' own says.
--
-- The module needs nothing but its `use` lines: words of the kit, whose meanings are at the end; types of Rust with
-- their variants and constants; and the crates' records, types of data and `unfoldable` functions. What such a one,
-- NAME, is says NAME-is here, and a constructor of a type of data is NAME-case. A name that means two things in the
-- crates, or is that of a variable too, has its file behind it here, as in `given_in_Listed`. `unfolding` lines only
-- say to the kit where to look."""
OF_CRATES = re.compile(r"Rattle\.(?:s2|calculator\.)")
DECLARED = re.compile(r"Rattle\.(\w+)\.specs\.declared\.(.*)")
GROUP = re.compile(r"\s*([({])")
PIECE = re.compile(r'--[^\n]*|"(?:[^"\\]|\\.)*"|[^\s(){}\[\],;"`]+')
RESERVED = "Type"  # a word that is a name only behind a dot, as the variant of an enum
# What a word may stand behind so that what is applied to arguments needs no parentheses.
BEFORE_A_TERM = "=×→⊎(:"


def groups_of(text):
    """The groups `(x y : A)` and `{x y : A}` that a text begins with: of each whether it is implicit, its names and its
    text. With them what comes behind them."""
    found = []
    while group := GROUP.match(text):
        end = closing(text, group.start(1))
        names, colon, _ = text[group.start(1) + 1:end - 1].partition(" : ")
        if not colon or not all(re.fullmatch(r"[\w'-]+", name) for name in names.split()):
            break
        found.append((group[1] == "{", names.split(), text[group.start(1):end]))
        text = text[end:]
    return found, text


def explicit(groups):
    return [name for is_implicit, names, _ in groups if not is_implicit for name in names]


def arguments(groups):
    """The names of these parameters as arguments of a function that has them."""
    return "".join(f" {{{name} = {name}}}" if is_implicit else f" {name}"
                   for is_implicit, names, _ in groups for name in names)


def kind(item):
    return re.search(r"record|data|unfoldable|abbrev", item.text)[0]


def is_named(item):
    """Whether the module names what the crates have, and has its text under another name: two records of one text are
    two types, and a function that isn't unfolded is known by its name alone."""
    return kind(item) != "abbrev"


def section_of(item):
    """The parameters of the section that an item stands in."""
    lines = [line.strip() for line in item.inside.split("\n") if not line.strip().startswith("--")]
    return " ".join(lines).removeprefix("module _ ").removesuffix(" where")


def used(uses):
    """The `use` lines of these modules, each with some of the names, so that none is long."""
    for module, entries in sorted(uses.items()):
        line = ""
        for entry in sorted(set(entries)):
            if line and len(f"use {module}.{{{line}, {entry}}}") > 118:
                yield f"use {module}.{{{line}}}"
                line = ""
            line = f"{line}, {entry}" if line else entry
        yield f"use {module}.{{{line}}}"


def stated(house):
    """The crates that the module is about: all, without those of tests."""
    return [name for name in house.crates if not name.startswith("test_")]


def libraries():
    """The crates that another crate may use: no program, and no static library."""
    lines = [line.partition(":")[0].split() for line in (ROOT / "crates.txt").read_text().splitlines()]
    return {words[0] for words in lines if words and "staticlib" not in words
            and (ROOT / "crates" / words[0] / "src" / "lib.rt").exists()}


class Compiled:
    """The module and its lemmas."""

    def __init__(self, house):
        self.house, self.crates = house, stated(house)
        needed = house.closure(house.public_roots())
        self.items = [item for item in house.definitions.values()
                      if item.key in needed and item.key[0].split(".")[1] in self.crates]
        self.of_file = {}
        for item in self.items:
            self.of_file.setdefault(item.file, []).append(item)
        self.files = self.in_order()
        self.constructors = {(item.key[0], name): item for item in self.items for name in item.constructors}
        self.imports = {file: imports_of(file.read_text()) for file in self.files}
        self.names, self.taken = {}, {RESERVED: None}
        self.take_names()
        self.of_definitions = set(self.names)
        self.hidden = {key: value for key in self.names for value in [self.hidden_value(*key)] if value is not None}

    def in_order(self):
        """The files, each after those that it uses."""
        modules, order = {spec_module(file): file for file in self.of_file}, []

        def visit(file):
            for module in re.findall(r"^use (Rattle\.[\w.]+?)(?:\.\{| as |$)", file.read_text(), re.M):
                if module in modules and modules[module] not in order:
                    visit(modules[module])
            if file not in order:
                order.append(file)

        for file in sorted(self.of_file):
            visit(file)
        return order

    # Names.

    def variables(self):
        """The names of variables. A definition of such a name gets another, so that no text can be read in two ways."""
        found = set()
        for item in self.items:
            text = f"{item.inside}\n{item.text}"
            for names in BINDER.findall(text) + LAMBDA.findall(text):
                found.update(WORD.findall(names))
            for _, _, names in equations(item.name, item.text):
                found.update(names)
        return {name for name in found if name[0].islower()}

    def take(self, key, last):
        """Gives what has this key its name in the module, with the last part behind it if that is another's, or its
        crate if this is another's too."""
        if key not in self.names:
            names = key[1], f"{key[1]}_{last}", f"{key[1]}_of_{key[0].split('.')[1]}"
            name = next((name for name in names if self.taken.get(name, key) == key), key[1])
            assert self.taken.get(name, key) == key, f"{key} and {self.taken[name]} would have one name"
            self.names[key], self.taken[name] = name, key

    def aliased(self):
        """The names behind the alias of a module in texts, as `kinds.Line`."""
        for item in self.items:
            aliases = self.imports[item.file][1]
            for first, dot, rest in (word.partition(".") for word in PIECE.findall(item.text)):
                if dot and first in aliases:
                    yield aliases[first], rest

    def take_names(self):
        """Names words of the kit first, then definitions, and last types of Rust and constructors."""
        imported = [key for file in self.files for key in self.imports[file][0].values()] + [*self.aliased()]
        for key in imported:
            if not OF_CRATES.match(key[0]):
                self.take(key, f"of_{key[0].split('.')[-1]}")
        variables = self.variables()
        for item in (item for file in self.files for item in self.of_file[file]):
            if item.name in variables:
                self.taken.setdefault(item.name, None)
            self.take(item.key, f"in_{item.key[0].split('.')[-1]}")
        for key in imported:
            if declared := DECLARED.match(key[0]):
                self.take(key, "of_" + re.sub(r"\.The\w+$", "", declared[2]).split(".")[-1])
        for key, item in self.constructors.items():
            self.take(key, f"of_{item.name}")

    def hidden_value(self, module, name):
        """The number or text of a constant that its crate keeps to itself, or None."""
        declared = re.fullmatch(r"Rattle\.(\w+)\.specs\.declared\.(.*)\.TheConstants", module)
        if not declared or self.house.is_exported(declared[1], name, declared[2]):
            return None
        text = re.search(r'&str =\s*"(.*)";', self.house.items[declared[1], "const", name].text, re.S)
        return text[1] if text else self.number(declared[1], name)

    def number(self, crate, name):
        """The value of a constant."""
        item = self.house.items[crate, "const", name]
        value = re.sub(r" as \w+|\bs2\w+::", "", re.search(r" = (.*);", item.text, re.S)[1])
        crates = {key[2]: key[0] for key in item.uses}

        def inner(found):
            return str(self.number(crates.get(found[0], crate), found[0]))

        return eval(re.sub(r"\b[A-Z][A-Z_]+\b", inner, value), {})

    def uses(self, is_wanted):
        """The names to import that are wanted, by their modules."""
        found = {}
        for key, name in self.names.items():
            if key not in self.hidden and is_wanted(key, name):
                own = f"«{key[1]}»" if key[1] == RESERVED else key[1]
                found.setdefault(key[0], []).append(own if own == name else f"{own} as {name}")
        return found

    # Texts.

    def renamed(self, text, item, section="", is_outside=False):
        """A text of the file of an item with the names of the module. In the section that it stands in, what the module
        only names has the section's parameters as arguments; outside, all of the section has."""
        names, aliases = self.imports[item.file]
        own = {other.name: other for other in self.of_file[item.file]}
        given = " ".join(explicit(groups_of(section)[0]))
        siblings = {name for name, other in own.items() if section and section_of(other) == section
                    and (is_outside or is_named(other))}

        def key_of(word):
            if word in own:
                return own[word].key
            local = (spec_module(item.file), word)
            return local if local in self.constructors else names.get(word)

        def replaced(found):
            word = found[0]
            first, dot, rest = word.partition(".")
            if word.startswith(("--", '"')):
                return word
            if dot and first in aliases:
                return self.names.get((aliases[first], rest), word)
            key = key_of(first)
            if not key or "◌" in key[1] or self.is_bound(first, key, text):
                return word
            if key in self.hidden:
                return self.names[key]
            if key == item.key and not is_outside:
                return (f"{self.names[key]}-is" if is_named(item) else self.names[key]) + dot + rest
            name = self.names.get(key, first)
            if first in siblings:
                name = f"{name} {given}"
                if text[:found.start()].rstrip()[-1:] not in BEFORE_A_TERM:
                    name = f"({name})"
            return name + dot + rest

        return PIECE.sub(replaced, text)

    def is_bound(self, word, key, text):
        """Whether a word is a variable of a text, though a definition has its name."""
        if self.names.get(key, word) == word or not word[0].islower():
            return False
        alone = rf"(?<![\w-]){re.escape(word)}(?![\w-])"
        return bool(re.search(rf"[({{][^(){{}}:]*{alone}[^(){{}}:]* : |λ [^.]*{alone}", text))

    def text_of(self, item):
        text, section = item.text.rstrip("\n"), section_of(item)
        if kind(item) != "data":
            return self.renamed(text, item, section)
        head, *lines = text.split("\n")
        cases = [re.match(r"(  \S+) : (.*)", line) for line in lines]
        return "\n".join([self.renamed(head, item), *(f"{case[1]}-case : {self.renamed(case[2], item)}"
                                                      for case in cases)])

    def constant(self, key):
        """The text of a constant that its crate keeps to itself."""
        item, value = self.house.items[key[0].split(".")[1], "const", key[1]], self.hidden[key]
        sentence = [line.strip().replace("///", "--") for line in item.sentence]
        if isinstance(value, int):
            return ["", *sentence, f"abbrev pub {self.names[key]} : ℕ", f"{self.names[key]} = {value}"]
        lines = [f'codes "{line}"' for line in value.replace("\n", "\\n\n").split("\n") if line]
        return ["", *sentence, f"abbrev pub {self.names[key]} : List ℕ", f"{self.names[key]} =", f"    {lines[0]}",
                *(f"    ++ {line}" for line in lines[1:])]

    def page(self, more=()):
        """The module, and the meanings of the words of the kit that it uses, and of more."""
        lines = [line for key in self.hidden for line in self.constant(key)]
        for file in self.files:
            lines += ["", f"-- {file.relative_to(ROOT / 'crates').parts[0]}, {file.stem}"]
            inside = ""
            for item in self.of_file[file]:
                if item.inside not in ("", inside):
                    lines += ["", self.renamed(item.inside, item)]
                inside = item.inside
                lines += ["", *item.sentence, self.text_of(item)]
        by_name = {item.key: item for item in self.items}
        uses = self.uses(lambda key, name: key in self.of_definitions
                         and (key not in by_name or is_named(by_name[key])))
        return "\n".join([HEAD, *used(uses), *lines, *self.kit(more)]) + "\n"

    def words(self):
        """The words of the kit that the module uses."""
        return {name for module, name in self.of_definitions if not OF_CRATES.match(module)} - {"[]"}

    def kit(self, more):
        """The meanings of the words of the kit that the module uses, and of more."""
        yield from ["", "-- Words of the kit, each with its form."]
        for name, (form, meaning) in kit_words.WORDS.items():
            if name in self.words().union(more):
                yield from textwrap.wrap(f"{form}: {meaning}", 117, initial_indent="-- ", subsequent_indent="--     ")

    # Lemmas.

    def lemmas(self):
        """The lemmas by which the kit checks the module."""
        lines = [line for file in self.files for item in self.of_file[file] for line in ["", *self.lemma(item)]]
        words = set(WORD.findall("\n".join(lines))) | {part for word in WORD.findall("\n".join(lines))
                                                       for part in [word.partition(".")[0]]}
        operators = ("◌≡◌", "◌↔◌", "◌++◌", "◌∷◌")
        uses = self.uses(lambda key, name: key not in self.constructors and (name in words or name in operators))
        uses.setdefault("Rattle.std.specs.Prelude", []).append("refl")
        return "\n".join(["-- Each definition of the page says what the crates' own says.", *used(uses),
                          f"use {PAGE} as Page", *lines]) + "\n"

    def lemma(self, item):
        name, real = self.names[item.key], ".".join(item.key)
        page = f"Page.{name}-is" if is_named(item) else f"Page.{name}"
        text = re.sub(r"--[^\n]*", "", item.text)
        section = groups_of(section_of(item))[0]
        if kind(item) == "data":
            return [*self.cases(item, f"to-{name}", real, page), *self.cases(item, f"from-{name}", page, real)]
        own = self.parameters(item, text)
        first = " ".join(self.renamed(group[2], item, "", True) for group in section)
        then = " ".join(self.renamed(group[2], item, section_of(item), True) for group in own)
        bound = " ".join(filter(None, [first, then]))
        arrow, given = f"{bound} → " if bound else "", arguments(section + own)
        left = " ".join([f"same-{name}", *explicit(section + own)])
        if kind(item) == "record":
            fields = "; ".join(f"{field} = r.{field}" for field in re.findall(r"^ +pub (\S+) :", text, re.M))
            value = f"(λ r. record {{ {fields} }})"
            return [f"same-{name} : {arrow}{real}{given} ↔ {page}{given}", f"{left} = ({value}, {value})"]
        unfolding = [f"unfolding {page} {real}"] if kind(item) == "unfoldable" else []
        return [f"same-{name} : {arrow}{page}{given} ≡ {real}{given}", *unfolding, f"{left} = refl"]

    @staticmethod
    def parameters(item, text):
        """The parameters of a record, or the implicit ones that the type of a function begins with."""
        if kind(item) == "record":
            head = " " + " ".join(re.search(r"pub record \S+(.*?) where\n", text, re.S)[1].split())
            return groups_of(head[:head.rindex(" : Type")])[0]
        groups = groups_of(re.search(r" pub \S+ :\s*(.*)", text, re.S)[1])[0]
        return groups[:next((at for at, group in enumerate(groups) if not group[0]), len(groups))]

    @staticmethod
    def cases(item, name, one, other):
        """The function from one type of data to the other, case by case."""
        yield f"{name} : {one} → {other}"
        ends = ["-case" if it.startswith("Page.") else "" for it in (one, other)]
        for case, signature in re.findall(r"^  (\S+) : (.*)$", item.text, re.M):
            names = [name for _, names, _ in groups_of(signature)[0] for name in names]
            names = names or [f"a{at}" for at in range(signature.count("→"))]
            left, right = (" ".join([f"{it}.{case}{end}", *names]) for it, end in zip((one, other), ends))
            yield f"{name} ({left}) = {right}" if names else f"{name} {left} = {right}"
