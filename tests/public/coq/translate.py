"""Definitions and proofs of crates as Coq's: Library(crates, ..).write(folder, modules) writes a file for each module
and for those that it uses. Of a module of lemmas below them only those lemmas are written that others stand on.

Definitions become definitions, and lemmas become lemmas with the same terms as proofs, so that Coq checks each again.
A tactic becomes one of Kit.v, where omega is lia and cc is congruence. A word of the kit becomes the one of Kit.v. What
this doesn't know is an error with the file and the line.
"""
import re
from contextlib import contextmanager
from pathlib import Path

import antt
import declared
from antt import Bad

HERE = Path(__file__).resolve().parent
OPERATORS = {"≡": "same", "≢": "differ", "+": "add", "-": "sub", "*": "mul", "/": "div", "%": "mod", "^": "pow",
             "<": "lt", "≤": "le", "==": "eqb", "&&": "andb", "||": "orb", "∷": "cons", "++": "app", "∙": "trans",
             "⊎": "or", "↔": "iff", "+ℤ": "add_int", "-ℤ": "sub_int",
             "*ℤ": "mul_int", ">>=": "then", "and_then": "and_then",
             "gives": "gives", "⊕": "plus", "⊖": "minus", "⊗": "times", "≤ℤ": "le_int", "<ℤ": "lt_int"}
LETTERS = {"-": "_m_", "⊎": "or", "≢": "_ne_", "≤": "le", "<": "lt", "→": "to", "ℕ": "nat_t", "ℤ": "int", "₁": "1",
           "₂": "2", "¬": "no",
           "×": "x", "≡": "eq", "∷": "cons", "=": "eq", "+": "plus", "*": "star", "^": "pow", "/": "div", "'": "_"}
RESERVED = {"at", "in", "end", "match", "with", "for", "as", "then", "else", "fun", "if", "let", "where", "return",
            "using", "by", "forall", "exists", "Type", "Set", "Prop", "fix", "is", "do", "mod", "S", "O", "I", "list",
            "nat", "bool", "option", "unit", "sum", "left", "right", "pair"}
CONSTRUCTORS = {"zero": "0", "suc": "S", "inl": "inl", "inr": "inr", "refl": "eq_refl", "true": "true",
                "false": "false", "[]": "nil", "◌∷◌": "cons", "tt": "tt", "Ok": "Kit.Ok", "Err": "Kit.Err",
                "Some": "Some", "None": "None"} | {
                    name: f"Kit.{name}" for name in ("pos", "negsuc", "Less", "Equal", "Greater")}
TYPES = {"ℕ": "nat", "⊥": "False", "Unit": "unit", "List": "list", "Bool": "bool", "Option": "option"}
DECLARED = re.compile(r"(?:Definition|Fixpoint|Lemma|Notation|Inductive|Record) (\w+)")
# Records of Kit.v that Rust's types are, with the fields that are read.
KIT_RECORDS = {"Kit.Vec": "items", "Kit.GhostList": "entries", "Kit.Bor": "now"}
# What a tactic is told beside facts: each of ours knows all of it.
RULES = {"arith", "gets", "rules", "tests", "nat_tests", "ints"}
TACTICS = {"omega": "k_omega", "cc": "k_cc", "grind": "k_grind"}
WITHIN_LITERAL = {"lit<", "lit≤"}
GREATEST_LITERAL = 1024
NO = "app", ("var", "¬")
CLAIMS = {"◌≡◌", "◌≢◌", "◌<◌", "◌≤◌"}
HEAD = """From Equations Require Import Equations.
Require Import ZArith Lia ZifyNat ZifyBool.
Require Kit.
Import Kit.Tactics Kit.Tactics2 String.StringSyntax.
Delimit Scope string_scope with string.
Ltac Zify.zify_post_hook ::= k_hook.
{uses}Set Equations Transparent.
Local Open Scope nat_scope.
"""
END_OF_HEAD = HEAD.rpartition("}")[2]


def coq_name(name):
    """A name in Coq's letters."""
    if name is None:
        raise Bad("an argument without a name")
    operator = re.fullmatch("◌(.+)◌", name)
    if operator and operator[1] in OPERATORS:
        return f"op_{OPERATORS[operator[1]]}"
    name = "".join(LETTERS.get(letter, letter) for letter in name)
    if not re.fullmatch(r"\w+", name, re.ASCII):
        raise Bad(f"a name that Coq has no letters for: {name}")
    return f"{name}_" if name in RESERVED or name[0].isdigit() else name


def names_of(groups):
    return [(name, kind, implicit) for names, kind, implicit in groups for name in names]


def arrows(kind):
    """The arguments of a function's type and its result."""
    groups = []
    while kind[0] == "pi":
        groups += kind[1]
        kind = kind[2]
    return names_of(groups), kind


def first_argument(kind):
    """The first argument of a function's type, and the type of what is left."""
    if kind[:2] == NO:
        return (None, kind[2][0], False), ("var", "⊥")
    if kind[0] != "pi":
        raise Bad("more patterns than arguments")
    (names, given, implicit), *groups = kind[1]
    groups = [(names[1:], given, implicit), *groups] if len(names) > 1 else groups
    return (names[0], given, implicit), ("pi", groups, kind[2]) if groups else kind[2]


def with_fewer(clause, many):
    """A clause with this many patterns, and the variables after these in front of its right side."""
    patterns, body, where = clause
    if len(patterns) <= many:
        return clause
    if where or any(it[0] != "var" for it in patterns[many:]):
        raise Bad("more patterns than arguments")
    return patterns[:many], ("lam", patterns[many:], body), where


def without_first(clause, value):
    """A clause without its first pattern, whose variable, if it is one, is this value."""
    (first, *patterns), body, where = clause
    return (patterns, replaced(body, first, value), replaced(where, first, value)) if first[0] == "var" else \
        (patterns, body, where)


def fields_of(term, variable):
    """The fields of a variable that a term reads."""
    if isinstance(term, tuple) and term[:2] == ("proj", variable):
        yield term[2]
    elif isinstance(term, (tuple, list)):
        for part in term:
            yield from fields_of(part, variable)


def is_plain_fact(function, fact):
    """Whether a function is written out, and a fact says by itself which values are the same."""
    return function[0] == "lam" and fact[0] == "app" and fact[1][0] == "var" and not has_tactic(fact)


def mentions(term, name):
    if isinstance(term, tuple) and term[:2] == ("var", name):
        return True
    return isinstance(term, (tuple, list)) and any(mentions(part, name) for part in term)


def is_tactic(term):
    return term[0] in ("tac", "proj") or term[0] == "app" and term[1] in (("var", "rw"), ("var", "rw_at"))


def is_bare(term):
    """Whether a term is a tactic, and no field."""
    return is_tactic(term) and term[0] != "proj"


def has_tactic(term):
    """Whether a tactic other than a field stands in a term."""
    if isinstance(term, tuple) and term and isinstance(term[0], str) and is_bare(term):
        return True
    return isinstance(term, (tuple, list)) and any(map(has_tactic, term))


def tactic_mentions(term, name):
    """Whether a name stands inside of a tactic."""
    if isinstance(term, tuple) and term and isinstance(term[0], str) and is_tactic(term):
        return mentions(term, name)
    return isinstance(term, (tuple, list)) and any(tactic_mentions(part, name) for part in term)


def with_fields(term, fields):
    """A term in which the fields of its record have the names that Coq gives them, except names that it binds."""
    if isinstance(term, tuple) and len(term) == 2 and term[0] == "var" and term[1] in fields:
        return ("raw", fields[term[1]])
    if isinstance(term, tuple) and term[:1] in (("pi",), ("lam",)):
        fields = {name: coq for name, coq in fields.items() if name not in bound_by(term)}
    if isinstance(term, (tuple, list)):
        return type(term)(with_fields(part, fields) for part in term)
    return term


def bound_by(term):
    """The names that a function or its type gives its arguments."""
    if term[0] == "pi":
        return {name for names, _, _ in term[1] for name in names}
    return {name for binder in term[1] for name in (binder[1] if binder[0] == "typed" else words_of(binder[1:]))}


def words_of(part):
    """All words in a declaration."""
    if isinstance(part, str):
        yield part
    elif isinstance(part, (tuple, list, dict)):
        for each in part.values() if isinstance(part, dict) else part:
            yield from words_of(each)


def is_of_lemmas(module):
    """Whether a module has lemmas and what they need, of which a part is written: the lemmas that a law stands on."""
    return ".proofs." in module or ".Working" in module


def flat(declarations):
    """Declarations in which those of a module with parameters have these as their own first arguments."""
    found = []
    for each in declarations:
        if each["kind"] != "module":
            found.append(each)
            continue
        inner = flat(each["decls"])
        siblings = {of_it["name"] for of_it in inner if "name" in of_it}
        found += [with_parameters(of_it, each["params"], siblings) for of_it in inner]
    return found


def with_tails(clauses):
    """Clauses in which the last two, of a list of one item and of a longer one, are one: Coq sees then that a call for
    the longer one without its first item is a call for what the list ends with."""
    if len(clauses) < 2:
        return clauses
    (ones, one, _), (mores, more, _) = clauses[-2:]
    places = [at for at, (a, b) in enumerate(zip(ones, mores)) if a != b]
    if len(places) != 1 or clauses[-2][2] or clauses[-1][2]:
        return clauses
    a, b = ones[places[0]], mores[places[0]]
    if a[:2] != ("con", "◌∷◌") or b[:2] != a[:2] or a[2][0] != b[2][0] or a[2][1] != ("var", "[]") or \
            b[2][1][:2] != a[:2]:
        return clauses
    left = ("var", "left_over")
    body = ("elim", left, None, [(a[2][1], one), (b[2][1], replaced(more, term_of(b[2][1]), left))])
    whole = [*ones[:places[0]], ("con", "◌∷◌", [a[2][0], left]), *ones[places[0] + 1:]]
    return [*clauses[:-2], (whole, body, [])]


def term_of(pattern):
    """The term that a pattern of a list stands for."""
    return ("app", ("var", pattern[1]), [term_of(each) for each in pattern[2]]) if pattern[0] == "con" else pattern


def replaced(term, old, new):
    if term == old:
        return new
    if isinstance(term, dict):
        return {key: replaced(part, old, new) for key, part in term.items()}
    if isinstance(term, (tuple, list)):
        return type(term)(replaced(part, old, new) for part in term)
    return term


def with_parameters(each, groups, siblings):
    if each["kind"] == "record":
        fields = {name for name, _ in each["fields"]}
        given = [(name, given_to(kind, groups, siblings - fields)) for name, kind in each["fields"]]
        params = given_to(each["params"], groups, siblings)
        return each | {"params": [*groups, *params], "fields": given}
    if each["kind"] != "def":
        raise Bad(f"{each['kind']} in a module with parameters")
    clauses = []
    for patterns, body, where in each["clauses"]:
        words = set(words_of(patterns))
        renamed = [([f"{name}_outer" if name in words else name for name in names], kind, implicit)
                   for names, kind, implicit in groups]
        heads = [("ipat", old, ("var", name)) if implicit else ("var", name)
                 for (name, _, implicit), (old, _, _) in zip(names_of(renamed), names_of(groups))]
        body, where = given_to((body, where), renamed, siblings - words)
        clauses.append(([*heads, *patterns], body, where))
    return each | {"type": ("pi", groups, given_to(each["type"], groups, siblings)), "clauses": clauses}


def given_to(term, groups, siblings):
    """A term in which the names of a module's own declarations are given its parameters."""
    explicit = [("var", name) for name, _, implicit in names_of(groups) if not implicit]
    if not explicit:
        return term
    if isinstance(term, dict):
        found = {key: given_to(part, groups, siblings) for key, part in term.items()}
        if "clauses" in term:
            found["clauses"] = [(patterns, *given_to((body, where), groups, siblings - set(words_of(patterns))))
                                for patterns, body, where in term["clauses"]]
        return found
    if isinstance(term, tuple) and term[:1] == ("app",) and term[1][0] == "var" and term[1][1] in siblings:
        return ("app", term[1], explicit + given_to(term[2], groups, siblings))
    if isinstance(term, tuple) and term[:1] == ("var",) and term[1] in siblings:
        return ("app", term, explicit)
    if isinstance(term, (tuple, list)):
        return type(term)(given_to(part, groups, siblings) for part in term)
    return term


class Module:
    """A module: its declarations, and the name that its file has in Coq."""

    def __init__(self, name, path, text):
        self.name, self.path = name, path
        self.file = Library.file(name)
        self.declarations = flat(antt.read_text(text, str(path)))
        self.own, self.taken = {}, None
        for each in self.declarations:
            if "name" in each:
                self.own[each["name"]] = each
            for name_of_it, _ in each.get("cons", ()):
                self.own[name_of_it] = {"kind": "constructor", "name": each["name"]}

    def uses(self):
        return [each | {"module": each["module"].removesuffix(".TheVariants")} for each in self.declarations
                if each["kind"] == "use"]


class Library:
    """The modules below a folder of crates, and those of `texts` by their names. The lemmas of `axioms` are stated
    without their proofs, and those of `by_hand` have the proof that it gives."""

    def __init__(self, crates, axioms=(), by_hand=None, texts=None):
        self.crates, self.axioms = Path(crates), set(axioms)
        self.by_hand, self.texts = by_hand or {}, texts or {}
        self.words = set(DECLARED.findall((HERE / "Kit.v").read_text(encoding="utf-8")))
        self.modules, self.chosen = {}, {}
        self.proved_by_hand = set()
        self.declared = 0

    def path(self, name):
        """The file of a module, if it is none of the kit's."""
        first, crate, *rest = name.split(".")
        path = self.crates.joinpath(crate, *rest).with_suffix(".antt")
        return path if first == "Rattle" and path.is_file() else None

    def has(self, name):
        """Whether a module is read here. Constants that Kit.v has are its own."""
        if name not in self.texts and self.path(name) is None and name != "Rattle.s2cell.specs.declared.TheConstants":
            text = declared.text(self.crates, name)
            if text is not None:
                self.texts[name] = text
        return name in self.texts or self.path(name) is not None

    @staticmethod
    def file(name):
        """The name that a module's file has in Coq."""
        return "_".join(name.split(".")[1:])

    def module(self, name):
        if name not in self.modules:
            path = self.path(name)
            text = self.texts[name] if name in self.texts else path.read_text(encoding="utf-8")
            self.modules[name] = Module(name, path or name, text)
        return self.modules[name]

    def choose(self, names, cited=()):
        """Chooses what is written: all of these modules and of definitions, the lemmas that are cited, and those that
        all of these stand on."""
        self.chosen = {}
        waiting = [(name, each) for name in names for each in self.module(name).own]

        def want(name, each):
            if each not in self.chosen.setdefault(name, set()):
                self.chosen[name].add(each)
                waiting.append((name, each))

        for name in names:
            self.chosen[name] = set(self.module(name).own)
        for file, lemma in cited:
            name = f"Rattle.{file.replace('_', '.')}"
            want(name, next(each for each in self.module(name).own if coq_name(each) == lemma))
        while waiting:
            name, each = waiting.pop()
            module = self.module(name)
            declared_, names_there = module.own[each], self.names_in(module)
            want(name, declared_["name"])
            for word in words_of(declared_):
                if word in module.own:
                    want(name, module.own[word]["name"])
                elif word in names_there:
                    other, word = names_there[word]
                    for part in [word] if is_of_lemmas(other) else self.module(other).own:
                        want(other, part)

    def names_in(self, module):
        """The names that a module takes from others: the module and the name there."""
        if module.taken is None:
            module.taken = {}
            for each in module.uses():
                if each["as"] and not each["names"] and self.has(each["module"]):
                    module.taken[each["as"]] = each["module"], next(iter(self.module(each["module"]).own))
                for name in each["names"] if self.has(each["module"]) else ():
                    name, _, other = (part.strip() for part in name.partition(" as "))
                    if name not in self.module(each["module"]).own:
                        raise Bad(f"{module.path}:{each['line']}: {each['module']} has no {name}")
                    module.taken[other or name] = each["module"], name
        return module.taken

    def is_chosen(self, name, each):
        """Whether a declaration of a module is written."""
        return "name" not in each or each["name"] in self.chosen[name]

    def order(self, names):
        """These modules and those below them of which something is chosen, each after what it uses."""
        found = []

        def visit(name):
            if name not in found:
                for each in self.module(name).uses():
                    if each["module"] in self.chosen:
                        visit(each["module"])
                found.append(name)

        for name in names:
            visit(name)
        return found

    def write(self, folder, names, cited=()):
        """Writes the modules' files, and gives their names in the order in which Coq has to read them."""
        files = []
        self.choose(names, cited)
        for name in self.order(self.chosen):
            module = self.module(name)
            Path(folder, f"{module.file}.v").write_text(Writer(self, module).text(), encoding="utf-8")
            files.append(module.file)
        return files


class Writer:
    """Writes a module."""

    def __init__(self, library, module):
        self.library, self.module = library, module
        self.known = {name: (TYPES[name], None) for name in ("⊥", "Unit")}
        self.known |= {"absurd": ("Kit.absurd", None), "¬": ("Kit.no", None), "tt": ("tt", {"kind": "constructor"})}
        self.records = {name: ({"fields": [(field, None)]}, "Kit.") for name, field in KIT_RECORDS.items()}
        self.unfolding = ()
        self.defined, self.implicit = None, []
        self.depth = self.cases = 0

    def text(self):
        for each in self.module.uses():
            self.use(each)
        below = [self.library.module(name) for name in self.library.order([self.module.name])[:-1]]
        for module in below:
            for name, each in module.own.items():
                if each["kind"] == "record" and self.library.is_chosen(module.name, each):
                    self.records[f"{module.file}.{coq_name(name)}"] = (each, f"{module.file}.")
        lines = [HEAD.format(uses="".join(f"Require {module.file}.\n" for module in below))]
        for each in self.module.declarations:
            if not self.library.is_chosen(self.module.name, each):
                continue
            try:
                lines += DECLARATIONS[each["kind"]](self, each)
            except (Bad, KeyError) as error:
                what = error if isinstance(error, Bad) else f"not known: {error}"
                raise Bad(f"{self.module.path}:{each['line']}: {what}") from error
            self.library.declared += "name" in each
        return "\n".join(lines) + "\n"

    def use(self, each):
        """The names that a module takes from another one, or from the kit."""
        if each["as"] and not each["names"] and self.library.has(each["module"]):
            module = self.library.module(each["module"])
            self.known |= {f"{each['as']}.{name}": (f"{module.file}.{coq_name(name)}", of_it)
                           for name, of_it in module.own.items()}
        for name in each["names"]:
            name, _, other = (part.strip() for part in name.partition(" as "))
            if self.library.has(each["module"]):
                module = self.library.module(each["module"])
                self.known[other or name] = (f"{module.file}.{coq_name(name)}", module.own.get(name))
            else:
                self.known[other or name] = self.word(name)

    def word(self, name):
        """A word of the kit; None in place of Coq's if Kit.v lacks it."""
        if name in CONSTRUCTORS:
            return CONSTRUCTORS[name], {"kind": "constructor"}
        if name in TYPES:
            return TYPES[name], None
        try:
            return (f"Kit.{coq_name(name)}" if coq_name(name) in self.library.words else None), None
        except Bad:
            return None, None

    # ---- declarations

    def record(self, each):
        name, fields, parts = coq_name(each["name"]), {}, []
        params = [(coq_name(param), implicit) for param, _, implicit in names_of(each["params"])]
        with self.bound(param for param, _, _ in names_of(each["params"])):
            for field, kind in each["fields"]:
                parts.append(f"{name}__{coq_name(field)} : {self.term(with_fields(kind, fields))}")
                fields[field] = f"{name}__{coq_name(field)}"
        self.known[each["name"]] = (name, each)
        self.records[name] = (each, "")
        yield f"Record {name} {self.parameters(each)} : Type := mk_{name} {{ {'; '.join(parts)} }}."
        braced = " ".join(f"{{{param}}}" for param, _ in params)
        if params:
            yield f"Arguments mk_{name} {braced} & {' '.join('_' for _ in parts)}."
            yield from (f"Arguments {field} {braced} _." for field in fields.values())
        if any(implicit for _, implicit in params):
            marked = " ".join(f"{{{param}}}" if implicit else param for param, implicit in params)
            yield f"Arguments {name} {marked}."

    def parameters(self, each):
        return " ".join(f"({' '.join(map(coq_name, names))} : {self.term(kind)})" for names, kind, _ in each["params"])

    def data(self, each):
        name = coq_name(each["name"])
        self.known[each["name"]] = (name, each)
        constructors = [(coq_name(of_it), kind) for of_it, kind in each["cons"]]
        parts = " ".join(f"| {of_it} : {self.term(kind)}" for of_it, kind in constructors)
        yield f"Inductive {name} {self.parameters(each)} : {self.term(each['index'])} := {parts}."
        braced = " ".join(f"{{{coq_name(param)}}}" for param, _, _ in names_of(each["params"]))
        for (of_it, kind), (written, _) in zip(constructors, each["cons"]):
            self.known[written] = (of_it, {"kind": "constructor"})
            if braced:
                marks = (f"{{{coq_name(arg)}}}" if implicit else "_" for arg, _, implicit in arrows(kind)[0])
                yield f"Arguments {of_it} {braced} & {' '.join(marks)}."

    def definition(self, each):
        name = coq_name(each["name"])
        whole = f"{self.module.file}.{name}"
        self.unfolding = [self.known[word][0] for word in each.get("unfolding", ())
                          if self.known.get(word, (None,))[0]]
        arguments, result = arrows(each["type"])
        kind = self.term(each["type"])
        if whole in self.library.by_hand:
            self.library.proved_by_hand.add(whole)
            yield f"Definition {name} : {kind}.\n{self.library.by_hand[whole]}"
        elif whole in self.library.axioms:
            yield f"Axiom {name} : {kind}."
        elif self.is_plain(each):
            patterns, body, where = each["clauses"][0]
            yield f"Definition {name} : {kind} := {self.function(patterns, arguments, body, where)}."
        else:
            yield self.equations(each, name, arguments, result)
        if any(implicit for _, _, implicit in arguments):
            yield f"Arguments {name} {self.marks(arguments)}."
        self.known[each["name"]] = (name, each)
        if "abbrev" in each["marks"]:
            yield f"#[global] Hint Unfold {name} : antt."
        elif ".proofs." in self.module.name and "unfoldable" not in each["marks"] and \
                whole not in self.library.axioms:
            yield f"#[global] Opaque {name}."

    @staticmethod
    def marks(arguments):
        """How arguments are given: those that are left out in braces, up to a sign after the last of these."""
        marks = [f"{{{coq_name(arg)}}}" if implicit else "_" for arg, _, implicit in arguments]
        last = max(at for at, (_, _, implicit) in enumerate(arguments) if implicit) + 1
        return " ".join(marks[:last] + ["&"] * (last < len(marks)) + marks[last:])

    def is_plain(self, each):
        """Whether a definition has one clause of variables, and doesn't call itself."""
        if not each["clauses"]:
            raise Bad(f"{each['name']}: no clause")
        patterns, body, _ = each["clauses"][0]
        return len(each["clauses"]) == 1 and all(map(self.is_variable, patterns)) and not mentions(body, each["name"])

    def function(self, patterns, arguments, body, where):
        names = [pattern[1] for pattern in self.lined_up(patterns, arguments)]
        with self.bound(names):
            text = self.with_where(body, where)
        return f"fun {' '.join(map(self.binder, names))} => {text}" if names else text

    @staticmethod
    def binder(name):
        return "_" if name == "_" else coq_name(name)

    def equations(self, each, name, arguments, result):
        """A definition by cases."""
        clauses = with_tails(each["clauses"]) if ".specs." in self.module.name else each["clauses"]
        many = max(len(self.lined_up(patterns, arguments)) for patterns, _, _ in clauses)
        while many > len(arguments) and (result[0] == "pi" or result[:2] == NO):
            argument, result = first_argument(result)
            arguments.append(argument)
        clauses, many = [with_fewer(it, len(arguments)) for it in clauses], min(many, len(arguments))
        earlier = [{arg for arg, _, _ in arguments[:at]} for at in range(many)]
        heads = [f"({coq_name(f'arg{at}' if arg in (None, *earlier[at]) else arg)} : {self.term(kind)})"
                 for at, (arg, kind, _) in enumerate(arguments[:many])]
        rest = [([arg], kind, implicit) for arg, kind, implicit in arguments[many:]]
        kind = self.term(("pi", rest, result) if rest else result)
        self.defined, self.implicit = each["name"], [(arg, implicit) for arg, _, implicit in arguments]
        rows = [self.row(name, each["name"], self.lined_up(patterns, arguments), many, body, where)
                for patterns, body, where in clauses]
        self.defined = None
        return f"Equations(noind noeqns) {name} {' '.join(heads)} : {kind} :=\n" + ";\n".join(rows) + "."

    def row(self, name, defined, patterns, many, body, where):
        more = [f"more{at}" for at in range(len(patterns), many)]
        with self.bound(name for pattern in patterns for name in self.variables(pattern)):
            text = self.with_where(body, where)
        if more:
            text = f"({text}) {' '.join(more)}"
        if tactic_mentions(body, defined):
            text = f"(let self := {name} in {text})"
        return f"  {name} {' '.join([*map(self.pattern, patterns), *more])} := {text}"

    def with_where(self, body, where):
        lets = []
        for each in where:
            if each["kind"] != "def" or mentions([body for _, body, _ in each["clauses"]], each["name"]):
                raise Bad("a declaration below where that isn't a definition, or calls itself")
            if self.is_plain(each):
                patterns, inner, further = each["clauses"][0]
                function = self.function(patterns, arrows(each["type"])[0], inner, further)
            else:
                function = self.by_cases(each["type"], each["clauses"])
            lets.append((coq_name(each["name"]), self.term(each["type"]), function))
        text = self.term(body)
        for name, kind, function in reversed(lets):
            text = f"(let {name} : {kind} := {function} in {text})"
        return text

    def by_cases(self, kind, clauses):
        """A definition by cases as a function of this type: what its first argument is, and so on."""
        if not any(patterns for patterns, _, _ in clauses):
            return self.with_where(*clauses[0][1:])
        (name, _, implicit), rest = first_argument(kind)
        if implicit:
            raise Bad("a definition by cases below where with an argument that is left out")
        firsts = [patterns[0] for patterns, _, _ in clauses]
        if all(map(self.is_variable, firsts)):
            said = next((it[1] for it in firsts if it[1] != "_"), name or "_")
            name, rest = said, replaced(rest, ("var", name), ("var", said))
            with self.bound([name]):
                inner = self.by_cases(rest, [without_first(it, ("var", name)) for it in clauses])
            return f"(fun {self.binder(name)} => {inner})"
        value, rows = f"case{self.cases}", []
        rest = replaced(rest, ("var", name), ("var", value))
        self.cases += 1
        for first in (it for at, it in enumerate(firsts) if it not in firsts[:at]):
            taken = [it for it in clauses if it[0][0] == first or self.is_variable(it[0][0])]
            with self.bound(self.variables(first)):
                inner = self.by_cases(replaced(rest, ("var", value), term_of(first)),
                                      [without_first(it, term_of(first)) for it in taken])
            rows.append(f"| {self.pattern(first)} => {inner}")
        return f"(fun {value} => match {value} as {value} return {self.term(rest)} with {' '.join(rows)} end)"

    # ---- patterns

    def is_constructor(self, name):
        each = self.known.get(name, (None, None))[1]
        return bool(each) and each["kind"] == "constructor"

    def is_variable(self, pattern):
        if pattern[0] == "ipat":
            return self.is_variable(pattern[2])
        return pattern[0] == "var" and not self.is_constructor(pattern[1])

    @staticmethod
    def lined_up(patterns, arguments):
        """A pattern for each argument: '_' for one that the clause leaves out."""
        found = []
        for pattern in patterns:
            named = pattern[1] if pattern[0] == "ipat" else None
            while len(found) < len(arguments) and arguments[len(found)][2] and arguments[len(found)][0] != named:
                # a variable of the clause may have its name
                is_hidden = arguments[len(found)][0] in words_of(patterns)
                found.append(("var", f"left_out{len(found)}" if is_hidden else "_"))
            found.append(pattern[2] if named else pattern)
        return found

    def variables(self, pattern):
        """The names that a pattern binds."""
        if pattern[0] == "var":
            return [] if self.is_constructor(pattern[1]) else [pattern[1]]
        inner = {"con": pattern[-1], "tup": pattern[1], "ipat": pattern[2:]}.get(pattern[0], ())
        return [name for each in inner for name in self.variables(each)]

    def pattern(self, pattern):
        kind, what = pattern[:2]
        if kind == "var":
            return self.known[what][0] if self.is_constructor(what) else self.binder(what)
        if kind == "con" and self.is_constructor(what):
            return f"({self.known[what][0]} {' '.join(map(self.pattern, pattern[2]))})"
        if kind == "tup":
            return f"(Kit.mk{len(what)} {' '.join(map(self.pattern, what))})"
        raise Bad(f"a pattern: {pattern}")

    # ---- terms

    def term(self, term):
        """A term, in Coq's words."""
        self.depth += is_tactic(term)
        try:
            return TERMS[term[0]](self, term)
        finally:
            self.depth -= is_tactic(term)

    @contextmanager
    def bound(self, names):
        """Below a place that binds names these are no longer what a module gives."""
        outer = {name: self.known.pop(name) for name in set(names) if name in self.known}
        try:
            yield
        finally:
            self.known |= outer

    def name(self, name):
        coq = self.known[name][0] if name in self.known else coq_name(name)
        if coq is None:
            raise Bad(f"Kit.v lacks the kit's word {name}")
        return coq

    def variable(self, term):
        name = term[1]
        if name == "Type":
            return "Type"
        if name != self.defined:
            return self.name(name)
        skipped = 0
        while skipped < len(self.implicit) and self.implicit[skipped][1]:
            skipped += 1
        return f"({self.own_name()}{' _' * skipped})" if skipped else self.own_name()

    def own_name(self):
        """The name of what is defined by cases; inside of a tactic, the one that the row gives it."""
        return "self" if self.depth else coq_name(self.defined)

    def number(self, term):
        """A number; a great one by its digits to the base 16, as Coq would count up to it."""
        return str(term[1]) if term[1] <= GREATEST_LITERAL else self.digits(term[1])

    def letters(self, term):
        """A text, as the numbers of its letters."""
        text = term[1][1:-1].encode().decode("unicode_escape")
        if not text.isascii():
            raise Bad(f"letters beyond ASCII: {text}")
        return '(Kit.text "' + text.replace('"', '""') + '"%string)'

    def digits(self, number):
        high, low = divmod(number, 16)
        return f"({self.digits(high)} * 16 + {low})" if high else str(low)

    def lambda_(self, term):
        heads = []
        with self.bound(bound_by(term)):
            body = self.term(term[2])
        for at, each in reversed(list(enumerate(term[1]))):
            if each[0] == "typed":
                heads.append(f"({' '.join(map(coq_name, each[1]))} : {self.term(each[2])})")
            elif each[0] == "var":
                heads.append(self.binder(each[1]))
            elif each[0] == "tup":
                heads.append(f"parts{at}")
                body = f"(match parts{at} with {self.pattern(each)} => {body} end)"
            else:
                raise Bad(f"a binder: {each}")
        return f"(fun {' '.join(reversed(heads))} => {body})"

    def let(self, term):
        _, pattern, kind, value, body = term
        if pattern[0] != "var":
            return f"(match {self.term(value)} with {self.pattern(pattern)} => {self.term(body)} end)"
        name, typed = coq_name(pattern[1]), f" : {self.term(kind)}" if kind else ""
        is_proof, given = self.is_proof(kind, value), self.term(value)
        with self.bound([pattern[1]]):
            then = self.term(body)
        if is_proof:
            return f"(Kit.have ({given}{typed}) (fun {name} =>\n    {then}))"
        return f"(let {name}{typed} := {given} in\n    {then})"

    def is_proof(self, kind, value):
        """Whether a value is a claim's proof, or what a lemma gives: nothing depends on how it was made."""
        if ".proofs." not in self.module.name or self.defined:
            return False
        if kind:
            return kind[0] == "app" and kind[1][0] == "var" and kind[1][1] in CLAIMS
        head = value[1] if value[0] == "app" else value
        whole, each = self.known.get(head[1], (None, None)) if head[0] == "var" else (None, None)
        return bool(each) and each["kind"] == "def" and "_proofs_" in whole and "unfoldable" not in each["marks"]

    def pi(self, term):
        text = ""
        for names, kind, _ in term[1]:
            text += f"{self.term(kind)} -> " if names == [None] else \
                f"forall ({' '.join(map(coq_name, names))} : {self.term(kind)}), "
        return f"({text}{self.term(term[2])})"

    def sigma(self, term):
        parts, names = [], []
        for name, kind in term[1]:
            parts.append(f"(fun {' '.join(names)} => {self.term(kind)})" if names else self.term(kind))
            names.append(coq_name(name) if name else "_")
        return f"(Kit.T{len(parts)} {' '.join(parts)})"

    def tuple_(self, term):
        return f"(Kit.mk{len(term[1])} {' '.join(map(self.term, term[1]))})" if term[1] else "tt"

    def choice(self, term):
        return f"(if {self.term(term[1])} then {self.term(term[2])} else {self.term(term[3])})"

    def eliminate(self, term, is_given=False):
        """A choice by cases, which may be given arguments: then what it gives is said for each case."""
        _, value, motive, cases = term
        rows = " ".join(f"| {self.pattern(pattern)} => {self.term(body)}" for pattern, body in cases)
        kind = ""
        if is_given and motive and motive[0] == "lam" and len(motive[1]) == 1 and motive[1][0][0] == "var":
            kind = f" as {coq_name(motive[1][0][1])} return {self.term(motive[2])}"
        return f"(match {self.term(value)}{kind} with {rows} end)"

    def projection(self, term):
        if term[1][0] == "var" and f"{term[1][1]}.{term[2]}" in self.known:
            return self.name(f"{term[1][1]}.{term[2]}")
        field, value = term[2], self.term(term[1])
        whole, of_it = self.known.get(term[1][1], (None, None)) if term[1][0] == "var" else (None, None)
        if of_it and of_it["kind"] == "data":
            return f"{whole.rpartition('.')[0]}.{coq_name(field)}".lstrip(".")
        if field.isdigit():
            return f"ltac:(let r := open_constr:({value}) in k_proj{field} r)"
        having = [record for record, (each, _) in self.records.items() if field in dict(each["fields"])]
        if not having:
            raise Bad(f"no record with the field {field}")
        if len(having) == 1:
            return f"({having[0]}__{coq_name(field)} {value})"
        tries = " | ".join(f"exact ({record}__{coq_name(field)} r)" for record in reversed(having))
        return f"ltac:(let r := open_constr:({value}) in first [{tries}])"

    def has_unknown_field(self, function):
        """Whether a function of one argument, whose type isn't said, reads a field that several records have."""
        if function[0] != "lam" or [binder[0] for binder in function[1]] != ["var"]:
            return False
        fields = set(fields_of(function[2], function[1][0]))
        return any(sum(field in dict(each["fields"]) for each, _ in self.records.values()) > 1 for field in fields)

    def construct(self, term):
        _, base, fields = term
        values = dict(fields)
        fitting = [record for record, (each, _) in self.records.items()
                   if (dict(each["fields"]).keys() >= values.keys() if base else
                       dict(each["fields"]).keys() == values.keys())]
        if not fitting:
            raise Bad(f"a record with the fields {', '.join(values)}")
        visible = {coq for coq, _ in self.known.values()} | {record for record in fitting if record in KIT_RECORDS}
        made = []
        for record in [each for each in fitting if each in visible] or fitting[-1:]:
            each, prefix = self.records[record]
            parts = " ".join(self.term(values[name]) if name in values else f"({record}__{coq_name(name)} base_)"
                             for name, _ in each["fields"])
            made.append(f"({prefix}mk_{record.split('.')[-1]} {parts})")
            if base:
                made[-1] = f"(let base_ := {self.term(base)} in {made[-1]})"
        return made[0] if len(made) == 1 else f"ltac:(first [{' | '.join(f'exact {each}' for each in made)}])"

    def application(self, term):
        _, function, arguments = term
        name = function[1] if function[0] == "var" else None
        if name in ("Type", "Unit"):
            return self.name(name) if name == "Unit" else name
        if name in WITHIN_LITERAL:
            return "ltac:(repeat autounfold with antt; first [lia | cbn; lia])"
        if name in ("rw", "rw_at"):
            return self.rewritten(name, *arguments)
        if name == self.defined and name is not None:
            return self.own_call(arguments)
        if name == "◌∙◌" and has_tactic(arguments[0]) and not has_tactic(arguments[1]):
            return f"(Kit.before {self.term(arguments[1])} {self.term(arguments[0])})"
        if name == "⊎_elim" and len(arguments) == 3 and not has_tactic(arguments[2]):
            return f"(Kit.or_elim_of {' '.join(map(self.term, (arguments[2], *arguments[:2])))})"
        if name == "All" and len(arguments) == 2 and self.has_unknown_field(arguments[0]):
            each, items = coq_name(arguments[0][1][0][1]), self.term(arguments[1])
            return f"(Kit.All (fun ({each} : Kit.item {items}) => {self.term(arguments[0][2])}) {items})"
        if name == "Decides-like" and len(arguments) == 4:
            return f"(Kit.Decides_like_of {' '.join(map(self.term, (arguments[0], arguments[3], *arguments[1:3])))})"
        if name == "ap" and (arguments[1][0] == "var" or is_plain_fact(*arguments)):
            return f"(Kit.ap_of {' '.join(map(self.term, arguments))})"
        if name == "ap" and arguments[1][0] == "proj":
            function, fact = map(self.term, arguments)
            return f"ltac:(first [exact (Kit.ap {function} {fact}) | let e := open_constr:({fact}) in " \
                f"exact (Kit.ap_of {function} e)])"
        words = [f"({coq_name(each[1])} := {self.term(each[2])})" if each[0] == "iarg" else self.term(each)
                 for each in arguments]
        head = self.eliminate(function, True) if function[0] == "elim" else self.term(function)
        whole = f"({head} {' '.join(words)})"
        return self.tactics_last(function, arguments, words, whole) if self.is_late(name, arguments) else whole

    def is_late(self, name, arguments):
        """Whether what a tactic has to prove may be known only by arguments that come after it."""
        each = self.known.get(name, (None, None))[1] if name else None
        if self.defined or not each or each["kind"] != "def" or not any(part[2] for part in arrows(each["type"])[0]):
            return False
        tactics = [is_bare(part) for part in arguments]
        return True in tactics and False in tactics[tactics.index(True):]

    def tactics_last(self, function, arguments, words, whole):
        """An application in which the tactics come last, if they fail where they stand."""
        holes = ["_" if is_bare(each) else word for each, word in zip(arguments, words)]
        proofs = " | ".join(f"exact {word}" for each, word in zip(arguments, words) if is_bare(each))
        return f"ltac:(first [exact {whole} | refine ({self.term(function)} {' '.join(holes)}); [> {proofs}]])"

    def own_call(self, arguments):
        """A call of what is defined by cases: Coq wants all arguments there."""
        named = {each[1]: each[2] for each in arguments if each[0] == "iarg"}
        words = []

        def leave_out():
            while len(words) < len(self.implicit) and self.implicit[len(words)][1]:
                name = self.implicit[len(words)][0]
                words.append(self.term(named[name]) if name in named else "_")

        for each in arguments:
            if each[0] != "iarg":
                leave_out()
                words.append(self.term(each))
        return f"({self.own_name()} {' '.join(words)})"

    # ---- tactics

    def rewritten(self, how, equations, value):
        """A proof of what comes after rewriting; at a fact, it is the fact that is rewritten."""
        hypothesis = "H" if how == "rw_at" else ""
        steps = []
        for each in equations[1] if equations[0] == "tup" else [equations]:
            back = each[0] == "app" and each[1] == ("var", "←")
            if back:
                each = ("app", each[2][0], each[2][1:]) if len(each[2]) > 1 else each[2][0]
            place = f"_in E {hypothesis}" if hypothesis else " E"
            steps.append(f"(let E := fresh \"E\" in pose proof ({self.term(each)}) as E; {self.unfolded('E')} "
                         f"k_rewrite{'_back' if back else ''}{place}; clear E);")
        steps = f"{self.unfolded(hypothesis)} {' '.join(steps)}"
        if hypothesis:
            return f"ltac:(let H := fresh \"H\" in pose proof ({self.term(value)}) as H; {steps} exact H)"
        return f"ltac:({steps} exact ({self.term(value)}))"

    def unfolded(self, where):
        place = f" in {where}" if where else ""
        words = f"try unfold {', '.join(self.unfolding)}{place}; " if self.unfolding else ""
        return f"{words}k_norm{f'_in {where}' if where else ''};"

    def tactic(self, term):
        _, name, facts = term
        if name not in TACTICS:
            raise Bad(f"the tactic {name}")
        posed = "".join(f"(let F := fresh \"F\" in pose proof ({self.term(each)}) as F); " for each in facts
                        if each[0] != "var" or each[1] not in RULES)
        cleared = f"try clear self; try clear {coq_name(self.defined)}; " if self.defined else ""
        unfolded = f"try unfold {', '.join(self.unfolding)} in *; " if self.unfolding else ""
        tests = "first [k_tests | " if ("var", "nat_tests") in facts else ""
        return f"ltac:({posed}k_lets; {cleared}{unfolded}{tests}{TACTICS[name]}{']' * bool(tests)})"


DECLARATIONS = {"use": lambda *_: (), "infix": lambda *_: (), "record": Writer.record, "data": Writer.data,
                "def": Writer.definition}
TERMS = {"raw": lambda _, term: term[1], "num": Writer.number, "str": Writer.letters, "var": Writer.variable,
         "app": Writer.application, "lam": Writer.lambda_, "let": Writer.let, "pi": Writer.pi, "sig": Writer.sigma,
         "tup": Writer.tuple_, "if": Writer.choice, "proj": Writer.projection, "rec": Writer.construct,
         "elim": Writer.eliminate, "tac": Writer.tactic}
