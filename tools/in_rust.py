"""The methods of Rust: their comments with examples that are run, what they forward to, and the questions of tests."""
import ast
import re

import languages
from declared import text_of

INDENT = " " * 4
OF = {"CellId": "self.id()", "CellUnion": "self.as_ref()", "UnionFile": "self.bytes", "Rect": "self"}
UNION = "a new union"
CORNERS = ("face", "i0", "i1", "j0", "j1")
MOST = "10"  # cells of a covering in an example
NAMED = {"SHAPE": "NoShape"}  # errors that aren't called as their statuses
INCLUDED = re.compile(r'^include!\(concat!\(env!\("OUT_DIR"\), "/(\w+\.rs)"\)\);\n', re.M)


def joined(path, text):
    """A source with the other one in it whose made form it includes in a checkout."""
    return INCLUDED.sub(lambda it: text_of(path.parents[1] / it[1]), text)


class Rust(languages.Language):
    NAME, BETWEEN, NONE, SINCE = "rust", "\n\n", "`None`", 0.2
    RENAMED = {"ids": "cells", "ys": "other", "b": "other", "part": "other", "k": "place", "bounds": "rect"}

    def owner(self, method):
        """The type that has a method."""
        if method.is_of_file:
            return "UnionFile"
        if any(it.kind == "Rect" for it in method.given[:1]):
            return "Rect"
        return "CellUnion" if method.makes_union or method.is_of_union or method.row.get("static") else "CellId"

    def name_of(self, method):
        return method.own(self.NAME).get("name") or re.sub("^(?:file|cell)_", "", method.call.name)

    def receiver(self, method):
        """The argument that is the cell, the union, the file or the rectangle itself."""
        if method.has_receiver or self.owner(method) == "Rect":
            return method.given[0]
        first = method.given[0] if method.given and self.owner(method) == "CellId" else None
        return first if first and first.kind == "u64" and not first.is_list else None

    def parameters(self, method):
        """The other arguments, each with its name, its type, and the words that pass it."""
        own = self.receiver(method)
        for it in (it for it in method.given if it is not own):
            name = self.named(method, it)
            if it.kind == "Rect":
                yield name, "&Rect", name
            elif it.is_text:
                yield name, "&str", f"{name}.as_bytes()"
            elif it.is_list and it.name == "ys":
                yield (name, "&UnionFile<'_>", f"{name}.bytes") if method.is_of_file else \
                    (name, "&CellUnion", f"{name}.as_ref()")
            elif it.is_list:
                yield (name, "&[u8]", name) if it.kind == "u8" else (name, "&[CellId]", f"numbers({name})")
            elif it.kind == "u64":
                yield (name, "usize", f"{name} as u64") if it.name == "k" else \
                    (name, "u64", name) if it.name == "work" else (name, "CellId", f"{name}.id()")
            else:
                yield name, it.kind, name
        yield from ((name, "usize", name) for name in method.row.get("more", []))

    def result(self, method):
        if method.reads_shape:
            return "Result<(CellUnion, CellUnion), Error>"
        return method.own(self.NAME).get("result") or self.answered(method)[0]

    def answered(self, method):
        """The type of what it answers, with the lines that answer it."""
        call, own = method.call, self.receiver(method)
        words = ", ".join(([OF[self.owner(method)]] if own else []) + [it for _, _, it in self.parameters(method)])
        made, asked = f"lists::{call.name}({words})", f"calls::{call.name}({words}"
        if method.written and self.owner(method) == "CellId":
            return "Result<CellId, Error>", ["let mut id = 0;", f"CellId::from_status({asked}, &mut id), id)"]
        if method.written and self.reasons(method):
            return "Result<u64, Error>", ["let mut found = 0;", f"Error::of({asked}, &mut found), 0)?;", "Ok(found)"]
        if method.written:
            return "u64", ["let mut found = 0;", f"{asked}, &mut found);", "found"]
        if call.answers_each:
            kind = "bool" if call.out.name == "answers" else "u8" if call.out.kind == "u8" else "CellId"
            return f"Vec<{kind}>", [f"cells_of({made})" if kind == "CellId" else made]
        if call.out:
            return ("String", [f"text({made})"]) if call.out.is_text else \
                ("Result<Vec<u8>, Error>", [made]) if call.out.kind == "u8" else \
                ("Result<CellUnion, Error>", [f"CellUnion::made({made})"]) if method.makes_union else \
                ("Result<Vec<CellId>, Error>", [f"{made}.map(cells_of)"])
        if method.is_question:
            return "bool", [f"{asked}) == 1"]
        if call.result == "i32":
            return "u32", [f"{asked}).unsigned_abs()"]
        if method.is_count:
            return "u64", [f"{asked})"]
        cell = f"CellId::made({asked}))"
        return ("Option<CellId>", [cell]) if "{none}" in method.returns else \
            ("CellId", [f"{cell}.unwrap_or(self)"]) if own else \
            ("Result<CellId, Error>", [f"{cell}.ok_or(Error::Argument)"])

    # ---- comments

    def reasons(self, method):
        """The errors of its result, each with when it comes: a cell is always one, so that only a text, a number or a
        file can be wrong; and each list that is made takes memory."""
        own, general = method.own(self.NAME), method.general[self.NAME]
        names = dict(method.errors())
        if not any(it.is_text for it in method.given):
            names.pop("NO_CELL", None)
        if method.call.out:
            names["MEMORY"] = ""
        names |= {name: "" for name in own if name.isupper()}
        said = {name: own.get(name) or method.row.get(name) or general.get(name) or why for name, why in names.items()}
        return {NAMED.get(name, "".join(word.capitalize() for word in name.split("_"))): why
                for name, why in said.items()}

    def comment(self, methods, method, *_):
        indent = "" if method.reads_shape else INDENT  # a function of the crate
        begin, empty = f"{indent}/// ", f"{indent}///"
        said = self.lines(f"{self.sentence(methods, method)} Since {self.since(method)}.", begin)
        more = " ".join([*self.told(methods, method), *([f"S2: {method.s2}."] if method.s2 else [])])
        said += [empty, *self.lines(more, begin)] if more else []
        if self.has_errors(method):
            said += [empty, f"{begin}# Errors", empty]
            for name, why in self.reasons(method).items():
                said += self.lines(f"- [`Error::{name}`]: {self.marked(methods, why)}", begin, "  ")
        shown = [begin + line for line in self.example(methods, method)]
        return [*said, empty, f"{begin}# Examples", empty, f"{begin}```", *shown, f"{begin}```"]

    def told(self, methods, method):
        """Sentences on its result and on its arguments, except those whose type says all."""
        names = {self.named(method, it): it for it in method.given}
        for name, kind, _ in self.parameters(method):
            is_told = name not in names or kind in ("u32", "u64", "usize", "&str") or names[name].name in method.row
            if is_told:
                yield f"`{name}` is {self.argument(methods, method, name)}."
        if not (method.makes_union and method.returns == UNION or method.is_question):
            yield f"Returns {self.returns(methods, method)}."

    def has_errors(self, method):
        return self.result(method).startswith("Result")

    def whole(self, methods, method, *_):
        kind, body = self.answered(method)
        own = [] if self.receiver(method) is None else ["self" if self.owner(method) == "CellId" else "&self"]
        words = ", ".join(own + [f"{name}: {kind}" for name, kind, _ in self.parameters(method)])
        return [*self.comment(methods, method), f"{INDENT}pub fn {self.name_of(method)}({words}) -> {kind} {{",
                *(f"{INDENT * 2}{line}" for line in body), f"{INDENT}}}"]

    # ---- examples

    def example(self, methods, method, *_):
        """The lines of an example: what it asks, what is answered, and what the language alone shows after it."""
        own = method.own(self.NAME)
        shown = Shown(self, methods)
        text = own.get("example") or shown.asserted(method)
        more = own.get("shows", "").strip("\n").splitlines()
        if method.is_of_file:  # what is shown of a union can be asked of a file, if no other union is asked too
            more = [line.replace("union.", "file.") for line in more if ".parse()?)" not in line or "&" not in line]
        made = [*shown.made, *text.strip("\n").split("\n"), *more]
        return ["# use s2union::*;", *made, *(["# Ok::<(), Error>(())"] if "?" in "".join(made) else [])]

    # ---- the questions of the tests

    def asked(self, method):
        for it, field, place in languages.fields(method):
            if it.kind == "Rect":
                yield f"g.rect({field})"
            else:
                form = languages.form_of(method, it)
                yield f"g.{form}({field})" if place is None else f"g.numbers({field})[{place}]"

    def question(self, _, method, *__):
        given = list(self.asked(method))
        own = self.receiver(method)
        of = given.pop(0) if own else self.owner(method)
        words = []
        for name, kind, _passed in self.parameters(method):
            words.append("MOST" if name == "most" else f"{'&' * kind.startswith('&')}{given.pop(0)}")
        return [f'    ("{method.question}", |g| {of}{"." if own else "::"}{self.name_of(method)}({", ".join(words)})'
                ".shown()),"]


class Shown(languages.Expression):
    """An expression of the table in Rust, and the lines before it that make what it asks."""

    def __init__(self, language, methods):
        super().__init__(language, methods)
        self.made = []

    def asserted(self, method):
        """The line that compares an expression with its answer."""
        tree, answer = ast.parse(method.example, mode="eval").body, method.answer
        if isinstance(tree, ast.Compare):
            return f"assert_eq!({self.visit(tree.left)}, {self.visit(tree.comparators[0])});"
        name = tree.func.attr if isinstance(tree, ast.Call) and isinstance(tree.func, ast.Attribute) else \
            tree.func.id if isinstance(tree, ast.Call) else ""
        if name == "join":  # of tokens: the cells themselves are compared
            cells = self.visit(tree.args[0].args[0])
            return f'assert_eq!({cells}, CellId::from_tokens("{answer}")?);'
        if name == "token" and not isinstance(tree.args[0], ast.Constant):
            inner = self.visit(tree.args[0])
            asked = self.methods.get(getattr(getattr(tree.args[0], "func", None), "id", ""))
            if asked and self.language.result(asked).startswith("Option"):
                return f'assert_eq!({inner}, Some(CellId::from_token("{answer}")?));'
            return f'assert_eq!({inner}.token(), "{answer}");'
        if name == "token":
            return f'assert_eq!({self.visit(tree)}, "{answer}");'
        if method.answers:
            answers = ", ".join(str(it).lower() for it in method.answers)
            return f"assert_eq!({self.visit(tree.value)}, [{answers}]);"
        own = self.visit(tree)
        if answer in ("true", "false"):
            return f"assert!({'!' * (answer == 'false')}{own});"
        is_text = method.makes_union or self.language.result(method) == "String"
        shown = f'"{answer}"' if is_text else answer
        return f"assert_eq!({own}{'.to_string()' * method.makes_union}, {shown});"

    def receiver(self, it):
        """What is asked, which has a line of its own before if it is a union or a file."""
        name = it.func.id if isinstance(it, ast.Call) and isinstance(it.func, ast.Name) else ""
        if isinstance(it, ast.Constant):
            return f"CellId::try_from(0x{it.value:016x}u64)?"
        if name == "union":
            self.made.append(f'let union: CellUnion = "{it.args[0].value}".parse()?;')
        elif name == "file":
            self.made += [f'let bytes = "{it.args[0].value}".parse::<CellUnion>()?.encode()?;',
                          "let file = UnionFile::new(&bytes)?;"]
        elif isinstance(it, ast.Tuple):
            corners = ", ".join(f"{name}: {self.visit(word)}" for name, word in zip(CORNERS, it.elts))
            self.made.append(f"let rect = Rect {{ {corners} }};")
            name = "rect"
        else:
            return f'CellId::from_token("{it.args[0].value}")?' if name == "cell" else self.visit(it)
        return name

    def argument(self, it, kind):
        """What a method is given, of this type."""
        if isinstance(it, ast.List):
            names = " ".join(word.args[0].value for word in it.elts)
            return f'&CellId::from_tokens("{names}")?'
        if isinstance(it, ast.Tuple):
            return f"&{self.receiver(it)}"
        if isinstance(it, ast.Constant) and kind == "&str":
            return f'"{it.value}"'
        name = it.func.id if isinstance(it, ast.Call) and isinstance(it.func, ast.Name) else ""
        if name == "cell":
            return f'CellId::from_token("{it.args[0].value}")?'
        if name == "file":
            return f'&UnionFile::new(&"{it.args[0].value}".parse::<CellUnion>()?.encode()?)?'
        return f'&"{it.args[0].value}".parse()?' if name == "union" else f"{'&' * kind.startswith('&')}{self.visit(it)}"

    def visit_Call(self, it):
        name = it.func.attr if isinstance(it.func, ast.Attribute) else it.func.id
        given = ([it.func.value] if isinstance(it.func, ast.Attribute) else []) + it.args
        if name in ("len", "is_empty", "token"):
            return f"{self.receiver(given[0])}.{name}()"
        method = self.methods[name]
        own = self.language.receiver(method)
        of = f"{self.receiver(given.pop(0))}." if own else f"{self.language.owner(method)}::"
        kinds = [kind for _, kind, _ in self.language.parameters(method)]
        words = [self.argument(word, kind) for word, kind in zip(given, kinds)] + [MOST] * (len(kinds) - len(given))
        return f"{of}{self.language.name_of(method)}({', '.join(words)}){'?' * self.language.has_errors(method)}"
