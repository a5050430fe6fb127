"""The members of C++ that only forward, in s2union.hpp; its functions on lists, which have no class; an example of each
in examples.cc; and the questions of its tests. What a call makes is first given the room that rooms.py has.
"""
import ast
import re

import languages
from layout import filled
from rooms import CPP_ROOMS, FIRST_ROOMS, room_in, room_lengths

INDENT = " " * 2
OF = {"CellUnionOf": ("ids()", "size()"), "UnionFileOf": ("bytes_", "n_")}  # the list of each class
ROOM = "[&](uint64_t* out, size_t room, size_t* len) {"


def camel(name):
    return "".join(word.capitalize() for word in name.split("_"))


class Cpp(languages.Language):
    NAME, BETWEEN = "cpp", "\n"
    SINCE = 0.1
    RENAMED = {"ys": "y", "cell": "id", "bounds": "rect"}
    READS_SHAPES, USUAL = True, {"work": "S2U_MAP_WORK"}
    NO_POLYGON = ('R"({"type": "Polygon", "coordinates": []})"', r'{"\0\0\0\0\6\0\0\0\0", 9}')

    def has(self, method):
        """Whether it is made: it reads a shape, or asks a union, a file or a rectangle, and answers by yes or no, by a
        number, by an answer to each cell, or by cells."""
        out, kinds = method.call.out, [it.kind for it in method.given]
        is_simple = method.is_question or (method.is_count and not self.statuses(method)) or \
            (out and method.call.name in FIRST_ROOMS and out.kind == "u64") or \
            (method.call.answers_each and out.name == "answers")
        is_asked = (method.has_receiver or kinds[:1] == ["Rect"]) and is_simple
        return super().has(method) and bool(is_asked or method.reads_shape)

    def owner(self, method):
        return "UnionFileOf" if method.is_of_file else "CellUnionOf"

    def is_function(self, method):
        """Whether it is a function of lists, too: of a union and a cell, or of two unions."""
        kinds = [(it.kind, it.name in ("cell", "ys")) for it in method.given[1:]]
        return method.is_of_union and method.has_receiver and kinds == [("u64", True)]

    def name_of(self, method):
        own = self.name_of_reader(method, "java") or method.own("go").get("name")
        return own and own[0].upper() + own[1:] or camel(re.sub("^file_|_cell$", "", method.call.name))

    def function_of(self, method):
        return camel(method.call.name)

    # ---- what it is given, and what it answers

    def parameters(self, method):
        """The arguments beside its own list, each as it is declared, and with the words that pass it."""
        at, n = OF[self.owner(method)]
        for it in method.given[1:] if method.has_receiver else method.given:
            name = self.named(method, it)
            if it.is_list and method.reads_shape:
                at = f"{name}.data()" if it.is_text else f"internal::bytes_of({name})"
                yield f"std::string_view {name}", f"{at}, {name}.size()"
            elif method.reads_shape and it.kind in ("u64", "usize"):
                usual = f" = {self.USUAL[it.name]}" if it.name in self.USUAL else ""
                yield f"{'uint64_t' if it.kind == 'u64' else 'size_t'} {name}{usual}", name
            elif it.is_list and it.name == "ys":
                yield f"const {self.owner(method)}& {name}", f"{name}.{at}, {name}.{n}"
            elif it.is_list:
                yield f"const std::vector<Id>& {name}", name
            elif it.kind == "Rect":
                yield f"const s2u_rect& {name}", f"&{name}"
            elif it.kind == "u64":
                yield f"Id {name}", f"internal::number_of({name})"
            elif it.name == "most":
                yield f"size_t {name} = S2U_MOST_COVERING", name
            else:
                yield f"int {name}", f"static_cast<uint32_t>({name})"

    def statuses(self, method):
        """The errors that its last argument reports."""
        names = [name for name, _ in method.errors()]
        return [f"S2U_{name}" for name in names + ["MEMORY"] * (method.call.out is not None)]

    def result(self, method):
        if method.reads_shape:
            return "CoveringsOf<Id>"
        if method.call.answers_each:
            return "std::vector<bool>"
        if method.call.out:
            return "CellUnionOf" if method.makes_union else "std::vector<Id>"
        return "bool" if method.is_question else "uint64_t"

    def apart(self, method):
        """What is known at once of two unions that lie apart."""
        found = method.own(self.NAME).get("apart")
        return f", internal::Apart::{found}" if found else ""

    def body(self, method):
        name, (at, n) = method.call.name, OF[self.owner(method)]
        own = [at, n] if method.has_receiver else []
        words = ", ".join([*own, *(passed for _, passed in self.parameters(method))])
        of = "CellUnionOf<Id>::" if method.is_of_file else ""
        call = f"s2u_{name}({words}"
        if method.reads_shape:
            return [f"return Covered(internal::rooms::of_{name}(), fault, status, [&](auto... out) {{",
                    f"  return {call}, out...);", "});"]
        if method.call.answers_each:
            return [f"return {of}AboutEach(s2u_{name}, {words}, status);"]
        if method.call.out and self.is_function(method) and method.makes_union:
            return [f"return Both(s2u_{name}, internal::rooms::of_{name}, y, status{self.apart(method)});"]
        if method.call.out:
            room = f"internal::rooms::of_{name}({n if room_lengths(FIRST_ROOMS[name]) else ''})"
            first = [f"const size_t fitting = {room};"] if method.is_of_file else []
            end = "});" if method.makes_union else "}).Release();"
            return [*first, f"return {of}Made({'fitting' if first else room}, status, {ROOM}",
                    f"  return {call}, out, room, len);", end]
        if method.written:
            return ["uint64_t found = 0;", f"{call}, &found);", "return found;"]
        if self.statuses(method):
            return [f"int32_t found = {call});", "return internal::succeeded(found, status) && found == 1;"]
        return [f"return {call}) == 1;" if method.is_question else f"return {call});"]

    # ---- comments

    def code(self, word):
        return word if word.startswith("S2U_") else f"`{word}`"

    def sentence(self, methods, method):
        """The header's sentence, which calls a list xs and the other ys; that of the row, if it tells of C alone."""
        header, is_file = method.said.sentence, method.is_of_file
        if re.search(r"\b[xy]s\b", header) and "s2u_" not in header:
            said = re.sub(r"\bxs\b", "this file" if is_file else "the union", re.sub(r"\bys\b", "y", header))
            return said + (f" It takes {method.said.steps}." if method.said.steps else "")
        return super().sentence(methods, method)

    def reported(self, method, more=()):
        """Its statuses, each with when it comes if that isn't clear from its name."""
        general = method.general[self.NAME]
        plain, said = [], []
        for status in sorted([*self.statuses(method), *more], key=lambda it: it == "S2U_MEMORY"):
            why = method.row.get(status.removeprefix("S2U_")) or general.get(status.removeprefix("S2U_"))
            (said if why else plain).append(f"{status}: {why}." if why else status)
        return said + ([", ".join(plain) + "."] if plain else [])

    def comment(self, methods, method, *_):
        said = [self.sentence(methods, method)]
        for it, name in ((it, self.named(method, it)) for it in method.given):
            if it.kind == "u32" and not it.is_list or method.reads_shape:
                said.append(f"The {name} is {self.argument(methods, method, name)}.")
        if method.is_count:
            said.append(f"It is {self.returns(methods, method)}.")
        return self.told(INDENT, methods, [*said, *self.reported(method)], self.since(method), self.shown_as(method))

    def told(self, indent, methods, said, since, example):
        text = self.marked(methods, " ".join(said)) + f" @since {since}"
        text = re.sub(r"@since (?=\d)", "@since\0", text)  # which stay in one line
        lines = [line.replace("\0", " ") for line in self.lines(text, f"{indent}/// ")]
        return [*lines, f"{indent}/// @snippet examples.cc {example}"]

    def since(self, method):
        own = method.said.since or self.SINCE
        return max(1.1, float(own)) if method.is_of_file else method.own(self.NAME).get("since", own)

    def whole(self, methods, method, *_):
        """A member with its comment: in one line if it has but one, and that fits."""
        words = [declared for declared, _ in self.parameters(method)]
        words += ["s2u_shape_fault* fault = nullptr"] * method.reads_shape
        words += ["int32_t* status = nullptr"] if self.statuses(method) else []
        start = f"{INDENT}{'' if method.has_receiver else 'static '}{self.result(method)} {self.name_of(method)}("
        end = f"){' const' * method.has_receiver} {{"
        body, head = self.body(method), [f"{start}{', '.join(words)}{end}"]
        if len(head[0]) > self.WIDTH:
            head = filled(start, words, ", ", end, " " * len(start))
        if not self.statuses(method) and len(body) == 1 and len(f"{head[0]} {body[0]} }}") <= self.WIDTH:
            return [*self.comment(methods, method), f"{head[0]} {body[0]} }}"]
        return [*self.comment(methods, method), *head, *(f"{INDENT * 2}{line}" for line in body), f"{INDENT}}}"]

    # ---- functions on lists

    def function(self, methods, method, *_):
        """A function of a list and a cell, or of two lists; nothing of another method."""
        if not self.is_function(method):
            return []
        call, name = f"s2u_{method.call.name}", self.function_of(method)
        has_two = method.given[1].is_list
        said = re.sub(r"\b([xy])s\b", r"\1", method.said.sentence)
        kind = " It makes a list, or an X if that is a class of unions as S2CellUnion is." * method.makes_union
        since = max(1.4, float(method.said.since))
        text = [said + kind, *self.reported(method, ["S2U_NO_UNION"])]
        comment = self.told("", methods, text, since, self.function_shown_as(method))
        if not has_two:
            return [*comment, "template <class X>",
                    f"inline bool {name}(const X& x, internal::CellOf<X> id, int32_t* status = nullptr) {{",
                    "  return internal::answer(x, status, [id](const uint64_t* xs, size_t n) {",
                    f"    return {call}(xs, n, internal::number_of(id));", "  });", "}"]
        result = "internal::MadeOf<X>" if method.makes_union else "inline bool"
        head = [*comment, "template <class X, class Y>",
                f"{result} {name}(const X& x, const Y& y, int32_t* status = nullptr) {{"]
        if not method.makes_union:
            return [*head, f"  return internal::answer(x, y, status, {call});", "}"]
        made = f"internal::made_of({call}, internal::rooms::of_{method.call.name}, x, y, status{self.apart(method)})"
        return [*head, "  return internal::made_as<X>(", f"      {made});", "}"]

    # ---- examples

    def shown_as(self, method):
        """The name of its example."""
        of = "UnionFile." if method.is_of_file else ""
        return f"{of}{self.name_of(method)}{' a cell' if re.search('_cell$', method.call.name) else ''}"

    def function_shown_as(self, method):
        return f"{self.function_of(method)}{' of lists' if method.given[1].is_list else ''}"

    def examples(self, methods, method, before):
        """The example of a member, and that of a function, but of one that stands in the source by hand."""
        own = method.own(self.NAME).get("example", "").strip("\n")
        if method.reads_shape and not own:
            own = f"check(CellUnion::{self.name_of(method)}({self.asked_of_none(method)}).outer.empty());"
        texts = [(self.shown_as(method), own.split("\n") if own else Shown(self, methods).checked(method))]
        if self.is_function(method):
            shown = Shown(self, methods, is_of_lists=True)
            texts.append((self.function_shown_as(method), shown.checked(method)))
        lines = []
        for name, text in texts:
            if f"// [{name}]\n" not in before:
                lines += [f"{INDENT}{{", f"{INDENT * 2}// [{name}]", *(INDENT * 2 + line for line in text),
                          f"{INDENT * 2}// [{name}]", f"{INDENT}}}"]
        return lines

    # ---- the questions of the tests

    def question(self, _, method, *__):
        """What is asked of a member; nothing of one that reads shapes, which has questions of its own."""
        if method.reads_shape:
            return []
        given = []
        for it, field, place in languages.fields(method):
            form = "rect" if it.kind == "Rect" else languages.form_of(method, it)
            form = "unions" if form == "union" else form
            given.append(f"g.{form}({field}{f', {place}' if place else ''})")
        of = f"{given.pop(0)}." if method.has_receiver else "CellUnion::"
        given += ["kMost"] if any(it.name == "most" for it in method.given) else []
        status = ["status"] * bool(self.statuses(method))
        asked = f"{of}{self.name_of(method)}({', '.join(given + status)})"
        head = f"member([](const Given& g, int32_t*{' status' * bool(status)}) {{"
        return [f'    {{"{method.question}", {head} return {asked}; }})}},']


class Shown(languages.Expression):
    """An expression of the table in C++, and the lines before it that make what it asks."""

    def __init__(self, language, methods, is_of_lists=False):
        super().__init__(language, methods)
        self.is_of_lists = is_of_lists
        self.made = []

    def checked(self, method):
        """The lines of an example, whose last compares an expression with its answer."""
        tree, answer = ast.parse(method.example, mode="eval").body, method.answer
        if method.answers:
            answers = ", ".join(str(it).lower() for it in method.answers)
            said = f"{self.visit(tree.value)} == answers"
            self.made.append(f"const std::vector<bool> answers = {{{answers}}};")
        elif isinstance(tree, ast.Compare):
            said = f"{self.visit(tree.left)} == {self.visit(tree.comparators[0])}"
        elif isinstance(tree.func, ast.Attribute) and tree.func.attr == "join":  # of tokens
            cells = ", ".join(f"0x{token:0<16}" for token in answer.split())
            said = f"{self.visit(tree.args[0].args[0])} == std::vector<uint64_t>({{{cells}}})"
        else:
            own = self.visit(tree)
            said = f'{own}.Tokens() == "{answer}"' if method.makes_union and "empty()" not in own else \
                own if answer == "true" else f"!{own}" if answer == "false" else f"{own} == {answer}"
        return [*self.made, f"check({said});"]

    def visit_BinOp(self, it):
        text = super().visit_BinOp(it)
        return text.replace("1 <<", "uint64_t{1} <<") if re.fullmatch(r"1 << (3[1-9]|[4-6]\d)", text) else text

    def visit_Call(self, it):
        is_method = isinstance(it.func, ast.Attribute)
        name = it.func.attr if is_method else it.func.id
        words = ([it.func.value] if is_method else []) + it.args
        if name == "cell" and not is_method:
            number = f"0x{words[0].value:0<16}"
            return f"S2CellId({number})" if self.is_of_lists else number
        if name == "union" and not is_method:
            return f'CellUnion::FromTokens("{words[0].value}")'
        if name == "is_empty":
            return f"{self.visit(words[0])}.empty()"
        method = self.methods[name]
        if self.is_of_lists:
            return self.of_lists(method, words)
        given = [self.passed(word, len(words) == 1) for word in words]
        of = f"{given.pop(0)}." if method.has_receiver else "CellUnion::"
        return f"{of}{self.language.name_of(method)}({', '.join(given)})"

    def of_lists(self, method, words):
        """What is asked of S2's unions."""
        names = ["x", "y"][:sum(word.func.id == "union" for word in words)]
        unions = ", ".join(f'{name} = Ours::FromTokens("{word.args[0].value}")' for name, word in zip(names, words))
        self.made += ["using Ours = s2union::CellUnionOf<S2CellId>;", f"const S2CellUnion {unions};"]
        given = ", ".join([*names, *(self.visit(word) for word in words[len(names):])])
        asked = f"s2union::{self.language.function_of(method)}({given})"
        return f"Ours({asked})" if method.makes_union else asked

    def passed(self, word, is_alone):
        if isinstance(word, ast.List):
            return f"{{{', '.join(map(self.visit, word.elts))}}}"
        if isinstance(word, ast.Tuple):
            self.made.append(f"const s2u_rect rect = {{{', '.join(map(self.visit, word.elts))}}};")
            return "rect"
        if isinstance(word, ast.Call) and getattr(word.func, "id", "") == "file":
            other = "other_" * bool(self.made)
            self.made += [f"std::string {other}bytes;",
                          f'CellUnion::FromTokens("{word.args[0].value}").Encode(&{other}bytes);',
                          f"const UnionFile {other}file({other}bytes.data(), {other}bytes.size());"]
            return f"{other}file"
        return self.visit(word)


def rooms(_):
    """The room of each call that makes a list, as a function of the lengths."""
    for name, room in CPP_ROOMS.items():
        given = ", ".join(f"size_t {length}" for length in room_lengths(room))
        yield f"inline size_t of_{name}({given}) {{ return {room_in('C++', room)}; }}"
