"""The types of JavaScript, the declaration of each method with its comment; and the questions of its tests."""
import re

import languages

BYTES = "ArrayBuffer | ArrayBufferView"


class TypeScript(languages.Language):
    NAME, LONG, NONE = "js", "n", "null"
    JOINED = "{1}.join({0})"
    MADE = {"cell": "fromToken({})", "union": "CellUnion.fromTokens({})", "len": "{}.length",
            "file": "new UnionFile(CellUnion.fromTokens({}).encode())"}
    RESULTS = {"union": "CellUnion", "cells": "BigUint64Array", "text": "string", "bytes": "Uint8Array",
               "answer": "boolean"}
    RENAMED = {"id": "cell", "ids": "cells", "ys": "other", "k": "place"}
    READS_SHAPES, USUAL = True, {"work": "MAP_WORK"}
    NO_POLYGON = ("""'{"type": "Polygon", "coordinates": []}'""", "Uint8Array.of(0, 0, 0, 0, 6, 0, 0, 0, 0)")

    def name_of(self, method):
        return self.name_of_reader(method, "java") or super().name_of(method)

    def parameters(self, method):
        """The arguments, each with its type and its name."""
        for it in method.call.given[1:] if method.has_receiver else method.given:
            if it.is_text:
                yield f"string | {BYTES}" if method.reads_shape else "string", self.named(method, it)
            elif it.is_list:
                kind = self.owner(method) if it.name == "ys" else BYTES if it.kind == "u8" else "Cells"
                yield kind, self.named(method, it)
            elif it.name != "most" or method.reads_shape:
                is_cell = it.kind == "u64" and it.name not in ("k", *self.USUAL)
                yield "Cell" if is_cell else "number", self.named(method, it)
        yield from (("number", name) for name in method.row.get("more", []))

    def result(self, method):
        """The type of what it answers."""
        call, usual = method.call, self.usual_result(method)
        if method.reads_shape:
            return "{outer: CellUnion; inner: CellUnion}"
        if usual:
            return usual
        if call.result == "i32" and method.written is None:
            return "number"
        return "bigint" if method.is_count else "Cell | null" if "{none}" in method.returns else "Cell"

    # ---- comments

    def comment(self, methods, method, *_):
        indent = "  " if self.owner(method) else ""
        begin = f"{indent} * "
        sentence = self.sentence(methods, method) if method.reads_shape else self.marked(methods, method.sentence)
        said = self.lines(sentence, begin)
        if method.s2:
            said += self.lines(f"S2: {method.s2}.", begin)
        for _, name in self.parameters(method):
            said += self.lines(f"@param {name} - {self.argument(methods, method, name)}", begin, "  ")
        said += self.lines(f"@returns {self.returns(methods, method)}", begin, "  ")
        errors = ", or ".join(f"`{name}` if {why}" for name, why in method.errors())
        if errors:
            said += self.lines(f"@throws {{@link Refusal}} {self.marked(methods, errors)}", begin, "  ")
        return [f"{indent}/**", *said, f"{begin}@since {self.since(method)}", f"{begin}@example",
                *self.example(methods, method, begin), f"{indent} */"]

    def whole(self, methods, method, *_):
        words = ", ".join(f"{name}{'?' * (name in self.USUAL)}: {kind}" for kind, name in self.parameters(method))
        head = "export function " if not self.owner(method) else "  " if method.has_receiver else "  static "
        return [*self.comment(methods, method), f"{head}{self.name_of(method)}({words}): {self.result(method)};"]

    # ---- examples

    def example(self, methods, method, indent):
        if method.reads_shape and "example" not in method.own(self.NAME):
            return [f"{indent}{self.name_of(method)}({self.asked_of_none(method)}).outer.size // 0"]
        return super().example(methods, method, indent)

    def compared(self, left, right):
        return f"{left} === {right}"

    def long(self, words):
        return f"{words.replace(' <<', 'n <<')}n"

    def shown(self, method, text):
        """An example as a text; of bytes all are shown, where Java shows one of an array."""
        if self.result(method) == "Uint8Array" and method.call.answers_each:
            return re.sub(r"\[\d\]$", ".join()", text)
        return f"String({text})" if self.result(method) == "CellUnion" else text

    def answer(self, method):
        return ",".join(str(int(it)) for it in method.answers) if method.answers else method.answer

    # ---- the questions of the tests

    def question(self, _, method, *__):
        """What is asked of a method; nothing of one that reads shapes, which has questions of its own."""
        if method.reads_shape:
            return []
        given = []
        for it, field, place in languages.fields(method):
            form = languages.form_of(method, it)
            given.append(f"{form}(g[{field}])" if form != "number" else f"numbers(g[{field}])[{place or 0}]")
        of = given.pop(0) if method.has_receiver else self.owner(method) or "s2"
        answer = f"{of}.{self.name_of(method)}({', '.join(given)})"
        if method.call.answers_each and method.call.out.name == "answers":
            answer = f"marked({answer})"
        return [f'ask("{method.question}", (g) => {f"String({answer})" if method.is_count else answer});']
