"""The methods of Java: their comments with examples, what they forward to Calls, and the questions of their tests."""
import languages
from declared import is_of_shape

RECTANGLE = ("face", "i0", "i1", "j0", "j1")
OF = {"CellUnion": "ids", "UnionFile": "bytes"}  # the list of each class
GREATEST = {"level": "Calls.LAST_LEVEL", "child": "3"}


class Java(languages.Language):
    NAME, LONG, NONE, CUT, BETWEEN = "java", "L", "0", 4, "\n\n"
    JOINED = "String.join({}, {})"
    MADE = {"cell": "CellId.fromToken({})", "union": "CellUnion.fromTokens({})", "len": "{}.length",
            "is_empty": "{}.isEmpty()", "file": "new UnionFile(CellUnion.fromTokens({}).encode())"}
    RESULTS = {"union": "CellUnion", "cells": "long[]", "text": "String", "bytes": "byte[]", "answer": "boolean"}
    RENAMED = {"ids": "cells", "ys": "other", "k": "place"}

    def owner(self, method):
        """The class that has a method."""
        if method.is_of_file:
            return "UnionFile"
        return "CellUnion" if method.makes_union or method.is_of_union or method.row.get("static") else "CellId"

    def parameters(self, method):
        """The arguments of a method of Java, each with its type and its name; of a rectangle it has all numbers."""
        given = method.call.given[1:] if method.has_receiver else method.given
        for place, it in enumerate(given):
            name = self.named(method, it)
            if it.kind == "Rect":
                yield from (("int", word) for word in RECTANGLE)
            elif it.is_text:
                yield "String", name
            elif it.is_list and it.name == "ys":
                yield self.owner(method), name
            elif it.is_list and it.kind == "u8":
                yield "byte[]", name
            elif it.is_list:
                kind = "int" if it.kind == "Point" else "long"
                yield kind + ("..." if place + 1 == len(given) else "[]"), name
            elif it.name != "most" or is_of_shape(method.call):
                yield "long" if it.kind == "u64" and it.name != "k" else "int", name
        yield from (("int", name) for name in method.row.get("more", []))

    def result(self, method):
        """The type of what it answers."""
        call, out = method.call, method.call.out
        if out and call.answers_each:
            plain = "byte[]" if out.kind == "u8" else "long[]"
            return {"answers": "boolean[]", "text": "String[]"}.get(out.name, plain)
        is_short = call.result == "i32" and method.written is None or call.name == "file_count"
        return self.usual_result(method) or ("int" if is_short else "long")

    # ---- what it forwards to

    def number(self, method, it):
        """A number that a call is given. It is checked before, if the call itself doesn't refuse it."""
        name = self.named(method, it)
        if it.kind == "u64" and method.answers_none("NO_CELL") and it.name != "k":
            return f"checked({name})"
        if it.name in GREATEST and method.answers_none("ARGUMENT"):
            return f"Calls.within({name}, {GREATEST[it.name]})"
        return "MOST_COVERING" if it.name == "most" else name

    def lists(self, method):
        """The lists that a call is given, two or none."""
        for place, it in enumerate(it for it in method.call.given if it.is_list):
            name = self.RENAMED.get(it.name, it.name)
            if it.is_text:
                yield f"{self.named(method, it)}.getBytes(StandardCharsets.UTF_8)"
            elif place == 0 and method.has_receiver:
                yield OF[self.owner(method)]
            else:
                yield f"{name}.{OF[self.owner(method)]}" if it.name == "ys" else name

    def body(self, method):
        """Its answer: the helper of Calls for what it makes, by the number of the call."""
        call, out, kind = method.call, method.call.out, f"Calls.{method.call.name.upper()}"
        two = [*self.lists(method), "null", "null"][:2]
        numbers = [self.number(method, it) for it in call.given if not it.is_list and it.kind != "Rect"]
        pair = [*numbers, "0", "0"][:2]
        rectangle = f"new int[] {{{', '.join(RECTANGLE)}}}" if any(it.kind == "Rect" for it in call.given) else "null"
        if call.answers_each:
            helper = {"boolean[]": f"asksEach({kind}, {two[0]}, {two[1]})",
                      "byte[]": f"bytesOfEach({kind}, {two[0]}, 1)"}
            return "Calls." + helper.get(self.result(method), f"entries({kind}, {two[0]}, {pair[0]})")
        if out and out.is_text:
            return f"text({kind}, {numbers[0]})"
        if out and out.kind == "u8":
            return f"Calls.written({kind}, {two[0]})"
        if out:
            more = [*pair, rectangle] if numbers else []
            made = f"Calls.made({', '.join([kind, *two, *more])})"
            return f"new CellUnion({made})" if self.result(method) == "CellUnion" else made
        if method.written:
            return f"{'(int) ' * (self.result(method) == 'int')}Calls.found({kind}, {two[0]}, {pair[0]}, {pair[1]})"
        if method.is_question:
            return f"Calls.asks({kind}, {two[0]}, {two[1]}, {pair[0]})"
        return f"Calls.number({kind}, {pair[0]}, {pair[1]})" if two[0] == "null" else \
            f"Calls.numberOf({kind}, {two[0]}, {two[1]})"

    # ---- comments

    def code(self, word):
        return f"{{@code {word}}}"

    def comment(self, methods, method, *_):
        begin = "   * "
        said = self.lines(self.marked(methods, method.sentence), begin)
        if method.s2:
            said += self.lines(f"S2: {self.marked(methods, method.s2)}.", begin)
        said += ["   *", "   * <pre>{@code", *self.example(methods, method, begin), "   * }</pre>", "   *"]
        for _, name in self.parameters(method):
            said += self.lines(f"@param {name} {self.argument(methods, method, name)}", begin, "    ")
        said += self.lines(f"@return {self.returns(methods, method)}", begin, "    ")
        errors = ", or ".join(f"{{@link Refusal.Kind#{name}}} if {why}" for name, why in method.errors())
        if errors:
            said += self.lines(f"@throws Refusal {self.marked(methods, errors)}", begin, "    ")
        return ["  /**", *said, f"   * @since {self.since(method)}", "   */"]

    def whole(self, methods, method, *_):
        words = ", ".join(f"{kind} {name}" for kind, name in self.parameters(method))
        static = "" if method.has_receiver else "static "
        return [*self.comment(methods, method),
                f"  public {static}{self.result(method)} {self.name_of(method)}({words}) {{",
                f"    return {self.body(method)};", "  }"]

    # ---- examples

    def listed(self, words):
        return words

    def array(self, words):
        return f"new long[] {{{words}}}"

    def long(self, words):
        return words.replace(" <<", "L <<")

    # ---- the questions of the tests

    def asked(self, method):
        """The arguments of a method in a question."""
        for it, field, place in languages.fields(method):
            if it.kind == "Rect":
                yield from (f"g.number({field}, {k})" for k in range(len(RECTANGLE)))
            else:
                more = "" if place is None else f", {place}"
                yield f"g.{languages.form_of(method, it)}({field}{more})"

    def question(self, _, method, *__):
        given = list(self.asked(method))
        of = given.pop(0) if method.has_receiver else self.owner(method)
        answer = f"{of}.{self.name_of(method)}({', '.join(given)})"
        is_of_cell = self.result(method) == "String" and not any(it.is_list for it in method.given)
        is_number = self.result(method) == "int" or method.is_count
        shown_as = answer if is_of_cell else f'"" + {answer}' if is_number else f"shown({answer})"
        return [f'    ask("{method.question}", g -> {shown_as});']
