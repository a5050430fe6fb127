"""The functions and methods of JavaScript that only forward, in union.js: each asks a call of the module by core.js.
Their types, with comments, are those of in_types.py.
"""
import in_types

OF = {"CellUnion": "this.#ids", "UnionFile": "this.#bytes"}  # the list of each class
GREATEST = {"level": "LAST_LEVEL", "deepest": "LAST_LEVEL",
            "child": "3", "face": "5", "i": "MOST_SIDE", "j": "MOST_SIDE"}
KINDS = {"u8": ("Uint8Array", "255"), "u64": ("BigUint64Array", "0n")}  # a list, and its entry that is no answer


class JavaScript(in_types.TypeScript):
    def words(self, method):
        """The words that pass the arguments beside its own list."""
        for it in method.call.given[1:] if method.has_receiver else method.given:
            name = self.named(method, it)
            if method.reads_shape:
                yield f"{'textGiven' if it.is_text else 'bytesGiven'}({name})" if it.is_list else \
                    f"longOf({name})" if it.kind in ("u64", "usize") else f"within({name}, {GREATEST[it.name]})"
            elif it.is_list and it.name == "ys":
                yield f"cellsIn({name})" if self.owner(method) == "CellUnion" else f"{name}.#bytes"
            elif it.is_list:
                yield f"encoded({name})" if it.is_text else f"numbersOf({name})"
            elif it.kind == "u64":
                yield f"{'numberOf' if method.has_receiver else 'cellOf'}({name})"
            else:
                yield f"within({name}, {GREATEST[it.name]})"

    def has(self, method):
        """Whether it is made: its answer is made of lists and cells alone, or is that of a cell."""
        call, given = method.call, method.call.given
        is_of_lists = all(it.is_list for it in given[1:] or given)
        is_asked = method.has_receiver and (is_of_lists or len(given) == 2 and given[1].kind == "u64")
        is_simple = (method.is_question or method.is_count or call.out) and not call.takes_memory
        if method.has_receiver:
            return super().has(method) and bool(is_asked and is_simple)
        is_of_cells = all(not it.is_list and it.kind in ("u64", "u32") for it in given) and given
        is_of_text = given and given[0].is_text and method.written
        is_of_each = call.answers_each and call.out.name != "text" and given[0].kind == "u64"
        return super().has(method) and bool(is_of_cells or is_of_text or is_of_each or method.reads_shape)

    def answered(self, method):
        """What a method answers: an expression, with the line before it if it needs one."""
        call, own, words = method.call, OF.get(self.owner(method)), list(self.words(method))
        name, lists = f'"s2u_{call.name}"', ", ".join([own, *words]) if own else ", ".join(words)
        if not method.has_receiver:
            return self.of_cells(method, name, words)
        if call.answers_each:
            return [], f"calls().marks({name}, {lists})"
        if call.out and method.makes_union:
            return [], f"unionOf(calls().makeOf({name}, {lists}))"
        if call.out:
            made = f"calls().make({name}, [{lists}], {KINDS[call.out.kind][0]})"
            return [], f"new TextDecoder().decode({made})" if call.out.is_text else made
        if method.is_question and call.given[1].is_list:
            return [], f"calls().askBoth({name}, {lists})"
        if method.is_question:
            return ["const core = calls();"], f"core.askOf(core.calls.s2u_{call.name}, {lists})"
        asked = f"({name}, [{lists}])"
        return [], f"calls().answer{asked}" if method.written else f"unsigned(calls().ask{asked})"

    def of_cells(self, method, name, words):
        """The same of a function of cells, of a text, or of each cell of a list."""
        call = method.call
        if method.reads_shape:
            return [], f"bothOf(calls().coveringsOf({name}, {', '.join(words)}))"
        if call.answers_each:
            kind, none = KINDS[call.out.kind]
            more = "".join(f", {it}" for it in ["1", *words[1:]] if len(words) > 1)
            kind = f", {kind}" if more or call.out.kind == "u8" else ""
            return [f"const ids = {words[0]};"], f"whole(ids, calls().entries({name}, ids{kind}{more}), {none})"
        if method.written:
            return [], f"calls().answer({name}, [{words[0]}])"
        if call.out:
            return [], f"calls().text({name}, {words[0]})"
        asked = f"calls().calls.s2u_{call.name}({', '.join(words)})"
        if method.is_question:
            return [], f"{asked} === 1"
        if call.result == "i32":
            return [], asked
        return [], f"orNull(unsigned({asked}))" if "{none}" in method.returns else f"unsigned({asked})"

    def whole(self, methods, method, *_):
        """A line, or a method, for which in_types.py has the comment."""
        names = ", ".join(f"{name}{' = ' * (name in self.USUAL)}{self.USUAL.get(name, '')}"
                          for _, name in self.parameters(method))
        before, answer = self.answered(method)
        if not self.owner(method) and not before:
            return [f"export const {self.name_of(method)} = ({names}) => {answer};"]
        indent = "  " if self.owner(method) else ""
        head = f"{indent}{'' if indent else 'export function '}{self.name_of(method)}({names}) {{"
        return [head, *(f"{indent}  {line}" for line in before), f"{indent}  return {answer};", f"{indent}}}", ""]
