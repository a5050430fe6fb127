"""The examples in C of calls that are asked of lists of cells: those of examples.c that don't stand there by hand."""
import ast

import languages
from layout import filled
from rooms import FIRST_ROOMS, room_in


def number(token):
    """A cell by its token."""
    return f"UINT64_C(0x{token.ljust(16, '0')})"


def array(name, tokens):
    return filled(f"    const uint64_t {name}[] = {{", [number(token) for token in tokens], ", ", "};", "      ")


class C(languages.Language):
    NAME = "c"

    def has(self, method):
        """Whether it is asked of unions and cells alone, and answers a list, yes or no, or an order."""
        lists = [it for it in method.call.given if it.is_list]
        return super().has(method) and method.is_of_union and "example" in method.row and method.call.result == "i32" \
            and not method.written and not method.call.answers_each and "static" not in method.row \
            and all(it.kind == "u64" for it in method.call.given) and (not method.call.out or len(lists) > 0)

    def examples(self, _, method, before):
        """An example with its answer, unless one stands there by hand."""
        call, mark = method.call, f"    /* [s2u_{method.call.name}] */"
        if mark.strip() in before or method.call.out and method.call.out.kind != "u64":
            return []
        tree = ast.parse(method.example, mode="eval").body
        while tree.func.attr == "join":  # of the tokens of a list
            tree = tree.args[0].args[0]
        texts = [it.args[0].value for it in [tree.func.value, *tree.args]]
        lists, words, lengths = [], [], {}
        for it, text in zip(call.given, texts):
            tokens = text.split()
            words.append(f"{it.name}, {len(tokens)}" if it.is_list else number(text))
            if it.is_list:
                lists += array(it.name, tokens)
                lengths[it.length] = len(tokens)
        asked = f"s2u_{call.name}({', '.join(words)}"
        if not call.out:
            answer = {"true": "1", "false": "0"}.get(method.answer, method.answer)
            return ["  {", mark, *lists, f"    check({asked}) == {answer});", mark, "  }"]
        room = eval(room_in("Python", FIRST_ROOMS[call.name]), {"min": min, **lengths})
        wanted = method.answer.split()
        checked = [f"{asked}, out, {room}, &len) == S2U_OK", f"len == {len(wanted)}",
                   "memcmp(out, wanted, sizeof wanted) == 0"]
        return ["  {", mark, *lists, *array("wanted", wanted), f"    uint64_t out[{room}];", "    size_t len;",
                *filled("    check(", checked, " && ", ");", "          "), mark, "  }"]
