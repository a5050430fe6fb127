"""The methods of languages that make a call of the library each: methods.py FOLDER SOURCE..

It writes each SOURCE to FOLDER with what is made in the place of these lines, where NAME is a call of s2union.h:

  // methods: NAME, ..           each as a method with its comment, which forwards to the call
  // methods: all others         each other method of the class, or in JavaScript of the module; `but NAME, ..` leaves
                                 out what stands there by hand
  // functions: all              in C++ what is asked of lists, in no class
  // examples: all others        in examples.cc and examples.c those that don't stand there by hand
  % usage: all                   in the help page of R each function; `aliases` and `values` are its names and what each
                                 returns, `arguments` what stands there by hand of none. In Python `# aliases: all` is
                                 the names of functions that read a shape
  // comment: NAME               the comment of the call, whose method stands below it by hand; in Python
                                 `# comment: NAME`, for a docstring
  // questions: all but NAME, .. what the tests ask of each method, for which a question is in tests/model/vectors.py
  // numbers: of the calls       those of Calls.java; in s2union.hpp the room that what each makes is first given; of
                                 the faults, the names of Refusal.java

SOURCE may also be a file that is made whole: bindings/java/calls.h, the same numbers for s2union.c and what makes each
call; bindings/rust/src/calls.rs, each call as a safe function over slices, with the statuses and the limits; and of
bindings/python/s2union calls.h, each call as a function of Python in C, _library.pyi, their types, and _rooms.py; and
bindings/r/src/calls.h, the functions in C that R asks.

It takes a call from the exports and s2union.h (declared.py) and from its row of methods.toml. The form of a language is
that of in_LANGUAGE.py.
"""
import re
import sys
import tomllib
from functools import cache, cached_property
from pathlib import Path

import declared
import in_c
import in_cpp
import in_go
import in_java
import in_js
import in_python
import in_r
import in_rust
import in_types
import java_calls
import python_calls
import rust_calls
import usage

TOP = Path(__file__).resolve().parents[1]
TABLE = "tools/methods.toml"
LANGUAGES = {".java": in_java.Java(), ".ts": in_types.TypeScript(), ".mjs": in_types.TypeScript(),
             ".py": in_python.Python(), ".rs": in_rust.Rust(), ".go": in_go.Go(), ".hpp": in_cpp.Cpp(),
             ".cc": in_cpp.Cpp(), ".c": in_c.C(), ".js": in_js.JavaScript(), ".R": in_r.R(), ".Rd": in_r.Help()}
MARK = re.compile(r"^[ \t]*(?://|#|%) (methods|functions|comment|examples|questions|numbers|aliases|usage|arguments|"
                  r"values): ((?:.*,\n *// +)*.*)\n", re.M)
UNION = "a new union"


class Method:
    """A call as a method: what the exports, the header and its row in the table say of it."""

    def __init__(self, call, said, row, general):
        self.call = call
        self.said = said
        self.row = row
        self.general = general  # what the table says of arguments and errors of all calls

    @property
    def given(self):
        """What it is given; a list that is changed in place is given too."""
        return self.call.given or [it for it in self.call.arguments if it.is_list]

    @property
    def written(self):
        """The number that it writes, if it makes no list."""
        numbers = [it for it in self.call.arguments if it.is_written and not it.is_list]
        return numbers[0] if numbers and not self.call.out else None

    @property
    def makes_union(self):
        out = self.call.out
        is_list = self.row.get("list") or self.call.answers_each
        return out is not None and out.kind == "u64" and not is_list

    @property
    def is_of_union(self):
        """Whether it is asked of a union: a list that isn't answered number by number, or not alone."""
        first = self.call.given[0] if self.call.given else None
        lists = [it for it in self.call.given if it.is_list]
        return first is not None and first.is_list and first.kind == "u64" and \
            not (self.call.answers_each and len(lists) == 1)

    @property
    def is_of_file(self):
        return self.call.name.startswith("file_")

    @property
    def reads_shape(self):
        """Whether it reads a shape as users write it, and makes both coverings, or tells the fault."""
        return declared.is_of_shape(self.call)

    @property
    def has_receiver(self):
        """Whether its first list is that of the union or the file itself."""
        return (self.is_of_union or self.is_of_file) and not self.row.get("static")

    @property
    def is_count(self):
        return self.sentence.startswith("How many")

    @property
    def is_question(self):
        return self.returns.startswith("true if")

    @property
    def lacked_by(self):
        return self.row.get("lacks", [])

    def own(self, language):
        return self.row.get(language, {})

    # ---- what is said of it

    @cached_property
    def sentence(self):
        own = self.row.get("says") or self.said.sentence
        return f"{own} It takes {self.said.steps}." if self.said.steps else own

    @property
    def s2(self):
        return self.row.get("s2", self.said.s2)

    @property
    def returns(self):
        return self.row.get("returns") or (UNION if self.makes_union else self.said.returns)

    @property
    def example(self):
        own = self.row["example"]
        base = self.call.name.removeprefix("file_")
        return own if "file" in own or base == self.call.name else re.sub(
            rf"\.{base}\(", f".{self.call.name}(", own.replace("union(", "file("))

    @property
    def answer(self):
        return self.row["answer"]

    @property
    def answers(self):
        """The whole list of its answers, if the example shows one of them."""
        return self.row.get("answers") if self.call.answers_each else None

    @property
    def question(self):
        name = self.call.name if self.row.get("static") else self.call.name.removeprefix("file_")
        return self.row.get("question", name)

    def argument(self, name, renamed, language):
        """What is said of an argument, by the name that it has in the language."""
        own = {str(there): it for it, there in [*renamed.items(), *self.own(language).items()]}
        names = {it.name for it in self.given}
        word = own[name] if own.get(name) in names else name
        return self.row.get(word) or self.general["argument"][word]

    def answers_none(self, status):
        """Whether the call answers nothing where a method has this error."""
        return status not in self.said.refusals and status in dict(self.errors())

    def errors(self):
        """The errors that a method has, each with when it comes. An error that is checked for before can't come."""
        is_checked = self.is_of_file and not self.row.get("static")
        names = [it for it in self.said.refusals if it not in ("ROOM", "MEMORY")
                 and not (is_checked and it.startswith("FILE_"))]
        is_of_cells = not self.is_of_union and not self.row.get("static")
        if is_of_cells and "not a cell" in self.said.sentence + self.said.returns:
            names.insert(0, "NO_CELL")
        names += [it for it in self.row if it.isupper() and it not in names]
        return [(name, self.reason(name)) for name in names if name not in self.row.get("never", [])]

    def reason(self, name):
        is_of_many = name == "NO_CELL" and any(it.is_list for it in self.given) and \
            (self.call.answers_each or not self.call.given)
        own = self.general["error"].get(f"{name}_OF_MANY" if is_of_many else name)
        return self.row.get(name) or own or self.said.refusals[name]


def row_of(rows, name):
    """The row of a call; one of a file goes on from that of a union."""
    base = rows.get(name.removeprefix("file_"), {})
    return base | rows.get(name, {}) if name.startswith("file_") else base


def table(top=TOP):
    return tomllib.loads(declared.text_of(Path(top, TABLE)))


@cache
def methods(top=TOP):
    """The methods, by the names of their calls, in the order of the table."""
    general, said = table(top), declared.said(declared.text_of(Path(top, declared.HEADER)))
    rows = {call.name: row_of(general["call"], call.name) for call in declared.calls(top)}
    places = {name: place for place, name in enumerate(general["call"])}
    calls = [call for call in declared.calls(top) if rows[call.name] and call.name in said]
    calls.sort(key=lambda call: (places.get(call.name, places.get(call.name.removeprefix("file_"))),
                                 call.name.startswith("file_")))
    return {call.name: Method(call, said[call.name], rows[call.name], general) for call in calls}


MADE_WHOLE = {"java/calls.h": java_calls.in_c, "src/calls.rs": rust_calls.whole, "s2union/calls.h": python_calls.in_c,
              "s2union/_library.pyi": python_calls.types, "s2union/_rooms.py": python_calls.rooms,
              "src/calls.h": in_r.in_c}
NUMBERS = {".java": java_calls.in_java, ".hpp": in_cpp.rooms}
FORMS = {"methods": "whole", "functions": "function", "comment": "comment", "examples": "examples",
         "questions": "question", "aliases": "aliases", "usage": "usage", "values": "values"}
CLASS = re.compile(r"^(?:(?:export |public |final )*class|impl(?:<.*?>)?) (\w+)", re.M)


def names_in(mark):
    """The calls that a line names; after `all` those that it leaves out."""
    return [] if mark[1] == "numbers" else re.findall(r"\w+", re.sub(r"^all(?: others)?(?: but)?\b", "", mark[2]))


def named(text):
    """The calls that a source names."""
    return [name for mark in MARK.finditer(text) for name in names_in(mark)]


def lost(path, top=TOP):
    """The calls that a source names and that have no row, or are no exports."""
    names = named(declared.text_of(path)) if path.suffix in LANGUAGES and path.exists() else []
    found = methods(top) if names else {}
    return [name for name in names if name not in found]


def whole(path, top=TOP):
    """The text of a file that is made whole, and of which git has none."""
    maker = MADE_WHOLE.get("/".join(path.absolute().parts[-2:]))
    return maker(top) if maker and not path.exists() else None


def filled(path, top=TOP):
    """The text of a source with what is made in it."""
    made_whole = whole(path, top)
    if made_whole:
        return made_whole
    language, text = LANGUAGES.get(path.suffix), in_rust.joined(path, declared.text_of(path))
    found = methods(top) if language and MARK.search(text) else {}

    def of(mark):
        """The methods that a line stands for; after `all others` those of the class in which it stands."""
        if not mark[2].startswith("all"):
            return [found[name] for name in names_in(mark) if name in found]
        left_out = named(text) if mark[1] == "methods" else names_in(mark)
        there = [it for name, it in found.items() if name not in left_out and language.has(it)]
        if mark[1] != "methods":
            return there
        owner = CLASS.findall(text[:mark.start()])[-1] if mark[0].startswith(" ") else ""
        return [it for it in there if language.owner(it) == owner]

    def made(mark):
        if mark[1] == "numbers":
            own = java_calls.faults_in_java if mark[2] == "of the faults" else NUMBERS[path.suffix]
            return "\n".join([*own(top), ""])
        if mark[1] == "arguments":
            return "\n".join([*language.arguments(found, of(mark), text), ""])
        form = getattr(language, FORMS[mark[1]])
        between = language.BETWEEN if mark[1] == "methods" else "\n"
        texts = ("\n".join(form(found, it, text[:mark.start()])) for it in of(mark))
        return between.join(text for text in texts if text) + "\n"

    return MARK.sub(made, text) if found else text


@cache
def of_go(top=TOP):
    """The methods of Go that no source has by hand, and the examples of them that none has, as two sources."""
    own = "\n".join(declared.text_of(path) for path in sorted(Path(top, "bindings/go").glob("*.go"))
                    if path.name not in ("calls.go", "example_calls_test.go"))
    found, language = methods(top), LANGUAGES[".go"]
    by_hand = set(re.findall(r"\bC\.s2u_(\w+)\(", own))
    there = [it for name, it in found.items() if language.has(it) and name not in by_hand]
    examples = [it for it in (language.example(found, it) for it in there) if it[0] not in own]
    return [[line for lines in of for line in ["", *lines]] for of in ([language.whole(found, it) for it in there],
                                                                     examples)]


def of_rust(top=TOP):
    """The sources of the crate, with those that are made whole."""
    own = top / "bindings" / "rust" / "src"
    return [*sorted(own.glob("*.rs")), own / "calls.rs"]


def of_python(top=TOP):
    """The sources of the module for Python that have something made in them, or are made whole."""
    own = top / "bindings" / "python" / "s2union"
    return [own / name for name in ("__init__.py", "_library.pyi", "_rooms.py", "calls.h")]


def of_r(top=TOP):
    """The sources of the package for R that have something made in them, or are made whole."""
    own = top / "bindings" / "r"
    return [own / name for name in ("R/s2union.R", "man/s2union.Rd", "src/calls.h")]


def write(folder, sources):
    """Writes sources to a folder, with what is made in them."""
    folder.mkdir(parents=True, exist_ok=True)
    for source in sources:
        for name in lost(source):
            sys.exit(f"{source}: {TABLE} has no row for {name}")
        (folder / source.name).write_text(filled(source), encoding="utf-8")


def main():
    usage.print_if_asked(__doc__)
    folder, *sources = map(Path, sys.argv[1:])
    write(folder, sources)


if __name__ == "__main__":
    main()
