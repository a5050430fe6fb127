"""The table of the library's calls, and that a mistake in what is declared is refused: tests/tools/table.py.

First `tools/calls --check`. Then each mistake below is made in a copy of the repository, and it has to find fault. At
last a new call of unions stands in the copy in the files that docs/EXTENDING.md names, and no language may lack it. The
last line is 'N passed, M failed'.
"""
import re
import subprocess
import sys
import tempfile
from pathlib import Path
from typing import NamedTuple

TOP = Path(__file__).resolve().parents[2]
sys.path.append(str(TOP / "tests"))
from checks import copy_tracked  # noqa: E402

HEADER = "crates/s2union_c/include/s2union.h"


class Mistake(NamedTuple):
    """A mistake: its name, a file, a text that stands there once, what stands there instead, and what has to be said of
    it, if it is not only that what is made of the file differs."""

    name: str
    file: str
    old: str
    new: str
    fault: str = ""


MISTAKES = [
    Mistake("two lengths of the header in the wrong order", HEADER,
            "int32_t s2u_outer_of(const uint64_t* ids, size_t n, uint32_t level, size_t most,",
            "int32_t s2u_outer_of(const uint64_t* ids, size_t most, uint32_t level, size_t n,"),
    Mistake("a list of the header that is written where it is read", HEADER,
            "s2u_is_union(const uint64_t* ids,", "s2u_is_union(uint64_t* ids,"),
    Mistake("a call of the header that the library lacks", HEADER,
            "int32_t s2u_is_cell(uint64_t id);",
            "int32_t s2u_is_cell(uint64_t id);\nint32_t s2u_is_no_call(uint64_t id);"),
    Mistake("a call that the header lacks", HEADER, "int32_t s2u_is_cell(uint64_t id);", ""),
    Mistake("another name of a field of a structure", HEADER,
            "uint32_t i1;   /**< the greatest first coordinate, which is in it */", "uint32_t j2;"),
    Mistake("another number of a status", HEADER, "S2U_MEMORY = -2,", "S2U_MEMORY = -7,"),
    Mistake("a refusal without a text", HEADER, 'case S2U_MEMORY: return "out of memory";', "",
            "S2U_MEMORY: it has no text"),
    Mistake("a status that the header lacks", "crates/s2union_c/src/status.rt", "const NO_ROOM: i32 = -1;",
            "const NO_ROOM: i32 = -1;\nconst NO_NAME: i32 = -99;", "status -99: it has no name"),
    Mistake("another most of a covering", "crates/s2cover/src/lib.rt", "const MOST_COVERING: usize = 1_000_000;",
            "const MOST_COVERING: usize = 1_000_001;", "s2union.h: not what tools/calls makes"),
    Mistake("another limit of a line", "crates/s2script/src/limits.rt", "LONGEST_LINE: usize = 4096;",
            "LONGEST_LINE: usize = 4097;", "calculator.py: not what tools/calls makes"),
    Mistake("a command without a line of the help", "crates/s2script/src/table.rt",
            "  cell CELL                                describes the cell\n", "", "cell: no line of HELP is there"),
    Mistake("a command without an arm", "crates/s2script/src/table.rt", 'is(name, b"square")', 'is(name, SQUARE)',
            "square: no arm is there"),
    Mistake("another form of a command", "crates/s2script/src/table.rt", "\n  load r NAME   ", "\n  load s NAME   ",
            "docs/SCRIPT.md: not what tools/calls makes"),
    Mistake("another error of a command", "docs/SCRIPT.md", "| `name`, `file`, `memory` | `dump session` |",
            "| `name`, `memory` | `dump session` |", "prompt.py: not what tools/calls makes"),
    Mistake("a command that the page lacks", "docs/SCRIPT.md", "| `redo` | goes", "| redo | goes",
            "docs/SCRIPT.md: it has no place for redo"),
    Mistake("two fields of Rust in the wrong order", "bindings/rust/src/covering.rs",
            "    pub i1: u32,\n    /// The least second coordinate.\n    pub j0: u32,",
            "    pub j0: u32,\n    /// The least second coordinate.\n    pub i1: u32,"),
    Mistake("a call that Python lacks", "bindings/python/s2union/_library.c",
            "static PyObject* py_square_of(", "static PyObject* py_square(", "_library.c has to have it"),
    Mistake("a call that Go lacks", "bindings/go/union.go", "C.s2u_cells_at(", "C.s2u_cells_here(",
            "Go: s2u_cells_at: it isn't in bindings/go/*.go"),
    Mistake("a call that no fuzzer makes", "bindings/c/tests/fuzz.c", "MUST(s2u_cells_at(", "MUST(s2u_cells_here(",
            "libFuzzer: s2u_cells_at: it isn't in bindings/c/tests/fuzz.c or bindings/c/tests/calls.h"),
    Mistake("a call that no page explains", "docs/FROM_S2.md", "`s2u_cells_at`, ", "",
            "FROM_S2.md: s2u_cells_at: it isn't in docs/FROM_S2.md"),
    Mistake("another number of a status in Java", "bindings/java/s2union/Refusal.java", "NO_CELL = -3", "NO_CELL = -4"),
    Mistake("a status that Java lacks", "bindings/java/s2union/Refusal.java", "    NO_CELL(-3),", "",
            "it has no place for NO_CELL"),
    Mistake("another version in the header", HEADER, "#define S2U_VERSION_MAJOR ", "#define S2U_VERSION_MAJOR 9"),
    Mistake("a call that Java lacks", "bindings/java/s2union/CellUnion.java", "  // methods: all others\n", "",
            "Java: s2u_complement: it isn't in bindings/java/s2union.c or"),
    Mistake("a call that R lacks", "bindings/r/R/s2union.R", "# methods: all others\n", "",
            "R: s2u_complement: it isn't in bindings/r/R/s2union.R"),
    Mistake("another name in SQL on the page for users of S2", "tools/methods.toml", 'sql = "`s2_complement`"',
            'sql = "`s2_rest`"', "docs/FROM_S2.md: not what tools/calls makes"),
    Mistake("a row of methods for no call", "tools/methods.toml", "[call.is_union]", "[call.is_list]",
            "tools/methods.toml: is_list: no such export"),
    Mistake("a method that has no row", "tools/methods.toml", "[call.is_union]", "[call.is_list]",
            "CellUnion.java: no row of tools/methods.toml has is_union"),
    Mistake("a call that C++ lacks", "bindings/cpp/s2union.hpp", "  // methods: all others\n", "",
            "C++: s2u_complement: it isn't in bindings/cpp/s2union.hpp"),
    Mistake("a call of JavaScript that the library lacks", "bindings/js/core.js", '"s2u_union", xs, ys',
            '"s2u_unite", xs, ys', "s2u_unite: no such export"),
    Mistake("a call of JavaScript that takes memory", "bindings/js/core.js", '"s2u_union", xs, ys',
            '"s2u_range", xs, ys', "s2u_range: it takes memory, which the page has not"),
    Mistake("an argument of the header without a word", HEADER, " * @param whole,part any numbers\n",
            " * @param whole any numbers\n", "s2u_cell_contains: its comment lacks the argument part"),
    Mistake("a call of the header without its version", HEADER,
            " * @since 1.1\n * @snippet examples.c s2u_complement\n", " * @snippet examples.c s2u_complement\n",
            "s2u_complement: its comment lacks @since"),
    Mistake("another status in the header", HEADER, "@retval S2U_MANY 2^64 bytes", "@retval S2U_MUCH 2^64 bytes",
            "s2u_tokens: its comment lacks the status MUCH"),
    Mistake("an error of the header that a language doesn't tell", HEADER, " * @snippet examples.c s2u_normalise\n",
            " * @retval S2U_MANY never\n * @snippet examples.c s2u_normalise\n",
            "Rust: union: from_ids: its comment lacks the error Many"),
    Mistake("an argument of Python without a word", "bindings/python/s2union/__init__.py",
            "    i : iterable or array of int\n        0 to 2**30 - 1, as many.\n", "",
            "Python: from_points: its comment lacks the argument"),
    Mistake("an example of Python left out", "bindings/python/s2union/__init__.py",
            "    >>> version() >= (1, 1, 0)\n    True\n", "", "Python: version: its comment lacks >>> "),
    Mistake("a member of C++ without its example", "bindings/cpp/s2union.hpp",
            "  /// @snippet examples.cc Release\n", "", "C++: Release: its comment lacks an example of examples.cc"),
    Mistake("an example of C++ left out", "bindings/cpp/tests/examples.cc", "    // [ToString]\n    CellUnion half",
            "    CellUnion half", "C++: ToString: its comment lacks an example of examples.cc"),
    Mistake("a member of C++ without its version", "bindings/cpp/s2union.hpp",
            "  /// All leaves. S2U_MEMORY. @since 0.1\n", "  /// All leaves. S2U_MEMORY.\n",
            "C++: WholeSphere: its comment lacks @since"),
    Mistake("an error of methods left out", "tools/methods.toml", 'question = "named"\n',
            'question = "named"\nnever = ["NO_CELL"]\n',
            "Java: CellId.fromTokens(String text): its comment lacks the error NO_CELL"),
    Mistake("an argument of TypeScript without a word", "bindings/js/s2union.d.ts",
            "   * @param unions - any number of unions\n", "",
            "TypeScript: CellUnion.unionOf: its comment lacks @param unions"),
    Mistake("an error of Rust left out", "bindings/rust/src/union.rs",
            "    /// - [`Error::NoCell`]: a number", "    /// - a number",
            "from_ids: its comment lacks the error NoCell"),
    Mistake("an example of Rust that isn't run", "bindings/rust/crate.rs",
            "/// ```\n/// # use s2union::*;", "/// ```ignore\n/// # use s2union::*;",
            "Rust: lib: version: its comment lacks # Examples"),
    Mistake("an example of Go left out", "bindings/go/example_each_test.go", "func ExampleCellID_Face() {",
            "func ExampleCellID_Faces() {", "Go: cell: CellID.Face: its comment lacks an Example function"),
    Mistake("a version of Go left out", "bindings/go/cell.go", "Face is 0 to 5. Since 0.2.", "Face is 0 to 5.",
            "Go: cell: CellID.Face: its comment lacks Since"),
    Mistake("another address of the repository than the path of Go", "CITATION.cff", "not-published.invalid",
            "example.com", "bindings/go/go.mod: not what tools/calls makes"),
    Mistake("a list that JavaScript leaves out", "bindings/js/core.js", '"s2u_union", xs, ys', '"s2u_union", xs',
            "s2u_union: it takes 2 lists, not 1"),
    Mistake("another first room in JavaScript", "bindings/js/core.js", "=> 2 * Math.min(nx, ny),", "=> nx + ny,"),
    Mistake("a function that SQLite doesn't list", "bindings/sqlite/README.md", "\n| `s2_count(region)` |",
            "\n| `s2_size(region)` | how many |\n| `s2_count(region)` |"),
]


# What a call of unions has by hand, as that of `union` stands there: a second one is made of it, with another name.
CALL = [("crates/s2union_c/src/sets.rt", r'(?s)#\[unsafe\(no_mangle\)\]\npub extern "C" fn s2u_union\(.*?\n\}\n'),
        (HEADER, r"(?s)/\*\* \[pure\] The leaves of either\.(?:(?!/\*\*).)*?s2u_union\([^;]*;\n"),
        ("tools/methods.toml", r"(?s)\[call\.union\]\n.*?\n\n"), ("tests/model/vectors.py", r' +say\("union", .*\n')]
RENAMED = {"s2u_union": "s2u_either", "[call.union]\n": '[call.either]\nfrom_s2.differs = "S2 has no such call"\n',
           ").union(": ").either(", '"union"': '"either"'}


def checked(folder, top=TOP):
    """What tools/calls of a checkout says of a folder, and whether it finds nothing."""
    done = subprocess.run([sys.executable, top / "tools" / "calls", "--check", folder], capture_output=True, text=True,
                          check=False)
    return done.stdout + done.stderr, done.returncode == 0


def is_refused(mistake, copy):
    """Whether a mistake is found in a copy, in which it doesn't stay."""
    file = copy / mistake.file
    text = file.read_text(encoding="utf-8")
    if text.count(mistake.old) != 1:
        print(f"can't be made: {mistake.name}: its text is there {text.count(mistake.old)} times")
        return False
    file.write_text(text.replace(mistake.old, mistake.new), encoding="utf-8")
    said, is_fine = checked(copy)
    file.write_text(text, encoding="utf-8")
    if is_fine or " passed, " not in said or mistake.fault not in said:
        print(f"NOT REFUSED: {mistake.name}\n{said}")
        return False
    return True


def takes_a_call(copy):
    """Whether no language lacks a call that these files alone have by hand, once `tools/calls` has run."""
    for file, part in CALL:
        text = (copy / file).read_text(encoding="utf-8")
        old = new = re.search(part, text)[0]
        for name, other in RENAMED.items():
            new = new.replace(name, other)
        (copy / file).write_text(text.replace(old, f"{old}{new}", 1), encoding="utf-8")
    subprocess.run([sys.executable, copy / "tools" / "calls"], capture_output=True, check=False)
    said, is_fine = checked(copy, copy)
    print("" if is_fine else said, end="")
    return is_fine and "s2u_either" in (copy / "docs/FROM_S2.md").read_text(encoding="utf-8")


def main():
    said, is_fine = checked(TOP)
    print(said, end="" if is_fine else "\n")
    counts = said.splitlines()[-1].split() if said else ["0", "", "1"]
    with tempfile.TemporaryDirectory() as room:
        copy_tracked(TOP, room)
        refused = [is_refused(mistake, Path(room).resolve()) for mistake in MISTAKES]
        refused.append(takes_a_call(Path(room).resolve()))
    passed, failed = int(counts[0]) + sum(refused), int(counts[2]) + refused.count(False)
    print(f"{passed} passed, {failed} failed")
    return failed > 0


if __name__ == "__main__":
    sys.exit(main())
