"""Only the library knows about cells: the C of an extension has no shift, no mask and no modulus.

no_arithmetic.py FILE: prints what it finds. Flags in capitals, the alignment of blocks, the buckets of a hash and the
version of Python's API are permitted."""

import re
import sys

NOT_CODE = re.compile(r'/\*.*?\*/|//[^\n]*|"(?:\\.|[^"\\])*"|\'(?:\\.|[^\'\\])+\'', re.DOTALL)
ARITHMETIC = re.compile(
    r"<<|>>|~|\^|[&|%]=|__builtin|\b0[xX][0-9a-fA-F]{3,}|[\w)\]](?:(?:&(?!&)|\|(?!\|)|%)[\w(]|\s+[&|%]\s)"
)
FLAGS = re.compile(r"\b[A-Z][A-Z0-9_]+(?:\s*\|\s*[A-Z][A-Z0-9_]+)+\b")
ALIGNED = re.compile(r"% (?:\w*ALIGNMENT|BUCKETS|sizeof\(uint64_t\))|^#define Py_LIMITED_API .*$", re.M)


def main(path):
    with open(path, encoding="utf-8") as file:
        text = NOT_CODE.sub(lambda found: "\n" * found[0].count("\n"), file.read())
    text = ALIGNED.sub("", FLAGS.sub("FLAGS", text))
    found = [f"{path}:{k}: {line}" for k, line in enumerate(text.splitlines(), 1) if ARITHMETIC.search(line)]
    print("\n".join(found))
    return bool(found)


sys.exit(main(sys.argv[1]))
