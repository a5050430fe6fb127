"""Numbers on README.md, docs/HEADLINE.md and other pages, beside what they count in the sources.

FIGURES has for each page the text around a number and what the number has to be. A page has the text at least once, and
each time with that number. On docs/HEADLINE.md each number of two digits or more has to be one of these; UNCOUNTED has
those that count nothing in the sources.
"""
import re
import subprocess
import sys
from pathlib import Path

ROOT = Path(__file__).resolve().parents[2]
CELLS = ("s2cell", "s2list", "s2union", "s2file", "s2cover", "s2room")  # cells, sets and files
SHAPES = ("s2geodesic", "s2map", "s2shape", "s2written")  # from bytes of GeoJSON and WKB to coverings
NUMBER = re.compile(r"(?<![\w#.])\d[\d,]*\d(?!\w)")
BESIDE_TEXT = re.compile(r"^```.*?^```\n|\]\([^)]*\)|^\d+\. ", re.S | re.M)  # code, links, numbers of items
UNCOUNTED = {"docs/HEADLINE.md": {"30", "64"}}  # 6 · 4^30 leaves, and reads up to 2^64


def text_of(name):
    return (ROOT / name).read_text(encoding="utf-8")


def in_source(file, form):
    """The one number that a file of the sources has in this form."""
    (found,) = set(re.findall(form, text_of(file), re.M))
    return int(found.replace("_", ""))


def constant(file, name):
    return in_source(f"crates/{file}", rf"^pub const {name}: \w+ = ([\d_]+);")


def lines_of_specs(*crates):
    """The lines of the definitions that public contracts of these crates need, without blank ones."""
    files = [file for crate in crates for file in (ROOT / "crates" / crate / "specs").rglob("*.antt")]
    return sum(bool(line.strip()) for file in files if "Working" not in f"{file}"
               for line in file.read_text(encoding="utf-8").splitlines())


def lines_of_statement():
    """The lines of the first part of STATEMENT.md, that on runs, without blank ones."""
    script = "import runpy; it = runpy.run_path('statement'); print('\\n'.join(it['made'](it['House']()).lines))"
    text = subprocess.run([sys.executable, "-c", script], cwd=ROOT / "tools", check=True, capture_output=True,
                          text=True).stdout.partition("\n## Part one")[2].partition("\n## Part two")[0]
    return sum(bool(line.strip()) for line in text.splitlines())


def about(count):
    """Whether a number is the count, rounded to two digits or better."""
    return lambda number: abs(number - count) <= count / 20


def just(count):
    return lambda number: number == count


def figures():
    """Each page, the text around a number, and what the number has to be."""
    call = in_source("docs/PROOF.md", r"axioms=(\d+)")
    imported = len(re.search(r'CALLS = set\("(.*?)"', text_of("tests/program/test_imports.py"))[1].split())
    limit, depth = (in_source("crates/s2calc/specs/CommandLine.antt", rf'{name} = chosen \(codes "(\d+)"\)')
                    for name in ("OfCells", "OfStates"))
    cases = in_source("tests/peer/s2.sh", r"bench/out/peer \"\$\{1:-(\d+)\}")
    pairs = in_source("crates/s2cover/src/budget.rt", r"1 << (\d+);")
    looked = in_source("crates/s2cover/src/splitting.rt", r"^const LOOKED: usize = (\d+);")
    scripts = in_source("tests/run", r"in_gate\(\"tests/peer/scripts.py (\d+)")
    rings = in_source("tests/peer/polygons.sh", r"beside_s2 \"\$\{1:-(\d+)\}\"")
    cells, to_c, polygons = (lines_of_specs(*crates) for crates in (CELLS, ["s2union_c"], ["s2polygon"]))
    texts = "".join(file.read_text(encoding="utf-8") for file in sorted(ROOT.glob("crates/*/mutants.txt")))
    headline, proof = "docs/HEADLINE.md", "docs/PROOF.md"
    return [
        (headline, r"LIMIT is from 1 to (N)", just(constant("s2edit/src/lib.rt", "MOST_REGISTER"))),
        (headline, r"LIMIT is .*?, and (N) if it isn't given", just(limit)),
        (headline, r"DEPTH is from 1 to (N)", just(constant("s2edit/src/lib.rt", "MOST_STATES"))),
        (headline, r"DEPTH is .*?, or (N);", just(depth)),
        (headline, r"From (N) empty registers", just(constant("s2script/src/register.rt", "REGISTERS"))),
        (headline, r"edges touch more than (N) cells", just(constant("s2polygon/src/counting.rt", "MOST_TOUCHED"))),
        (headline, r"edges touch more cells than (N) and those allowed", just(looked)),
        (headline, r"with (N) contracts of C functions", just(call)),
        (headline, r"(N) functions of the C library", just(imported)),
        (headline, r"the (N) lines of \[`main`\]", about(lines_of_main())),
        (headline, r"on (N) random cases", just(cases)),
        (headline, r"on (N) random rings", just(rings)),
        (headline, r"runtime for numbers of (N) bits", just(128)),
        ("docs/FAQ.md", r"with (N) random cases beside S2", just(cases)),
        ("docs/DECISIONS.md", r"At most 2\^(N) \+ 32 \(edges", just(pairs)),
        (proof, r"at most (N) KiB, waited", just(constant("s2calc/src/limits.rt", "MOST_WAITING") // 1024)),
        (proof, r"`IsPlaceOf`\), by (N) levels", just(constant("s2cell/src/lib.rt", "GREATEST_LEVEL"))),
        (proof, r"on (N) random cases", just(cases)),
        (proof, r"in (N) random cases", just(cases)),
        (proof, r"on (N) random rings", just(rings)),
        (proof, r"a plain model on (N) random scripts", just(scripts)),
        (proof, r"(N) lines for the library alone", about(cells + to_c)),
        (proof, r"for the library alone, (N) with polygons", about(cells + to_c + polygons)),
        (proof, r"with polygons, (N) with degrees",
         about(cells + to_c + polygons + lines_of_specs("s2degrees", *SHAPES))),
        ("docs/MUTANTS.md", r"the others there, some (N)", about(texts.count("\n## ") - texts.count("\ngate: always"))),
        ("README.md", r"\[six crates\]\(\S+\), (N) \|", about(cells)),
        ("README.md", r"\[specs\]\(crates/s2union_c/specs\), (N) \|", about(to_c)),
        ("README.md", r"\[specs\]\(crates/s2polygon/specs\), (N) \|", about(polygons)),
        ("README.md", r"\[specs\]\(crates/s2degrees/specs\), (N) \|", about(lines_of_specs("s2degrees"))),
        ("README.md", r"\[four crates\]\(\S+\), (N) \|", about(lines_of_specs(*SHAPES))),
        ("README.md", r"\[statement\]\(\S+\), (N) \|", about(lines_of_statement())),
        ("README.md", r"that (N) functions of the C library and the kit", just(call)),
    ]


def lines_of_main():
    """The lines of `main` and of what it calls beside `calculator`."""
    text = text_of("crates/calculator/src/main.rt")
    return sum(len(re.findall("\n", body)) for body in re.findall(r"^fn \w+\(rt.*?^}$", text, re.S | re.M))


def wrong_figures():
    """The number of these, and those that a page lacks or has wrong, with the numbers of HEADLINE that are none."""
    found, wrong, seen = figures(), [], {}
    for page, form, is_right in found:
        texts = [*re.finditer(form.replace("N", r"\d[\d,]*\d"), text_of(page))]
        wrong += [] if texts else [f"{page}: nothing has the form {form}"]
        wrong += [f"{page}: {it[0]}" for it in texts if not is_right(int(it[1].replace(",", "")))]
        seen.setdefault(page, set()).update(it[1] for it in texts)
    for page, others in UNCOUNTED.items():
        numbers = set(NUMBER.findall(BESIDE_TEXT.sub("]", text_of(page))))
        wrong += [f"{page}: nothing is known of {it}" for it in sorted(numbers - seen[page] - others)]
    return len(found), wrong
