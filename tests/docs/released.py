"""Whether what the pages name is in the release, or is said to come with the next one.

A page describes the checkout, and its reader installs what dist/ has. A name that the sources of a language declare,
and that no text of its package in dist/ has, is new. Where a page has it in code, the row, the paragraph, or the
paragraph before the program says `since` and a version that is later than the release's. If the release has the name in
another language, only the pages of those that don't have it yet are looked at.
"""
import functools
import io
import re
import subprocess
import sys
import tarfile
import zipfile
from pathlib import Path

ROOT = Path(__file__).resolve().parents[2]
sys.path += [str(ROOT / "tests"), str(ROOT / "tools"), str(ROOT / "tools" / "packaging")]
import documents  # noqa: E402
import methods  # noqa: E402
from checks import tracked  # noqa: E402

DIST = ROOT / "dist"
WORD = re.compile(r"--[a-z][a-z-]+|[A-Za-z_]\w{2,}")
PARTS = re.compile(r"^```[\s\S]*?^```|^\|.*$|(?:^(?!```|\|).+\n?)+", re.M)
CODE = re.compile(r"`([^`\n]+)`")
SINCE = re.compile(r"\bsince (\d+(?:\.\d+)+)")
# Pages for those who change the project.
OF_THE_HOUSE = {"docs/DECISIONS.md", "docs/EXTENDING.md", "docs/MUTANTS.md"}
# The folder of a language in bindings/, where it isn't the name.
OF_OTHER_NAME = {"C++": "c", "JavaScript": "js", "PostgreSQL": "postgres"}
# The sources that declare the names of a language, how, and the package in dist/ that has them.
PACKAGES = {
    "C": (["crates/s2union_c/include/s2union.h", "bindings/c/s2union_*.h"],
          r"^(?:static inline )?(?:const )?\w+\*? (s2u_\w+)\(", "libs2union-dev_*.deb"),
    "C++": (["bindings/cpp/s2union.hpp"], r"^ *(?:[\w:<>]+[&*]? )+([A-Z]\w+)\([^;]*\{", "libs2union-dev_*.deb"),
    "Go": (["bindings/go/*.go"], r"^func (?:\(\w+ \*?\w+\) )?([A-Z]\w+)", "golang-s2union-dev_*.deb"),
    "Rust": (["bindings/rust/src/*.rs"], r"\bpub (?:fn|struct|enum) (\w+)", "librust-s2union-dev_*.deb"),
    "Python": (["bindings/python/s2union/__init__.py", "bindings/python/s2union_geo/*.py"],
               r"^(?:    )?(?:def|class) ([A-Za-z]\w+)", "s2union-*manylinux*.whl"),
    "Java": (["bindings/java/s2union/*.java"], r"\bpublic (?:static |final )*[\w.\[\]<>]+ (\w+)\(", "s2union-*.jar"),
    "JavaScript": (["bindings/js/*.d.ts"], r"^(?:export (?:declare )?function|  (?:static )?)(\w+)\(", "s2union-*.tgz"),
    "PostgreSQL": (["bindings/postgres/s2union*.sql"], r"CREATE (?:OR REPLACE )?FUNCTION (?:@extschema@\.)?(\w+)",
                   "postgresql-15-s2union_*.deb"),
    "SQLite": (["bindings/sqlite/*.c"], r"\"(s2_\w+)\"", "libsqlite3-mod-s2union_*.deb"),
    "the command line": (["tools/launcher/words.py", "bindings/python/s2union_geo/__main__.py"],
                         r"(--[a-z][a-z-]+)", "s2calc_*.deb s2union-*manylinux*.whl"),
}

# The page of a language: JS's of JavaScript, and so on.
PAGES = {language: f"bindings/{OF_OTHER_NAME.get(language, language.lower())}/README.md" for language in PACKAGES}


def texts(path):
    """The files in an archive, each as bytes."""
    data = path.read_bytes()
    if path.suffix in (".whl", ".jar"):
        with zipfile.ZipFile(io.BytesIO(data)) as it:
            yield from map(it.read, it.namelist())
        return
    if path.suffix == ".deb":
        data = subprocess.run(["dpkg-deb", "--fsys-tarfile", path], capture_output=True, check=True).stdout
    with tarfile.open(fileobj=io.BytesIO(data)) as it:
        yield from (it.extractfile(each).read() for each in it if each.isfile())


@functools.cache
def released(patterns):
    """All words of the packages in dist/ that these patterns name."""
    paths = [path for pattern in patterns.split() for path in sorted(DIST.glob(pattern))]
    return {word for path in paths for text in texts(path) for word in WORD.findall(text.decode("latin-1"))}


def declared(sources, declares):
    """The names that sources declare, tests aside."""
    paths = [path for source in sources for path in sorted(ROOT.glob(source)) if "_test." not in path.name]
    texts = [methods.filled(path, ROOT) for path in paths]
    return {name for text in texts for name in re.findall(declares, text, re.M) if WORD.fullmatch(name)}


def said_of(page):
    """Each part of a page, with the words in its code: a row, a paragraph, or a program with the paragraph before."""
    before = ""
    for part in PARTS.findall((ROOT / page).read_text()):
        is_program = part.startswith("```")
        code = part if is_program else " ".join(CODE.findall(part))
        yield before + part if is_program else part, set(WORD.findall(code))
        before = before if is_program else part


def is_announced(text):
    """Whether a text says that something comes with a later version than the release's."""
    version = (ROOT / "VERSION").read_text().strip().split(".")
    return any([int(it) for it in found.split(".")] > [int(it) for it in version] for found in SINCE.findall(text))


def unreleased():
    """How many names the languages declare, and where a page has a new one without a word."""
    names, new, old = 0, {}, set()
    for language, (sources, declares, packages) in PACKAGES.items():
        here = declared(sources, declares)
        names += len(here)
        old |= here & released(packages)
        for name in here - released(packages):
            new.setdefault(name, []).append(language)
    pages = [page for page in tracked(ROOT, "README.md", *documents.PAGES) if page not in OF_THE_HOUSE]
    return names, [f"{page}: {name} of {', '.join(new[name])}: {text.strip()[:99]!r}" for page in pages
                   for text, words in said_of(page) for name in sorted(words & set(new))
                   if (name not in old or page in map(PAGES.get, new[name])) and not is_announced(text)]
