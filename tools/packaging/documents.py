#!/usr/bin/env python3
"""Copies pages as a package has them: documents [--beside] FOLDER FILE.., files by their paths from the top of the
repository; or prints the paths of all pages for users, which PAGES names: documents --pages.

Each goes below the folder by its path, and the page of a language, bindings/NAME/README.md, as docs/NAME.md, in
capitals. With --beside, what is in docs/ goes beside README.md, and its index becomes INDEX.md. A link to another of
these files leads to it there, and one into the web stays. If docs/STATEMENT.txt and docs/STATEMENT.rt are among the
files, a link to a definition or a contract of crates/ leads to its line there: the one that has the first name in the
link's text, or that where the texts of the source begin. Any other link becomes its text, since a package lacks what it
leads to.
"""
import functools
import os
import re
import subprocess
import sys
from pathlib import Path

TOP = Path(__file__).resolve().parents[2]
# The pages for users, as git finds them. The page of a language or a system stands beside its code.
PAGES = (":(glob)docs/*.md", ":(glob)bindings/*/README.md", ":!bindings/source", "page/README.md")
BESIDE_CODE = re.compile(r"(?:bindings/(\w+)|(page))/README\.md")
LINK = re.compile(r"(!?)\[((?:[^\[\]]|\[[^\[\]]*\])*)\]\((?!https?://|#)([^)#\s]+)(#[^)\s]+)?\)")
SOURCE = re.compile(r"crates/(\w+)/(specs|src)/([\w/]+)\.(?:antt|rt)")
DEFINITIONS, CONTRACTS = "docs/STATEMENT.txt", "docs/STATEMENT.rt"
SECTION = re.compile(r"-- (\w+, \w+)|mod (\w+) \{")


@functools.cache
def sections(name):
    """The lines of a text of the statement, each with its number, by their section: the file of a crate."""
    found, section = {}, ""
    for number, line in enumerate((TOP / name).read_text(encoding="utf-8").splitlines(), 1):
        begins = SECTION.fullmatch(line)
        section = begins[1] or begins[2] if begins else section
        found.setdefault(section, []).append((number, line))
    return found


def in_statement(path, words):
    """The text of the statement that has what a link with these words leads to in crates/, and the number of its line;
    or None."""
    source = SOURCE.fullmatch(path)
    if not source:
        return None
    crate, folder, module = source.groups()
    if folder == "specs":
        name, section = DEFINITIONS, f"{crate}, {module.rpartition('/')[2]}"
        form = r" *(?:[a-z]+ )*{}(?:_in_\w+)?(?:-is)? "
    else:
        name, section = CONTRACTS, f"{crate}_{module.replace('/', '_')}"
        form = r" *(?:pub )?fn (?:\w+_)?{}\b"
    lines = sections(name).get(section)
    if not lines:
        return None
    named = re.search(r"`(?:\w+::)?(\w+)`", words)
    defines = re.compile(form.format(named[1])) if named else re.compile("")
    return name, next((number for number, line in lines if defines.match(line)), lines[0][0])


def page(text, name, places):
    """The text of the page with this name, with the links that it has in its place."""
    here = os.path.dirname(places[name])

    def link(match):
        picture, words, path, heading = match.groups()
        leads = os.path.normpath(os.path.join(os.path.dirname(name), path))
        there = places.get(leads)
        if there is None and {DEFINITIONS, CONTRACTS} <= places.keys() and (found := in_statement(leads, words)):
            there, heading = places[found[0]], f"#L{found[1]}"
        if there is None:
            return f"({words})" if picture else words
        return f"{picture}[{words}]({os.path.relpath(there, here or '.')}{heading or ''})"

    return LINK.sub(link, text)


def below(name):
    """Where a file goes in a package that keeps the folder docs/."""
    found = BESIDE_CODE.fullmatch(name)
    return f"docs/{(found[1] or found[2]).upper()}.md" if found else name


def beside(name):
    """Where a file goes that stands beside README.md."""
    return "INDEX.md" if name == "docs/README.md" else below(name).removeprefix("docs/")


def main(words):
    if words == ["--pages"]:
        subprocess.run(["git", "ls-files", *PAGES], cwd=TOP, check=True)
        return
    is_beside = words[0] == "--beside"
    folder, *names = words[is_beside:]
    places = {name: beside(name) if is_beside else below(name) for name in names}
    for name, place in places.items():
        content = (TOP / name).read_bytes()
        to = Path(folder, place)
        to.parent.mkdir(parents=True, exist_ok=True)
        to.write_bytes(page(content.decode(), name, places).encode() if name.endswith(".md") else content)


if __name__ == "__main__":
    main(sys.argv[1:])
