"""Habits that make pages hard to read, counted: python3 tests/docs/prose.py [PAGE..] lists the sentences that have one.

The pages are README.md and those for users, without code, tables and headings. HABITS has the most that may stand of
each habit, which only falls; tests/docs/rot.py asks it.
"""
import re
import sys
from pathlib import Path
from typing import Callable, NamedTuple

ROOT = Path(__file__).resolve().parents[2]
sys.path += [str(ROOT / "tests"), str(ROOT / "tools" / "packaging")]
import documents  # noqa: E402
from checks import tracked  # noqa: E402

FENCED = re.compile(r"^ *```.*?^ *```", re.S | re.M)
SKIPPED = re.compile(r" *(?:\||#|<)|    ")
ITEM = re.compile(r" *(?:[-*]|\d+\.) +")
LINK = re.compile(r"!?\[([^\]]*)\]\([^)]*\)")
CODE = re.compile(r"`[^`\n]*`")
END = re.compile(r"(?<=[.!?])[)\"*]*\s+(?=[\"(*]*[A-Z<0-9]|\*\*)")
MOST_WORDS = 40


class Habit(NamedTuple):
    """A habit: whether a sentence has it, and how many sentences may."""

    is_in: Callable
    most: int


def has(form):
    pattern = re.compile(form)
    return lambda sentence: pattern.search(sentence)


HABITS = {
    "'but for', 'asked about', 'so many' and 'refused where'": Habit(
        has(r"\b(?:[Bb]ut for|[Aa]sked about|[Ss]o many|[Rr]efused where)\b"), 0),
    "'is no' and 'is none'": Habit(has(r"(?<![Tt]here )\b(?:is|are) (?:no|none)\b(?! (?:longer|more|less)\b)"), 0),
    "begins with a free what, who, where or that": Habit(has(r"^(?:What|Whoever|Who|Where|That)\b(?!.*\?$)"), 0),
    "begins with a word that points back": Habit(
        has(r"^(?:(?:This|These|Those) (?:is|are|was|were|has|have|holds?|means?)|They|So|Such|The same)\b"), 1),
    # the headline of PROOF.md is one sentence, and two of DECISIONS.md are lists
    f"more than {MOST_WORDS} words": Habit(lambda sentence: len(sentence.split()) > MOST_WORDS, 3),
}


def sentences(text):
    """The sentences of a page: of its paragraphs and of the items of its lists."""
    parts = [[]]
    for line in FENCED.sub("", text).splitlines():
        if not line.strip() or SKIPPED.match(line) and not ITEM.match(line):
            parts.append([])
        elif found := ITEM.match(line):
            parts.append([line[found.end():]])
        else:
            parts[-1].append(line.strip())
    for part in parts:
        words = CODE.sub("<code>", LINK.sub(r"\1", " ".join(part)))
        yield from (it.strip("*\" (") for it in END.split(words) if it.strip("*\" ("))


def pages():
    return tracked(ROOT, "README.md", *documents.PAGES)


def found_in(name):
    """The sentences of a page that have a habit, each with its name."""
    text = (ROOT / name).read_text(encoding="utf-8")
    return [(habit, it) for it in sentences(text) for habit, asked in HABITS.items() if asked.is_in(it)]


def habits():
    """The number of pages, and the habits that stand more often than they may, with where."""
    found = {name: [habit for habit, _ in found_in(name)] for name in pages()}
    more = []
    for habit, asked in HABITS.items():
        counts = {name: count for name, all_of_it in found.items() if (count := all_of_it.count(habit))}
        if sum(counts.values()) > asked.most:
            more.append(f"{habit}: {sum(counts.values())} sentences, where {asked.most} is the most: {counts}")
    return len(found), more


if __name__ == "__main__":
    for page in sys.argv[1:] or pages():
        for its_habit, its_sentence in found_in(page):
            print(f"{page}: {its_habit}: {its_sentence}")
