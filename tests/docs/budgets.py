"""Whether the tree keeps within the figures of CONTRIBUTING.md: lines by folder, files by hand for a call, and places
of its sentence. A change that passes one of them changes it in its own commit, where it says why.
"""
import re
import sys
from pathlib import Path

ROOT = Path(__file__).resolve().parents[2]
sys.path += [str(ROOT / "tests"), str(ROOT / "tools")]
import methods  # noqa: E402

ROW = re.compile(r"^\| (.+?) \| ([\d,]+) \|$", re.M)
TOLD = {"C": ".h", "C++": ".hpp", "Go": ".go", "Java": ".java", "JavaScript": ".ts", "Python": ".py", "Rust": ".rs"}


def budgets(top=ROOT):
    """The figures of the page, by what they are of."""
    section = (top / "CONTRIBUTING.md").read_text().partition("\n## How large it is\n")[2].partition("\n## ")[0]
    return {what.strip("`"): int(figure.replace(",", "")) for what, figure in ROW.findall(section)}


def files_of_a_call(top=ROOT):
    """The files that a call of unions asks for by hand: those in the first column of its table."""
    section = (top / "docs/EXTENDING.md").read_text().partition("\n## A call for C\n")[2].partition("\n## ")[0]
    rows = re.search(r"^\| File \|.*\n\|.*\n((?:\|.*\n)+)", section, re.M)[1]
    return {path for row in rows.splitlines() for path in re.findall(r"`([\w./]+)`", row.split(" | ")[0])}


def places_of_a_sentence():
    """The languages whose comments on calls are written and not made of the table of methods."""
    return [language for language, suffix in TOLD.items() if suffix not in methods.LANGUAGES]


def passed(lines, top=ROOT):
    """How many figures there are, and what passes one. `lines` are those of each folder."""
    found = budgets(top)
    there = {**lines, "files by hand for a call": len(files_of_a_call(top)),
             "places of its sentence": len(places_of_a_sentence())}
    wrong = [f"CONTRIBUTING.md: {what} has {count:,}, and at most {found.get(what, 0):,} are there"
             for what, count in there.items() if count > found.get(what, 0)]
    return len(found), wrong + [f"CONTRIBUTING.md: {what} is nothing that is counted" for what in found.keys() - there]
