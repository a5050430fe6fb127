"""The table of calls in docs/CHECK.md: each call of the header stands there once, with what is proved of it."""
import re

from calls import PLANS
from proofs import TOP
from solver import Refuted

HEADER = TOP / "crates" / "s2union_c" / "include" / "s2union.h"
PAGE = TOP / "docs" / "CHECK.md"
ROW = re.compile(r"^\| (`s2u_.*?`) \|.*\| (.*?) \|$", re.M)


def verdict_of(name):
    """How the verdict of a call begins."""
    if name not in PLANS:
        return "not: "
    return "proved, in the full tier" if PLANS[name].tier == "full" else "proved"


def check_table():
    """How many calls the table has, if each is there with its verdict."""
    calls = re.findall(r"^u?int\d+_t (s2u_\w+)\(", HEADER.read_text(encoding="utf-8"), re.M)
    rows = [(name, verdict) for names, verdict in ROW.findall(PAGE.read_text(encoding="utf-8"))
            for name in re.findall(r"s2u_\w+", names)]
    if sorted(calls) != sorted(name for name, _ in rows):
        odd = sorted({*calls} ^ {name for name, _ in rows}) or "a call twice"
        raise Refuted(f"{PAGE}: the table doesn't have each call of the header once: {odd}")
    for name, verdict in rows:
        if not verdict.startswith(verdict_of(name)) or verdict_of(name) == "proved" and verdict != "proved":
            raise Refuted(f"{PAGE}: {name} is {verdict_of(name)}, and the table says: {verdict}")
    return len(calls)
