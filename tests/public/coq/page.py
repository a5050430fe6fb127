"""The laws on the pages: what docs/CHECK.md says of each, and that it has each that docs/HEADLINE.md claims."""
import re
from pathlib import Path

import laws
from antt import Bad

PAGES = Path(__file__).resolve().parents[3] / "docs"
LAW = re.compile(r"\[`(\w+)`\]\(\.\./crates/(\w+)/src/laws\.rt\)")
CHECKED, LATER = "checked by Coq, no axiom", "checked by Coq, no axiom, in the full tier"


def cited(page):
    """The laws that a text links to, as crate and name."""
    return {(crate, name) for name, crate in LAW.findall(page)}


def said():
    """What the tables of CHECK say of each law: the last cells of its rows."""
    found = {}
    section = (PAGES / "CHECK.md").read_text(encoding="utf-8").partition("\n## The laws\n")[2].partition("\n## ")[0]
    for row in re.findall(r"^\|(.*)\|$", section, re.M):
        *cells, last = row.split(" | ")
        for law in cited(" | ".join(cells)):
            found.setdefault(law, set()).add(last.strip())
    return found


def checked():
    """The laws that Coq checks, each with the verdict that CHECK has to have."""
    of_lists = {tuple(law.file.split("/")[:1]) + (law.function,): CHECKED for law in laws.LAWS}
    return of_lists | {(law.crate, law.function): CHECKED for law in laws.ANSWERED} | {
        (law.crate, law.function): LATER for law in laws.SLOW}


def check_page():
    """Of each law that HEADLINE claims the verdict or why there is none, as CHECK has it; an error, if CHECK lacks one,
    or says of one what isn't so."""
    rows, claimed = said(), cited((PAGES / "HEADLINE.md").read_text(encoding="utf-8"))
    if missing := sorted("::".join(law) for law in (claimed | checked().keys()) - rows.keys()):
        raise Bad(f"{PAGES}/CHECK.md: no row has {', '.join(missing)}")
    for law, verdicts in rows.items():
        wanted = checked().get(law)
        if wanted and verdicts != {wanted} or not wanted and any("checked by Coq" in each for each in verdicts):
            raise Bad(f"{PAGES}/CHECK.md: of {'::'.join(law)} it says: {'; '.join(sorted(verdicts))}")
    return {"::".join(law): "; ".join(sorted(rows[law])) for law in sorted(claimed)}
