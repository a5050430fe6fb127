#!/usr/bin/env python3
"""Checks the mutants without the prover, since the gate tries only some of them: the texts of each stand in the files
that it names, once each, and the function and the test that it names are there; and no two of a file have one name. The
last line is 'N passed, M failed', where N counts the mutants."""
import sys
from pathlib import Path

from mutant_texts import files_of_mutants, home, misfit, mutants_of

ROOT = Path(__file__).resolve().parents[2]
sys.path.append(str(ROOT / "tests"))
from checks import has_wrong  # noqa: E402


def misfits():
    """The number of mutants, and those that can't be tried, as 'file: mutant: why'."""
    count, wrong = 0, []
    for file in files_of_mutants(ROOT):
        names = set()
        for name, mutant in mutants_of(file):
            why = "another has its name" if name in names else misfit(mutant, home(file))
            wrong += [f"{file.relative_to(ROOT)}: {name}: {why}"] if why else []
            names.add(name)
            count += 1
    return count, wrong


if __name__ == "__main__":
    sys.exit(has_wrong({"can't be tried": misfits()}))
