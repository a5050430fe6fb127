"""How much of a source in C its tests have executed, by gcovr: coverage.py FOLDER NAME=SOURCE..

FOLDER is where gcc has compiled the source with --coverage and where the tests have left their counts; NAME is the name
that the source has there, and SOURCE its path in the repository, or the folder of it with / at its end. Each line has
to be executed, and no more branches may be left than tests/uncovered.txt says. Of a source that isn't in that file only
the figure is printed, which is the last line.
"""
import json
import re
import subprocess
import sys
from pathlib import Path

ROOT = Path(__file__).resolve().parents[1]
sys.path.append(str(ROOT / "tools"))
import methods  # noqa: E402

LIST = ROOT / "tests" / "uncovered.txt"


def lines_of(folder, name):
    """What gcovr says of each line of a file."""
    words = ["gcovr", "--root", ".", "--filter", rf"(.*/)?{re.escape(name)}$", "--exclude-throw-branches", "--json"]
    done = subprocess.run([*words, "--object-directory", ".", "."], cwd=folder, capture_output=True, text=True,
                          check=True)
    return [line for file in json.loads(done.stdout)["files"] for line in file["lines"] if not line["gcovr/noncode"]]


def most_of(source):
    """How many branches of a source may be left, if that is said with its reason."""
    found = re.search(rf"^{re.escape(source)}: branches (\d+) -- .", LIST.read_text(), re.M)
    return int(found[1]) if found else None


def judged(source, lines):
    """Prints what was executed of a source, and answers whether that is enough."""
    most, written = most_of(source), methods.filled(ROOT / source).splitlines()
    missed = [line["line_number"] for line in lines if line["count"] == 0]
    counts = [(line["line_number"], branch["count"]) for line in lines for branch in line["branches"]]
    left = [number for number, count in counts if count == 0]
    bad = [f"{source}:{number}: not executed: {written[number - 1].strip()}" for number in missed]
    if most is not None and len(left) > most:
        bad.append(f"{source}: {len(left)} branches not taken, where {most} is the most, in lines {sorted(set(left))}")
    bad = bad if most is not None else []
    bad += [] if lines else [f"{source}: gcovr says nothing of it"]
    for it in bad:
        print(it)
    print(f"{source}: {len(lines) - len(missed)} of {len(lines)} lines, {len(counts) - len(left)} of {len(counts)}"
          " branches")
    return not bad


def main():
    folder = Path(sys.argv[1]).resolve()
    sources = [word.partition("=")[::2] for word in sys.argv[2:]]
    sources = [(name, source + name if source.endswith("/") else source) for name, source in sources]
    return not all([judged(source, lines_of(folder, name)) for name, source in sources])


if __name__ == "__main__":
    sys.exit(main())
