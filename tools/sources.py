"""The sources that a crate is made from, and their checksum, as sources.sh has them; and the kit."""
import os
import shutil
import subprocess

TOP = os.path.dirname(os.path.dirname(os.path.realpath(__file__)))


def said_by_shell(*words):
    command = ["bash", os.path.join(TOP, "tools", "sources.sh"), *words]
    return subprocess.run(command, stdout=subprocess.PIPE, text=True, check=True).stdout


def crates_below(name):
    """The lines of crates.txt of a crate and of those below it, by name."""
    return {line.split()[0].rstrip(":"): line for line in said_by_shell("below", name).splitlines()}


def files_below(folder):
    return sorted(os.path.join(at, name) for at, _, names in os.walk(folder) for name in names)


def sum_of_sources(crate, target="x86_64-unknown-linux-gnu", others=()):
    """The checksum of the sources of a crate and of those below it, and of other files, for a target."""
    return said_by_shell("sum", crate, target, *(os.path.relpath(path, TOP) for path in others)).strip()


def kit():
    """The name of the kit; none if there is no kit."""
    if not shutil.which("rt"):
        return ""
    return subprocess.run(["rt", "version"], capture_output=True, text=True, check=True).stdout.strip()
