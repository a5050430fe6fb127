"""What the program can call of the C library, whatever its sources say: nothing for a network, other programs, or the
removal of a file."""
import os
import subprocess

import pytest

from process import PROGRAM, TOP

CALLS = set("open read write close lseek statx malloc realloc free memcpy memmove memset".split())
# What begins a program, looks at the processor, ignores SIGPIPE and, before anything is run, says what is wrong.
BEGINS = {"__libc_start_main", "__x86_get_cpuid_feature_leaf", "__sysv_signal", "__errno_location", "__write", "abort"}
PROGRAMS = dict.fromkeys([PROGRAM, *(os.path.join(TOP, "dist", name) for name in ("s2calc", "aarch64/s2calc"))])


def is_compiled(program):
    """Whether it isn't a script, as one that runs another processor's program."""
    with open(program, "rb") as it:
        return it.read(4) == b"\x7fELF"


def imported(program):
    """The names that a program needs of others. Those of kind w may be missing, and then are not called."""
    said = subprocess.run(["nm", "-D", "--undefined-only", program], check=True, capture_output=True, text=True).stdout
    return {name.partition("@")[0] for kind, name in map(str.split, said.splitlines()) if kind != "w"}


@pytest.mark.parametrize("program", filter(is_compiled, PROGRAMS))
def test_imports(program):
    assert imported(program) - BEGINS == CALLS
