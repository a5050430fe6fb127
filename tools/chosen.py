"""Chooses the program that ./s2calc runs, and runs it: chosen.py WORD.. It is the first of these that is there:

1. the one that tools/prove or the gate has proved and built here, if none of its sources is newer
2. the release's, in dist/, if it was proved from the sources that are here
3. with Rattle's kit, an unproved build of the sources: it is made once, in about a minute, and kept in .s2calc/
4. the release's, though the sources are newer

.s2calc/choice keeps the choice in four lines, which s2calc reads: the program, what standard error says of it, the
folder of the kit, and the crates of the calculator. It seems a second older than it is: what is changed in that second
is surely newer.
"""
import contextlib
import fcntl
import glob
import hashlib
import os
import platform
import re
import shutil
import subprocess
import sys
import tempfile
import time

TOP = os.path.dirname(os.path.dirname(os.path.realpath(__file__)))
KEPT = os.path.join(TOP, ".s2calc")
BUILT = "crates/calculator/out/calculator"
RELEASED = os.path.join("dist", {"x86_64": ""}.get(platform.machine(), platform.machine()), "s2calc")


def say(text):
    print(f"s2calc: {text}", file=sys.stderr)


def note(text):
    if text and not os.environ.get("S2CALC_QUIET"):
        say(text)


def text_of(name):
    with open(os.path.join(TOP, name), encoding="utf-8") as it:
        return it.read()


def is_there(program):
    return os.path.isfile(os.path.join(TOP, program)) and os.access(os.path.join(TOP, program), os.X_OK)


def asked(*what):
    """What tools/sources.sh says, or nothing if it fails."""
    done = subprocess.run(["bash", os.path.join(TOP, "tools/sources.sh"), *what], stdin=subprocess.DEVNULL,
                          stdout=subprocess.PIPE, stderr=subprocess.DEVNULL, text=True, check=False)
    return done.stdout.strip() if done.returncode == 0 else None


def can_keep():
    return os.path.isdir(KEPT) and os.access(KEPT, os.W_OK)


def folder_of_kit():
    kit = shutil.which("rt")
    return os.path.dirname(os.path.realpath(kit)) if kit else ""


# ---- the unproved build


def name_of_build(checksum, kit):
    """By the sources and by the kit: its commands, with their sizes and times."""
    commands = sorted((it.name, it.stat().st_size, it.stat().st_mtime_ns) for it in os.scandir(kit))
    return f".s2calc/unproved-{checksum[:32]}-{hashlib.sha256(repr(commands).encode()).hexdigest()[:16]}"


def build(file):
    note("building the program from its sources, unproved: once, in about a minute")
    return subprocess.call([os.path.join(TOP, "tools/unproved"), file], stdin=subprocess.DEVNULL, stdout=2) == 0


def build_and_keep(program):
    """What two calls want at the same time, one of them builds."""
    path, new = os.path.join(TOP, program), os.path.join(KEPT, "new")
    with open(os.path.join(KEPT, "lock"), "w", encoding="ascii") as lock:
        fcntl.flock(lock, fcntl.LOCK_EX)
        if not is_there(program):
            if not build(new):
                return False
            for old in glob.glob(os.path.join(KEPT, "unproved-*")):
                os.remove(old)
            os.rename(new, path)
    return True


def run_and_forget(words):
    """Builds the program and runs it, where nothing can be kept."""
    with tempfile.TemporaryDirectory() as room:
        program = os.path.join(room, "s2calc")
        if not build(program):
            return None
        note(f"{KEPT} can't be written, so each call builds anew: tools/prove proves and builds it elsewhere")
        return subprocess.call([os.path.join(TOP, "tools/launcher/launcher"), *words],
                               env={**os.environ, "S2CALC_PROGRAM": program})


# ---- the choice


def chosen(kit):
    """The program, and what has to be said of it; or nothing. It is built, if it can be kept."""
    if asked("proved") is not None:
        return BUILT, ""
    checksum = asked("sum") or ""
    if is_there(RELEASED) and f"- Sources: `{checksum}`" in text_of("dist/README.md"):
        return RELEASED, ""
    if kit and can_keep():
        program = name_of_build(checksum, kit)
        if is_there(program) or build_and_keep(program):
            return program, "not proved on this machine: tools/prove"
    return None


def keep(program, said, kit, when):
    crates = " ".join(re.findall(r"^\w+", asked("below", "calculator") or "", re.M))
    with contextlib.suppress(OSError):
        with tempfile.NamedTemporaryFile("w", dir=KEPT, delete=False) as it:
            it.write(f"{program}\n{said}\n{kit}\n{crates}\n")
        os.utime(it.name, (when, when))
        os.replace(it.name, os.path.join(KEPT, "choice"))


def run(program, said, words):
    note(said)
    launcher = os.path.join(TOP, "tools/launcher/launcher")
    os.execve(launcher, [launcher, *words], {**os.environ, "S2CALC_PROGRAM": os.path.join(TOP, program)})


def main(*words):
    when, kit = time.time() - 1, folder_of_kit()
    with contextlib.suppress(OSError):
        os.makedirs(KEPT, exist_ok=True)
    choice = chosen(kit)
    if not choice and kit and not can_keep():
        status = run_and_forget(words)
        if status is not None:
            return status
    if not choice and is_there(RELEASED):
        choice = RELEASED, "the sources here aren't those of the release, whose program answers"
    if choice:
        keep(*choice, kit, when)
        run(*choice, words)
    if not kit:
        kits = " or ".join(text_of("KIT").splitlines())
        say(f"no program is built here, and Rattle's kit is missing: its command rt is not on the PATH. Wanted: {kits},"
            " as rt version prints it")
    return 2


if __name__ == "__main__":
    sys.exit(main(*sys.argv[1:]))
