"""A run of the program: the one that S2CALC names, or that the gate or tools/prove has built; or the release's, where
neither is, and no kit either."""
import os
import platform
import shutil
import socket
import subprocess
import sys
import threading

TOP = os.path.dirname(os.path.dirname(os.path.dirname(os.path.realpath(__file__))))
RELEASED = os.path.join(TOP, "dist", {"x86_64": ""}.get(platform.machine(), platform.machine()), "s2calc")
BUILT = os.path.join(TOP, "crates/calculator/out/calculator")
IS_RELEASED = "S2CALC" not in os.environ and not os.path.exists(BUILT) and not shutil.which("rt")
PROGRAM = os.path.abspath(os.environ.get("S2CALC", RELEASED if IS_RELEASED else BUILT))
LAUNCHER = os.path.join(TOP, "tools/launcher/launcher")
sys.path.append(os.path.dirname(LAUNCHER))  # whose modules tests import
FACE = b"ok 0 1\n"
# The most that a call may take, on a busy machine and by an unproved build.
SECONDS = 1200


def ran(*words, script=b"", **how):
    """The status, standard output and standard error of a run of the program."""
    how.setdefault("input", script)
    how.setdefault("stdout", subprocess.PIPE)
    how.setdefault("timeout", SECONDS)
    done = subprocess.run([PROGRAM, *words], stderr=subprocess.PIPE, **how)
    return done.returncode, done.stdout, done.stderr


def launched(*words, **how):
    """The same of a run by the launcher, which is given the program, and Debian's Python."""
    how.setdefault("env", {"S2CALC_PROGRAM": PROGRAM, "PATH": "/usr/bin:/bin"})
    how.setdefault("input", b"")
    done = subprocess.run([LAUNCHER, *words], capture_output=True, timeout=SECONDS, **how)
    return done.returncode, done.stdout, done.stderr


def answered(*words, **how):
    """The status and the answer. Standard error has a word to say only where a name is refused."""
    status, out, error = ran(*words, **how)
    assert bool(error) == (out == b"error name\n"), error
    return status, out


def ran_in_pieces(script, size, *options):
    """The status, standard output and standard error of a `run` that reads a number of bytes at a time."""
    ours, its = socket.socketpair(socket.AF_UNIX, socket.SOCK_SEQPACKET)

    def send():
        with ours:
            for start in range(0, len(script), size):
                ours.send(script[start : start + size])

    sender = threading.Thread(target=send)
    sender.start()
    with its:
        done = subprocess.run([PROGRAM, "run", *options], stdin=its, capture_output=True, timeout=SECONDS)
    sender.join()
    return done.returncode, done.stdout, done.stderr


def first_line(text):
    return text.split(b"\n")[0]
