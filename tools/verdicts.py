"""Which mutants were refused before, on this machine: by the checksum of all that was read, as Rattle's kit keeps the
verdicts on its own edits. What isn't kept is only tried again; another verdict than 'refused' is never kept."""
import contextlib
import functools
import hashlib
import os

from sources import kit

KEPT = os.path.join(os.environ.get("XDG_CACHE_HOME") or os.path.expanduser("~/.cache"), "s2union-refused")
MOST = 20_000


@functools.cache
def name_of_kit():
    return kit()


def name_of(files, *words):
    """The name of a verdict by what was read: files, by their bytes, and words."""
    total = hashlib.sha256(repr((name_of_kit(), words)).encode())
    for path in files:
        with open(path, "rb") as it:
            total.update(repr(it.read()).encode())
    return total.hexdigest()


def is_kept(name):
    with contextlib.suppress(OSError):
        os.utime(os.path.join(KEPT, name))
        return True
    return False


def keep(name):
    """Keeps a verdict, and drops those that weren't asked for lately."""
    with contextlib.suppress(OSError):
        os.makedirs(KEPT, exist_ok=True)
        with open(os.path.join(KEPT, name), "w", encoding="ascii"):
            pass
        paths = [os.path.join(KEPT, it) for it in os.listdir(KEPT)]
        for path in sorted(paths, key=os.path.getmtime)[:-MOST]:
            os.remove(path)
