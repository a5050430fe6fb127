"""Long work inside PostgreSQL, by PL/Python: whether the server wants the statement or the session to end."""

from __future__ import annotations

import ctypes
import sys
from typing import Any

FLAGS = "QueryCancelPending", "ProcDiePending"  # the server's, which its signal handlers set


def _flags() -> list[Any]:
    """These flags, if this process is a server."""
    try:
        return [ctypes.c_int.in_dll(ctypes.CDLL(None), name) for name in FLAGS] if "plpy" in sys.modules else []
    except ValueError:
        return []


FLAGS_OF_SERVER = _flags()


def look() -> None:
    """Between two short parts of long work. After a cancel, a timeout or the end of the session it raises the server's
    error.

    The server looks for these while it tells the client something. `plpy.execute` would do it too, but is an error in
    parallel queries."""
    if any(flag.value for flag in FLAGS_OF_SERVER):
        sys.modules["plpy"].info("s2union_geo was interrupted")
