"""What all runs of pytest here share. The last line is 'N passed, M failed', as a part of the tests ends. Files of
tests that need what a part makes first are left out where the variable isn't set that names it."""
import os
import sys

import pytest

MADE = {"test_dask.py": "WORLD", "test_engines.py": "WORLD", "test_servers.py": "NET"}


def pytest_ignore_collect(collection_path):
    return True if MADE.get(collection_path.name, "PATH") not in os.environ else None


def pytest_collection_modifyitems():
    program = getattr(sys.modules.get("process"), "PROGRAM", None)
    if program and not os.path.isfile(program):
        pytest.exit(f"there is no program {program}: S2CALC names one, such as the release's, dist/s2calc", 1)


@pytest.hookimpl(trylast=True)
def pytest_unconfigure(config):
    reporter = config.pluginmanager.get_plugin("terminalreporter")
    process = sys.modules.get("process")
    if getattr(process, "IS_RELEASED", False):
        print(f"without Rattle's kit: the release's program is asked, {process.PROGRAM}", flush=True)
    if reporter and not config.option.collectonly:
        passed, *failed = (len(reporter.stats.get(kind, ())) for kind in ("passed", "failed", "error"))
        print(f"{passed} passed, {sum(failed)} failed", flush=True)
