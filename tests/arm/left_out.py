"""Leaves out the tests that qemu can't do, for `pytest -p left_out`: left_out.txt has a line for each, as
MODULE.CLASS.TEST: REASON. A line of a module that is run has to name a test of it.
"""
import os

import pytest

HERE = os.path.dirname(os.path.realpath(__file__))


def left_out():
    """The reasons, by the names of the tests."""
    with open(os.path.join(HERE, "left_out.txt"), encoding="utf-8") as it:
        lines = [line.strip() for line in it if line.strip() and not line.startswith("#")]
    return dict(line.split(": ", 1) for line in lines)


def name_of(item):
    """A test's module, class and name, without its parameters."""
    module, *names = item.nodeid.partition("[")[0].split("::")
    return ".".join([os.path.basename(module).removesuffix(".py"), *names])


def pytest_collection_modifyitems(config, items):
    modules = {name_of(item).partition(".")[0] for item in items}
    reasons = {name: why for name, why in left_out().items() if name.partition(".")[0] in modules}
    if lost := sorted(reasons.keys() - set(map(name_of, items))):
        raise pytest.UsageError(f"there is no test {', '.join(lost)}")
    config.hook.pytest_deselected(items=[item for item in items if name_of(item) in reasons])
    items[:] = [item for item in items if name_of(item) not in reasons]
