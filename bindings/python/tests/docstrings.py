"""A class of tests, one for each docstring of some modules that has examples, if what these import is there."""
import doctest
import importlib.util
import re
import unittest

IMPORT = re.compile(r"^(?:import|from) (\w+)", re.M)


def asked(examples):
    return lambda test: test.assertFalse(doctest.DocTestRunner().run(examples).failed)


def can_run(test):
    return all(importlib.util.find_spec(name) for it in test.examples for name in IMPORT.findall(it.source))


def tests_of(*modules):
    found = [it for module in modules for it in doctest.DocTestFinder().find(module) if it.examples and can_run(it)]
    tests = {f"test_{it.name.replace('.', '_')}": asked(it) for it in found}
    return type("Examples", (unittest.TestCase,), {"__doc__": __doc__, **tests})
