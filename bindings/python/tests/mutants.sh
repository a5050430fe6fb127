#!/usr/bin/env bash
# Makes mistakes in the module for Python, each of which its tests must find: tests/run python-mutants -- [NAME..].
# They are those of bindings/python/mutants.txt. One whose tests were killed was not tried, and fails. The last line is
# 'N passed, M failed'.
. "$(dirname "$0")/../../../tests/steps.sh"
need /usr/bin/python3 python3
need_pytest
need_modules numpy,shapely python3-{numpy,shapely}
need_modules setuptools python3-setuptools
need_packages
need_library

python_made "$work/whole"

tests() (
  cd "$top/bindings/python/tests" && export PYTHONPATH=$work/mutant:$top/tests PYTHONDONTWRITEBYTECODE=1
  S2UNION_LIBRARY=$work/usr/lib/libs2union.so timeout 600 /usr/bin/python3 -m pytest -x test_library.py \
    test_calls.py test_edges.py test_index.py::Joins test_index.py::Hostile test_index.py::Files
)

compiled() (
  cd "$work/mutant" && S2UNION_INCLUDE=$work/usr/include /usr/bin/python3 setup.py -q build_ext --inplace &&
    /usr/bin/python3 -m compileall -q s2union
)
survives() { # NAME
  mutant "$1" "$work"/whole/{s2union,s2union_geo,setup.py,pyproject.toml} && compiled || return 2
  refuse
}

try_mutants "$top/bindings/python/mutants.txt" "$@"
