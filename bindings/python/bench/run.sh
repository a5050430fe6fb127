#!/usr/bin/env bash
# The time of calls of the module for Python: bench/run python. It is built here, and asked by calls.py. It installs the
# Debian packages that it needs.
. "$(dirname "$0")/../../../tools/usage.sh"
. "$(dirname "$0")/../../../tests/steps.sh"
need_modules numpy python3-numpy
need_library
PYTHONPATH=$work/usr/lib/python PYTHONDONTWRITEBYTECODE=1 /usr/bin/python3 "$top/bindings/python/bench/calls.py"
