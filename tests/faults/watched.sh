#!/usr/bin/env bash
# Watches each run of the worked rows by strace, which it installs if it is missing: tests/run watched.
. "$(dirname "$0")/../steps.sh"
need strace strace
need_packages
python3 "$top/tests/faults/watched.py"
