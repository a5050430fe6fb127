#!/usr/bin/env bash
# Tests of Python over the built program, by pytest: tests/pytest.sh tests/NAME [WORD..], where a WORD is one of
# pytest's, as -k NAME. S2CALC names the program, unless it is the one that the gate or tools/prove has built. It
# installs pytest, if no Python here has it. The last line is 'N passed, M failed'.
. "$(dirname "$0")/steps.sh"
python=/usr/bin/python3
! python3 -c 'import pytest' 2>/dev/null || python=python3
[ "$python" = python3 ] || need_pytest
need nm binutils
need xz xz-utils
need strace strace
need_packages
cd "$top" && exec timeout 7200 "$python" -m pytest "$@" # a test may wait for an answer that never comes
