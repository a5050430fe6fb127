#!/usr/bin/env bash
# The prompt at a terminal: tests/run prompt [-- WORD..], where a WORD is one of pytest's. S2CALC names the program,
# unless it is the one that the gate or tools/prove has built. It installs the Debian packages that it needs. The last
# line is 'N passed, M failed'.
. "$(dirname "$0")/../steps.sh"

need_modules pexpect,readline python3-pexpect
need_pytest
need sqlite3 sqlite3
need bc bc
need_packages
[ "$failed" -eq 0 ] || finish
cd "$top/tests" && exec /usr/bin/python3 -m pytest prompt "$@"
