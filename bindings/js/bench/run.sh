#!/usr/bin/env bash
# The time of calls of the package for JavaScript, beside plain code: bench/run javascript [WORD [ROUNDS]]. tools/page
# makes the package. It installs the Debian packages that it needs.
. "$(dirname "$0")/../../../tools/usage.sh"
. "$(dirname "$0")/../../../tests/steps.sh"
need node nodejs
need_packages
need_page
node "$top/bindings/js/bench/calls.mjs" "$work/page/js/s2union.js" "$@"
