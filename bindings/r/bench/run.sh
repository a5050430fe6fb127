#!/usr/bin/env bash
# The time of operations of the package for R on 2 cells and many, beside package s2: bench/run r [ROUNDS]. It installs
# the Debian packages that it needs.
. "$(dirname "$0")/../../../tools/usage.sh"
. "$(dirname "$0")/../../../tests/steps.sh"
need R r-base-core
need make make
need_file /usr/lib/R/site-library/s2 r-cran-s2
. "$top/tests/library.sh"
mkdir "$work/by-r" && "$top/bindings/r/package" "$work/s2union" &&
  R CMD INSTALL -l "$work/by-r" "$work/s2union" >"$work/log" 2>&1 || { cat "$work/log" && exit 1; }
R_LIBS=$work/by-r Rscript "$top/bindings/r/bench/calls.R" "$@"
