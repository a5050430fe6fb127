#!/usr/bin/env bash
# The tests of unions on a cluster of worker processes, of docs/ENGINES.md over MariaDB, ClickHouse and pandas, and of
# docs/FFI.md in five languages, and of all pairs in R: tests/run dask -- [CELLS]. It installs the Debian packages that
# it needs, and prints the figures of docs/DASK.md. Its last line is 'N passed, M failed'; the status is 1 if any
# failed.
. "$(dirname "$0")/../steps.sh"
[ -z "${1:-}" ] || export S2UNION_CELLS=$1

need_modules dask.dataframe,distributed python3-{dask,distributed,pandas}
need_pytest
need /usr/sbin/mariadbd mariadb-server
need /usr/sbin/clickhouse-server clickhouse-server clickhouse-client
need mcs mono-mcs
need mono mono-runtime
need php php-cli
need luajit luajit
need_file /usr/include/mariadb/mysql.h libmariadb-dev
need_installed ruby ruby-ffi libffi-platypus-perl pkg-config r-base-core r-cran-s2
need_packages
. "$top/tests/geo/countries.sh"
need_countries
need_library
export PYTHONPATH=$work/usr/lib/python:$top/tests:$top/tests/geo:$top/docs/examples PYTHONDONTWRITEBYTECODE=1
export WORLD=$work/world/countries WORK=$work
export DASK_DISTRIBUTED__COMM__TIMEOUTS__CONNECT=600s # on a machine with much else to do

page() {
  block docs/DASK.md text >"$work/wanted" && [ -s "$work/wanted" ] &&
    (cd "$work" && timeout 3600 /usr/bin/python3 dask_page.py) >"$work/said" && diff "$work/wanted" "$work/said"
}
tests() { # FILE::CLASS
  (cd "$work" && timeout 3600 /usr/bin/python3 -m pytest -s "$top/tests/dask/$1")
}
blocks() {
  block docs/DASK.md python >"$work/dask_page.py" && block docs/ENGINES.md python >"$work/engines.py" &&
    [ -s "$work/dask_page.py" ] && [ -s "$work/engines.py" ]
}
step "the Python of docs/DASK.md and docs/ENGINES.md" blocks
step "docs/DASK.md" page
step "its join, beside a loop over all pairs: points in any order, parts without any" \
  tests test_dask.py::TheJoinOfThePage
step "the countries of the earth, covered" countries 200
step "100,000 points joined with the countries, beside a loop over all pairs" tests test_dask.py::OverTheCountries
for_mariadb() {
  cp -r "$top/bindings/mariadb" "$work/mariadb_functions" && make -C "$work/mariadb_functions" PREFIX="$work/usr" &&
    old_glibc "$work"/mariadb_functions/*.so
}
step "the user functions of MariaDB" for_mariadb
step "the same by terms, as search engines have them" tests test_engines.py::Terms
for engine in Sqlite Mariadb Clickhouse; do
  step "the same by plain SQL in $engine" tests "test_engines.py::$engine"
done

# ---- other languages: each prints how many pairs there are

plainly() { # the tokens of the points, and how many pairs a loop finds
  (cd "$work" && /usr/bin/python3 -c 'import os, earth
from s2union import tokens
points = earth.points()
open("tokens", "w").write("".join(f"{token}\n" for token in tokens(points)))
print(len(earth.all_pairs(points, earth.coverings(os.environ["WORLD"]))))' >pairs && [ "$(cat pairs)" -gt 10000 ])
}
step "all pairs of the points and the countries, by a loop" plainly
export LD_LIBRARY_PATH=$work/usr/lib S2UNION_FFI=$work/usr/include/s2union.ffi.h
pairs_by() ( # PAGE FENCE ENDING COMMAND..: a program of a page
  cd "$work" && block "$1" "$2" >"pairs.$3" && { [ "$3" != cs ] || mcs pairs.cs; } &&
    "${@:4}" tokens "$WORLD"/*.outer >said && diff pairs said
)
by_ffi() { pairs_by docs/FFI.md "$@"; }
step "docs/FFI.md: C#" by_ffi csharp cs mono pairs.exe
step "docs/FFI.md: PHP" by_ffi php php php -d ffi.enable=1 pairs.php
step "docs/FFI.md: Ruby" by_ffi ruby rb ruby pairs.rb
step "docs/FFI.md: Perl" by_ffi perl pl perl pairs.pl
step "docs/FFI.md: Lua" by_ffi lua lua luajit pairs.lua

mkdir -p "$work/library"
export PKG_CONFIG_PATH=$work/usr/lib/pkgconfig R_LIBS=$work/library
for_r() { "$top/bindings/r/package" "$work/r" && R CMD INSTALL "$work/r"; }
step "the package for R" for_r
step "bindings/r/README.md: all pairs" pairs_by bindings/r/README.md "r pairs" R Rscript pairs.R

step "ten million cells on 1, 2 and 4 workers, and with one that is killed" tests test_dask.py::OnACluster
grep -E '^one process|^[0-9] worker|^a worker' "$work/log" | sed 's/^/       /'
finish
