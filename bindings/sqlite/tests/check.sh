#!/usr/bin/env bash
# The tests of the unions inside SQLite: tests/run sqlite -- [--full | --costs].
# It installs the Debian packages that it needs. --full asks for 10,000 random rows in place of 1,500; --costs measures
# the time of questions, and tests nothing. The last line is 'N passed, M failed'; the status is 1 if any failed.
# The tests for PostgreSQL, which need a server, are in bindings/postgres/tests.
. "$(dirname "$0")/../../../tests/steps.sh"
rounds=1500
[ "${1:-}" != --full ] || rounds=10000

. "$top/bindings/sqlite/tests/needs.sh"
sqlite=(sqlite3 -batch -init /dev/null :memory:) # without its user's settings

# ---- the extension

source=$top/bindings/sqlite
step "no arithmetic on cells" no_arithmetic "$source/s2union.c"
step "no arithmetic on cells: s2union_host.h" no_arithmetic "$top/bindings/c/s2union_host.h"

build() { # FOLDER FLAGS..
  local folder=$work/$1
  shift
  mkdir -p "$folder" && cp "$source"/{Makefile,*.[ch]} "$folder" &&
    make -C "$folder" PREFIX="$work/usr" "$@"
}
step "build" build plain
step "the C library that they need" old_glibc "$work"/plain/mod_s2union{,_geo}.so
step "build, with the sanitizers" build sanitized CFLAGS="-O1 -g -fsanitize=address,undefined -fno-sanitize-recover"
with_counts() {
  cp "$top/bindings/sqlite/tests/counted."{c,flags} "$work/"
  build counted LDFLAGS="$work/counted.c @$work/counted.flags"
}
step "build, counting steps" with_counts
[ "$failed" -eq 0 ] || finish

tests() { # FOLDER TEST..
  local folder=$1
  shift
  (
    cd "$top/bindings/sqlite/tests" && export PYTHONPATH=$top/tests PYTHONDONTWRITEBYTECODE=1
    export S2UNION_SQLITE=$work/$folder/mod_s2union.so S2UNION_MAPS=$work/map-texts
    S2UNION_ROUNDS=${S2UNION_ROUNDS:-$rounds} timeout 7200 /usr/bin/python3 -m pytest "$@"
  )
}
if [ "${1:-}" = --costs ]; then
  cd "$top/bindings/sqlite/tests" && export PYTHONPATH=$top/tests PYTHONDONTWRITEBYTECODE=1
  S2UNION_SQLITE=$work/plain/mod_s2union.so /usr/bin/python3 costs.py
  finish
fi
sanitized() {
  export S2UNION_ROUNDS=300 ASAN_OPTIONS=detect_leaks=0
  LD_PRELOAD="$(gcc -print-file-name=libasan.so) $(gcc -print-file-name=libubsan.so)" tests sanitized "$@"
}
any_name() { # and none that Python's import of the library's module would find
  local name
  cd "$work/plain" || return 1
  for name in mod_s2union s2 s2union lib7; do
    [ -e "$name.so" ] || cp mod_s2union.so "$name.so"
    [ "$("${sqlite[@]}" ".load ./$name" "SELECT s2_tokens('1')")" = 1 ] || return 1
  done
  [ "$("${sqlite[@]}" ".load ./lib7 sqlite3_sunion_init" "SELECT s2_tokens('1')")" = 1 ] || return 1
  rm s2.so s2union.so lib7.so
  PYTHONPATH=$work/usr/lib/python LD_LIBRARY_PATH=$work/usr/lib /usr/bin/python3 -c 'import s2union'
}
step "the file loads under any name, and is not taken for the Python module" any_name
step "texts and bytes of shapes, with their coverings" maps
step "against the model" tests plain test_sqlite.py::AgainstTheModel
step "what is refused" tests plain test_sqlite.py::WhatIsRefused
step "coverings of polygons as they are written" tests plain test_maps.py
step "mod_s2union_geo: points, and what is refused" tests plain test_geo.py
step "mod_s2union_geo: exact joins" tests plain test_joins.py
step "a union that is asked for each row is looked at once" tests counted test_sqlite.py::Steps
step "under the sanitizers" sanitized test_sqlite.py::{AgainstTheModel,WhatIsRefused} \
  test_geo.py test_joins.py test_maps.py

refused() {
  gcc -std=c11 -D_DEFAULT_SOURCE -Wall -Wextra -Werror "$top/bindings/sqlite/tests/memory.c" \
    "$top/tests/refuse.c" -lsqlite3 -o "$work/memory" &&
    valgrind -q --error-exitcode=9 --leak-check=full --soname-synonyms=somalloc=nouserintercepts \
    "$work/memory" "$work/plain/"mod_s2union{,_geo}
}
step "each allocation refused in turn, under valgrind" refused

documented() { # FOLDER
  S2UNION_SQLITE=$work/$1/mod_s2union /usr/bin/python3 "$top/tests/docs/documented.py" "$top/bindings/sqlite/README.md"
}
step "bindings/sqlite/README.md" documented plain
step "docs/ENGINES.md, without the extension" /usr/bin/python3 "$top/tests/docs/documented.py" "$top/docs/ENGINES.md"
from_go() ( # the page's program, with Debian's sources of the driver
  local path
  path=$(sed -n 's/^module //p' "$top/bindings/go/go.mod")
  mkdir "$work/from-go" && cd "$work/from-go" && block bindings/sqlite/README.md "go sqlite" >main.go &&
    [ -z "$(gofmt -l .)" ] && export GOPATH=$work/go GOCACHE=$work/go-cache GOFLAGS=-mod=mod GOPROXY=off \
    GOTOOLCHAIN=local PKG_CONFIG_PATH=$work/usr/lib/pkgconfig LD_LIBRARY_PATH=$work/usr/lib:$work/plain &&
    go mod init program && go mod edit -require "$path@v0.0.0" -replace "$path=$top/bindings/go" \
    -require github.com/mattn/go-sqlite3@v1.0.0 -replace "github.com/mattn/go-sqlite3=$driver" &&
    go build -tags libsqlite3 -o program && ./program | diff <(block bindings/sqlite/README.md "text go sqlite") -
)
driver=/usr/share/gocode/src/github.com/mattn/go-sqlite3
if command -v go >/dev/null && [ -d $driver ]; then
  step "bindings/sqlite/README.md, from Go" from_go
else
  echo "       left out: the page's program in Go (golang-go, golang-github-mattn-go-sqlite3-dev)"
fi
covered() {
  build covered CFLAGS="-O0 -g --coverage" && export S2UNION_ROUNDS=300 &&
    tests covered test_sqlite.py::{AgainstTheModel,WhatIsRefused} test_geo.py test_joins.py test_maps.py &&
    "$work/memory" "$work/covered/"mod_s2union{,_geo} && documented covered &&
    "${sqlite[@]}" ".load $work/covered/mod_s2union sqlite3_sunion_init" &&
    /usr/bin/python3 "$top/tests/coverage.py" "$work/covered" s2union.c=bindings/sqlite/s2union.c \
      s2union_geo.c=bindings/sqlite/s2union_geo.c s2union_geo.h=bindings/c/s2union_geo.h \
      s2union_join.h=bindings/c/s2union_join.h \
      s2union_host.h=bindings/c/s2union_host.h
}
step "what these tests execute" covered
valgrind_run() { # the page shows errors, so sqlite3 ends with 1; all its calls have to be there
  /usr/bin/python3 "$top/tests/docs/documented.py" --script "$top/bindings/sqlite/README.md" >"$work/script.sql" &&
    [ -s "$work/script.sql" ] && cd "$work/plain" || return 1
  valgrind -q --error-exitcode=9 --leak-check=full "${sqlite[@]}" <"$work/script.sql" 2>"$work/said" >/dev/null
  [ $? -eq 1 ] && ! grep 'no such function' "$work/said" || { cat "$work/said" && return 1; }
}
step "bindings/sqlite/README.md under valgrind" valgrind_run
finish
