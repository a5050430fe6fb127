#!/usr/bin/env bash
# Makes mistakes in the extension for SQLite, each of which its tests must find: tests/run sqlite-mutants -- [NAME..].
# They are those of bindings/sqlite/mutants.txt. The tests run plainly and then under the sanitizers. One whose tests
# were killed was not tried, and fails. The last line is 'N passed, M failed'.
. "$(dirname "$0")/../../../tests/steps.sh"
. "$top/bindings/sqlite/tests/needs.sh"

build() { # FOLDER FLAGS..
  local folder=$1
  shift
  mkdir -p "$folder" && cp "$work"/mutant/* "$work/c/s2union_host.h" "$folder" &&
    cp "$work/c/s2union_join.h" "$work/usr/include/" &&
    make -C "$folder" -B PREFIX="$work/usr" "$@"
}

gcc -std=c11 -D_DEFAULT_SOURCE -O1 "$top"/{bindings/sqlite/tests/memory,tests/refuse}.c -lsqlite3 -o "$work/memory" ||
  exit 2

tests() { # FOLDER PRELOAD
  (
    LD_PRELOAD=$2 ASAN_OPTIONS=detect_leaks=0 timeout 100 "$work/memory" "$1/"mod_s2union{,_geo} || exit
    cd "$top/bindings/sqlite/tests" && export PYTHONPATH=$top/tests PYTHONDONTWRITEBYTECODE=1
    export ASAN_OPTIONS=detect_leaks=0 S2UNION_MAPS=$work/map-texts
    LD_PRELOAD=$2 S2UNION_ROUNDS=300 S2UNION_SQLITE=$1/mod_s2union.so timeout 300 \
      /usr/bin/python3 -m pytest -x test_sqlite.py::{WhatIsRefused,AgainstTheModel} test_{geo,joins,maps}.py
  )
}

survives() { # NAME
  mkdir -p "$work/c" && cp "$top"/bindings/c/s2union_{host,join}.h "$work/c/" &&
    mutant "$1" "$top"/bindings/sqlite/{Makefile,*.[ch]} && build "$work/plain" CFLAGS="-O1 -Wno-error" || return 2
  refuse "$work/plain" "" || return
  build "$work/sanitized" CFLAGS="-O1 -g -Wno-error -fsanitize=address,undefined -fno-sanitize-recover" || return 2
  refuse "$work/sanitized" "$(gcc -print-file-name=libasan.so) $(gcc -print-file-name=libubsan.so)"
}

step "texts and bytes of shapes, with their coverings" maps
try_mutants "$top/bindings/sqlite/mutants.txt" "$@"
