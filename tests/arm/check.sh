#!/usr/bin/env bash
# The library, its bindings and the program for ARM, which are run by qemu, beside x86-64; and the library with musl:
# tests/run arm -- [ROUNDS [SCRIPTS]]. ROUNDS of all calls with drawn questions are asked three times, and SCRIPTS
# random scripts are answered; if none are given, 20,000 and 2,000. It has to run as root, and installs the Debian
# packages that it needs. Debian's Python for ARM is only unpacked. What qemu can't do is in left_out.txt, each with its
# reason. The last line is 'N passed, M failed'; the status is 1 if any failed.
. "$(dirname "$0")/system.sh"
rounds=${1:-20000} scripts=${2:-2000}

# ---- what is needed

need gcc gcc libc6-dev
need musl-gcc musl-tools
need go golang-go
need_file /usr/include/sqlite3ext.h libsqlite3-dev
need_file /usr/lib/python3/dist-packages/pytest python3-pytest
need_packages
need_library
need_arm python3 python3-numpy python3-pytest libsqlite3-0
python_on_arm() {
  local numpy=/usr/lib/aarch64-linux-gnu
  PYTHONDONTWRITEBYTECODE=1 S2UNION_LIBRARY=$arm/lib/libs2union.so.1 timeout 7200 qemu-aarch64-static -L "$system" \
    -E LD_LIBRARY_PATH="$numpy/blas:$numpy/lapack" "$system/usr/bin/python3.11" "$@"
}

# ---- the same answers

. "$top/tests/answers.sh"
here() { asking here gcc "$work/usr/include" "$work/usr/lib/libs2union.a" && answers here "$work/here"; }
there() {
  asking there aarch64-linux-gnu-gcc "$arm/include" "$arm/lib/libs2union.a" && answers there on_arm "$work/there" &&
    same there
}
with_musl() {
  asking musl musl-gcc "$work/usr/include" "$work/usr/lib/libs2union.a" -static && answers musl "$work/musl" &&
    same musl
}
by_musl() { # the shared library, linked again without versions of symbols, and a program of musl that loads it
  mkdir -p "$work/musl-lib" && musl-gcc -shared -Wl,-soname,libs2union.so.1 -Wl,--whole-archive \
    "$work/usr/lib/libs2union.a" -Wl,--no-whole-archive -o "$work/musl-lib/libs2union.so.1" &&
    asking by-musl musl-gcc "$work/usr/include" "$work/musl-lib/libs2union.so.1" &&
    LD_LIBRARY_PATH=$work/musl-lib answers by-musl "$work/by-musl" && same by-musl
}
step "$rounds rounds of all calls, three times" here
step "the same answers on both: ARM" there
step "the same answers with musl, by the static library" with_musl
step "the same answers with musl, by a shared library" by_musl

# ---- the library for C and C++

program() { # NAME FLAGS..
  aarch64-linux-gnu-gcc -std=c11 -D_DEFAULT_SOURCE -O2 "${strict[@]}" "${@:2}" -I"$arm/include" \
    "$top/bindings/c/tests/$1.c" "$arm/lib/libs2union.a" -lpthread -lm -o "$work/$1" && on_arm "$work/$1"
}
for name in header examples traps garbage threads pages; do step "C: $name" program "$name"; done
in_degrees() { places && program points <"$work/places"; }
step "C: points in degrees" in_degrees
refusing() { # NAME
  aarch64-linux-gnu-gcc -std=c11 -O2 "${strict[@]}" -c "$top/tests/refuse.c" -o "$work/refuse.o" &&
    program "$1" "$work/refuse.o"
}
for name in memory shapes outline neighbors; do step "C: $name, each allocation refused in turn" refusing "$name"; done
unions() { # with a heap of its own
  aarch64-linux-gnu-g++ -std=c++17 -D_DEFAULT_SOURCE -O2 "${strict[@]}" -I"$arm/include" \
    "$top/bindings/cpp/tests/cell_union.cc" "$arm/lib/libs2union_noheap.a" -o "$work/unions" && on_arm "$work/unions"
}
step "C++: s2union.hpp" unions
wants() { # FILE: for any page size up to 64 KiB, with nothing of a C library after 2.17, and no executable stack
  local versions
  aarch64-linux-gnu-readelf -lW "$1" | awk '$1 == "LOAD" { loads++; if ($NF != "0x10000") wrong = 1 }
    $1 == "GNU_STACK" && /RWE/ { wrong = 1 } END { exit wrong || !loads }' &&
    versions=$(aarch64-linux-gnu-nm -D --undefined-only "$1" | grep -o '@GLIBC_.*' | sort -u) && echo "$versions" &&
    [ "$versions" = @GLIBC_2.17 ]
}
step "the shared library: pages, symbols, stack" wants "$arm/lib/libs2union.so.1"

# ---- Python, SQLite, Go

by_qemu=(-m pytest -p no:cacheprovider -p left_out)
in_python() (
  cd "$top/bindings/python/tests" &&
    PYTHONPATH=$arm/lib/python:$top/tests:$tests python_on_arm "${by_qemu[@]}" test_library.py
)
step "Python: against the model, and the module" in_python
page() { (cd "$top/bindings/python/tests" && PYTHONPATH=$arm/lib/python python_on_arm -m doctest "$top/$1"); }
step "Python: bindings/python/README.md" page bindings/python/README.md

extension() { # FOLDER FLAGS..
  cp -r "$top/bindings/sqlite" "$work/$1" && # all anew: what lies there may be for x86-64
    make -B -C "$work/$1" CC=aarch64-linux-gnu-gcc PREFIX="$arm" "${@:2}"
}
in_sqlite() { # FOLDER TEST..
  (
    cd "$top/bindings/sqlite/tests" && export PYTHONPATH=$top/tests:$tests S2UNION_ROUNDS=${S2UNION_ROUNDS:-1500}
    S2UNION_SQLITE=$work/$1/mod_s2union.so python_on_arm "${by_qemu[@]}" "${@:2}"
  )
}
counting() {
  cp "$top/bindings/sqlite/tests/counted."{c,flags} "$work/" &&
    extension counted LDFLAGS="$work/counted.c @$work/counted.flags"
}
step "SQLite: build" extension sqlite
step "SQLite: build, counting steps" counting
step "SQLite: against the model, and what is refused" in_sqlite sqlite \
  test_sqlite.py::AgainstTheModel test_sqlite.py::WhatIsRefused
step "SQLite: points, coverings and exact joins" in_sqlite sqlite test_geo.py test_joins.py
step "SQLite: a union that is asked for each row is looked at once" in_sqlite counted \
  test_sqlite.py::Steps

in_go() (
  export PYTHONDONTWRITEBYTECODE=1
  export PYTHONPATH=$top/tests
  for asked in vectors edges; do /usr/bin/python3 -m "model.$asked" || exit 1; done >"$work/vectors"
  shapes || exit 1
  cd "$top/bindings/go" &&
    export GOPATH=$work/go GOCACHE=$work/go-cache GOFLAGS=-mod=mod GOPROXY=off GOTOOLCHAIN=local &&
    GOARCH=arm64 CGO_ENABLED=1 CC=aarch64-linux-gnu-gcc PKG_CONFIG_PATH=$arm/lib/pkgconfig \
      go test -c -o "$work/for-go" . && S2UNION_VECTORS=$work/vectors S2UNION_SHAPES=$work/shapes on_arm "$work/for-go"
)
step "Go: against the model, what is refused, and the examples" in_go

# ---- the program

calculator=$top/dist/aarch64/s2calc # the release's
if [ ${#released[@]} -eq 0 ]; then
  calculator=$top/crates/calculator/out/aarch64/calculator
  step "s2calc for ARM" "$top/tools/archive" --program --target aarch64
fi
printf '#!/bin/sh\nexec %q -L /usr/aarch64-linux-gnu %q "$@"\n' "$(command -v qemu-aarch64-static)" "$calculator" \
  >"$work/s2calc"
chmod 755 "$work/s2calc"
export S2CALC=$work/s2calc
rows() {
  (cd "$top/crates/calculator" && "$S2CALC" $(cat args) <stdin | cmp - stdout)
}
step "s2calc: its own row" rows
as_a_process() {
  PYTHONDONTWRITEBYTECODE=1 PYTHONPATH=$top/tests:$tests /usr/bin/python3 "${by_qemu[@]}" "$top/tests/program"
}
step "s2calc: as a process" as_a_process
step "s2calc: $scripts random scripts, and a plain model" /usr/bin/python3 "$top/tests/peer/scripts.py" "$scripts"
grep -v '^#' "$tests/left_out.txt" | sed 's/^/       left out: /'
finish
