#!/usr/bin/env bash
# S2's own tests of unions, coverings, cell indexes and index terms, with the operations of S2CellUnion replaced by
# those of s2union.hpp; the programs in C++ of docs/FROM_S2.md and README.md; and whether S2 has the names of the
# former: tests/run s2-own-tests -- [--arm SYSTEM] [--no-build]. With --arm all is for ARM, by qemu, over Debian's
# packages for ARM that are unpacked in SYSTEM. It takes S2's source from the package sources that this machine has,
# and installs the Debian packages that it needs. It takes some minutes, nearly all to compile. Its last line is
# 'N passed, M failed', where N counts the names, the programs and S2's tests; the status is 1 if any failed.
. "$(dirname "$0")/../../../tests/steps.sh"
out=$top/bindings/cpp/tests/out sources=$top/bindings/cpp/tests/out/s2 processor=x86_64 system= cross= by=()
if [ "${1:-}" = --arm ]; then
  system=$2 processor=aarch64 cross=aarch64-linux-gnu- by=(qemu-aarch64-static -L "$2") out=$out/aarch64
  shift 2
fi
includes=$system/usr/include libraries=$system/usr/lib/$processor-linux-gnu
if [ -z "$system" ]; then
  need g++ g++
  need_file "$includes/s2/s2cell_union.h" libs2-dev
  need_file "$includes/gtest/gtest.h" libgtest-dev
  choose_library
  need_packages
fi
set -e
mkdir -p "$out"
bash "$top/bench/s2_sources.sh" "$sources"
"$top/tools/library" "$out/usr" --target "$processor" "$@" "${released[@]}"
source=$sources/source/src
compiler="${cross}g++ -std=c++17 -w"
[ -z "$cross" ] || compiler="$compiler -Wno-psabi -isystem $includes -isystem $includes/$processor-linux-gnu"

# What is compiled from S2's source, so that all of its calls of a union's operations are those that are tested.
tests=(s2cell_union_test s2region_coverer_test s2cell_index_test s2region_term_indexer_test)
users=(s2region_coverer s2cell_index s2region_term_indexer s2testing)
compile() { # NAME OPTION..: an object of one of S2's files
  local name=$1
  shift
  [ -e "$out/$name.o" ] || $compiler -I"$source" "$@" -c "$source/s2/$name.cc" -o "$out/$name.o"
}
export -f compile
export out source compiler
printf '%s -O1\n' "${tests[@]}" "${users[@]}" | xargs -P "$(nproc)" -I{} bash -c 'compile {}'
compile s2cell_union -O0 # nothing is inlined, so each call can be replaced
"${cross}objcopy" --weaken "$out/s2cell_union.o" "$out/s2_union_weak.o"
$compiler -O1 -I"$out/usr/include" -I"$source" -c "$top/bindings/cpp/tests/s2_operations.cc" -o "$out/s2_operations.o"

objects=("$out/s2_operations.o" "$out/s2_union_weak.o")
for name in "${users[@]}"; do objects+=("$out/$name.o"); done
headers=("$source"/s2/s2{cell_union,cell_id,cell_index,polygon,region_coverer,region_term_indexer}.h)
named=$(sed -n 's/^| \(`[^|]*`\) |.*/\1/p' "$top/docs/FROM_S2.md" | grep -o '`[A-Za-z0-9_=]*' | tr -d '`' | sort -u)
for name in $named; do
  if grep -qwF -- "$name" "${headers[@]}"; then
    passed=$((passed + 1))
  else
    echo "FAILED docs/FROM_S2.md: S2 has no $name"
    failed=$((failed + 1))
  fi
done
echo "$(wc -w <<<"$named") names of S2 in docs/FROM_S2.md"

linked=("$out/usr/lib/libs2union.a" "$libraries/libs2.so" -Wl,--as-needed,-rpath-link,"$libraries"
  "$libraries"/libabsl_*.so "$libraries/libcrypto.so")
for page in docs/FROM_S2.md README.md; do # the program of each in C++, and what the page says that it prints
  block "$page" cpp >"$out/example.cc"
  if $compiler -I"$out/usr/include" "$out/example.cc" "${linked[@]}" -o "$out/example" \
    && diff <(block "$page" "text cpp") <("${by[@]}" "$out/example"); then
    passed=$((passed + 1))
  else
    echo "FAILED $page: the program in C++"
    failed=$((failed + 1))
  fi
done

for name in "${tests[@]}"; do
  "${cross}g++" "$out/$name.o" "${objects[@]}" -o "$out/$name" "${linked[@]}" "$libraries"/libgtest{,_main}.a -lpthread
  echo "== $name"
  "${by[@]}" "$out/$name" >"$out/$name.log" 2>&1 || true
  grep -E '^(\[  FAILED  \]|calls: )' "$out/$name.log" || true
  ran=$(sed -n 's/^\[==========\] \([0-9]*\) tests\? .* ran\..*/\1/p' "$out/$name.log")
  good=$(sed -n 's/^\[  PASSED  \] \([0-9]*\) tests\?\..*/\1/p' "$out/$name.log")
  passed=$((passed + ${good:-0}))
  failed=$((failed + ${ran:-1} - ${good:-0}))
  grep -q '^calls: [1-9]' "$out/$name.log" || failed=$((failed + 1))
done
finish
