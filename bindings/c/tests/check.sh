#!/usr/bin/env bash
# The tests of the library for C: tests/run c [-- SECONDS]. The fuzzer runs for SECONDS, 20 if none are given. It
# installs the Debian packages that it needs. Its last line is 'N passed, M failed'; the status is 1 if any failed.
. "$(dirname "$0")/../../../tests/steps.sh"
tests=$top/bindings/c/tests

need gcc gcc libc6-dev
need g++ g++
need clang clang
need_file "$(clang --print-runtime-dir 2>/dev/null)/libclang_rt.fuzzer-x86_64.a" libclang-rt-dev
. "$top/tests/library.sh"

symbols() { # what the shared library offers and wants
  local shared=$work/usr/lib/libs2union.so.1 given wanted
  given=$(nm -D --defined-only "$shared" | awk '$2 == "T" { print $3 }' | grep -v '^s2u_.*@@S2UNION_1$')
  wanted=$(nm -D --undefined-only "$shared" | awk '{ sub(/@.*/, "", $2); print $2 }' | sort | tr '\n' ' ')
  echo "offered beside s2u_*: ${given:-nothing}; wanted: $wanted"
  [ -z "$given" ] && ! grep -qvwE 'free|malloc|memcpy|memmove|memset|realloc' <(printf '%s\n' $wanted)
}
step "symbols" symbols
step "the C library that it needs" old_glibc "$work/usr/lib/libs2union.so.1"

# ---- the header, in five languages by two compilers

for compiler in "gcc -x c -std=c99" "gcc -x c -std=c17" "clang -x c -std=c99" "clang -x c -std=c17" \
  "g++ -x c++ -std=c++11" "g++ -x c++ -std=c++20" "clang++ -x c++ -std=c++11" "clang++ -x c++ -std=c++20"; do
  step "header: $compiler" $compiler "${strict[@]}" -I"$include" "$tests/header.c" -x none -o "$work/header" "$static"
done
step "header: run" "$work/header"

in_degrees() { # COMPILER OPTION..
  places && "$@" "${strict[@]}" -I"$include" "$tests/points.c" -x none -o "$work/points" "$static" -lm &&
    "$work/points" <"$work/places"
}
step "points in degrees, in C" in_degrees gcc -x c -std=c99
step "points in degrees, in C++" in_degrees g++ -x c++ -std=c++11

# ---- programs in C

program() { # NAME LIBRARY FLAGS..: builds a test and runs it
  local name=$1 library=$2
  shift 2
  gcc -std=c11 -D_DEFAULT_SOURCE -O2 "${strict[@]}" "$@" -I"$include" "$tests/$name.c" "$library" -lpthread -lm \
    -o "$work/$name" && timeout 7200 "$work/$name"
}
each_example() { # with those that are made
  /usr/bin/python3 -B "$top/tools/methods.py" "$work" "$tests/examples.c" &&
    gcc -std=c11 "${strict[@]}" -I"$include" "$work/examples.c" "$static" -o "$work/examples" && "$work/examples"
}
step "an example of each call" each_example
step "traps" program traps "$static"
step "traps, under the sanitizers" program traps "$static" -fsanitize=address,undefined -fno-sanitize-recover
refusing() { # what refuses them is built without the sanitizer, which takes memory before it is ready
  gcc -std=c11 -O2 "${strict[@]}" -c "$top/tests/refuse.c" -o "$work/refuse.o" &&
    program memory "$static" -fsanitize=address "$work/refuse.o"
}
step "each allocation refused in turn" refusing
step "cells that a covering of a polygon looks into" program looked_into "$static" "$work/refuse.o"
own_heap() { # tools/runtime's, which stands for the kit's where the kit has none, under the header's names
  gcc -std=c11 -O2 "${strict[@]}" -Drattle_alloc=s2u_heap_take -Drattle_realloc=s2u_heap_grow \
    -Drattle_dealloc=s2u_heap_give_back -c "$top/tools/runtime/heap.c" -o "$work/heap.o" &&
    program memory "$noheap" -fsanitize=address "$work/refuse.o" "$work/heap.o" &&
    program traps "$noheap" -fsanitize=address,undefined -fno-sanitize-recover "$work/heap.o"
}
step "each allocation refused in turn, and traps, by the heap for other processors" own_heap
outlined() {
  program outline "$static" -fsanitize=address,undefined "$work/refuse.o" &&
    g++ -x c++ -std=c++11 "${strict[@]}" -I"$include" -fsyntax-only "$include/s2union_outline.h"
}
step "outlines on a map, each allocation refused in turn" outlined
covered() { # shapes in degrees
  program shapes "$static" "$work/refuse.o" &&
    program shapes "$static" -fsanitize=address,undefined -fno-sanitize-recover "$work/refuse.o"
}
step "coverings of shapes in degrees, and under the sanitizers" covered
step "texts and bytes of shapes, beside a plain reader and plain places" maps --compared
mapped() { # each in every room, and under the sanitizers
  program maps "$static" <"$work/map-texts" &&
    program maps "$static" -fsanitize=address,undefined -fno-sanitize-recover <"$work/map-texts"
}
step "coverings of texts and bytes, and under the sanitizers" mapped
step "texts and bytes of shapes, beside a plain reader" readings
read_again() { # each in every room, and under the sanitizers
  program readings "$static" <"$work/shape-texts" &&
    program readings "$static" -fsanitize=address,undefined -fno-sanitize-recover <"$work/shape-texts"
}
step "shapes of texts and bytes, and under the sanitizers" read_again
step "coverings of parts that touch, beside whole numbers, under the sanitizers" program parts "$static" \
  -fsanitize=address,undefined -fno-sanitize-recover
step "coverings with geodesic edges, beside long doubles" program geodesics "$static"
joined() { # places with zones
  program joins "$static" -fsanitize=address,undefined -fno-sanitize-recover "$work/refuse.o"
}
step "exact joins beside a plain loop, each allocation refused in turn, under the sanitizers" joined
around() { # cells around cells
  program neighbors "$static" -fsanitize=address,undefined -fno-sanitize-recover "$work/refuse.o"
}
step "cells around cells, the boxes and the areas of unions, under the sanitizers" around
step "long calls cancelled at each look, under the sanitizers" program cancels "$noheap" \
  -fsanitize=address,undefined -fno-sanitize-recover "$work/refuse.o"
included() { echo '#include <s2union_join.h>' | "$@" "${strict[@]}" -I"$include" -fsyntax-only -; }
for compiler in "gcc -x c -std=c99" "clang -x c -std=c17" "g++ -x c++ -std=c++11" "clang++ -x c++ -std=c++20"; do
  step "headers of coverings and joins: $compiler" included $compiler
done
step "200,000 lists of garbage" program garbage "$static" -fsanitize=address
step "few pages read of the cells that a search passes" program pages "$static"
step "8 threads" program threads "$static"
seconds=${1:-20}
fuzzed() { # NAME LENGTH: calls with what libFuzzer makes up, from a fixed seed
  mkdir -p "$work/found" && clang -std=c11 -D_DEFAULT_SOURCE -O2 "${strict[@]}" -fsanitize=fuzzer,address,undefined \
    -fno-sanitize-recover=undefined -I"$include" "$tests/$1.c" "$static" -lm -o "$work/$1" &&
    "$work/$1" -seed=1 -max_len="$2" -len_control=0 -max_total_time="$seconds" -artifact_prefix="$work/found/" \
      || { od -An -tx1 "$work"/found/* | head -40; return 1; }
}
step "fuzzer, each call of the header, $seconds seconds" fuzzed fuzz 1200
step "fuzzer, shapes in degrees and WKB, $seconds seconds" fuzzed fuzz_shapes 300

# ---- the program of bindings/c/README.md

step "bindings/c/README.md: the program in C" documented c cc -std=c99
moved() { # the program in C again, with the library in another folder than that it was installed to
  local status=0
  mv "$work/usr" "$work/moved" || return 1
  PKG_CONFIG_PATH=$work/moved/lib/pkgconfig LD_LIBRARY_PATH=$work/moved/lib documented c cc -std=c99 || status=1
  mv "$work/moved" "$work/usr" && return $status
}
step "s2union.pc, after the folder was moved" moved

finish
