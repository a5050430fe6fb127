#!/usr/bin/env bash
# The tests of s2union.hpp, the unions for C++: tests/run cpp. It installs the Debian packages that it needs. Its last
# line is 'N passed, M failed'; the status is 1 if any failed.
. "$(dirname "$0")/../../../tests/steps.sh"
tests=$top/bindings/cpp/tests

need g++ g++
need clang++ clang
need gcovr gcovr
. "$top/tests/library.sh"

step "questions and edges" questions
step "what is made in its tests" /usr/bin/python3 -B "$top/tools/methods.py" "$work" "$tests"/{examples,vectors}.cc
unions() { # COMPILER OPTION..: builds the test of s2union.hpp and runs it
  "$@" -D_DEFAULT_SOURCE "${strict[@]}" -Wconversion -I"$include" "$tests/cell_union.cc" "$noheap" \
    -o "$work/unions" && "$work/unions"
}
step "g++, under the sanitizers" unions g++ -std=c++17 -fsanitize=address,undefined -fno-sanitize-recover
step "clang++" unions clang++ -std=c++20
asked() {
  g++ -std=c++17 -fsanitize=address,undefined -fno-sanitize-recover "${strict[@]}" -Wconversion -I"$include" \
    "$work/vectors.cc" "$static" -o "$work/asked" && "$work/asked" "$work/vectors"
}
step "the plain model's questions, also of s2union.h" asked
each_member() { # in the order of C++20, and of what comes first
  local standard
  for standard in 17 20; do
    g++ -std=c++$standard -fsanitize=address,undefined -fno-sanitize-recover "${strict[@]}" -Wconversion \
      -I"$include" -I"$tests" "$work/examples.cc" "$static" -o "$work/each-member" && "$work/each-member" || return 1
  done
}
step "an example of each member" each_member
step "texts and bytes of shapes" maps
of_maps() {
  g++ -std=c++17 -fsanitize=address,undefined -fno-sanitize-recover "${strict[@]}" -Wconversion -I"$include" \
    "$tests/maps.cc" "$static" -o "$work/maps" && "$work/maps" <"$work/map-texts"
}
step "coverings of texts and bytes" of_maps
step "shapes in degrees" shapes
zones() {
  g++ -std=c++17 -fsanitize=address,undefined -fno-sanitize-recover "${strict[@]}" -Wconversion -I"$include" \
    "$tests/zones.cc" "$static" -o "$work/zones" && "$work/zones" "$work/shapes"
}
step "zones, and places that they have" zones
step "g++, without exceptions" unions g++ -std=c++17 -fno-exceptions
apart() { # no function of the header has one name in a file with exceptions and in one without
  local kind
  for kind in exceptions no-exceptions; do
    g++ -std=c++17 -D_DEFAULT_SOURCE "-f$kind" -I"$include" -c "$tests/cell_union.cc" \
      -o "$work/$kind.o" || return 1
    nm "$work/$kind.o" | awk '$2 ~ /[VW]/ { print $3 }' | grep 7s2union | sort >"$work/$kind" && [ -s "$work/$kind" ] ||
      return 1
  done
  ! comm -12 "$work/exceptions" "$work/no-exceptions" | grep .
}
step "with exceptions and without, in one program" apart
covered() {
  unions g++ -std=c++17 -O0 -g --coverage -fkeep-inline-functions &&
    /usr/bin/python3 "$top/tests/coverage.py" "$work" s2union.hpp=bindings/cpp/s2union.hpp
}
step "what its test executes" covered

step "bindings/c/README.md: the program in C++" documented cpp c++ -std=c++17
finish
