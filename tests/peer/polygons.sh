#!/usr/bin/env bash
# Polygons beside S2: tests/run polygons-s2 -- [RINGS]. The leaves of random rings, 2,000 if no number is given, and all
# countries at five levels, cell by cell. test_library, which the gate has built, is asked; S2CALC_ROWS names another
# program. Its last line is 'N passed, M failed'.
. "$(dirname "$0")/../steps.sh"
. "$top/tests/geo/countries.sh"
need_countries
rows=${S2CALC_ROWS:-$top/crates/test_library/out/test_library}

beside_s2() {
  PYTHONWARNINGS=ignore /usr/bin/python3 "$top/docs/examples/world.py" "$work/world" &&
    PEER_ALONE=1 bash "$top/bench/build.sh" ../tests/peer/polygon.cc &&
    "$top/bench/out/polygon" "$1" 1 "$work/world/countries.geojson" >"$work/rows" &&
    "$rows" <"$work/rows" | tee "$work/said" | tail -3 && grep -qx 'all rows have their answers' "$work/said"
}
step "random rings and the countries" beside_s2 "${1:-2000}"
finish
