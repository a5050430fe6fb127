#!/usr/bin/env bash
# Builds a harness of this folder against the proved library and S2: build FILE.cc makes out/FILE. Without the kit the
# library is the release's; with PEER_ALONE=1 there is S2 alone. S2 is Debian's package, which keeps its debug checks.
# With S2_RELEASE=1 the parts that are measured are compiled from Debian's source package without them.
. "$(dirname "$0")/../tools/usage.sh"
. "$(dirname "$0")/../tests/steps.sh"
need g++ g++
need_file /usr/include/s2/s2cell_union.h libs2-dev
[ -n "${PEER_ALONE:-}" ] || choose_library >&2
need_packages
set -e
cd "$top/bench"
name=$(basename "$1" .cc)
mkdir -p out
compile=(g++ -std=c++17 -O2 -DNDEBUG -march=x86-64-v2)
logged() { # COMMAND..: says what it said only if it fails
  "$@" >"out/$name.log" 2>&1 || { cat "out/$name.log" >&2; exit 1; }
}
libraries=()
if [ -n "${S2_RELEASE:-}" ]; then
  bash s2_sources.sh out/s2
  parts=(s2cell_id s2cell_union s2cell s2region_coverer util/coding/coder)
  [ "$name" != polygons ] || parts+=(s2loop s2polygon mutable_s2shape_index s2edge_clipping s2edge_crosser)
  for part in "${parts[@]}"; do
    object=out/$(basename "$part").o
    [ -e "$object" ] || logged "${compile[@]}" -Iout/s2/source/src -c "out/s2/source/src/s2/$part.cc" -o "$object"
    libraries+=("$object")
  done
fi
if [ -n "${PEER_ALONE:-}" ]; then
  libraries+=(-I../crates/s2union_c/include)
else
  logged ../tools/library out/usr "${released[@]}"
  libraries+=(-Iout/usr/include out/usr/lib/libs2union.a)
fi
absl=()
for library in /usr/lib/*/libabsl_*.so; do absl+=("$library"); done
logged "${compile[@]}" -Wall -I. -I../bench "$1" -o "out/$name" "${libraries[@]}" -ls2 -Wl,--as-needed "${absl[@]}" \
  -lpthread -ldl
