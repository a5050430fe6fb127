#!/usr/bin/env bash
# Coverings of real coastlines by S2's own coverer, and the same operations on them by S2, by the library
# for C and by hand-written C++: bench/run real [WORD [ROUNDS]], rows whose names contain WORD. The coastlines
# are Debian's gmt-gshhg-high. S2 is compiled without its checks.
. "$(dirname "$0")/../tools/usage.sh"
. "$(dirname "$0")/../tests/steps.sh"
coasts=/usr/share/gmt-gshhg/binned_GSHHS_h.nc
need_file "$coasts" gmt-gshhg-high
need_modules netCDF4 python3-netcdf4
need_packages
set -e
cd "$top/bench"
S2_RELEASE=1 bash build.sh coverings.cc
S2_RELEASE=1 bash build.sh real.cc

mkdir -p out/coasts
make_file() { # FILE COMMAND..: unless it is there
    local file=out/coasts/$1
    shift
    [ -e "$file" ] || { "${@//FILE/$file.part}" && mv "$file.part" "$file"; }
}
make_file land.polygons /usr/bin/python3 coastlines.py "$coasts" FILE 1 200
make_file lakes.polygons /usr/bin/python3 coastlines.py "$coasts" FILE 2 200
land() { make_file "$1" out/coverings out/coasts/land.polygons FILE "${@:2}"; }
for cells in 8 100 1000 10000; do
    land "land_$cells" "$cells" 0 30 1 outer 0
    land "twin_$cells" "$cells" 0 30 1 outer 0.4
done
land inner_10000 10000 0 20 1 inner 0
land level_10 100000000 10 10 1 outer 0
make_file lakes_1000 out/coverings out/coasts/lakes.polygons FILE 1000 0 30 1 outer 0
out/real "${1:-}" "${2:-5}"
