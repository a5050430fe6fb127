#!/usr/bin/env bash
# Coverings of polygons by S2's coverer, by the library for C and by hand-written C++: bench/run polygons [WORD
# [ROUNDS]], rows whose names contain WORD. The countries are those of Debian's python3-geopandas, the provinces of
# qgis-common, the coastlines of gmt-gshhg-high. S2 is compiled without its checks.
. "$(dirname "$0")/../tools/usage.sh"
. "$(dirname "$0")/../tests/steps.sh"
. "$top/tests/geo/countries.sh"
coasts=/usr/share/gmt-gshhg/binned_GSHHS_h.nc provinces=/usr/share/qgis/resources/data/world_map.gpkg
need_file "$coasts" gmt-gshhg-high
need_file "$provinces" qgis-common
need_modules netCDF4 python3-netcdf4
need_countries
set -e
cd "$top/bench"
S2_RELEASE=1 bash build.sh polygons.cc
mkdir -p out/coasts
[ -e out/world/countries.geojson ] ||
  PYTHONWARNINGS=ignore /usr/bin/python3 "$top/docs/examples/world.py" out/world
[ -e out/world/provinces.geojson ] || {
  /usr/bin/python3 -c "import geopandas
geopandas.read_file('$provinces', layer='states_provinces').to_file('out/world/provinces.part', 'GeoJSON')" &&
    mv out/world/provinces.part out/world/provinces.geojson
}
[ -e out/coasts/land.polygons ] || {
  /usr/bin/python3 coastlines.py "$coasts" out/coasts/land.polygons.part 1 200 &&
    mv out/coasts/land.polygons.part out/coasts/land.polygons
}
out/polygons out/world/{countries,provinces}.geojson out/coasts/land.polygons "${1:-}" "${2:-5}"
