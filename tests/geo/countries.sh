# The countries of the earth as files of their outer and inner coverings, by docs/examples: for the tests of joins, and
# for bench/databases.sh. The caller has read tests/steps.sh.

need_countries() { # PACKAGE..: installs what is missing of these too
  need_installed g++ libs2-dev nlohmann-json3-dev gmt-gshhg-low \
    python3-{pytest,numpy,netcdf4,shapely,geopandas,pywraps2} "$@"
  need_packages
}

countries() { # CELLS: $work/world/countries, with at most this many cells a country
  local world=$work/world
  c++ -std=c++17 -O2 "$top/docs/examples/cover.cc" -o "$work/cover" -ls2 -Wl,--as-needed \
    /usr/lib/*/libabsl_*.so -lcrypto &&
    PYTHONWARNINGS=ignore /usr/bin/python3 "$top/docs/examples/world.py" "$world" && mkdir "$world/countries" &&
    "$work/cover" "$world/countries.geojson" "$world/countries" "$1" 30 && chmod -R a+rX "$world"
}
