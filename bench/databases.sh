#!/usr/bin/env bash
# Unions in PostgreSQL beside PostGIS, and in SQLite: bench/run databases [CELLS]. It measures joins, set operations,
# aggregates and questions by an index on the same countries, cities and 200,000 points. A covering has at most CELLS
# cells, 2000 if it isn't said. The library is that of S2UNION_PREFIX, if it is there already.
# bench/run joins measures exact joins of points with provinces instead, by each way, beside PostGIS, SpatiaLite and
# geopandas, and bench/run users [--small] what users ask for, in all languages. The server is a copy of Debian's, on a
# socket of its own. The Debian packages that it needs are installed: 200 MB.
. "$(dirname "$0")/../tools/usage.sh"
. "$(dirname "$0")/../tests/steps.sh"
cells=${1:-2000} provinces=/usr/share/qgis/resources/data/world_map.gpkg

. "$top/tests/geo/countries.sh"
case $cells in joins | users)
  need_file "$provinces" qgis-common
  need_file /usr/include/geos_c.h libgeos-dev
  ;;
esac
need_countries libsqlite3-dev postgresql-15-postgis-3 python3-rtree libsqlite3-mod-spatialite
. "$top/bindings/postgres/tests/server.sh"

both() {
  local folder=$work/now
  mkdir "$folder" && cp "$top"/bindings/postgres/{Makefile,*.c,*.h,*.control,*.sql} "$folder" &&
    make -C "$folder" PREFIX="$work/usr" PG_CONFIG="$config" && mkdir "$folder/sqlite" &&
    cp "$top"/bindings/sqlite/{Makefile,*.[ch]} "$folder/sqlite" && make -C "$folder/sqlite" PREFIX="$work/usr"
}
step "a copy of PostgreSQL $server" copied
step "both extensions" both
[ "$failed" -eq 0 ] || finish
step "install" put_in now
step "a cluster on a socket" begun data "max_parallel_workers_per_gather = 0"

export PATH=/usr/bin:$PATH PYTHONDONTWRITEBYTECODE=1 PYTHONWARNINGS=ignore
export PYTHONPATH=$work/usr/lib/python:$top/docs/examples:$top/tests/geo
if [ "$cells" = joins ]; then
  others() { # GEOS's and S2's own ways of asking
    g++ -std=c++17 -O2 -DNDEBUG -march=x86-64-v2 -fPIC -shared "$top/bench/others.cc" -o "$work/others.so" \
      -lgeos_c -ls2 -Wl,--as-needed /usr/lib/*/libabsl_*.so -lcrypto
  }
  step "GEOS and S2" others
  export S2UNION_OTHERS=$work/others.so
  /usr/bin/python3 "$top/bench/joins.py" "$work" "$work/now/sqlite" "$provinces" || failed=1
  finish
fi
if [ "$cells" = users ]; then
  of_s2() { # the programs that docs/examples has of S2 alone
    for name in leaf cover; do
      g++ -std=c++17 -O2 -DNDEBUG "$top/docs/examples/$name.cc" -o "$work/$name" -ls2 -Wl,--as-needed \
        /usr/lib/*/libabsl_*.so -lcrypto || return
    done
  }
  step "S2's own programs" of_s2
  /usr/bin/python3 "$top/bench/users.py" "$work" "$provinces" "${@:2}" || failed=1
  finish
fi
step "the countries, covered" countries "$cells"
[ "$failed" -eq 0 ] || finish
/usr/bin/python3 "$top/bench/countries.py" "$work" || failed=1
finish
