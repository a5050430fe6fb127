#!/usr/bin/env bash
# The pages about the earth: tests/run geo -- [PROGRAM]. Each command of docs/GEO.md and docs/TUTORIAL.md is run and its
# output compared, and the answers are compared with S2's and with those of plain tests by polygons. PROGRAM is the
# calculator; without it, the one that the gate or tools/prove has built. The Debian packages that it needs are
# installed, which are over 100 MB. tests/run geo -- --costs [REGIONS POINTS] measures the table of docs/GEO.md, and
# tests nothing. The last line is 'N passed, M failed'; the status is 1 if any failed.
. "$(dirname "$0")/../steps.sh"

export S2CALC=${S2CALC:-$top/crates/calculator/out/calculator}
[ -z "${1:-}" ] || [ "$1" = --costs ] || S2CALC=$(realpath "$1")
[ -x "$S2CALC" ] || { echo "there is no program: tools/prove builds it"; failed=1; finish; }

. "$top/tests/geo/countries.sh"
need node nodejs
need_countries make time sqlite3 libsqlite3-dev gdal-bin python3-rtree python3-qgis qgis-{common,providers} \
  postgresql-15-postgis-3
. "$top/bindings/postgres/tests/server.sh"

# ---- what the pages take as installed: the library, both extensions, a server

step "a copy of PostgreSQL $server" copied
step "the extension for PostgreSQL" built build
in_sqlite() {
  cp "$top"/bindings/sqlite/{Makefile,*.[ch]} "$work/usr" && make -C "$work/usr" PREFIX="$work/usr" install
}
step "the extension for SQLite" in_sqlite
[ "$failed" -eq 0 ] || finish
installed() { make -C "$work/build" PREFIX="$work/usr" PG_CONFIG="$config" install DESTDIR="$copy"; }
step "install" installed
need_page
export S2UNION_PAGE=$work/page
step "a cluster on a socket" begun data
[ "$failed" -eq 0 ] || finish

# sqlite3 without its user's settings, as the pages' commands find it
mkdir "$work/bin" && printf '#!/bin/sh\nexec /usr/bin/sqlite3 -init /dev/null "$@"\n' >"$work/bin/sqlite3" &&
  chmod 755 "$work/bin/sqlite3"
export PREFIX=$work/usr PATH=$work/bin:/usr/bin:$PATH PYTHONDONTWRITEBYTECODE=1 PYTHONWARNINGS=ignore
export PYTHONPATH=$work/usr/lib/python:$top/docs/examples:$top/tests/geo:$top/tests
if [ "${1:-}" = --costs ]; then
  mkdir "$work/costs" && /usr/bin/python3 "$top/tests/geo/costs.py" "$work/costs" "${@:2}"
  finish
fi
pages() { (cd "$top/tests/geo" && timeout 7200 /usr/bin/python3 -m pytest "$@"); }
step "exact joins in PostgreSQL" pages test_joins.py
step "the extension for PostGIS" pages test_postgis.py
each_way() { # of the benchmark, which compares all pairs
  local map=/usr/share/qgis/resources/data/world_map.gpkg
  mkdir "$work/joins" && chmod 755 "$work/joins" && PYTHONPATH=$PYTHONPATH:$top/bench PGDATABASE=postgres \
    /usr/bin/python3 "$top/bench/joins.py" "$work/joins" "$work/usr/lib/sqlite3" "$map" --check
}
step "countries and provinces joined with points by each way" each_way
first_screen() { # PAGE DATABASE: its examples that need PostGIS, which the part `postgres` leaves out
  createdb "$2" && PGOPTIONS="-c client_min_messages=error" /usr/bin/python3 "$top/tests/docs/documented.py" \
    --only postgis "$top/$1" psql -XAqt -d "$2"
}
step "README.md, what needs PostGIS" first_screen README.md readme
managed() ( # in a database that has PostGIS alone
  local ask=(/usr/bin/python3 "$top/tests/docs/documented.py") page=$top/docs/ENGINES.md
  createdb managed && mkdir "$work/managed" && cd "$work/managed" && "${ask[@]}" --python --only managed "$page" &&
    "${ask[@]}" --only managed "$page" psql -XAqt -d managed && "${ask[@]}" --only exact "$page" psql -XAqt -d managed
)
step "docs/ENGINES.md, managed PostgreSQL with PostGIS" managed
of_frames() { /usr/bin/python3 "$top/tests/docs/documented.py" --python --only geopandas "$top/README.md"; }
step "README.md, what needs GeoPandas" of_frames
step "bindings/postgres/README.md, what needs PostGIS" first_screen bindings/postgres/README.md first
modules=$work/node/debian/usr/share/nodejs
driver_of_node() { # Debian's, unpacked: as a package it would want Debian's Node too
  mkdir -p "$work/node/debian" "$work/node/node_modules" && unpacked "$work/node/debian" node-pg node-split2 &&
    ln -s "$modules/pg" "$work/node/node_modules" && cp -r "$work/page/js" "$work/node/node_modules/s2union" &&
    cp "$top/bindings/js/tests/drivers.mjs" "$work/node"
}
by_node() { # PROGRAM: the driver's own modules Node finds by the variable alone
  (cd "$work/node" && PGDATABASE=first NODE_PATH=$modules node "$1")
}
node_page() {
  local page=bindings/js/README.md
  block $page "js pg" >"$work/node/page.mjs" && by_node page.mjs | diff <(block $page "text js pg") -
}
step "Debian's driver of Node" driver_of_node
step "the driver of Node: pg" by_node drivers.mjs
step "bindings/js/README.md, a region in PostgreSQL" node_page
sqlite_of_node() ( # Debian's driver, which links Debian's Node: another Node has what it asks for itself
  local page=bindings/sqlite/README.md to=$work/node/sqlite
  mkdir "$to" && unpacked "$to" node-sqlite3 &&
    cp -r "$to/usr/lib/x86_64-linux-gnu/nodejs/sqlite3" "$work/node/node_modules/" && cd "$work/node" &&
    echo 'module.exports = require("./binding/napi-v6-linux-glibc-x64/node_sqlite3.node");' \
      >node_modules/sqlite3/lib/sqlite3-binding.js &&
    gcc -shared -x c /dev/null -o "$to/libnode.so.108" -Wl,-soname,libnode.so.108 && block $page "js sqlite" >s.mjs &&
    LD_LIBRARY_PATH=$to:$PREFIX/lib/sqlite3 node s.mjs | diff <(block $page "text js sqlite") -
)
step "bindings/sqlite/README.md, from Node" sqlite_of_node
step "docs/GEO.md" pages test_geo.py
step "docs/TUTORIAL.md" pages test_tutorial.py
finish
