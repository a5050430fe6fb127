#!/usr/bin/env bash
# The tests of the unions inside PostgreSQL: tests/run postgres -- [--full | --costs REGIONS].
# A copy of the server that Debian ships runs in a folder of its own, on a socket there. Nothing is installed except
# Debian's packages. --full asks for 10,000 random rows in place of 1,000, and asks under valgrind too, which looks at
# the code as it is installed; --costs measures the costs of this many regions, and tests nothing. The last line is
# 'N passed, M failed'; the status is 1 if any failed.
. "$(dirname "$0")/../../../tests/steps.sh"
[ "${1:-}" != --full ] || export S2UNION_ROUNDS=10000
need_modules psycopg,psycopg2,shapely python3-{psycopg,psycopg2,shapely}
. "$top/bindings/postgres/tests/server.sh"

# ---- the extension: as it is, over guarded allocations, and with the sanitizers

step "a copy of PostgreSQL $server" copied
source=$top/bindings/postgres
for file in "$source"/*.[ch]; do step "no arithmetic on cells: ${file##*/}" no_arithmetic "$file"; done
step "build" built build COPT=-Werror
step "the C library that it needs" old_glibc "$work/build/s2union.so"
rebuilt() { # if the header or the archive has changed, and only then
  local make=(make -C "$work/build" PREFIX="$work/usr" PG_CONFIG="$config" COPT=-Werror) file
  "${make[@]}" -q || return 1
  for file in include/s2union.h lib/libs2union_noheap.a; do
    touch "$work/usr/$file"
    ! "${make[@]}" -q && "${make[@]}" && "${make[@]}" -q || return 1
  done
}
step "built again after the library has changed" rebuilt
step "build, guarded" guarded guarded "$source" COPT=-Werror
counted() { # sessions write their counts beside it
  guarded counted "$source" COPT="-O0 --coverage" && { [ "$(id -u)" -ne 0 ] || chown -R postgres "$work/counted"; }
}
step "build, guarded, counting what is executed" counted
step "build, guarded, with the sanitizers" guarded sanitized "$source" \
  COPT="-O1 -Werror -fsanitize=address,undefined -fno-sanitize-recover"
[ "$failed" -eq 0 ] || finish
installed() { make -C "$work/build" PREFIX="$work/usr" PG_CONFIG="$config" install DESTDIR="$copy"; }
step "install" installed
step "a cluster on a socket" begun data
step "another" begun shard
[ "$failed" -eq 0 ] || finish

if [ "${1:-}" = --costs ]; then
  S2UNION_SHARD=$work/shard /usr/bin/python3 "$top/bindings/postgres/tests/costs_postgres.py" "${2:-100000}"
  finish
fi

# ---- the tests

export S2UNION_MAPS=$work/map-texts
step "the type and its functions, against the model" tests AgainstTheModel
step "what is refused; 100 stored values, each bit flipped" tests WhatIsRefused
step "indexes: 2,000 questions by GIN, GiST and by a scan" tests Indexes
step "no two regions overlap" tests Exclusion
step "texts and bytes of shapes, with their coverings" maps
step "coverings of polygons as they are written" tests test_maps.py
step "s2union_geo: points and shapes, and what is refused" tests Points Shapes
step "exact joins of points with polygons in WKB" tests test_wkb.py
step "tiles of joins: rights, and what is kept in step" tests test_join_table.py
step "plans: the index where values are large and where few rows are found" tests Planner
step "large questions end before they have taken twice their timeout" tests LargeQuestions
step "the aggregate, in parallel" tests Aggregates
step "arrays of the caller, windows, values that come again" tests test_kept.py::AroundACall
step "one script, and an update from each earlier version" tests test_catalogue.py::Catalogue test_catalogue.py::Updates
installcheck() { make -C "$work/build" PREFIX="$work/usr" PG_CONFIG="$config" installcheck; }
step "make installcheck" installcheck
step "what strangers have made is neither run nor taken for a type" tests test_strangers.py
step "dump and restore" tests DumpAndRestore
step "a session's memory limited in steps" tests MemoryLimits
step "a large question is kept once for sixty parts of a table" tests test_kept.py::Memory
step "errors leave no cells behind" tests test_kept.py::Errors
step "indexes, ANALYZE and shapes are cancelled" tests test_kept.py::Cancels
page() { # PAGE DATABASE: its examples, in a database of their own, without notices
  createdb "$2" && S2UNION_FIRST=$work/data S2UNION_SHARD=$work/shard PGOPTIONS="-c client_min_messages=warning" \
    /usr/bin/python3 "$top/tests/docs/documented.py" "$top/$1" psql -XAqt -d "$2"
}
step "docs/COOKBOOK.md" page docs/COOKBOOK.md cookbook
own_page=bindings/postgres/README.md
step "$own_page" page $own_page page
export PYTHONPATH=$work/usr/lib/python
step "drivers of Python" tests test_drivers.py
from_python() { # what the page shows of psycopg, in the page's database
  PGDATABASE=page /usr/bin/python3 "$top/tests/docs/documented.py" --python --only psycopg "$top/$own_page"
}
step "$own_page, from a program" from_python
# Drivers of other languages, where Debian's packages of them are.
by_go() { # without modules: Debian's sources are in one folder for all
  local path to
  path=$(sed -n 's/^module //p' "$top/bindings/go/go.mod") to=$work/drivers
  mkdir -p "$to/src/$path" && cp "$top"/bindings/go/*.go "$to/src/$path" && rm "$to/src/$path"/*_test.go &&
    GO111MODULE=off GOPATH=$to:/usr/share/gocode GOCACHE=$to/cache PKG_CONFIG_PATH=$work/usr/lib/pkgconfig \
      go build -o "$to/by-go" "$top/bindings/go/tests/drivers.go" &&
    LD_LIBRARY_PATH=$work/usr/lib "$to/by-go"
}
by_jdbc() { # which knows no socket in a folder, so another server listens to this machine
  local jar=/usr/share/java/postgresql.jar jdk port to=$work/jdbc
  jdk=$(dirname "$(dirname "$(realpath "$(command -v javac)")")")
  port=$(/usr/bin/python3 -c 'import socket; print(socket.create_server(("127.0.0.1", 0)).getsockname()[1])')
  /usr/bin/python3 -B "$top/tools/methods.py" "$to/sources" "$top"/bindings/java/{s2union/*.java,calls.h} &&
    gcc -std=c11 -O2 -fPIC -shared -I"$jdk/include" -I"$jdk/include/linux" -I"$work/usr/include" -I"$to/sources" \
      "$top/bindings/java/s2union.c" "$work/usr/lib/libs2union.a" -o "$to/libs2union_java.so" &&
    javac -d "$to" "$to"/sources/*.java "$top/bindings/java/tests/drivers/Drivers.java" &&
    begun network "listen_addresses = '127.0.0.1'" "port = $port" &&
    PGHOST=127.0.0.1 PGPORT=$port psql -qc "CREATE EXTENSION s2union" &&
    java -cp "$to:$jar" -Ds2union.library="$to/libs2union_java.so" Drivers \
      "jdbc:postgresql://127.0.0.1:$port/postgres" &&
    stopped network
}
gocode=/usr/share/gocode/src/github.com
if command -v go >/dev/null && [ -d $gocode/jackc/pgx/v4 ] && [ -d $gocode/lib/pq ]; then
  step "drivers of Go: pgx, and database/sql with pgx and lib/pq" by_go
else
  echo "       left out: drivers of Go (golang-go, golang-github-jackc-pgx-v4-dev, golang-github-lib-pq-dev)"
fi
if command -v javac >/dev/null && [ -e /usr/share/java/postgresql.jar ]; then
  step "the driver of Java: JDBC" by_jdbc
else
  echo "       left out: the driver of Java (openjdk-17-jdk-headless, libpostgresql-jdbc-java)"
fi
step "docs/SCALE.md" page docs/SCALE.md scale
step "docs/ENGINES.md, without the extension" page docs/ENGINES.md engines
managed() ( # what a managed server is given, in an empty database
  local ask=(/usr/bin/python3 "$top/tests/docs/documented.py")
  createdb managed && mkdir "$work/managed" && cd "$work/managed" &&
    "${ask[@]}" --python --only managed "$top/docs/ENGINES.md" &&
    "${ask[@]}" --only managed "$top/docs/ENGINES.md" psql -XAqt -d managed
)
step "docs/ENGINES.md, managed PostgreSQL" managed
step "its joins by tile, beside loops over all pairs" tests Tiles
step "200 questions over two servers" tests Servers

export S2UNION_ROUNDS=150
again() {
  tests Guarded AgainstTheModel WhatIsRefused Indexes Points Shapes Exclusion Aggregates test_kept.py::AroundACall \
    test_maps.py test_wkb.py test_catalogue.py::Catalogue "$@"
}
put_in counted
step "guarded: each allocation refused in turn, nothing written over, nothing left" again Planner
covered() {
  local files=("$source"/*.[ch])
  files=("${files[@]##*/}")
  tests LargeQuestions &&
    /usr/bin/python3 "$top/tests/coverage.py" "$work/counted" "${files[@]/%/=bindings/postgres/}" \
      s2union_geo.h=bindings/c/s2union_geo.h
}
step "what these tests execute" covered
in_one_session() { S2UNION_ONE_SESSION=yes again "$@"; }
sanitized() { stopped data && put_in sanitized && with_sanitizers data && in_one_session Planner; }
step "the same under the sanitizers" sanitized
valgrind_finds_nothing() { # in files of its own, one for each process
  stopped data && put_in guarded && with_valgrind data && S2UNION_ROUNDS=30 in_one_session && stopped data &&
    [ -n "$(ls "$work/valgrind")" ] && ! cat "$work"/valgrind/* | grep .
}
if [ "${1:-}" = --full ]; then
  step "the same under valgrind" valgrind_finds_nothing
else
  echo "       left out: the same under valgrind, which the full tier has"
fi
step "no server has fallen" whole
finish
