#!/usr/bin/env bash
# Makes mistakes in the extension for PostgreSQL, each of which its tests must find: tests/run postgres-mutants --
# [NAME..]. They are those of bindings/postgres/mutants.txt. Each is built over guarded allocations and put into one
# running server, where it gets a database of its own. One whose tests were killed was not tried, and fails. The last
# line is 'N passed, M failed'.
. "$(dirname "$0")/../../../tests/steps.sh"
. "$top/bindings/postgres/tests/server.sh"
export S2UNION_ROUNDS=60

survives() { # NAME: without one it notes how long the tests may take, which is longer on a busy machine
  local begun=$SECONDS
  mkdir -p "$work/c" && cp "$top/bindings/c/s2union_geo.h" "$work/c/" &&
    mutant "$1" "$top"/bindings/postgres/{*.c,*.h,*.sql,*.control} && cp "$work/c/s2union_geo.h" "$work/usr/include/" &&
    guarded build "$work/mutant" -B COPT=-O1 &&
    cp "$work"/mutant/*.{sql,control} "$work/build" && put_in build && is_up && : >"$work/data/log" &&
    dropdb --if-exists --force mutant && createdb mutant &&
    psql -qXd mutant -c "LOAD 's2union'" || return 2 # all that it calls is there
  PGDATABASE=mutant refuse AgainstTheModel WhatIsRefused Aggregates Guarded test_kept.py::AroundACall \
    test_catalogue.py::Catalogue test_catalogue.py::Updates Indexes Exclusion Planner Points Shapes test_wkb.py \
    test_maps.py test_strangers.py test_kept.py::Errors test_join_table.py || return
  whole || return 1
  [ -n "$1" ] || SECONDS_OF_TESTS=$((120 + 4 * (SECONDS - begun)))
}

step "a copy of PostgreSQL $server" copied
step "a cluster on a socket" begun data
export S2UNION_MAPS=$work/map-texts
step "texts and bytes of shapes, with their coverings" maps
try_mutants "$top/bindings/postgres/mutants.txt" "$@"
