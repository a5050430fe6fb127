#!/usr/bin/env bash
# The tests of the user functions of MariaDB: tests/run mariadb. It installs the Debian packages that it needs, and runs
# a server of its own. Its last line is 'N passed, M failed'; the status is 1 if any failed.
. "$(dirname "$0")/../../../tests/steps.sh"

need make make
need /usr/sbin/mariadbd mariadb-server
need_file /usr/include/mariadb/mysql.h libmariadb-dev
need_file /usr/include/sqlite3ext.h libsqlite3-dev
need_pytest
. "$top/tests/library.sh"

step "no arithmetic on cells" no_arithmetic "$top/bindings/mariadb/s2union.c"
built() { # LANGUAGE FLAGS..
  cp -r "$top/bindings/$1" "$work/$1_functions" && make -C "$work/$1_functions" PREFIX="$work/usr" "${@:2}"
}
step "build" built mariadb
step "build, for SQLite" built sqlite
[ "$failed" -eq 0 ] || finish
step "texts and bytes of shapes, with their coverings" maps
beside_sqlite() {
  cd "$top/bindings/mariadb/tests" || return
  export PYTHONPATH=$top/tests:$work/usr/lib/python PYTHONDONTWRITEBYTECODE=1 WORK=$work
  timeout 3600 /usr/bin/python3 -m pytest test_mariadb.py
}
step "each function in MariaDB, beside the same in SQLite" beside_sqlite
finish
