# What the tests of PostgreSQL, its mutants and tests/geo share: a copy of the server that Debian ships,
# in $work, with the extension. Nothing is installed except Debian's packages. The caller has read tests/steps.sh.

need gcc gcc libc6-dev
need make make
need_file "$(pg_config --includedir-server 2>/dev/null)/postgres.h" postgresql-server-dev-all
need pg_ctlcluster postgresql
need_file /usr/include/valgrind/memcheck.h valgrind
need gcovr gcovr
need_pytest
need_packages
need_library

config=$(command -v pg_config)
server=$(basename "$(dirname "$("$config" --bindir)")") # 15
copy=$work/copy
bin=$copy/usr/lib/postgresql/$server/bin
export PGCTLTIMEOUT=600 # a busy machine may need more than the minute that pg_ctl waits
as_postgres=()
[ "$(id -u)" -eq 0 ] && as_postgres=(runuser -u postgres --)

copied() {
  mkdir -p "$copy/usr/lib/postgresql" "$copy/usr/share/postgresql" && chmod 755 "$work" &&
    cp -a "/usr/lib/postgresql/$server" "$copy/usr/lib/postgresql/" &&
    cp -a "/usr/share/postgresql/$server" "$copy/usr/share/postgresql/" &&
    find "$copy" -name 's2union*' -prune -exec rm -r {} + # what a package of ours has there
}

built() { # FOLDER FLAGS..: the extension as it is
  local folder=$work/$1
  shift
  mkdir -p "$folder" &&
    cp -r "$top"/bindings/postgres/{Makefile,*.c,*.h,*.control,*.sql,sql,expected} "$folder" &&
    make -C "$folder" PREFIX="$work/usr" PG_CONFIG="$config" "$@"
}

# FOLDER SOURCES FLAGS..: the extension over the allocator of guarded.c; planner.c, geo.c and cover.c are of SOURCES.
guarded() {
  local folder=$work/$1 sources=$2 file name
  shift 2
  mkdir -p "$folder/rewritten" && : >"$folder/rewritten.c" &&
    cp "$top"/bindings/postgres/{Makefile,*.control,*.sql} "$top/bindings/postgres/tests/guarded.c" "$folder" &&
    cp "$sources"/{planner.c,geo.c,cover.c,value.h} "$folder" || return
  for file in "$sources"/{*.c,value.h}; do
    name=$(basename "$file")
    case $name in planner.c | geo.c | cover.c) continue ;; esac
    sed -E 's/Datum ([a-z0-9_]+)\(PG_FUNCTION_ARGS\)/GUARDED(\1)/' "$file" >"$folder/rewritten/$name" &&
      echo "#include \"rewritten/$name\"" >>"$folder/rewritten.c" || return
  done
  make -C "$folder" PREFIX="$work/usr" PG_CONFIG="$config" OBJS="guarded.o planner.o geo.o cover.o" "$@"
}

put_in() { # FOLDER: sessions that begin from now on have the extension built there
  local to=$copy/usr/lib/postgresql/$server/lib extension=$copy/usr/share/postgresql/$server/extension
  install -m 755 "$work/$1/s2union.so" "$to/s2union.new" && mv "$to/s2union.new" "$to/s2union.so" &&
    make -C "$work/$1" PREFIX="$work/usr" PG_CONFIG="$config" scripts-with-ends &&
    install -m 644 "$work/$1"/*.control "$work/$1"/scripts/*.sql "$extension/"
}

# A cluster's server under valgrind, with findings in $work/valgrind, or with the sanitizers, with findings in its log.
# Neither looks for leaks: a session ends with memory that it has not freed, and with -q valgrind says nothing of it.
start_under() { # FOLDER COMMAND..
  local folder=$work/$1
  shift
  cd / && "${as_postgres[@]}" "$@" "$bin/postgres" -D "$folder" >>"$folder/log" 2>&1 &
  is_up
}

with_valgrind() { # FOLDER
  mkdir -p "$work/valgrind" && chmod 777 "$work/valgrind" &&
    start_under "$1" valgrind -q --trace-children=yes --undef-value-errors=no --leak-check=no \
      --log-file="$work/valgrind/%p"
}

with_sanitizers() { # FOLDER
  local preload
  preload="$(gcc -print-file-name=libasan.so) $(gcc -print-file-name=libubsan.so) $work/untranslated.so"
  gcc -shared -fPIC "$top/bindings/postgres/tests/untranslated.c" -o "$work/untranslated.so" &&
    start_under "$1" env LD_PRELOAD="$preload" ASAN_OPTIONS=detect_leaks=0:abort_on_error=1
}

is_up() {
  local end=$((SECONDS + PGCTLTIMEOUT))
  until psql -qd postgres -c "SELECT 1" >/dev/null 2>&1; do
    [ "$SECONDS" -lt "$end" ] || return
    sleep 0.2
  done
}

clusters=()
begun() { # FOLDER LINE..: a cluster there, with these lines in its configuration
  local folder=$work/$1
  clusters+=("$1")
  mkdir -p "$folder" && { [ "$(id -u)" -ne 0 ] || chown -R postgres "$folder"; } && cd / &&
    "${as_postgres[@]}" "$bin/initdb" -D "$folder" -U postgres -A trust -E UTF8 --locale=C.UTF-8 &&
    printf '%s\n' "listen_addresses = ''" "unix_socket_directories = '$folder'" "fsync = off" "jit = off" \
      "max_parallel_workers_per_gather = 2" "restart_after_crash = on" "${@:2}" >>"$folder/postgresql.conf" &&
    "${as_postgres[@]}" "$bin/pg_ctl" -D "$folder" -l "$folder/log" -w start
}

stopped() { # FOLDER
  [ ! -e "$work/$1/postmaster.pid" ] || (cd / && "${as_postgres[@]}" "$bin/pg_ctl" -D "$work/$1" -m immediate stop)
}

tests() { # TEST..: those of test_postgres.py, or of TESTS, or with the name of their file before them
  local names=() name
  for name; do
    case $name in *.py*) names+=("$name") ;; *) names+=("${TESTS:-test_postgres.py}::$name") ;; esac
  done
  (
    cd "$top/bindings/postgres/tests" && export PYTHONPATH=$top/tests:${PYTHONPATH:-} PYTHONDONTWRITEBYTECODE=1
    timeout "${SECONDS_OF_TESTS:-7200}" /usr/bin/python3 -m pytest -s -x "${names[@]}"
  )
}

whole() { # no session has ended by a signal
  ! grep -E 'terminated by signal|PANIC|TRAP|Sanitizer|runtime error' "$work"/*/log
}

end() {
  local cluster
  for cluster in "${clusters[@]}"; do stopped "$cluster" >/dev/null; done
  cd / && rm -rf "$work"
}
trap end EXIT
export PGHOST=$work/data PGUSER=postgres PGDATABASE=postgres PATH=$bin:$PATH
export EXTENSIONS=$copy/usr/share/postgresql/$server/extension
