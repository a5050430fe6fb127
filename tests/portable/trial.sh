#!/usr/bin/env bash
# What tests/portable/check.sh runs in a new system, as root there: from the archive of sources alone, the crate, the
# package for Go, the module for Python and the extensions for SQLite and PostgreSQL are built by the C compiler, as the
# archive's page says. All of it is in /trial. The last line is 'N passed, M failed'; the status is 1 if any failed.
. /trial/tests/steps.sh
export DEBIAN_FRONTEND=noninteractive
source=/trial/source
no_prover() { ! command -v rt rattle clang; }
step "a system without a prover, and without LLVM" no_prover

line() { # WORD: the command of the archive's page that has this word
  grep -F -e "$1" "$source/README.md" | grep -m 1 -oE '(^    |`)(cc|make) [^`|]*' | sed -E 's/^ *`?//'
}
ask() { (cd "$source" && eval "$(line 'answers 1')"); }
step "the sum of answers, by the line of the archive's page" ask

# ---- languages

program() { # PAGE FENCE FILE: the page's program, and beside it what it prints
  mkdir -p "$(dirname "$work/$3")" && block "$1" "$2" >"$work/$3" && block "$1" "text $2" >"$work/$3.wanted" &&
    [ -s "$work/$3" ] && [ -s "$work/$3.wanted" ]
}
in_rust() (
  program bindings/rust/README.md rust rust/src/main.rs && cd "$work/rust" && export CARGO_HOME=$work/cargo &&
    printf '%s\n' '[package]' 'name = "x"' 'version = "1.0.0"' 'edition = "2021"' >Cargo.toml &&
    cargo add --offline --path "$source/rust" && cargo build --quiet --offline &&
    target/debug/x | diff src/main.rs.wanted -
)
in_go() (
  program bindings/go/README.md go go/main.go && cd "$work/go" && export GOFLAGS=-mod=mod GOPROXY=off &&
    export GOCACHE=$work/go-cache GOPATH=$work/gopath && module=$(sed -n 's/^module //p' "$source/go/go.mod") &&
    go mod init x &&
    go mod edit -require "$module@v0.0.0" -replace "$module=$source/go" && go build -o x . &&
    ./x | diff main.go.wanted -
)
in_python() (
  python3 -m venv --system-site-packages "$work/venv" &&
    "$work/venv/bin/pip" install --no-index --no-build-isolation /trial/s2union-*.tar.gz && cd / &&
    "$work/venv/bin/python" -m doctest /trial/bindings/python/README.md
)
step "the crate, and bindings/rust/README.md" in_rust
step "the package for Go, and bindings/go/README.md" in_go
step "the module for Python by pip, and bindings/python/README.md" in_python

# ---- databases

in_sqlite() (
  cd "$source" && eval "$(line -o\ mod_s2union.so)" && eval "$(line -o\ mod_s2union_geo.so)" &&
    said=$(sqlite3 -batch :memory: ".load ./mod_s2union" ".load ./mod_s2union_geo" \
      "SELECT s2_tokens(s2_difference('1', '04 0c 14')), s2_contains('1', '1c03'), s2_leaf_at(2.3522, 48.8566)") &&
    echo "$said" && [ "$said" = "1c|1|5180949494577750587" ]
)
step "SQLite: both modules, and a query" in_sqlite

bin=/usr/lib/postgresql/15/bin data=$work/data
as_postgres() { (cd / && runuser -u postgres -- "$@"); }
psql() { as_postgres "$bin/psql" -h "$data" -XAqt -v ON_ERROR_STOP=1 -d postgres -c "$1"; }
server() {
  local settings="-c listen_addresses= -c unix_socket_directories=$data -c dynamic_shared_memory_type=mmap"
  install -d -o postgres "$data" && chmod 755 "$work" && as_postgres "$bin/initdb" -D "$data" -A trust &&
    as_postgres "$bin/pg_ctl" -D "$data" -l "$data/log" -w -o "$settings" start
}
image() { # what the Containerfile runs in an image of postgres
  cp -r "$source" /usr/src/s2union && sed -n '/^RUN /,$p' "$source/Containerfile" | sed '1s/^RUN //' >"$work/steps" &&
    PG_MAJOR=15 bash -e "$work/steps"
}
query() {
  psql "CREATE EXTENSION s2union; CREATE EXTENSION s2union_geo; CREATE TABLE parks (name text, region s2union);
    CREATE INDEX ON parks USING gin (region); INSERT INTO parks VALUES ('north', '04 0c 14'), ('south', '1c')" &&
    [ "$(psql "SELECT s2_union_agg(region), s2_token(s2_leaf_at(2.3522, 48.8566)) FROM parks")" = "1|47e66e1d8f8be23b" ]
}
regression() { # the Containerfile leaves no lists of packages, and no compiler
  apt-get update && apt-get install -y --no-install-recommends gcc libc6-dev make postgresql-server-dev-15 &&
    chown -R postgres "$source" && as_postgres make -C "$source" PG_CONFIG="$bin/pg_config" &&
    as_postgres env PGHOST="$data" make -C "$source" PG_CONFIG="$bin/pg_config" installcheck
}
step "a server of PostgreSQL 15" server
step "the steps of the Containerfile" image
step "PostgreSQL: a first query" query
step "PostgreSQL: the extension's own tests, by make installcheck" regression
step "the server ends" as_postgres "$bin/pg_ctl" -D "$data" -m fast -w stop
finish
