#!/usr/bin/env bash
# What tools/package-trial runs in a clean system: each package is installed as docs/INSTALL.md says, used and removed.
# It is all in /trial.
# The last line is 'N passed, M failed'; the status is 1 if any failed.
set -uo pipefail
cd /trial/packages
export DEBIAN_FRONTEND=noninteractive LC_ALL=C.UTF-8
docs=/usr/share/doc
work=/trial/work
mkdir -p "$work"
passed=0 failed=0

step() { # WHAT COMMAND..: its output is shown if it fails
  local what=$1 begun=$SECONDS
  shift
  if "$@" >"$work/log" 2>&1; then
    passed=$((passed + 1))
    echo "ok     $what ($((SECONDS - begun)) s)"
  else
    failed=$((failed + 1))
    echo "FAILED $what"
    tail -40 "$work/log"
  fi
}

as_the_page_says() { # FILE: by the line of docs/INSTALL.md that installs it from dist/, in $work, where that is
  local line
  ln -sfn /trial/packages "$work/dist" && line=$(grep -F "dist/$1" /trial/INSTALL.md | grep -m 1 '^    ') &&
    line=${line%%#*} && line=${line/sudo apt-get install/installed} && cd "$work" && eval "${line//VENV/venv}"
}
installed() { # PACKAGE..: and what they depend on, and nothing that they recommend
  apt-get install -y --no-install-recommends "$@"
}
by_page() { (as_the_page_says "$1"); }
says() { # WANTED COMMAND..
  local wanted=$1 said
  shift
  said=$("$@") || return 1
  [ "$said" = "$wanted" ] || { printf 'wanted:\n%s\nsaid:\n%s\n' "$wanted" "$said"; return 1; }
}
block() { # PAGE LANGUAGE: its first example
  awk -v start="\`\`\`$2" '$0 == start && !done { on = 1; next } /^```/ { if (on) done = 1; on = 0 } on' "$1"
}

nothing_of_ours() {
  local others=(-path /trial -o -path /proc -o -path /var/cache/man)
  ! find / -xdev \( "${others[@]}" \) -prune -o \( -name '*s2union*' -o -name '*s2calc*' \) -print | grep .
}
no_prover() { ! command -v rt rattle; }
step "a system without a prover" no_prover
step "and without anything of ours" nothing_of_ours

# ---- the program

version=$(dpkg-deb -f s2calc_*.deb Version)
step "install s2calc" by_page 's2calc_*.deb'
first="cell 0c 0/1 level 1 face 0 leaves 288230376151711744 576460752303423487"
row() { printf 'cell 0C00\n' | "$1" run; } # PROGRAM
step "its first row" says "$first" row s2calc
step "its manual page" bash -c 'man -P cat s2calc | grep -q "unions of S2 cells"'
step "a script in words" says "$first" s2calc run -c 'cell 0C00'
at_terminal() { # what it shows there: the prompt, and the answer of the program
  local said
  said=$(printf 'cell 0C00\nquit\n' | XDG_STATE_HOME=$work/state script -qec "s2calc run" /dev/null | tr -d '\r') &&
    grep -F "'help' for help" <<<"$said" && grep -F "$first" <<<"$said"
}
step "a prompt at a terminal" at_terminal
cells() { printf '%s\n' "$@" | s2calc cells; }
step "identifiers that other programs print" says "47e66e1d8f8be23b 0c" cells 5180949494577750587 0/1
completed() { # WORD..: what bash offers for the last
  . /usr/share/bash-completion/completions/s2calc
  COMP_WORDS=("$@") COMP_CWORD=$(($# - 1))
  _s2calc
  echo "${COMPREPLY[*]}"
}
step "bash completes its commands" says "draw" completed s2calc d
step "and their options" says "--depth --dir" completed s2calc run --d

# ---- C and C++

step "install libs2union-dev" by_page 'libs2union*.deb'
examples() { # FOLDER: the programs of the page, and what they print
  local page=$docs/libs2union-dev/C.md
  mkdir -p "$1" && block "$page" c >"$1/x.c" && block "$page" "text c" >"$1/x.wanted" &&
    block "$page" cpp >"$1/y.cpp" && block "$page" "text cpp" >"$1/y.wanted" && [ -s "$1/x.c" ] && [ -s "$1/y.cpp" ]
}
ran() { # FOLDER: the programs there print what they have to
  "$1/x" >"$1/x.said" && diff "$1/x.wanted" "$1/x.said" && "$1/y" >"$1/y.said" && diff "$1/y.wanted" "$1/y.said"
}
links() { # PROGRAM yes|no: whether it needs the shared library
  local needs=no
  [[ $(ldd "$1") != *libs2union.so* ]] || needs=yes
  [ "$needs" = "$2" ]
}
by_pkg_config() { # FOLDER shared|static
  local flags
  flags=$(pkg-config --cflags --libs s2union)
  if [ "$2" = static ]; then flags="$(pkg-config --cflags --libs-only-L s2union) -l:libs2union.a"; fi
  examples "$1" && cc -std=c99 -Wall -Werror "$1/x.c" $flags -o "$1/x" &&
    c++ -std=c++17 -Wall -Werror "$1/y.cpp" $flags -o "$1/y" && ran "$1"
}
by_cmake() { # FOLDER TARGET FLAG..
  local to=$1 target=$2
  shift 2
  examples "$to" && block $docs/libs2union-dev/INSTALL.md cmake |
    sed "s/s2union::s2union)/$target)/" >"$to/CMakeLists.txt" &&
    cmake -S "$to" -B "$to" "$@" && cmake --build "$to" && ran "$to"
}
step "C and C++ by pkg-config, shared" by_pkg_config "$work/shared" shared
step "it is shared" links "$work/shared/y" yes
step "C and C++ by pkg-config, static" by_pkg_config "$work/static" static
step "it is static" links "$work/static/y" no
step "C and C++ by CMake, shared" by_cmake "$work/cmake-shared" s2union::s2union
step "it is shared" links "$work/cmake-shared/x" yes
step "C and C++ by CMake, static" by_cmake "$work/cmake-static" s2union::static
step "it is static" links "$work/cmake-static/x" no
flags() { echo $(pkg-config --cflags --libs s2union); }
step "pkg-config names no folder that the compiler knows" says "-ls2union" flags

# ---- Python

step "install python3-s2union" by_page 'python3-s2union_*.deb'
page() { (cd / && "$1" -m doctest $docs/python3-s2union/PYTHON.md); }
step "docs/PYTHON.md" page python3
step "the wheel in a venv" by_page 's2union-*-manylinux_*.whl'
step "docs/PYTHON.md there" page "$work/venv/bin/python"
with_numpy() { # the module for points, once numpy is there
  apt-get install -y --no-install-recommends python3-numpy &&
    says 5180949494577750587 python3 -c 'from s2union_geo import leaf; print(leaf(2.3522, 48.8566))'
}
step "s2union_geo, with numpy" with_numpy
own_library() { "$work/venv/bin/python" -c 'import s2union; print(open("/proc/self/maps").read())' |
  grep "$work/venv/.*/libs2union.so.1\$"; }
step "with the library of the wheel" own_library

# ---- Go and Rust

program_of() { # PAGE LANGUAGE FOLDER FILE: the page's program, and what it prints
  mkdir -p "$(dirname "$3/$4")" && block "$1" "$2" >"$3/$4" && block "$1" "text $2" >"$3/wanted" && [ -s "$3/$4" ]
}
in_go() ( # FOLDER PAGE GOPATH
  program_of "$2" go "$1" main.go && cd "$1" && GO111MODULE=off GOPATH=$3 GOCACHE=$work/go-cache go build -o x &&
    ./x >said && diff wanted said
)
in_rust() ( # FOLDER PAGE REGISTRY
  program_of "$2" rust "$1" src/main.rs && cd "$1" &&
    printf '%s\n' '[package]' 'name = "x"' 'version = "1.0.0"' 'edition = "2021"' '[dependencies]' \
      "s2union = { path = \"$3/s2union-$version\" }" >Cargo.toml &&
    CARGO_HOME=$work/cargo cargo build --quiet --offline && target/debug/x >said && diff wanted said
)
step "install golang-s2union-dev" by_page 'golang-s2union-dev_*.deb'
step "docs/GO.md" in_go "$work/go" $docs/golang-s2union-dev/GO.md /usr/share/gocode
step "install librust-s2union-dev" by_page 'librust-s2union-dev_*.deb'
step "docs/RUST.md" in_rust "$work/rust" $docs/librust-s2union-dev/RUST.md /usr/share/cargo/registry
step "it is static" links "$work/rust/target/debug/x" no
for_serde() ( # the crate beside it names it by its folder there
  cd "/usr/share/cargo/registry/s2union_serde-$version" && [ -s src/lib.rs ] && [ -s README.md ] &&
    cd "$(sed -n 's/^s2union = .*path = "\(.*\)".*/\1/p' Cargo.toml)" && [ -s src/lib.rs ]
)
step "s2union_serde beside it" for_serde

# ---- SQLite

step "install libsqlite3-mod-s2union" by_page 'libsqlite3-mod-s2union_*.deb'
step "a query in SQLite" says "1c|1" sqlite3 -batch :memory: ".load mod_s2union" \
  "SELECT s2_tokens(s2_difference('1', '04 0c 14')), s2_contains('1', '1c03')"

earth() ( # the folder that the page makes of the packages has what its commands expect
  sudo() { "$@"; }
  eval "$(grep -m 1 -A 1 '^    sudo install' $docs/libs2union-dev/GEO.md)" && [ "$PWD" = /srv/earth ] &&
    [ -s examples/cover.cc ] && ./s2calc --version && python3 -c 'import s2union' &&
    says 1c sqlite3 -batch -cmd ".load $PREFIX/lib/sqlite3/mod_s2union" :memory: "SELECT s2_tokens('1c')" &&
    says 5180949494577750587 sqlite3 -batch -cmd ".load $PREFIX/lib/sqlite3/mod_s2union_geo" :memory: \
      "SELECT s2_leaf_at(2.3522, 48.8566)" &&
    rm -r /srv/earth
)
step "docs/GEO.md: a folder for it" earth

# ---- PostgreSQL, on a socket of its own

step "install s2union-doc" installed ./s2union-doc_*.deb
of_reference() { [ -s /usr/share/doc/s2union-doc/html/index.html ] && man -w s2u_level; }
step "the reference, and man s2u_level" of_reference
step "install postgresql-15-s2union" by_page 'postgresql-15-s2union_*.deb'
bin=/usr/lib/postgresql/15/bin
as_postgres() { (cd / && runuser -u postgres -- "$@"); }
data=$work/data
server() {
  local settings="-c listen_addresses= -c unix_socket_directories=$data -c dynamic_shared_memory_type=mmap"
  install -d -o postgres "$data" && chmod 755 /trial "$work" && as_postgres "$bin/initdb" -D "$data" -A trust &&
    as_postgres "$bin/pg_ctl" -D "$data" -l "$data/log" -w -o "$settings" start
}
database=postgres
psql() { as_postgres "$bin/psql" -h "$data" -XAqt -v ON_ERROR_STOP=1 -d "$database" -c "$1"; }
step "a server" server
parks="CREATE TABLE parks (name text, region s2union); CREATE INDEX ON parks USING gin (region);
  INSERT INTO parks VALUES ('north', '04 0c 14'), ('south', '1c')"
scripts=/usr/share/postgresql/15/extension
present=$(sed -n "s/^default_version = '\(.*\)'$/\1/p" $scripts/s2union.control)
query="SELECT s2_union_agg(region), (SELECT extversion FROM pg_extension WHERE extname = 's2union') FROM parks"
updated() { # VERSION: the extension of it, with a table, is updated in a database of its own
  local database=from-$1
  as_postgres "$bin/createdb" -h "$data" "$database" && psql "CREATE EXTENSION s2union VERSION '$1'; $parks" &&
    psql "ALTER EXTENSION s2union UPDATE" && says "1|$present" psql "$query"
}
for earlier in $(ls $scripts | sed -n 's/^s2union--\([0-9.]*\)--.*/\1/p'); do
  step "version $earlier of the extension, and its update" updated "$earlier"
done
step "the extension" psql "CREATE EXTENSION s2union; $parks"
step "a query in PostgreSQL" says "1|$present" psql "$query"
step "the extension for points" psql "CREATE EXTENSION s2union_geo"
step "a point in PostgreSQL" says 47e66e1d8f8be23b psql "SELECT s2_token(s2_leaf_at(2.3522, 48.8566))"
versions() { # what each part says
  s2calc --version | cut -d ' ' -f 2
  pkg-config --modversion s2union
  python3 -c 'import importlib.metadata, s2union; print(s2union.__version__, importlib.metadata.version("s2union"))'
  sqlite3 -batch :memory: ".load mod_s2union" "SELECT s2_version()"
  psql "SELECT s2_version()"
}
one_version() { versions | tr ' ' '\n' | sort | uniq -c; }
step "one version" says "      6 $version" one_version
step "DROP EXTENSION" psql "DROP EXTENSION s2union CASCADE"
step "the server ends" as_postgres "$bin/pg_ctl" -D "$data" -m fast -w stop

# ---- the tarball, in a folder of its own

unpacked() ( # and its SHA256SUMS fit
  as_the_page_says 's2union-*-x86_64-linux.tar.*' && mv "$PWD" "$work/all"
)
step "unpack the tarball" unpacked

# ---- away again

packages=(s2calc libs2union1 libs2union-dev python3-s2union golang-s2union-dev librust-s2union-dev
  libsqlite3-mod-s2union postgresql-15-s2union s2union-doc)
step "remove all packages" apt-get purge -y "${packages[@]}"
step "nothing is left of them" nothing_of_ours
step "the tarball's program" says "$first" row "$work/all/bin/s2calc"
# With the tarball's own pages, and with its library by the line of docs/INSTALL.md.
of_tarball() (
  docs=$work/doc
  mkdir -p "$docs" && ln -sfn "$work/all/docs" "$docs/libs2union-dev" &&
    line=$(grep -m 1 '^    export PKG_CONFIG_PATH=' /trial/INSTALL.md) && eval "${line//PREFIX/$work/all}" && "$@"
)
step "C and C++ by its files for pkg-config" of_tarball by_pkg_config "$work/of-tarball" shared
step "and static" of_tarball by_pkg_config "$work/of-tarball-static" static
step "docs/GO.md by its sources" of_tarball in_go "$work/go-of-tarball" "$work/all/docs/GO.md" "$work/all/share/gocode"
step "docs/RUST.md by its sources" of_tarball in_rust "$work/rust-of-tarball" "$work/all/docs/RUST.md" \
  "$work/all/share/cargo/registry"
step "C and C++ by its package for CMake" of_tarball by_cmake "$work/cmake-of-tarball" s2union::s2union \
  "-DCMAKE_PREFIX_PATH=$work/all"
by_java() { # JAR: the program of the page
  block "$work/all/docs/JAVA.md" java >"$work/Program.java" &&
    block "$work/all/docs/JAVA.md" "text java" >"$work/wanted" &&
    java -cp "$1" "$work/Program.java" >"$work/said" &&
    [ -s "$work/wanted" ] && diff "$work/wanted" "$work/said"
}
step "docs/JAVA.md by its jar" by_java "$work/all/share/s2union/java/s2union.jar"
step "and by the jar in the folder" by_java "$(printf '%s\n' /trial/packages/s2union-*.jar | head -1)"
in_node() { # FENCE: a program of the page
  mkdir -p "$work/node/node_modules" && cp -rT "$work/all/share/s2union/js" "$work/node/node_modules/s2union" &&
    block "$work/all/docs/JS.md" "$1" >"$work/node/x.mjs" && block "$work/all/docs/JS.md" "text $1" >"$work/wanted" &&
    [ -s "$work/wanted" ] && node "$work/node/x.mjs" >"$work/said" && diff "$work/wanted" "$work/said"
}
for fence in js "js geo"; do step "docs/JS.md by its package: $fence" in_node "$fence"; done
of_page() { # what computes in the page, by itself
  sed -n '/<script id="computes">/,/<\/script>/p' "$work/all/share/s2union/page/index.html" | sed '1d;$d' |
    sed 's/self\.onmessage/globalThis.onmessage/' >"$work/page.js" &&
    echo 'Core.from(unpacked(MODULE)).then((it) => console.log(it.tokens(it.complement(it.read("1 3 5 7 9")))));' \
      >>"$work/page.js" && says b node "$work/page.js"
}
step "the module of its page" of_page
module=$work/all/lib/sqlite3/mod_s2union
step "its extension for SQLite" says 1c sqlite3 -batch :memory: ".load $module" "SELECT s2_tokens('1c')"
# ---- an image: the last one, since it leaves no lists of packages

image() { # what the Containerfile copies and runs
  local files to
  files=$(sed -n 's/^COPY //p' /trial/Containerfile) && to=${files##* } && cd /trial/packages && mkdir -p "$to" &&
    cp ${files% *} "$to" && sed -n '/^RUN /,/[^\\]$/p' /trial/Containerfile | sed '1s/^RUN //' >"$work/steps" &&
    bash -e "$work/steps"
}
step "the steps of the Containerfile" image
step "s2calc in it" says "$first" row s2calc
step "Python in it" says 47e66e1d8f8be23b python3 -c \
  'import s2union, s2union_geo; print(s2union.token(s2union_geo.leaf(2.3522, 48.8566)))'
echo "$passed passed, $failed failed"
[ "$failed" -eq 0 ]
