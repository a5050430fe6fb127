# What the parts in bash share. $top is the repository and $work a folder for this run, which goes at its end.
set -uo pipefail
umask 022 # a server that root starts as another user reads what is made here
export LC_ALL=C.UTF-8
unset LANGUAGE PYTHONPATH PYTHONSTARTUP # no locale and no module of the user's changes what is found
top=$(CDPATH= cd "$(dirname "${BASH_SOURCE[0]}")/.." && pwd)
work=$(mktemp -d)
trap 'rm -rf "$work"' EXIT
passed=0 failed=0

step() { # NAME COMMAND..: its output is shown if it fails
  local name=$1 checks
  shift
  if "$@" >"$work/log" 2>&1 && ! counts_nothing; then
    passed=$((passed + 1))
    checks=$(sed -nE 's/^([0-9]+) passed, 0 failed$/: \1 checks/p' "$work/log")
    echo "ok     $name${checks##*$'\n'}"
    grep -E ' us a row$| ms$| branches$' "$work/log" | sed 's/^/         /'
  else
    failed=$((failed + 1))
    echo "FAILED $name"
    tail -40 "$work/log"
  fi
}

counts_nothing() { # whether what a step ran counts its checks, and none was made: all were left out, say
  grep -qE '^0 passed, 0 failed$' "$work/log" && echo "no check was made" >>"$work/log"
}

finish() {
  echo "$passed passed, $failed failed"
  [ "$failed" -eq 0 ]
  exit
}

update_lists() { # WORD..: `WORD.. apt-get update`, once no other one runs: it has no option to wait for that
  local said
  for _ in {1..60}; do
    said=$(LC_ALL=C "$@" apt-get update 2>&1) && return
    [[ $said == *"Unable to lock directory"* ]] || break
    sleep 10
  done
  echo "$said" && return 1
}

as_root=()
[ "$(id -u)" -eq 0 ] || as_root=(sudo -n)

unpacked() { # FOLDER PACKAGE..: the files of Debian packages, which aren't installed
  local folder=$1 file
  (cd "$folder" && { apt-get download "${@:2}" || { update_lists "${as_root[@]}" && apt-get download "${@:2}"; }; }) &&
    for file in "$folder"/*.deb; do dpkg -x "$file" "$folder" || return; done
}

install_packages() { # one run after the other
  (
    flock 9 && update_lists "${as_root[@]}" &&
      "${as_root[@]}" apt-get -o DPkg::Lock::Timeout=600 install -y --no-install-recommends "$@"
  ) 9>"/tmp/s2union-packages.$(id -u)"
}

# ---- what is needed: need_packages installs the Debian packages whose parts these miss

packages=()
need() { # COMMAND PACKAGE..
  command -v "$1" >/dev/null || packages+=("${@:2}")
}
need_file() { # PATH PACKAGE..
  [ -e "$1" ] || packages+=("${@:2}")
}
need_modules() { # NAME[,NAME..] PACKAGE..: of Debian's Python
  /usr/bin/python3 -c "import $1" 2>/dev/null || packages+=("${@:2}")
}
need_pytest() { # of Debian's Python
  need_modules pytest python3-pytest
}
need_headers() { # of Python
  [ -n "$(python_headers)" ] || packages+=(libpython3-dev)
}
need_installed() { # PACKAGE..
  local package
  for package; do # one that was removed is known too
    [ "$(dpkg-query -W -f '${db:Status-Status}' "$package" 2>/dev/null)" = installed ] || packages+=("$package")
  done
}
need_packages() {
  [ ${#packages[@]} -eq 0 ] && return
  step "Debian packages: ${packages[*]}" install_packages "${packages[@]}"
  [ "$failed" -eq 0 ] || { echo "these packages are needed"; finish; }
  packages=()
}

# The headers of Python, for its module in C: the folder in which they are, or nothing.
python_headers() {
  local folder
  folder=$(/usr/bin/python3 -c 'import sysconfig; print(sysconfig.get_path("include"))' 2>/dev/null)
  [ ! -e "${folder:-.}/Python.h" ] || echo "$folder"
}

need_linker() { # what tools/library links with
  need gcc gcc libc6-dev
  [ ! -x /usr/bin/python3 ] || need_headers
}

# Which library is asked: where it was not proved and no kit is, the release's. Then tools/library and
# bindings/java/package are given what $released has.
released=()
choose_library() { # [--target PROCESSOR]
  ! command -v rt >/dev/null && ! "$top/tools/archive" --is-kept "$@" || return 0
  released=(--released)
  need xz xz-utils
  echo "       without Rattle's kit: the library of the release $(released_version) is asked, without what changed" \
    "in crates since then"
}

# libs2union and its module for Python, installed as a package would be, in $work/usr: what is in S2UNION_PREFIX, if
# that is set.
need_library() {
  if [ -n "${S2UNION_PREFIX:-}" ]; then
    cp -a "$S2UNION_PREFIX" "$work/usr"
    return
  fi
  need_linker
  choose_library
  need_packages
  step "tools/library${released:+ --released}" "$top/tools/library" "$work/usr" "${released[@]}"
  [ "$failed" -eq 0 ] || finish
}

python_made() { # FOLDER: the modules for Python as in a package of sources, with what is made of them
  local own=$top/bindings/python
  cp -r "$own" "$1" && /usr/bin/python3 -B "$top/tools/methods.py" "$1/s2union" \
    "$own"/s2union/{__init__.py,_library.pyi,_rooms.py,calls.h}
}

places() { # $work/places: places in degrees, with the leaves that S2 has there
  (cd "$top/tests" && /usr/bin/python3 -Bc 'from model.places import POINTS
for place in POINTS: print(*place)') >"$work/places"
}

shapes() { # $work/shapes: shapes in degrees, with the coverings that the module for Python makes
  LD_LIBRARY_PATH=$work/usr/lib PYTHONDONTWRITEBYTECODE=1 PYTHONPATH=$top/tests:$work/usr/lib/python \
    /usr/bin/python3 -m model.shapes >"$work/shapes"
}

maps() { # [--compared]: $work/map-texts: texts of GeoJSON and bytes of WKB with their coverings
  LD_LIBRARY_PATH=$work/usr/lib PYTHONDONTWRITEBYTECODE=1 PYTHONPATH=$top/tests \
    /usr/bin/python3 -m model.maps "$@" >"$work/map-texts"
}

readings() { # $work/shape-texts: texts of GeoJSON and bytes of WKB with their shapes, compared with a plain reader
  LD_LIBRARY_PATH=$work/usr/lib PYTHONDONTWRITEBYTECODE=1 PYTHONPATH=$top/tests \
    /usr/bin/python3 -m model.readings >"$work/shape-texts"
}

need_compiler() { # what tools/page makes a module with
  [ -z "${S2UNION_MODULE:-}" ] || return 0
  need wasm-opt binaryen
  need_installed libclang-rt-14-dev-wasm64
  command -v rt >/dev/null && return
  need clang-15 clang-15
  need ld.lld lld
}

# The page and the package for JavaScript in $work/page, over the module that tools/page makes; or over that of the file
# S2UNION_MODULE, if that is set; or without a kit over that of the release's library.
need_page() {
  local words=(--jobs 1)
  need_compiler
  need_packages
  if [ -n "${S2UNION_MODULE:-}" ]; then
    words=(--module "$S2UNION_MODULE")
  elif ! command -v rt >/dev/null; then
    words=(--released)
    echo "       without Rattle's kit: the library of the release $(released_version) is in the module, without what" \
      "changed in crates since then"
  fi
  step "tools/page" "$top/tools/page" "$work/page" "${words[@]}"
  [ "$failed" -eq 0 ] || finish
}

released_version() { sed -n 's/^- Version: `\(.*\)`$/\1/p' "$top/dist/README.md"; }

old_glibc() { # FILE..: whether the C library that docs/INSTALL.md names will do
  bash "$top/tools/packaging/glibc.sh" "$@"
}

no_arithmetic() { # FILE
  /usr/bin/python3 "$top/tests/no_arithmetic.py" "$1"
}

block() { # PAGE FENCE: the first block of a page, by its path from the top, that begins with this fence
  awk -v start="\`\`\`$2" '$0 == start && !done { on = 1; next } /^```/ { if (on) done = 1; on = 0 } on' "$top/$1"
}

# ---- the lines of README.md for a language, whose last one says what it prints

lines_of() { # LANGUAGE BEFORE AFTER FILE: a program of these, between what each program there has
  printf '%s\n' "$2" "$(block README.md "$1")" "$3" >"$4" && block README.md "$1" | sed -n 's|.* // ||p' | tail -1 \
    >"$work/first-lines" && [ -s "$work/first-lines" ]
}
first_says() { # COMMAND..: whether the program prints that
  "$@" | diff "$work/first-lines" -
}

# ---- a page's web service, asked as the page does

serves() { # PAGE LANGUAGE COMMAND..: whether the server that the command starts answers as the page says
  local page=$1 language=$2 server status
  block "$page" "sh service" >"$work/asks" && block "$page" "text $language service" >"$work/answers" &&
    [ -s "$work/answers" ] || return
  PORT=$(/usr/bin/python3 -c 'import socket; print(socket.create_server(("127.0.0.1", 0)).getsockname()[1])')
  export PORT
  "${@:3}" &
  server=$!
  sed -i 's/^curl /curl -sS --retry 60 --retry-connrefused --retry-delay 1 /' "$work/asks"
  bash "$work/asks" >"$work/answered" && diff "$work/answers" "$work/answered"
  status=$?
  kill "$server"
  return "$status"
}

step_of_service() { # COMMAND..: a step of the variable `page`, where curl is there
  if command -v curl >/dev/null; then
    step "$page: a web service" "$@"
  else
    echo "       curl is not there: the page's web service is not asked"
  fi
}

# ---- mutants, in the form of tests/mutants/mutant_texts.py

mutant_texts() { # FILE [NAME FOLDER]
  /usr/bin/python3 "$top/tests/mutants/mutant_texts.py" "$@"
}

mutant() { # NAME SOURCE..: copies of the sources in $work/mutant, with the mistake if NAME isn't empty
  rm -rf "$work/mutant" && mkdir "$work/mutant" && cp -r "${@:2}" "$work/mutant" || return
  [ -z "$1" ] || mutant_texts "$mutants" "$1" "$work/mutant"
}

refuse() { # TEST..: status 0 if the tests find nothing, 1 if they do, 2 if they were killed, 124 if they took too long
  local status=0
  tests "$@" || status=$?
  case $status in
    0 | 124) return "$status" ;;
    137 | 143) echo "not tried: the tests were killed" && return 2 ;;
    *) return 1 ;;
  esac
}

found() { # NAME: also if its tests come to no end, while without it they still do in the same time
  survives "$1"
  case $? in
    1) ;;
    124) echo "the tests took too long" && survives "" ;;
    *) return 1 ;;
  esac
}

# Tries the mutants of a file, or those with these names. `survives NAME` of the caller ends with 0 if the tests find
# nothing, with 1 if they do, with 124 if they took too long, and with 2 if it is no mutant or wasn't tried.
try_mutants() { # FILE [NAME..]
  local names name
  mutants=$1
  mapfile -t names < <(mutant_texts "$mutants")
  shift
  [ $# -eq 0 ] || names=("$@")
  step "no mistake, no complaint" survives ""
  [ "$failed" -eq 0 ] || finish
  for name in "${names[@]}"; do step "$name" found "$name"; done
  finish
}
