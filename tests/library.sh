# The library, installed as a package would be, for the parts of the languages that link it. The caller has read
# tests/steps.sh, and said what else it needs.

need /usr/bin/python3 python3
need pkg-config pkg-config
need_packages
need_library
export PKG_CONFIG_PATH=$work/usr/lib/pkgconfig LD_LIBRARY_PATH=$work/usr/lib
include=$work/usr/include
static=$work/usr/lib/libs2union.a
noheap=$work/usr/lib/libs2union_noheap.a
strict=(-Wall -Wextra -pedantic -Werror)

# ---- questions and edges, with their answers

questions() { # what all bindings are asked; those for Go and Rust are also the plain model's, which they can't ask
  export PYTHONDONTWRITEBYTECODE=1
  PYTHONPATH=$top/tests /usr/bin/python3 -m model.edges >"$work/edges" &&
    PYTHONPATH=$top/tests /usr/bin/python3 -m model.vectors | cat - "$work/edges" >"$work/vectors"
}
export S2UNION_VECTORS=$work/vectors
export S2UNION_SHAPES=$work/shapes
export S2UNION_MAPS=$work/map-texts
export S2UNION_READINGS=$work/shape-texts

# ---- the programs of the docs

program_of() { # PAGE LANGUAGE FILE: writes the page's program to a file
  block "$1" "$2" >"$3"
  [ -s "$3" ] || { echo "$1 has no program in $2"; return 1; }
}
says() { # PAGE LANGUAGE COMMAND..: whether a program says what the page says that it does
  block "$1" "text $2" >"$work/want-$2"
  "${@:3}" >"$work/said-$2" && diff "$work/want-$2" "$work/said-$2"
}
documented() { # LANGUAGE COMPILER..
  local language=$1
  shift
  program_of bindings/c/README.md "$language" "$work/x.$language" || return 1
  (
    cd "$work" && export PATH=/usr/bin:/bin # where no kit is
    "$@" "${strict[@]}" "x.$language" $(pkg-config --cflags --libs s2union) -o "x-$language" \
      && says bindings/c/README.md "$language" "./x-$language"
  )
}
