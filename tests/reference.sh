#!/usr/bin/env bash
# The reference: tests/run reference. With --short, as the gate has it, the parts that need no compiler; tests/run java
# asks the one for Java. It installs the Debian packages that it needs. Its last line is 'N passed, M failed'; the
# status is 1 if any failed.
. "$(dirname "$0")/steps.sh"
parts=()
[ "${1:-}" != --short ] || parts=(c cpp python go javascript sql pages)

need doxygen doxygen
need go golang-go
need_modules sphinx,numpydoc,markdown python3-{sphinx,numpydoc,markdown}
[ ${#parts[@]} -gt 0 ] || { need javadoc openjdk-17-jdk-headless && need cargo cargo; }
need_packages
step "tools/reference, each warning an error" "/usr/bin/python3" "$top/tools/reference" "$work/made" "${parts[@]}"
[ "$failed" -eq 0 ] || finish
by_man() { # each call has a page, which names its errors; the header's name is that of the include
  local call
  man -l "$work/made/man/man3/s2union.h.3" >"$work/said" && grep -q '^ *s2union.h - ' "$work/said" || return 1
  for call in $(grep -oE '\bs2u_[a-z_]+\(' \
    "$top/crates/s2union_c/include/s2union.h" | tr -d '('); do
    [ -s "$work/made/man/man3/$call.3" ] && grep -q "$call *(" "$work/said" || { echo "$call" && return 1; }
  done
}
by_sql() { ! grep -F "&#x27;&#x27;" "$work/made/sql/index.html"; }
step "SQL: the quotes of comments, once each" by_sql
of_python() { [ ! -e "$work/made/python/objects.inv" ]; }
step "Python: no list of names for other references" of_python
warned() ( # a text in a docstring that has no end: sphinx warns of it, and goes on
  mkdir "$work/copy" && cd "$top" &&
    cp -r --parents VERSION tools crates/s2union_c/{include,src} bindings/python "$work/copy" && cd "$work/copy" &&
    sed -i 's/^\[call.face\]$/&\npython.says = "``has no end"/' tools/methods.toml &&
    ! /usr/bin/python3 tools/reference "$work/refused" python >"$work/said" && grep -q WARNING "$work/said"
)
step "Python: a warning is an error" warned
if command -v man >/dev/null; then step "the manual pages" by_man; fi
finish
