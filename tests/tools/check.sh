#!/usr/bin/env bash
# What the commands of tools/ say of words that they don't know, of other sources, and without the kit: tests/run tools.
# Where no archive was kept, and no kit is that makes it, what is asked of it is left out. It installs the Debian
# packages that it needs. The last line is 'N passed, M failed'; the status is 1 if any failed.
. "$(dirname "$0")/../steps.sh"
taken=--no-build
command -v rt >/dev/null || "$top/tools/archive" --is-kept || { taken=--released && need xz xz-utils; }
need_linker
need_packages

taken_after() { # FOLDER: a run waits for one that makes it of the same sources, and takes what that kept
  /usr/bin/python3 - "$1" <<'END'
import os, runpy, shutil, subprocess, sys
sys.path.insert(0, "tools")
archive = runpy.run_path("tools/archive")
with archive["alone"](archive["sum_of_sources"]("s2union_c")):
    run = subprocess.Popen(["tools/archive"], stdout=subprocess.PIPE, text=True)
    said = run.stdout.readline()
    shutil.copytree(sys.argv[1], os.path.join(archive["KEPT"], "made"))
said += run.stdout.read()
print(said)
sys.exit("this waits for another run" not in said or "was kept" not in said or run.wait())
END
}
own_sources() ( # in a copy, where no kit is, the archive stays as long as its sources do
  cd "$top" && mkdir "$work/copy" &&
    cp -r --parents tools crates.txt crates/*/{src,specs,proofs} \
      crates/s2union_c/out/{libs2union_c.a,heap.o,s2union_c.bc,archive.json} "$work/copy" && cd "$work/copy" &&
    export PATH=/usr/bin:/bin XDG_CACHE_HOME=$work/cache &&
    tools/archive && mv crates/s2union_c/out "$work/made" && taken_after "$work/made" &&
    echo >>crates/s2cell/src/lib.rt && ! tools/archive
)
if [ "$taken" = --no-build ]; then
  step "tools/archive" "$top/tools/archive" --jobs 1
  step "tools/archive: no archive of other sources" own_sources
else
  echo "       without Rattle's kit: there is no archive, so none of other sources is tried" && mkdir "$work/copy"
fi
without_kit() ( # in that copy, which has no archive and no program: what needs the kit says so, and installs nothing
  local command
  cd "$top" && cp -r --parents .ci VERSION tests tools "$work/copy" && mkdir "$work/installers" || return
  for command in apt-get sudo; do
    printf '#!/bin/sh\necho "$0 $*" >>%q\n' "$work/installed" >"$work/installers/$command"
    chmod +x "$work/installers/$command"
  done
  export PATH=$work/installers:/usr/bin:/bin XDG_CACHE_HOME=$work/cache SOURCE_DATE_EPOCH=0
  for command in ".ci/run" "tests/run --tier full" "tests/run docs mutants" "tools/package $work/none" \
    "tools/portable $work/none"; do
    ! timeout 600 "$work/copy/"$command >"$work/refused" 2>&1 && grep -q "Rattle's kit is missing" "$work/refused" &&
      [ "$(tail -1 "$work/refused")" = "0 passed, 1 failed" ] || { echo "$command" && cat "$work/refused" && return 1; }
  done
  [ ! -e "$work/installed" ] || { cat "$work/installed" && return 1; }
)
step ".ci/run, tests/run, tools/package: nothing is installed without the kit" without_kit
unknown_words() { # and nothing is written for them
  local words
  for words in "tools/calls --chek" "tools/statement --chek" "tools/prove --chek" "tools/library $work/none --chek" \
    "bindings/java/package $work/none --chek" "tools/package $work/none --chek" "tools/portable $work/none --chek"; do
    ! "$top/"$words >"$work/refused" 2>&1 && grep -q "${words%% *} has no option --chek" "$work/refused" ||
      { echo "$words" && cat "$work/refused" && return 1; }
  done
  [ ! -e "$work/none" ]
}
step "tools/: words that they don't know" unknown_words
below() ( # a folder that isn't named from the root
  cd "$work" && DESTDIR=below "$top/tools/library" /usr "$taken" && [ -e below/usr/lib/libs2union.so.1 ]
)
step "tools/library: below a DESTDIR" below
of_release() ( # what links with it has the calls of dist/, and the headers of this checkout
  "$top/tools/library" "$work/released" --released && cd "$work/released" &&
    printf '%s\n' '#include <s2union.h>' '#include <stdio.h>' \
      'int main(void) { return printf("%u\n", s2u_version()) < 0 || s2u_parent(5, 0) == 0; }' >x.c &&
    gcc -Iinclude x.c lib/libs2union.a -o x && ./x
)
step "tools/library: the library of the release" of_release
tags() ( # in a clone each version has its tag, at a commit of it; the same a second time, and none is moved
  local version commit names
  git clone -q "$top" "$work/tagged" && cp "$top/tools/release" "$work/tagged/tools/" &&
    cp "$top/CHANGELOG.md" "$work/tagged/" && cd "$work/tagged" && tools/release --tags || return 1
  while read -r version commit; do
    [[ $(git rev-parse "v$version^{commit}") = "$commit"* ]] &&
      { [ "$version" = 0.1.0 ] || [ "$(git show "v$version:VERSION")" = "$version" ]; } ||
      { echo "$version" && return 1; }
  done < <(awk '/^## [0-9]/ { version = $2 } sub(/^Made from commit /, "") { print version, substr($1, 1, 10) }' \
    CHANGELOG.md)
  [ "$(git rev-parse bindings/go/v1.3.0^{commit})" = "$(git rev-parse v1.3.0^{commit})" ] &&
    ! git rev-parse -q --verify refs/tags/bindings/go/v1.2.0 && names=$(git for-each-ref refs/tags) &&
    tools/release --tags && [ "$names" = "$(git for-each-ref refs/tags)" ] && git tag -f v1.0.0 HEAD &&
    names=$(git for-each-ref refs/tags) && ! tools/release --tags && [ "$names" = "$(git for-each-ref refs/tags)" ]
)
if [ "$(git -C "$top" rev-parse --is-shallow-repository)" = false ]; then
  step "tools/release --tags: each version of CHANGELOG.md" tags
else
  echo "       this clone lacks the commits of releases: their tags are not tried"
fi
finish
