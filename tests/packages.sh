#!/usr/bin/env bash
# The packages: tests/run packages. They are made twice, and installed, used and removed in a new system. What would do
# harm in one is planted in a library of one call, and has to be refused. The last line is 'N passed, M failed'; the
# status is 1 if any failed.
. "$(dirname "$0")/steps.sh"

need gcc gcc libc6-dev
need_packages
looked_at() { # SOURCE FLAG..: what is said of a library that is made of this
  rm -rf "$work/planted" && mkdir "$work/planted" &&
    gcc -O2 -g0 -fPIC -shared -Wl,-z,relro,-z,now -x c - "${@:2}" -o "$work/planted/mod_s2union.so" <<<"$1" &&
    bash "$top/tools/packaging/hostile.sh" "$work/planted" /where/it/was/made
}
refused() { # FAULT SOURCE FLAG..
  local said
  said=$(looked_at "${@:2}") && return 1
  echo "$said" && [[ $said == "FAILED mod_s2union.so"*"$1"* ]]
}
nothing() { mkdir "$work/empty" && ! bash "$top/tools/packaging/hostile.sh" "$work/empty" >/dev/null; }
entry='int sqlite3_extension_init(void) { return 0; }'
step "a library without fault" looked_at "$entry"
step "refused: no file" nothing
step "refused: a path" refused "no path" "$entry const char *at(void) { return \"/where/it/was/made/x\"; }"
step "refused: an executable stack" refused "stack is not executable" "$entry" -Wl,-z,execstack
step "refused: a folder for libraries" refused "in a folder of its own" "$entry" -Wl,-rpath,/x
step "refused: code that is written" refused "its code is not written" \
  "long x; $entry long sqlite3_sunion_init(void) { return (long)&x; }" -fno-pic -mcmodel=large -Wl,-z,notext
step "refused: links that stay writable" refused "what is linked is read only" "$entry" -Wl,-z,norelro
step "refused: another library" refused "needs the C library alone" "$entry" -Wl,--no-as-needed -l:libgcc_s.so.1
step "refused: a newer C library" refused "the C library that docs/INSTALL.md names" "#include <math.h>
  $entry __attribute__((visibility(\"hidden\"))) double at(double x, double y) { return hypot(x, y); }" -lm
step "refused: a name that nothing defines" refused "nothing but C's calls" \
  "int nobody(void); $entry int sqlite3_sunion_init(void) { return nobody(); }"
step "refused: another entry point" refused "exports its entry points" "$entry int other(void) { return 0; }"
step "refused: no entry point" refused "has an entry point" "int sqlite3_sunion_init(void) { return 0; }"
[ "$failed" -eq 0 ] || finish

# What another has put there, and what an earlier call has.
mkdir "$work/packages" && touch "$work"/packages/{mine_1.deb,mine.tar.gz,mine.whl,s2calc_0.1.0_amd64.deb}
step "the same packages twice" "$top/tools/package" "$work/packages" --twice
[ "$failed" -eq 0 ] || finish
others_stay() (
  cd "$work/packages" && [ -e mine_1.deb ] && [ -e mine.tar.gz ] && [ -e mine.whl ] && [ ! -e s2calc_0.1.0_amd64.deb ]
)
step "files of others stay in the folder, and older packages don't" others_stay
names_of() { # PACKAGE: the names of its files
  case $1 in
    *.deb) dpkg-deb --fsys-tarfile "$1" | tar -t ;;
    *.tar.xz | *.tgz) tar -tf "$1" ;;
    *) /usr/bin/python3 -c 'import sys, zipfile; print(*zipfile.ZipFile(sys.argv[1]).namelist(), sep="\n")' "$1" ;;
  esac
}
users_files() { # FOLDER: no package in it has tests of Go, or the mistakes that ours have to refuse
  local package
  for package in $(sed 's/^[^ ]* [ *]//' "$1/SHA256SUMS"); do
    names_of "$1/$package" >"$work/names" && [ -s "$work/names" ] || { echo "$package has no files" && return 1; }
    ! grep -E '_test\.go$|(^|/)mutants\.txt$' "$work/names" || { echo "in $package" && return 1; }
  done
  [ -n "${package:-}" ]
}
step "no package has Go's tests or mutants" users_files "$work/packages"
step "nor one for ARM" users_files "$work/packages/aarch64"
of_another_version() ( # the program says that it is; nothing is made of it
  local other=$work/other
  mkdir -p "$other/crates/calculator/out" "$other/tests" "$other/bin" && cd "$other" && cp -r "$top/tools" . &&
    cp "$top/VERSION" . && cp "$top/tests/steps.sh" tests/ && printf '#!/bin/sh\n' | tee tools/prove >bin/rt &&
    printf '#!/bin/sh\necho s2calc 7.8.9\n' >crates/calculator/out/calculator &&
    chmod +x tools/prove bin/rt crates/calculator/out/calculator || return 1
  ! PATH=$other/bin:$PATH SOURCE_DATE_EPOCH=1 tools/package "$other/made" >said 2>&1 &&
    grep "^not of version $(cat VERSION): .*/calculator$" said && [ -z "$(ls "$other/made")" ]
)
step "refused: a program of another version" of_another_version
for_arm() (
  cd "$work/packages/aarch64" && sha256sum --quiet -c SHA256SUMS && [ -e s2union-*-aarch64-linux.tar.xz ] &&
    [ -e s2union-*-manylinux_2_17_aarch64.whl ] && [ "$(dpkg-deb -f s2calc_*_arm64.deb Architecture)" = arm64 ]
)
step "those for ARM are in a folder of their own" for_arm
step "each is installed, used and removed" "$top/tools/package-trial" "$work/packages"
finish
