#!/usr/bin/env bash
# Whether files run with the C library that docs/INSTALL.md names: glibc FILE.. It is glibc 2.34 for the program s2calc,
# and for all else 2.14 on x86-64, and 2.17 on 64-bit ARM. What a file wants of a newer one is printed, and then the
# status is 1.
set -euo pipefail
is_newer() { [ "$1" != "$2" ] && [ "$(printf '%s\n' "$1" "$2" | sort -V | tail -1)" = "$1" ]; }
status=0
for file; do
  case $(basename "$file") in s2calc) most=2.34 ;; *) most=2.14 ;; esac
  case $most$(readelf -hW "$file" | sed -n 's/^ *Machine: *//p') in 2.14AArch64) most=2.17 ;; esac
  while read -r name; do
    if is_newer "${name#*@GLIBC_}" "$most"; then echo "$file: $name" && status=1; fi
  done < <(nm -D --undefined-only "$file" | grep -o '[^ ]*@GLIBC_[0-9.]*')
done
exit "$status"
