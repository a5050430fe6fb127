#!/usr/bin/env bash
# Prints the release of this Debian, and then the files of this machine's package sources that have it, as mmdebstrap
# takes them to make another system of the same packages.
set -euo pipefail
suite=$(. /etc/os-release && echo "$VERSION_CODENAME")
echo "$suite"
for file in /etc/apt/sources.list /etc/apt/sources.list.d/*.list /etc/apt/sources.list.d/*.sources; do
  if [ -e "$file" ] && grep -qE "^(deb|Suites:).* $suite( |$)" "$file"; then echo "$file"; fi
done
