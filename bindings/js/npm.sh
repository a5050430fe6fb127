#!/usr/bin/env bash
# Packs the package for JavaScript as `npm pack` does, for `npm install ./FILE`: npm PACKAGE FILE. The same files make
# the same bytes, with the time of SOURCE_DATE_EPOCH.
set -euo pipefail
same=(--sort=name "--mtime=@$SOURCE_DATE_EPOCH" --owner=0 --group=0 --numeric-owner --format=ustar --mode=u=rw,go=r)
(cd "$1" && tar "${same[@]}" --transform 's|^|package/|' -c -- *) | gzip -9n >"$2"
