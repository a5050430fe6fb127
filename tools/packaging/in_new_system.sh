#!/usr/bin/env bash
# Runs a trial in a new system of Debian's packages: in_new_system PACKAGES FOLDER. mmdebstrap makes it, from this
# machine's own package sources, with these packages and what they need. FOLDER is in it as /trial, whose `run` is run
# by root, and then the system is gone. The status is 1 unless the trial's last line is 'N passed, 0 failed'.
set -euo pipefail
as_root=()
[ "$(id -u)" -eq 0 ] || as_root=(sudo -n)
if ! command -v mmdebstrap >/dev/null; then
  "${as_root[@]}" apt-get update && "${as_root[@]}" apt-get install -y --no-install-recommends mmdebstrap
fi
mapfile -t sources < <(bash "$(dirname "$0")/sources.sh") # the release, and files of package sources
work=$(mktemp -d)
trap 'rm -rf "$work"' EXIT
cp -r "$2" "$work/trial"
"${as_root[@]}" mmdebstrap --quiet --variant=minbase --format=null --include="$1" --skip=cleanup \
  --customize-hook="copy-in '$work/trial' /" \
  --customize-hook='chroot "$1" bash /trial/run 2>&1 || true' \
  "${sources[0]}" - "${sources[@]:1}" 2>&1 | tee "$work/said" # it says on standard error what its hooks say
tail -n 1 "$work/said" | grep -q '^[1-9][0-9]* passed, 0 failed$'
