#!/usr/bin/env bash
# Fetches Debian's source package of S2 from the package sources that this machine has, and unpacks it:
# s2_sources FOLDER makes FOLDER/source, if it isn't there.
. "$(dirname "$0")/../tools/usage.sh"
[ -n "${1:-}" ] || { echo "the folder is missing: bench/s2_sources.sh FOLDER" >&2; exit 2; }
folder=$(realpath -m "$1")
[ ! -d "$folder/source" ] || exit 0
. "$(dirname "$0")/../tests/steps.sh"
need dpkg-source dpkg-dev
need_packages
set -e
mkdir -p "$folder/lists/partial" "$folder/sources"
cd "$folder"
for file in /etc/apt/sources.list /etc/apt/sources.list.d/*; do
    case $file in
    *.list) [ ! -e "$file" ] || sed -n 's/^deb /deb-src /p' "$file" >"sources/$(basename "$file")" ;;
    *.sources) sed 's/^Types:.*/Types: deb-src/' "$file" >"sources/$(basename "$file")" ;;
    esac
done
own=(-o Dir::Etc::sourcelist=/dev/null -o Dir::Etc::sourceparts="$PWD/sources"
    -o Dir::State::lists="$PWD/lists" -o APT::Get::List-Cleanup=0)
apt-get "${own[@]}" update >&2
apt-get "${own[@]}" source --download-only s2geometry >&2
rm -rf unpacked # of a call that came to no end
dpkg-source -x s2geometry_*.dsc unpacked >&2
mv unpacked source
