#!/usr/bin/env bash
# Makes the wheels for systems with another C library than glibc: wheels SOURCE FOLDER. SOURCE is the folder that
# tools/portable makes, whose library is linked into the module. pyconfig.h and python3.def stand for what Python has on
# those systems, since Debian has its headers for Linux alone. For Windows the wheel is for CPython 3.11 or later: the
# python3.dll of older ones lacks what passes a buffer.
set -euo pipefail
here=$(CDPATH= cd "$(dirname "$0")" && pwd)
source=$(realpath "$1") folder=$(realpath "$2")
work=$(mktemp -d)
trap 'rm -rf "$work"' EXIT
python=$here/..
headers=$(/usr/bin/python3 -c 'import sysconfig; print(sysconfig.get_path("include"))')
cp -rs "$headers" "$work/include" && rm "$work/include/pyconfig.h" && cp "$here/pyconfig.h" "$work/include/"
x86_64-w64-mingw32-dlltool --temp-prefix python3 -d "$here/python3.def" -l "$work/libpython3.a"

/usr/bin/python3 -B "$here/../../../tools/methods.py" "$work/made" \
  "$python"/s2union/{__init__.py,_library.pyi,_rooms.py,calls.h}

while read -r system platform oldest name library; do
  module=$work/$system/s2union
  mkdir -p "$module" "$work/$system/s2union_geo"
  cp "$python"/s2union/{*.py,py.typed} "$module/"
  cp "$work"/made/*.py* "$module/"
  cp "$python"/s2union_geo/{*.py,py.typed} "$here/../../../page/land.cells" "$work/$system/s2union_geo/"
  bash "$here/../../../tools/packaging/shared_for.sh" "$system" "$source" "$module/$name" PyInit__library \
    -DS2UNION_WITHIN -Wall -Wextra -I"$work/include" -I"$work/made" "$python/s2union/_library.c" \
    ${library:+"$work/$library"}
  bash "$here/wheel.sh" "$module" "$platform" "$folder" "$oldest"
done <<'TABLE'
x86_64-musl musllinux_1_2_x86_64 cp38 _library.abi3.so
aarch64-musl musllinux_1_2_aarch64 cp38 _library.abi3.so
x86_64-windows win_amd64 cp311 _library.pyd libpython3.a
x86_64-macos macosx_10_12_x86_64 cp38 _library.abi3.so
aarch64-macos macosx_11_0_arm64 cp38 _library.abi3.so
TABLE
