#!/usr/bin/env bash
# Makes a wheel of the modules for Python: wheel MODULE PLATFORM FOLDER [PYTHON] [LIBRARY].
#
# MODULE is the folder of the module, compiled, with s2union_geo beside it; a LIBRARY is put into it. PLATFORM is that
# of the wheel's name, and PYTHON the oldest CPython that it is for: cp38, if it isn't named. As manylinux_PROCESSOR the
# platform is each Linux whose C library has the symbols that the module and the library want, by the newest of them.
# Debian's python3-build makes it. The same files make the same bytes, with the time of SOURCE_DATE_EPOCH.
set -euo pipefail
module=$1 platform=$2 folder=$(realpath "$3") python=${4:-cp38} library=${5:-}
top=$(CDPATH= cd "$(dirname "$0")/../../.." && pwd)
work=$(mktemp -d)
trap 'rm -rf "$work"' EXIT
wanted() { objdump -p "$@" | sed -n 's/.*0x.* GLIBC_\([0-9.]*\)$/\1/p' | sort -V | tail -1; }
case $platform in
  manylinux_*)
    newest=$(wanted "$module"/_library.abi3.so $library)
    platform=manylinux_${newest//./_}_${platform#manylinux_}
    ;;
esac
cp "$top"/bindings/python/{pyproject.toml,setup.py} "$work/"
python3 "$top/tools/packaging/described.py" "$work" bindings/python/README.md
cp -r "$module" "$work/s2union"
cp -r "$(dirname "$module")/s2union_geo" "$work/s2union_geo"
[ -z "$library" ] || install -m 644 "$library" "$work/s2union/"
chmod -R u=rwX,go=rX "$work"/s2union*
chmod 644 "$work"/s2union*/*
printf '[bdist_wheel]\nplat_name = %s\npy_limited_api = %s\n' "$platform" "$python" >"$work/setup.cfg"
/usr/bin/python3 -m build --wheel --no-isolation --skip-dependency-check --outdir "$work/dist" "$work"
python3 - "$work"/dist/*.whl <<'PYTHON' # as all its files, RECORD isn't its group's to write
import sys, zipfile
with zipfile.ZipFile(sys.argv[1], "a") as wheel:
    for it in wheel.infolist():
        it.external_attr &= ~(0o022 << 16)
    wheel.comment = wheel.comment  # so that the list of files is written again
PYTHON
mv "$work"/dist/*.whl "$folder/"
