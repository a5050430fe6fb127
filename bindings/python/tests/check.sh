#!/usr/bin/env bash
# The tests of the modules for Python: tests/run python. It installs the Debian packages that it needs, except mypy and
# pandas (python3-pandas): what is for these is tested if they are there, and else a line says that it isn't. With
# --short, as the gate has it, the functions of the module in C are asked under the sanitizers alone. Its last line is
# 'N passed, M failed'; the status is 1 if any failed.
. "$(dirname "$0")/../../../tests/steps.sh"

need gcc gcc libc6-dev
need clang clang
need_pytest
need_modules numpy python3-numpy
need_modules shapely python3-shapely
need_modules hypothesis python3-hypothesis
need_modules matplotlib python3-matplotlib
need_modules pip,setuptools,wheel python3-{pip,setuptools,wheel}
need_headers
. "$top/tests/library.sh"
page=bindings/python/README.md

step "what is made of it" python_made "$work/source"
own=$work/source/s2union
for compiler in gcc clang; do
  step "its module in C, by $compiler" "$compiler" -std=gnu11 -O2 -Wall -Wextra -Werror -fPIC -shared \
    -I"$(python_headers)" -I"$include" "$own/_library.c" -o "$work/module-$compiler.so"
done
for file in _library.c calls.h places.h; do
  step "no arithmetic on cells: $file" no_arithmetic "$own/$file"
done
of_module() { # what the module wants and offers: what each Python from 3.8 on has
  local module=$work/usr/lib/python/s2union/_library.abi3.so
  [ "$(nm -D --defined-only "$module" | awk '{ print $3 }')" = PyInit__library ] &&
    ! nm -D --undefined-only "$module" | awk '$1 != "w" { print $2 }' |
      grep -vE '^_?Py[A-Z_][A-Za-z_]+$|@GLIBC_' && old_glibc "$module"
}
step "what its module wants of the system" of_module
python() {
  (
    cd "$top/bindings/python/tests" && export PYTHONPATH=$work/usr/lib/python:$top/tests PYTHONDONTWRITEBYTECODE=1
    timeout 7200 /usr/bin/python3 -X dev "$@"
  )
}
step "against the model, and the module" python -m pytest test_library.py
# Memory that it leaves behind is counted here alone: under the sanitizers it isn't Python's own.
if [ "${1:-}" = --short ]; then
  step "what its module in C leaves behind" python -m pytest test_calls.py::LeftBehind::test_memory
else
  step "the functions of its module in C" python -m pytest test_calls.py
fi
step "what all languages are asked" python -m pytest test_questions.py
step "the edges" python -m pytest test_edges.py
step "texts and bytes of shapes" maps
step "texts and bytes of shapes, beside a plain reader" readings
step "coverings of texts and bytes" python -m pytest test_shapes.py
without_memory() { # Python's memory is the C library's own
  gcc -std=c11 -O2 "${strict[@]}" -fPIC -shared "$top/tests/refuse.c" -o "$work/refuse.so" &&
    PYTHONMALLOC=malloc LD_PRELOAD=$work/refuse.so S2UNION_REFUSE=$work/refuse.so python -m pytest \
      test_calls.py::WithoutMemory
}
step "each allocation refused in turn" without_memory
sanitized() ( # the module in C with the sanitizers, and what C itself gives for memory
  mkdir "$work/sanitized" && cp -r "$work/usr/lib/python/s2union" "$work/sanitized" &&
    gcc -std=gnu11 -O1 -g -fsanitize=address,undefined -fno-sanitize-recover -fPIC -shared -I"$(python_headers)" \
      -I"$include" "$own/_library.c" -o "$work/sanitized/s2union/_library.abi3.so" || return
  cd "$top/bindings/python/tests" && export PYTHONPATH=$work/sanitized:$top/tests PYTHONDONTWRITEBYTECODE=1
  export PYTHONMALLOC=malloc ASAN_OPTIONS=detect_leaks=0
  LD_PRELOAD="$(gcc -print-file-name=libasan.so) $(gcc -print-file-name=libubsan.so)" \
    S2UNION_LIBRARY=$work/usr/lib/libs2union.so.1 timeout 7200 /usr/bin/python3 -m pytest test_calls.py test_edges.py \
      -k "not test_memory" # which counts Python's own memory, as above
)
step "the same, and the edges, under the sanitizers" sanitized
step "laws of sets, by hypothesis" python -m pytest test_laws.py
/usr/bin/python3 -c 'import pandas' 2>/dev/null || echo "       pandas is not there: columns of it are not tested"
typed() (
  mkdir "$work/typed" && cp -r "$own" "$work/typed" && cd "$work/typed" &&
    mypy --strict -p s2union
)
if command -v mypy >/dev/null; then
  step "types" typed
else
  echo "       mypy is not there: the types are not tested"
fi
step "$page" python -m doctest "$top/$page"
released() ( # PAGE: its examples by the wheel that dist/ has, without those that come with a later version
  [ -d "$work/wheel" ] || /usr/bin/python3 -m zipfile -e "$top"/dist/*manylinux*_x86_64.whl "$work/wheel" || exit
  PYTHONPATH=$work/wheel PYTHONDONTWRITEBYTECODE=1 \
    /usr/bin/python3 "$top/tests/docs/documented.py" --python --released "$top/$1"
)
for name in README.md docs/COOKBOOK.md; do
  step "$name" python "$top/tests/docs/documented.py" --python "$top/$name"
  step "$name, by the release" released "$name"
done
tutorial() { # the step of its first part in Python; the part `program` runs those with s2calc, by the proved program
  S2CALC=/dev/null python "$top/tests/docs/documented.py" --shell "$top/docs/TUTORIAL.md" "## Part 2: an hour" s2calc
}
step "docs/TUTORIAL.md, Part 1, in Python" tutorial
step "s2union_geo, points, polygons and maps" python -m pytest test_geo.py
step "shapes of texts and bytes" python -m pytest test_readings.py
step "maps for a notebook" python -m pytest test_maps.py
step "signals inside a call" python -m pytest test_signals.py
step "its index, and joins of files" python -m pytest test_index.py
without_numpy() {
  python -c 'import sys, pytest
sys.modules["numpy"] = None
sys.exit(pytest.main(["test_library.py::TheModule"]))'
}
step "without numpy" without_numpy
by_pip() { # the module of a checkout where pip puts it, with the library elsewhere
  local made=(page/land.cells tools crates/s2union_c/{include,src} bindings/python)
  mkdir "$work/checkout" && (cd "$top" && cp -r --parents "${made[@]}" "$work/checkout") &&
    /usr/bin/python3 -m pip install -q --no-index --no-build-isolation --no-deps --disable-pip-version-check \
      --root-user-action=ignore --target "$work/site" "$work/checkout/bindings/python" &&
    (cd "$work" && env -u LD_LIBRARY_PATH PYTHONPATH="$work/site" S2UNION_LIBRARY="$work/usr/lib/libs2union.so.1" \
      /usr/bin/python3 -m doctest "$top/$page") && [ -e "$work/site/s2union/py.typed" ]
}
step "installed by pip" by_pip
without_pkg_config() { # where no folder for s2union.h is said, the compiler's own places are left
  (cd "$work/source" && env -u S2UNION_INCLUDE PATH= /usr/bin/python3 setup.py --name 2>/dev/null) | grep -x s2union
}
step "its setup.py without pkg-config" without_pkg_config
by_sdist() ( # the archive of its sources builds where nothing else is
  python_made "$work/described" &&
    python3 "$top/tools/packaging/described.py" "$work/described" $page &&
    cd "$work/described" && /usr/bin/python3 -c 'from setuptools import build_meta
build_meta.build_sdist("'"$work"'")' >sdist 2>&1 && ! grep -i '^warning' sdist && mkdir "$work/from-sdist" &&
    tar -C "$work/from-sdist" --strip-components=1 -xf "$work"/s2union-*.tar.gz && cd "$work/from-sdist" &&
    [ -s README.md ] && grep '^Project-URL: Repository' PKG-INFO &&
    S2UNION_INCLUDE=$include /usr/bin/python3 -c 'from setuptools import build_meta
build_meta.build_wheel(".")' && [ -s s2union-*.whl ]
)
step "an archive of its sources, and a wheel from that" by_sdist
# The same module in each other Python that is there.
for minor in 8 9 10 11 12 13 14; do
  other=$(command -v "python3.$minor") && "$other" -c '' 2>/dev/null || continue
  [ "$(realpath "$other")" != "$(realpath /usr/bin/python3)" ] || continue
  step "$page by Python 3.$minor" env PYTHONPATH="$work/usr/lib/python" PYTHONDONTWRITEBYTECODE=1 \
    "$other" -m doctest "$top/$page"
done

finish
