#!/usr/bin/env bash
# The package for JavaScript, in Node: tests/run js. It needs Node 18 or later, and installs Debian's if there is none.
# With --short, as the gate has it, there are fewer cases, and TypeScript is asked only if it is there.
# Its last line is 'N passed, M failed'; the status is 1 if any failed.
. "$(dirname "$0")/../../../tests/steps.sh"
tests=$top/bindings/js/tests
package=$work/page/js
page=bindings/js/README.md
module=$package/s2union.js
version=$(cat "$top/VERSION")

need node nodejs
if [ "${1:-}" = --short ]; then
  rounds=60 cells=3000
else
  rounds=300 cells=200000
  need tsc node-typescript
fi
need_linker
need_packages
need_library
need_page

questions() { PYTHONPATH=$top/tests /usr/bin/python3 -B -m model.vectors "$rounds" >"$work/vectors"; }
step "questions" questions
step "its questions" /usr/bin/python3 -B "$top/tools/methods.py" "$work" "$tests/vectors.mjs"
step "texts and bytes of shapes" maps
step "coverings of texts and bytes" node "$tests/maps.mjs" "$module" "$work/map-texts"
step "texts and bytes of shapes, beside a plain reader" readings
step "shapes of texts and bytes" node "$tests/readings.mjs" "$module" "$work/shape-texts"
step "against the model" node "$work/vectors.mjs" "$module" "$work/vectors"
step "what is refused, and what stays" node "$tests/refusals.mjs" "$module" "$version" "$cells"
step "the page's own code, without a browser" node "$top/page/tests/page.mjs" "$top"
heap() {
  gcc -std=gnu11 -O2 -Wall -Wextra -Werror -I"$top/bindings/js" -I"$top/bindings/c" -I"$work/usr/include" \
    "$tests/heap.c" "$work/usr/lib/libs2union.a" -lm -o "$work/heap" && "$work/heap"
}
step "the heap of its module" heap

places() { PYTHONPATH=$top/tests /usr/bin/python3 -B -c 'from model.places import POINTS
for place in POINTS: print(*place)' >"$work/places"; }
step "places, with the leaves that S2 has there" places
borders() { PYTHONPATH=$top/tests /usr/bin/python3 -B -m model.borders >"$work/borders"; }
step "triangles, and places along their borders" borders
shapes() { # in degrees, with the coverings that the module for Python makes
  PYTHONPATH=$top/tests:$work/usr/lib/python /usr/bin/python3 -B -m model.shapes >"$work/shapes"
}
step "shapes, with the cells that Python has" shapes
step "points, coverings and GeoJSON, on a small stack and heap" \
  node --stack-size=100 --max-old-space-size=400 "$tests/geo.mjs" "$package" "$work/places" "$work/borders"
step "coverings and outlines are those of Python" node "$tests/shapes.mjs" "$package" "$work/shapes"

by_name() { # NAME: a program of the page, in a package that has ours
  mkdir -p "$work/program/node_modules" && cp -rT "$package" "$work/program/node_modules/s2union" &&
    block $page "js$1" >"$work/program/program.mjs" &&
    block $page "text js$1" >"$work/program/wanted" && [ -s "$work/program/wanted" ] &&
    node "$work/program/program.mjs" >"$work/program/said" && diff "$work/program/wanted" "$work/program/said"
}
step "$page" by_name ""
step "$page: points and GeoJSON" by_name " geo"
first_lines() {
  lines_of js "" "" "$work/program/first.mjs" && first_says node "$work/program/first.mjs"
}
step "README.md" first_lines
served() {
  block $page "js service" >"$work/program/service.mjs" && serves $page js node "$work/program/service.mjs"
}
step_of_service served
by_comments() {
  /usr/bin/python3 "$top/tests/docs/examples.py" js "$package/s2union.d.ts" >"$work/examples.mjs" &&
    node "$work/examples.mjs" "$module"
}
step "the examples of its types" by_comments
tgz=$work/to-npm/s2union-$version.tgz
to_npm() { # the file of a release, twice
  mkdir -p "$work/to-npm" && for file in "$tgz" "$work/again"; do
    SOURCE_DATE_EPOCH=1000000000 bash "$top/bindings/js/npm.sh" "$package" "$file" || return 1
  done
  cmp "$tgz" "$work/again"
}
step "the file for npm, twice the same bytes" to_npm
packed() ( # npm finds no fault, and would pack these files
  cd "$work" && npm pack --offline --loglevel warn "$package" >packed 2>&1 && ! grep -i warn packed &&
    diff <(tar -tf "$tgz" | sort) <(tar -tf "$(tail -1 packed)" | sort)
)
installed() ( # by the line of the page, into a package that has its program
  mkdir "$work/installed" && cd "$work/installed" && ln -s ../to-npm dist && echo '{"name": "x"}' >package.json &&
    line=$(grep '^    npm install ./dist/' "$top/$page") &&
    eval "npm_config_offline=true npm_config_audit=false ${line%%#*}" && cp "$work/program/program.mjs" . &&
    node program.mjs | diff "$work/program/wanted" -
)
if command -v npm >/dev/null; then
  step "npm pack" packed
  step "npm install, and $page" installed
else
  echo "       npm is not there: the package is not packed, nor its file installed"
fi
step "its types have its names, and what calls answer" node "$tests/types.mjs" "$package"
if command -v tsc >/dev/null; then
  found() { # HOW MODULE: by a program that has the package, in each way that TypeScript looks for it
    (cd "$work/program" && cat >names.ts <<<'import {CellUnion, load} from "s2union";
import {fromLngLat, toGeoJSON} from "s2union/geo";
export const asked = load().then(() => toGeoJSON(new CellUnion([fromLngLat(1, 2)])).features.length);' &&
      echo '{"type": "module"}' >package.json &&
      tsc --noEmit --strict --target es2022 --moduleResolution "$1" --module "$2" names.ts)
  }
  step "its types, by TypeScript" tsc --noEmit --strict --target es2022 "$package"/{s2union,geo}.d.ts
  [ "${1:-}" = --short ] || for way in "node es2022" "node16 node16" "nodenext nodenext"; do
    step "its types, as TypeScript finds them by ${way% *}" found $way
  done
else
  echo "       tsc is not there (node-typescript): the types are not compiled"
fi
finish
