#!/usr/bin/env bash
# Makes the pictures of the pages: docs/pictures/make.sh [FOLDER [PROGRAM]]. They are made by the calculator,
# s2calc, and go to this folder unless another one is given. tests/program checks that those here are current.
set -euo pipefail
here="$(dirname "$(readlink -f "${BASH_SOURCE[0]}")")"
folder="${1:-$here}"
program="${2:-$here/../../s2calc}"
files="$(mktemp -d)"
trap 'rm -rf "$files"' EXIT

# All cells of level 3, in the order of the curve.
"$program" draw --curve --cells {0..5}/{0..3}{0..3}{0..3} >"$folder/curve.svg"

# The cells of levels 1 to 8 that hold Paris, each with its siblings, and the other faces.
paris=2/03330303
nested=(0/ 1/ 3/ 4/ 5/ "$paris")
for ((at = 2; at < ${#paris}; at++)); do
    for child in 0 1 2 3; do
        [ "$child" = "${paris:at:1}" ] || nested+=("${paris:0:at}$child")
    done
done
"$program" draw --cells "${nested[@]}" >"$folder/levels.svg"

# Cells, and the union of their leaves: four siblings become their parent, and a cell inside another is left out.
cells=(0/0 0/1 0/2 0/30 0/31 0/32 0/33 1/00 1/01 1/010 1/02 1/03 1/1 1/2 1/20 1/30 1/31 1/33 1/330)
"$program" draw --cells "${cells[@]}" >"$folder/cells.svg"
printf 'add a %s\nsave a union\n' "${cells[*]}" | "$program" run --dir "$files" >/dev/null
"$program" draw --dir "$files" union >"$folder/union.svg"

# The coverings of a rectangle at level 5: all cells that share a leaf with it, and all cells inside it.
rectangle='2 50000000 960000000 320000000 830000000'
printf '%s\n' "outer a 5 $rectangle" 'save a outer' "inner a 5 $rectangle" 'save a inner' |
    "$program" run --dir "$files" >/dev/null
"$program" draw --dir "$files" outer >"$folder/outer.svg"
"$program" draw --dir "$files" inner >"$folder/inner.svg"

# The coverings of all land, at most at level 7, and of all lakes, at most at level 8, as docs/TUTORIAL.md makes them.
"$program" draw --dir "$here" land.outer lakes.outer >"$folder/world.svg"

# Uganda, as docs/TUTORIAL.md makes it, and what it shares with the lakes.
cp "$here"/{uganda,lakes}.outer "$files"
printf '%s\n' 'load s uganda.outer' 'load l lakes.outer' 'intersect s l' 'save s shared' |
    "$program" run --dir "$files" >/dev/null
"$program" draw --fit --dir "$files" uganda.outer shared >"$folder/uganda.svg"
