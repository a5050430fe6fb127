#!/usr/bin/env bash
# The package for R: tests/run r. With --short, as the gate has it, it is installed as it is, and not by R CMD check. It
# installs the Debian packages that it needs. Its last line is 'N passed, M failed'; the status is 1 if any failed.
. "$(dirname "$0")/../../../tests/steps.sh"
tests=$top/bindings/r/tests
page=bindings/r/README.md

need make make
need_installed r-base-core r-cran-s2
. "$top/tests/library.sh"

mkdir -p "$work/library" "$work/src/contrib" && : >"$work/src/contrib/PACKAGES" # a repository with no package
echo "options(repos = c(CRAN = 'file://$work'))" >"$work/profile"
export R_LIBS=$work/library R_PROFILE=$work/profile
package() { "$top/bindings/r/package" "$work/s2union"; }
step "its sources, with what is made" package
if [ "${1:-}" = --short ]; then
  step "R CMD INSTALL" R CMD INSTALL "$work/s2union"
  step "beside S2's own operations" Rscript "$tests/s2union.R"
else
  checked() (
    cd "$work" && R CMD build s2union && R CMD check --no-manual s2union_*.tar.gz &&
      grep -qx 'Status: OK' s2union.Rcheck/00check.log && R CMD INSTALL s2union_*.tar.gz
  )
  step "R CMD check, with its tests beside S2's own operations" checked
fi
against_the_model() {
  questions && python3 -B "$top/tools/methods.py" "$work" "$tests/vectors.R" &&
    Rscript "$work/vectors.R" "$work/vectors"
}
step "against the model, and the examples" against_the_model
of_maps() { maps && Rscript "$tests/maps.R" "$work/map-texts"; }
step "texts of GeoJSON and bytes of WKB" of_maps
of_page() {
  block $page r >"$work/first.R" && block $page "text r" >"$work/wanted" && [ -s "$work/wanted" ] &&
    Rscript "$work/first.R" >"$work/said" && diff "$work/wanted" "$work/said"
}
step "$page" of_page
long_text() ( # 2 GB of tokens, by a call that only says so
  cd "$work" && gcc -shared -fPIC -x c - -o long.so <<<'#include <stddef.h>
int s2u_tokens(const void* ids, size_t n, char* text, size_t room, size_t* len) { *len = 1ul << 31; return 0; }' &&
    LD_PRELOAD=$work/long.so Rscript -e 'tryCatch(s2union::s2u_tokens(s2::as_s2_cell("1")), S2U_MANY = print)' >said &&
    grep S2U_MANY said
)
step "no text that is longer than R's" long_text
of_shapes() {
  local calls='wkb|rings|zones|neighbors|expanded|bounds|area'
  shapes && grep -P "^($calls)\t" "$work/shapes" >"$work/asked" && Rscript "$tests/shapes.R" "$work/asked"
}
without_memory() (
  cd "$work" && gcc -std=c11 -O2 -fPIC -shared -I"$top/tests" "$top/tests/refuse.c" -x c - -o refuse.so <<'C' &&
#include "refuse.h"
void refuse(int *turn, int *asked) { *asked = (int)refuse_memory(*turn); }
void blocks(int *taken) { *taken = (int)blocks_taken(); }
C
    LD_PRELOAD=$work/refuse.so Rscript "$tests/memory.R"
)
if [ "${1:-}" != --short ]; then
  step "the cells of shapes, beside Python" of_shapes
  step "zones, each allocation refused in turn" without_memory
fi
finish
