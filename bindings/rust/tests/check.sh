#!/usr/bin/env bash
# The tests of the crate for Rust, most of which are in bindings/rust: tests/run rust. It installs the Debian packages
# that it needs. Its last line is 'N passed, M failed'; the status is 1 if any failed.
. "$(dirname "$0")/../../../tests/steps.sh"

need gcc gcc libc6-dev
need cargo cargo
registry=/usr/share/cargo/registry
need_file "$(compgen -G "$registry/serde-1*")" librust-serde-dev
need_file "$(compgen -G "$registry/serde_derive-1*")" librust-serde-derive-dev
need_file "$(compgen -G "$registry/serde_json-1*")" librust-serde-json-dev
need_file "$(compgen -G "$registry/bincode-1*")" librust-bincode-dev
. "$top/tests/library.sh"
page=bindings/rust/README.md

step "questions and edges" questions
step "shapes in degrees" shapes
step "texts and bytes of shapes" maps
made() { /usr/bin/python3 -B "$top/tools/methods.py" "$@"; }
for_rust() ( # as a package has it
  cp -r "$top/bindings/rust" "$work/for-rust" && cd "$work/for-rust" && rm crate.rs &&
    made src "$top"/bindings/rust/src/{*,calls}.rs && made tests "$top/bindings/rust/tests/vectors.rs" &&
    RUSTFLAGS=-Dwarnings CARGO_TARGET_DIR=$work/target timeout 7200 cargo test -q --offline
)
by_rust() ( # by the crate in the checkout
  mkdir -p "$work/by-rust/src" && cd "$work/by-rust" && program_of $page rust src/main.rs &&
    printf '%s\n' "[package]" 'name = "program"' 'version = "0.0.0"' 'edition = "2021"' "[dependencies]" \
      "s2union = { path = \"$top/bindings/rust\" }" >Cargo.toml &&
    CARGO_TARGET_DIR=$work/target cargo build -q --offline && says $page rust "$work/target/debug/program"
)
first_lines() (
  cp -r "$work/by-rust" "$work/first" && cd "$work/first" && lines_of rust \
    "use s2union::{CellId, Error, RegionCoverer, Shape}; fn main() -> Result<(), Error> {" "Ok(()) }" src/main.rs &&
    CARGO_TARGET_DIR=$work/target cargo build -q --offline && first_says "$work/target/debug/program"
)
with_serde() ( # by Debian's sources of serde, in place of a registry
  cd "$work/for-rust/serde" && RUSTFLAGS=-Dwarnings CARGO_TARGET_DIR=$work/target timeout 7200 cargo \
    --config 'source.crates-io.replace-with="debian"' \
    --config 'source.debian.directory="/usr/share/cargo/registry"' test -q --offline
)
step "against the model, the edges, what is refused, and the examples" for_rust
without_memory() ( # of C, which zones have
  gcc -std=c11 -O2 "${strict[@]}" -fPIC -shared "$top/tests/refuse.c" -o "$work/refuse.so" && cd "$work/for-rust" &&
    RUSTFLAGS=-Dwarnings CARGO_TARGET_DIR=$work/target cargo test -q --offline --test memory --no-run &&
    LD_PRELOAD=$work/refuse.so RUSTFLAGS=-Dwarnings CARGO_TARGET_DIR=$work/target timeout 600 cargo test --offline \
      --test memory zones -- --nocapture >"$work/zones" && ! grep 'not loaded' "$work/zones"
)
step "zones, each allocation of C refused in turn" without_memory
step "$page" by_rust
step "README.md" first_lines
by_cargo() ( # COMMAND WORD..: in the program's folder
  cd "$work/by-rust" && CARGO_TARGET_DIR=$work/target "$@" 2>&1
)
built_again() { # where libs2union.a is a newer file than what was built of it
  by_cargo cargo build --offline && touch "$work/usr/lib/libs2union.a" &&
    by_cargo cargo build --offline | grep "Compiling s2union "
}
step "built again, if the library is another" built_again
without_library() { # where pkg-config answers nothing: it is said what is missing, before anything is linked
  mkdir "$work/no-library" && printf '#!/bin/sh\necho\n' >"$work/no-library/pkg-config" &&
    chmod +x "$work/no-library/pkg-config" &&
    ! by_cargo env PATH="$work/no-library:$PATH" PKG_CONFIG_PATH=none cargo build --offline >"$work/refused" &&
    grep "libs2union.a is not found: set S2UNION_LIB_DIR" "$work/refused"
}
step "without the library" without_library
step "with serde" with_serde
packed_crate() ( # cargo package finds nothing missing
  cp -r "$work/for-rust" "$work/packed-crate" && rm -r "$work/packed-crate/serde" &&
    python3 "$top/tools/packaging/described.py" "$work/packed-crate" $page && cd "$work/packed-crate" &&
    CARGO_TARGET_DIR=$work/target cargo package --offline --allow-dirty --no-verify >packed 2>&1 &&
    ! grep -i warning packed
)
step "cargo package" packed_crate
finish
