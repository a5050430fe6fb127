#!/usr/bin/env bash
# The time of operations of the crate for Rust on 2 cells and many: bench/run rust [ROUNDS]. It installs the Debian
# packages that it needs.
. "$(dirname "$0")/../../../tools/usage.sh"
. "$(dirname "$0")/../../../tests/steps.sh"
need cargo cargo
. "$top/tests/library.sh"
mkdir -p "$work/by-rust/src" && cd "$work/by-rust" && cp "$top/bindings/rust/bench/calls.rs" src/main.rs &&
  printf '[package]\nname = "calls"\nversion = "0.0.0"\nedition = "2021"\n\n[dependencies]\n' >Cargo.toml &&
  printf 's2union = { path = "%s" }\n' "$top/bindings/rust" >>Cargo.toml && cargo run -q --release --offline -- "$@"
