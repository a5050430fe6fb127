#!/usr/bin/env bash
# The library for ARM beside S2 for ARM, by qemu: tests/run arm-peers -- [CASES [SECONDS]]. Both are asked CASES random
# questions, as by tests/run s2, S2's own tests run over the unions for C++, and libFuzzer makes up calls for SECONDS;
# if none are given, 100,000 and 60. It has to run as root, and installs the Debian packages that it needs; those for
# ARM are only unpacked. The last line is 'N passed, M failed'; the status is 1 if any failed.
. "$(dirname "$0")/system.sh"
cases=${1:-100000} seconds=${2:-60}

need clang clang
need dpkg-source dpkg-dev
need_packages
need_arm libs2-dev libgtest-dev libclang-rt-dev
libraries=$system/usr/lib/aarch64-linux-gnu

peer() {
  aarch64-linux-gnu-g++ -std=c++17 -O2 -DNDEBUG -Wall -Wno-psabi -I"$top/bench" -I"$arm/include" \
    -isystem "$system/usr/include" "$top/tests/peer/peer.cc" "$arm/lib/libs2union.a" "$libraries/libs2.so" \
    -Wl,--as-needed,-rpath-link,"$libraries" "$libraries"/libabsl_*.so -o "$work/peer" &&
    qemu-aarch64-static -L "$system" "$work/peer" "$cases"
}
step "S2 is asked the same: $cases cases" peer
step "S2's own tests over the unions for C++" \
  bash "$top/bindings/cpp/tests/s2_own_tests.sh" --arm "$system" "${released[@]}"
fuzzed() { # its own checks stand for those of sanitizers, which qemu has no room for
  local runtime=("$system"/usr/lib/llvm-*/lib/clang/*/lib/linux/libclang_rt.fuzzer-aarch64.a)
  mkdir "$work/found" && clang --target=aarch64-linux-gnu -std=c11 -D_DEFAULT_SOURCE -O2 "${strict[@]}" \
    -fsanitize=fuzzer-no-link,undefined -fsanitize-trap=undefined -I"$arm/include" -c "$top/bindings/c/tests/fuzz.c" \
    -o "$work/fuzz.o" && aarch64-linux-gnu-g++ "$work/fuzz.o" "${runtime[0]}" "$arm/lib/libs2union.a" -lpthread \
    -o "$work/fuzz" && on_arm "$work/fuzz" -seed=1 -max_len=1200 -len_control=0 -max_total_time="$seconds" \
    -artifact_prefix="$work/found/" || { od -An -tx1 "$work"/found/* | head -40; return 1; }
}
step "C: the fuzzer, $seconds seconds" fuzzed
finish
