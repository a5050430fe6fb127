#!/usr/bin/env bash
# The time of calls of the package for Java, beside plain code: bench/run java [WORD [ROUNDS]]. It installs the Debian
# packages that it needs.
. "$(dirname "$0")/../../../tools/usage.sh"
. "$(dirname "$0")/../../../tests/steps.sh"
need javac openjdk-17-jdk-headless
need gcc gcc libc6-dev
choose_library
need_packages
step "bindings/java/package" "$top/bindings/java/package" "$work/java" --target x86_64 "${released[@]}"
[ "$failed" -eq 0 ] || finish
javac -cp "$work/java/s2union.jar" -d "$work/bench" "$top/bindings/java/bench/Calls.java" &&
  java -cp "$work/java/s2union.jar:$work/bench" Calls "$@"
