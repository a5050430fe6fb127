# What the parts for ARM share: the library for ARM in $arm, Debian's packages for ARM, of which no part is installed,
# unpacked in $system, and how a program is run by qemu.
. "$(dirname "${BASH_SOURCE[0]}")/../steps.sh"
tests=$top/tests/arm
arm=$work/arm
system=$work/system
strict=(-Wall -Wextra -pedantic -Werror)

need make make
need pkg-config pkg-config
need aarch64-linux-gnu-g++ g++-aarch64-linux-gnu
need qemu-aarch64-static qemu-user-static
need mmdebstrap mmdebstrap

unpacked_for_arm() { # PACKAGE..
  local sources
  mapfile -t sources < <(bash "$top/tools/packaging/sources.sh")
  mmdebstrap --quiet --variant=extract --architectures=arm64 --include="$(IFS=, && echo "$*")" "${sources[0]}" \
    "$system" "${sources[@]:1}"
}
need_arm() { # PACKAGE..: of Debian for ARM
  [ ${#released[@]} -gt 0 ] || choose_library --target aarch64
  need_packages
  step "tools/library for ARM${released:+ --released}" "$top/tools/library" "$arm" --target aarch64 "${released[@]}"
  step "Debian's packages for ARM, unpacked: $*" unpacked_for_arm "$@"
  [ "$failed" -eq 0 ] || finish
}
on_arm() { timeout 7200 qemu-aarch64-static -L /usr/aarch64-linux-gnu -E LD_LIBRARY_PATH="$arm/lib" "$@"; }
