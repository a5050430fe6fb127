#!/usr/bin/env bash
# Links C with the library into one shared object for another system:
# shared_for SYSTEM SOURCE FILE ENTRY WORD... SYSTEM is x86_64-musl, aarch64-musl, x86_64-windows, x86_64-macos or
# aarch64-macos. SOURCE is the folder that tools/portable makes, whose library it gets. ENTRY is a pattern of the calls
# that are visible from outside; all else is hidden. A WORD is a file of C, a flag of its compiler, or a library.
#
# For Windows it is what Debian's mingw-w64 makes. For musl and macOS the compiler and the linker are the kit's, and the
# headers of C are those of Debian's musl-dev: for macOS too, whose own aren't here. So the C may call the functions of
# $of_c alone, which C declares in one way, and which each of these systems has by these names. On musl the program
# that loads the object has them; on macOS they are libSystem's. What it wants besides has to be Python's, or the
# linking fails. The same files make the same bytes.
set -euo pipefail
export LC_ALL=C
system=$1 source=$(realpath "$2") file=$(realpath -m "$3") entry=$4
shift 4
work=$(mktemp -d)
trap 'rm -rf "$work"' EXIT
of_c="abort asin atan atan2 calloc ceil cos fabs floor fmax fmin fmod free ldexp malloc memchr memcmp memcpy memmove
  memset nearbyint qsort realloc remainder rint round sin snprintf sqrt strcmp strlen tan trunc"
of_python='_?Py[A-Z_][A-Za-z_]+'
compile=(-std=gnu11 -O2 -g0 -fvisibility=hidden -ffp-contract=off "-ffile-prefix-map=$work=." -I"$source/include")
code=("$source"/src/{s2union.S,blocks.c,heap.c})

of_kit() { # COMMAND WORD..: it is one program, which goes by its name
  ln -sfn "$(dirname "$(dirname "$(realpath "$(command -v rt)")")")/toolchain/bin/clang" "$work/$1" &&
    "$work/$1" "${@:2}"
}
objects() { # COMPILER..: of all that is given
  local word at=0
  for word in "${files[@]}" "${code[@]}"; do
    at=$((at + 1))
    "$@" "${compile[@]}" "${flags[@]}" -c "$word" -o "$work/$at.o"
  done
}
by_kit() { # TARGET FLAG..
  objects of_kit clang "--target=$1" --no-default-config -nostdinc -isystem /usr/include/x86_64-linux-musl \
    -fno-ident "${@:2}"
}
pattern() { tr -s ' \n' '|' <<<"$*" | sed 's/|$//'; } # of these names
named() { # FLAG..: the names in the objects, as C has them
  "${nm[@]}" -j "$@" "$work"/*.o | grep -v ':$' | sed "s/^$before//" | sort -u
}
wants_only() { # PATTERN
  local others
  others=$(named --undefined-only | grep -vxE "$(pattern $of_c)|s2u_[a-z_]+|$1" || true)
  [ -z "$others" ] || { echo "shared_for: for $system, not of C:" $others >&2 && exit 1; }
}

files=() flags=() before= nm=(of_kit llvm-nm)
for word; do case $word in *.c) files+=("$word") ;; *) flags+=("$word") ;; esac; done
case $system in
  *-musl)
    by_kit "${system%-musl}-linux-musl" -fPIC $([ "$system" = x86_64-musl ] || echo -mno-outline-atomics)
    wants_only "sincos|_GLOBAL_OFFSET_TABLE_|__tls_get_addr|getpid|times|$of_python"
    printf '{ global: %s; local: *; };\n' \
      "$(named --defined-only --extern-only | grep -xE "$entry" | paste -sd';')" >"$work/map"
    of_kit ld.lld -shared --hash-style=gnu -z relro -z now -z noexecstack --version-script="$work/map" --strip-all \
      -o "$file" "$work"/*.o
    ;;
  *-macos)
    before=_
    processor=${system%-macos} oldest=10.12
    [ "$processor" = x86_64 ] || processor=arm64 oldest=11.0
    by_kit "$processor-apple-macos$oldest"
    of_c+=" bzero __bzero __sincos_stret __stack_chk_fail __stack_chk_guard"
    wants_only "$of_python"
    symbols=$(printf '_%s, ' $of_c)
    printf '%s\n' '--- !tapi-tbd' 'tbd-version: 4' "targets: [ $processor-macos ]" \
      'install-name: /usr/lib/libSystem.B.dylib' \
      "exports: [ { targets: [ $processor-macos ], symbols: [ ${symbols}dyld_stub_binder ] } ]" ... \
      >"$work/libSystem.tbd"
    named --defined-only --extern-only | grep -xE "$entry" | sed 's/^/_/' >"$work/exported"
    of_kit ld64.lld -dylib -arch "$processor" -platform_version macos "$oldest" "$oldest" -x -no_data_in_code_info \
      -no_function_starts -install_name "@rpath/$(basename "$file")" -exported_symbols_list "$work/exported" \
      $(named --undefined-only | grep -xE "$of_python" | sed 's/^/-U _/') "$work"/*.o "$work/libSystem.tbd" -o "$file"
    ;;
  x86_64-windows)
    nm=(x86_64-w64-mingw32-nm) compile+=(-D__USE_MINGW_ANSI_STDIO=1)
    libraries=() kept=()
    for word in "${flags[@]}"; do case $word in *.a) libraries+=("$word") ;; *) kept+=("$word") ;; esac; done
    flags=("${kept[@]}")
    objects x86_64-w64-mingw32-gcc
    { echo EXPORTS && named --defined-only --extern-only | grep -xE "$entry"; } >"$work/entries.def"
    x86_64-w64-mingw32-gcc -s -shared -static-libgcc -Wl,--no-insert-timestamp,--disable-auto-image-base \
      "$work"/*.o "$work/entries.def" "${libraries[@]}" -o "$file"
    x86_64-w64-mingw32-objdump -p "$file" | sed -n 's/^.*DLL Name: //p' |
      { ! grep -vxE 'KERNEL32.dll|msvcrt.dll|python3.dll' >&2; }
    ;;
  *) echo "shared_for: there is no system $system" >&2 && exit 2 ;;
esac
