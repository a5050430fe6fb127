#!/usr/bin/env bash
# The archive that tools/portable makes, on each system that can be tried here: tests/run portable -- [ROUNDS].
# Without the kit it is the release's, with its wheels and its natives for macOS, beside the release's library; the
# other natives are made of that. From the archive alone the library is built for x86-64 with glibc, with musl and for
# Windows, for ARM and for RISC-V. Each answers ROUNDS of all calls three times, with wrong arguments and memory
# refused, and the sums have to be those of the library that was proved; 340,000 rounds are asked if none are given.
# Windows is wine, and ARM and RISC-V are qemu. For macOS it is compiled, and its object files are looked at. So are
# the wheels and the library of the jar, and what of them can be run here is. Then it is built in a new system in
# which no prover and nothing of this repository is. It has to run as root, and installs the Debian packages that it
# needs. The last line is 'N passed, M failed'; the status is 1 if any failed.
. "$(dirname "$0")/../steps.sh"
rounds=${1:-340000}
tests=$top/tests/portable

need gcc gcc libc6-dev
need cmake cmake
need go golang-go
need make make
need pkg-config pkg-config
need clang-15 clang-15
need llvm-nm llvm
need musl-gcc musl-tools
need x86_64-w64-mingw32-gcc gcc-mingw-w64-x86-64
need_file /usr/lib/wine/wine64 wine64
need aarch64-linux-gnu-gcc gcc-aarch64-linux-gnu libc6-dev-arm64-cross
need riscv64-linux-gnu-gcc gcc-riscv64-linux-gnu libc6-dev-riscv64-cross
need qemu-aarch64-static qemu-user-static
need mmdebstrap mmdebstrap
need javac openjdk-17-jdk-headless
need_modules build,setuptools,wheel python3-{build,setuptools,wheel}
need_modules pip python3-pip
need_headers
need_packages
need_library

# ---- the archive

made=$work/made
again() { "$top/tools/portable" "$work/again" && diff -r "$made" "$work/again"; }
if [ ${#released[@]} -gt 0 ]; then
  made=$top/dist
else
  step "tools/portable" "$top/tools/portable" "$made"
  step "the same bytes a second time" again
fi
[ "$failed" -eq 0 ] || finish
archive=$(echo "$made"/s2union-*-source.tar.xz)
is_small() { [ "$(stat -c %s "$archive")" -lt 1000000 ]; }
step "less than a megabyte" is_small
unpacked() {
  (cd "$made" && sha256sum --quiet --strict -c SHA256SUMS) &&
    mkdir "$work/source" && tar -C "$work/source" --strip-components=1 -xf "$archive"
}
step "it is unpacked" unpacked
names_no_processor() { ! grep -nE '^target|target-|x86|aarch64|llvm\.(arm|ppc|riscv)' "$work/source/src/s2union.ll"; }
step "LLVM's text names no processor" names_no_processor

# ---- the same answers

with_kit=$PATH
export PATH=/usr/bin:/bin # where no kit is
asked=$work/source/test/answers.c
include=$work/source/include
code=("$work/source/src/s2union.S" "$work/source/src/blocks.c")
. "$top/tests/answers.sh"
refusing() { asking "$@" -DREFUSING; } # the program is the heap

here() { refusing here gcc "$work/usr/include" "$work/usr/lib/libs2union_noheap.a" && answers here "$work/here"; }
built() { # NAME COMPILER COMMAND..: what the archive makes answers as the library that was proved
  refusing "$1" "$2" "$include" "${code[@]}" && answers "$1" "${@:3}" && same "$1"
}
static() { refusing musl musl-gcc "$include" "${code[@]}" -static && answers musl "$work/musl" && same musl; }
export WINEPREFIX=$work/wine WINEDEBUG=-all
in_windows() { timeout 7200 /usr/lib/wine/wine64 "$@"; }
windows() {
  /usr/lib/wine/wine64 wineboot -i # one of the three would else be too early
  refusing windows.exe x86_64-w64-mingw32-gcc "$include" "${code[@]}" &&
    answers windows.exe in_windows "$work/windows.exe" && same windows.exe
}
on_arm() { timeout 7200 qemu-aarch64-static -L /usr/aarch64-linux-gnu "$@"; }
on_riscv() { timeout 7200 qemu-riscv64-static -L /usr/riscv64-linux-gnu "$@"; }
riscv() {
  clang-15 --target=riscv64-linux-gnu -march=rv64gc -Wno-override-module -O2 -fPIC -c -x ir \
    "$work/source/src/s2union.ll" -o "$work/riscv.o" &&
    refusing riscv riscv64-linux-gnu-gcc "$include" "$work/riscv.o" "$work/source/src/blocks.c" &&
    answers riscv on_riscv "$work/riscv" && same riscv
}
step "$rounds rounds of all calls, three times, of the library that was proved" here
step "x86-64, by gcc" built gcc gcc "$work/gcc"
step "x86-64 with musl" static
step "Windows, by mingw-w64 and wine" windows
step "ARM, by qemu" built arm aarch64-linux-gnu-gcc on_arm "$work/arm"
step "RISC-V, of LLVM's text by clang 15, and qemu; tried, not promised" riscv

# ---- its own heap, and shared libraries

rounds=20000
own_heap() { # NAME COMPILER COMMAND..
  asking "$1" "$2" "$include" "${code[@]}" "$work/source/src/heap.c" && answers "$1" "${@:3}"
}
with_heap() { asking heap gcc "$work/usr/include" "$work/usr/lib/libs2union.a" && answers heap "$work/heap"; }
step "$rounds rounds with the heap of the library that was proved" with_heap
heap_here() { own_heap heap-here gcc "$work/heap-here" && same heap-here heap; }
heap_of_windows() { own_heap heap.exe x86_64-w64-mingw32-gcc in_windows "$work/heap.exe" && same heap.exe heap; }
heap_on_arm() { own_heap heap-arm aarch64-linux-gnu-gcc on_arm "$work/heap-arm" && same heap-arm heap; }
step "the archive's heap: x86-64" heap_here
step "the archive's heap: Windows" heap_of_windows
step "the archive's heap: ARM" heap_on_arm
dll() { # by the line of the archive's own page
  local line
  line=$(grep -o '`x86_64-w64-mingw32-gcc -shared [^`]*`' "$work/source/README.md" | tr -d '`') &&
    (cd "$work/source" && eval "$line") && mv "$work"/source/{s2union.dll,libs2union.dll.a} "$work/" &&
    asking of-dll.exe x86_64-w64-mingw32-gcc "$include" "$work/libs2union.dll.a" &&
    answers of-dll.exe in_windows "$work/of-dll.exe" && same of-dll.exe heap
}
step "a DLL with its import library" dll
exports() { # FILE COMMAND..: exactly the calls of the header
  diff <(sed -n 's/^  \(s2u_.*\)/\1/p' "$work/source/src/s2union.def") <("${@:2}" "$1" | sort)
}
of_dll() {
  x86_64-w64-mingw32-objdump -p "$1" | sed -n '/Ordinal\/Name Pointer/,/^$/s/^.* \([^ ]*\)$/\1/p' | grep -v Table
}
of_elf() { nm -D --defined-only "$1" | awk '$2 == "T" { sub(/@.*/, "", $3); print $3 }'; }
step "the DLL has the calls of the header alone" exports "$work/s2union.dll" of_dll
handed_out() { # the DLL of the zip, in the folder of a program, by its file for pkg-config
  local at
  at=$(cd "$work" && /usr/bin/python3 -m zipfile -e "$made"/s2union-*-windows.zip . && echo "$PWD"/s2union-*-windows) &&
    mkdir "$work/beside" && cp "$at/bin/s2union.dll" "$work/beside/" &&
    asking beside/of-zip.exe x86_64-w64-mingw32-gcc "$at/include" \
      $(PKG_CONFIG_PATH=$at/lib/pkgconfig pkg-config --libs s2union) &&
    mv "$work/beside" "$work/of-zip" && answers zip in_windows "$work/of-zip/of-zip.exe" && same zip heap
}
step "the DLL of the zip" handed_out
by_cmake() { # FOLDER FLAG..
  cmake -S "$work/source" -B "$work/$1" "${@:2}" && cmake --build "$work/$1" &&
    (cd "$work/$1" && ctest --output-on-failure --no-tests=error)
}
step "CMake, static" by_cmake static
step "CMake, shared" by_cmake shared -DBUILD_SHARED_LIBS=ON -DCMAKE_INSTALL_PREFIX="$work/installed"
step "its shared library has the calls of the header alone" exports "$work/shared/libs2union.so" of_elf
step "CMake for Windows" by_cmake for-windows -DCMAKE_SYSTEM_NAME=Windows -DBUILD_SHARED_LIBS=ON \
  -DCMAKE_C_COMPILER=x86_64-w64-mingw32-gcc -DCMAKE_CROSSCOMPILING_EMULATOR=/usr/lib/wine/wine64

go_for_windows() ( # the program of bindings/go/README.md
  mkdir "$work/go" && cd "$work/go" && block bindings/go/README.md go >main.go &&
    block bindings/go/README.md "text go" >wanted && [ -s wanted ] &&
    export GOPATH=$work/gopath GOCACHE=$work/go-cache GOFLAGS=-mod=mod GOPROXY=off GOTOOLCHAIN=local &&
    module=$(sed -n 's/^module //p' "$work/source/go/go.mod") && go mod init x &&
    go mod edit -require "$module@v0.0.0" -replace "$module=$work/source/go" &&
    GOOS=windows CGO_ENABLED=1 CC=x86_64-w64-mingw32-gcc go build -o x.exe . && in_windows ./x.exe | diff wanted -
)
step "Go for Windows, and bindings/go/README.md" go_for_windows

# ---- macOS and Windows on ARM: compiled, and looked at

compiled_for() { # TARGET NAME-OF-A-SYMBOL: it defines the calls of the header, and wants memory and blocks alone
  local object=$work/$1.o wanted
  clang-15 --target="$1" -c "$work/source/src/s2union.S" -o "$object" &&
    diff <(sed -n 's/^  \(s2u_.*\)/\1/p' "$work/source/src/s2union.def") \
      <(llvm-nm --defined-only -g "$object" | awk -v before="$2" '$2 == "T" { print substr($3, length(before) + 1) }' |
        sort) &&
    wanted=$(llvm-nm -u "$object" | awk '{ print $NF }') && echo "$wanted" &&
    ! grep -vxE '_*(bzero|memcpy|memmove|memset)|_?s2u_block_(take|grow|give_back)' <<<"$wanted"
}
step "macOS on ARM: compiled, not run" compiled_for arm64-apple-macos11 _
step "macOS on x86-64: compiled, not run" compiled_for x86_64-apple-macos10.12 _
step "Windows on ARM: compiled, not run" compiled_for aarch64-w64-windows-gnu ""

# ---- wheels, and the library of the jar

of_its_owner() { # WHEEL: no file in it is others' to write
  /usr/bin/python3 -c 'import sys, zipfile
sys.exit(any(it.external_attr >> 16 & 0o022 for it in zipfile.ZipFile(sys.argv[1]).infolist()))' "$1"
}
wheel() { # PLATFORM: unpacked, as $work/PLATFORM, with one module in it
  mkdir "$work/$1" && of_its_owner "$made"/s2union-*-abi3-"$1".whl &&
    /usr/bin/python3 -m zipfile -e "$made"/s2union-*-abi3-"$1".whl "$work/$1" &&
    modules=("$work/$1"/s2union/_library.*[od]) && [ ${#modules[@]} = 1 ] && [ -s "${modules[0]}" ]
}
entry() { # COMMAND..: what it says of the module is its entry point alone
  [ "$("$@" "${modules[0]}" | awk '{ print $NF }')" = PyInit__library ]
}
for_musl() { # PROCESSOR: it names no other library, and of glibc nothing
  wheel "musllinux_1_2_$1" && entry nm -D --defined-only && readelf -hW "${modules[0]}" | grep "Machine:.*$2" &&
    ! readelf -dW "${modules[0]}" | grep NEEDED && ! nm -D "${modules[0]}" | grep GLIBC
}
by_python() ( # Debian's, since it asks nothing of a C library but what each has
  cd / && PYTHONDONTWRITEBYTECODE=1 PYTHONPATH=$work/musllinux_1_2_x86_64 /usr/bin/python3 -m doctest \
    "$top/bindings/python/README.md"
)
step "the wheel for musl on x86-64" for_musl x86_64 X86-64
step "the wheel for musl on ARM" for_musl aarch64 AArch64
step "bindings/python/README.md by the wheel for musl" by_python
picked() { # each wheel of the release on its system, by the line of docs/INSTALL.md
  local line wheel platform
  line=$(grep -o '`pip install --no-index [^`]*`' "$top/docs/INSTALL.md" | tr -d '`') && [ -n "$line" ] || return 1
  for wheel in "$top"/dist/{,aarch64/}*.whl; do
    platform=${wheel##*-abi3-} && rm -rf "$work/picked" &&
      (cd "$top" && /usr/bin/python3 -m pip download -q -d "$work/picked" --only-binary :all: \
        --platform "${platform%.whl}" ${line#pip install}) &&
      ls "$work/picked" | diff - <(basename "$wheel") || return 1
  done
}
step "pip picks the wheel of each system" picked
for_macos() { # PLATFORM FORM OLDEST: names of Python are looked up, all others are libSystem's
  wheel "$1" && file=${modules[0]} && [ "$(llvm-nm -gjU "$file")" = _PyInit__library ] &&
    llvm-objdump --macho --private-header "$file" | grep "$2 .* DYLIB " &&
    llvm-objdump --macho --private-headers "$file" | grep -E "^ *(minos|version) $3\$" &&
    [ "$(llvm-objdump --macho --dylibs-used "$file" | sed 1d | grep -v "^.@rpath" | awk '{ print $1 }')" = \
      /usr/lib/libSystem.B.dylib ] && llvm-nm -m -u "$file" >"$work/names" &&
    grep -q '_PyTuple_Size (dyn' "$work/names" &&
    ! grep -vE '_?_?Py[A-Za-z_]+ \(dynamically looked up\)$|\(from libSystem\)$' "$work/names"
}
signed() { llvm-objdump --macho --private-headers "$work"/macosx_11_0_arm64/s2union/*.so | grep LC_CODE_SIGNATURE; }
step "the wheel for macOS on x86-64: looked at, not run" for_macos macosx_10_12_x86_64 X86_64 10.12
step "the wheel for macOS on ARM: looked at, not run" for_macos macosx_11_0_arm64 ARM64 11.0
step "its module is signed, without which macOS on ARM doesn't load it" signed
loaded() ( # over a python3.dll that has the names of Python's, and does nothing
  local definitions=$top/bindings/python/packaging/python3.def
  wheel win_amd64 && cd "$work/win_amd64" && cp s2union/_library.pyd . &&
    awk '/DATA/ { print "int " $1 ";"; next } /^  / { at = $1 ~ /^PyModuleDef_Init$/ ? "given" : "0"
      print "void* " $1 "(void* given) { return (void*)" at "; }" }' "$definitions" >python3.c &&
    x86_64-w64-mingw32-gcc -w -shared python3.c "$definitions" -o python3.dll &&
    x86_64-w64-mingw32-gcc -w "$tests/loads.c" -o loads.exe &&
    [ "$(in_windows ./loads.exe | tr -d '\r')" = s2union._library ]
)
step "the wheel for Windows: its module is loaded" loaded
jar() { # that of the release has the natives for macOS too, but calls of its own time
  local given=$work/java/s2union.jar
  PATH=$with_kit "$top/bindings/java/package" "$work/java" --target x86_64 --source "$archive" "${released[@]}" ||
    return 1
  mkdir "$work/hosted" "$work/given" && /usr/bin/python3 -m zipfile -e "$given" "$work/hosted" || return 1
  [ "$made" != "$top/dist" ] || given=$(echo "$made"/s2union-*.jar)
  /usr/bin/python3 -m zipfile -e "$given" "$work/given"
}
step "the jar, with the library for other systems" jar
asked_as_java_does() { # on Linux and in Windows: one sum
  local java file=$top/tests/portable/hosted.c flags
  java=$(dirname "$(dirname "$(realpath "$(command -v javac)")")")
  flags=(-std=gnu11 -O2 -Wall -Wextra -Werror -I"$java/include" -I.)
  cd "$work/hosted" && /usr/bin/python3 -B "$top/tools/methods.py" . "$top/bindings/java/calls.h" &&
    gcc "${flags[@]}" -I"$java/include/linux" "$file" -ldl -o here &&
    x86_64-w64-mingw32-gcc "${flags[@]}" -I"$top/bindings/java/windows" "$file" -o there.exe &&
    ./here s2union/amd64/libs2union_java.so "$rounds" >wanted && grep '^sum ' wanted &&
    in_windows ./there.exe s2union/windows-amd64/libs2union_java.dll "$rounds" | tr -d '\r' | diff wanted -
}
step "the natives for Windows answer as those for Linux" asked_as_java_does
natives_for_macos() { # PROCESSOR
  local file=$work/given/s2union/macos-$1/libs2union_java.dylib
  [ -s "$file" ] &&
    diff <(nm -D --defined-only "$work/given/s2union/amd64/libs2union_java.so" | awk '{ print "_" $3 }' | sort) \
      <(llvm-nm -gjU "$file" | sort) && ! llvm-nm -m -u "$file" | grep -v '(from libSystem)$'
}
step "the natives for macOS on x86-64: looked at, not run" natives_for_macos x86_64
step "the natives for macOS on ARM: looked at, not run" natives_for_macos aarch64

# ---- in a new system

of_debian=gcc,libc6-dev,make,cargo,golang-go,python3-venv,python3-dev,python3-setuptools,python3-wheel
of_debian+=,sqlite3,libsqlite3-dev,postgresql-15,postgresql-client-15
trial=$work/trial
mkdir -p "$trial/tests"
cp "$top/tests/steps.sh" "$trial/tests/"
cp "$tests/trial.sh" "$trial/run"
cp "$made"/s2union-*.tar.gz "$trial/"
(cd "$top" && cp --parents bindings/rust/README.md bindings/go/README.md bindings/python/README.md "$trial")
cp -r "$work/source" "$trial/source"
export PATH=/usr/sbin:/usr/bin:/sbin:/bin
step "what a new system builds of it" bash "$top/tools/packaging/in_new_system.sh" "$of_debian" "$trial"
finish
