#!/usr/bin/env bash
# The package for Java: tests/run java. With --short it is asked for x86-64 alone, without the cross compiler. It
# installs the Debian packages that it needs. Its last line is 'N passed, M failed'; the status is 1 if any failed.
. "$(dirname "$0")/../../../tests/steps.sh"
tests=$top/bindings/java/tests
processors="amd64:x86-64 aarch64:AArch64" target=()
[ "${1:-}" != --short ] || processors=amd64:x86-64 target=(--target x86_64)

need javac openjdk-17-jdk-headless
need gcc gcc libc6-dev
[ ${#target[@]} -gt 0 ] || need aarch64-linux-gnu-gcc gcc-aarch64-linux-gnu libc6-dev-arm64-cross
need_packages
need_library

step "no arithmetic on cells" no_arithmetic "$top/bindings/java/s2union.c"
step "bindings/java/package" "$top/bindings/java/package" "$work/java" "${target[@]}" "${released[@]}"
[ "$failed" -eq 0 ] || finish
jar=$work/java/s2union.jar
again() {
  "$top/bindings/java/package" "$work/again" "${target[@]}" "${released[@]}" && diff -r "$work/java" "$work/again"
}
step "the same bytes a second time" again
beside_it() { # what a registry of Java asks for, without a word that is not filled in
  jar --describe-module --file "$jar" | grep "^s2union.* automatic" && [ -s "$work/java/s2union-javadoc.jar" ] &&
    jar --list --file "$work/java/s2union-sources.jar" | grep -x s2union/CellUnion.java &&
    grep "<version>$(cat "$top/VERSION")<" "$work/java/s2union.pom" && ! grep '>[^<]*@' "$work/java/s2union.pom"
}
step "its sources, its reference, its pom, its name as a module" beside_it
unpacked() { # libraries, each for its processor
  local each
  mkdir "$work/classes" && (cd "$work/classes" && jar --extract --file "$jar") && for each in $processors; do
    readelf -hW "$work/classes/s2union/${each%:*}/libs2union_java.so" | grep -i "Machine:.*${each#*:}" &&
      old_glibc "$work/classes/s2union/${each%:*}/libs2union_java.so" || return 1
  done
}
step "the library for each processor is in it" unpacked
compiled() { # with the class of the page
  block bindings/java/README.md "java region" >"$work/Region.java" &&
    /usr/bin/python3 -B "$top/tools/methods.py" "$work/asking" "$tests"/*.java &&
    javac -Xlint:all -Werror -cp "$jar" -d "$work/tests" "$work"/asking/*.java "$work/Region.java"
}
step "compile the tests" compiled
commented() { # of the sources that are in the package
  mkdir "$work/sources" && (cd "$work/sources" && jar --extract --file "$work/java/s2union-sources.jar") &&
    javadoc -quiet -Xdoclint:all -Werror -d "$work/reference" "$work"/sources/s2union/*.java
}
step "javadoc, each warning an error" commented
by_java() { # WORD..: nothing may stay in the folder for temporary files
  mkdir -p "$work/temporary" && java -Djava.io.tmpdir="$work/temporary" "$@" &&
    { [ -z "$(ls "$work/temporary")" ] || { ls "$work/temporary" && return 1; }; }
}
by_comments() {
  mkdir "$work/examples" && /usr/bin/python3 "$top/tests/docs/examples.py" java "$work"/sources/s2union/*.java \
    >"$work/examples/Examples.java" && javac -cp "$jar" -d "$work/tests" "$work/examples/Examples.java" &&
    by_java -cp "$jar:$work/tests" Examples
}
step "the examples of its comments" by_comments
questions() { PYTHONDONTWRITEBYTECODE=1 PYTHONPATH=$top/tests /usr/bin/python3 -m model.vectors >"$work/vectors"; }
step "questions" questions
asked() { # [OPTION] CLASS WORD..: with Java's own checks of native code, which say what they find
  by_java -Xcheck:jni -cp "$jar:$work/tests" "$@" >"$work/said" 2>&1 || { tail -20 "$work/said" && return 1; }
  ! grep -Ei 'warning|fatal' "$work/said" && tail -1 "$work/said"
}
step "shapes in degrees" shapes
step "texts and bytes of shapes" maps
step "against the model" asked Vectors "$work/vectors"
step "coverings of shapes, and places" asked Shapes "$work/shapes"
step "coverings of texts and bytes" asked Maps "$work/map-texts"
step "one cell, beside the library" asked Cells
step "what is refused, what stays, and long lists" asked Refusals "$(cat "$top/VERSION")"
copying() { # a library that copies lists of more than three elements, and refuse.c with what Java asks of it
  local java flags=(-std=c11 -O2 -Wall -fPIC -shared)
  java=$(dirname "$(dirname "$(realpath "$(command -v javac)")")") && cat >"$work/refuse_java.c" <<'END' &&
#include <jni.h>
#include <refuse.h>
JNIEXPORT jlong JNICALL Java_Memory_refuse(JNIEnv* env, jclass of, jlong n) { return refuse_memory(n); }
JNIEXPORT jlong JNICALL Java_Memory_taken(JNIEnv* env, jclass of) { return blocks_taken(); }
END
    flags+=(-I"$java/include" -I"$java/include/linux" -I"$top/tests" -I"$work/usr/include" -I"$work/natives") &&
    /usr/bin/python3 -B "$top/tools/methods.py" "$work/natives" "$top/bindings/java/calls.h" &&
    gcc "${flags[@]}" "$top/tests/refuse.c" "$work/refuse_java.c" -o "$work/refuse.so" &&
    gcc "${flags[@]}" -DSHORT=3 "$top/bindings/java/s2union.c" "$work/usr/lib/libs2union.a" -lm \
      -o "$work/copying.so"
}
step "a library that copies most lists" copying
step "against the model, by copies" asked -Ds2union.library="$work/copying.so" Vectors "$work/vectors"
without_memory() { # by the interpreter, which takes no memory itself during a call
  LD_PRELOAD=$work/refuse.so by_java -Xint -XX:+UseSerialGC -Dsun.reflect.inflationThreshold=2147483647 \
    -Ds2union.library="$work/copying.so" -cp "$jar:$work/tests" Memory "$work/refuse.so"
}
step "each allocation refused in turn, and what calls keep" without_memory
by_page() {
  block bindings/java/README.md java >"$work/Program.java" &&
    block bindings/java/README.md "text java" >"$work/wanted" && [ -s "$work/wanted" ] &&
    by_java "$@" "$work/Program.java" >"$work/printed" && diff "$work/wanted" "$work/printed"
}
step "bindings/java/README.md" by_page -cp "$jar"
first_lines() {
  lines_of java "import s2union.*; public class First { public static void main(String[] words) {" "}}" \
    "$work/First.java" && first_says by_java -cp "$jar" "$work/First.java"
}
step "README.md" first_lines
by_property() ( # named from the root and from here, where the classes have none
  cd "$work" && mv classes/s2union/amd64/libs2union_java.so named.so &&
    by_page -cp classes -Ds2union.library="$work/named.so" && by_page -cp classes -Ds2union.library=named.so &&
    ! by_page -cp classes >said 2>&1 && grep "s2union has no library for Linux on amd64" said
)
step "the property s2union.library" by_property
elsewhere() ( # the names of other systems, over this one's library; what Windows keeps, the next program deletes
  cd "$work" && mkdir -p classes/s2union/{windows,macos}-amd64 temporary &&
    cp named.so classes/s2union/windows-amd64/libs2union_java.dll &&
    cp named.so classes/s2union/macos-amd64/libs2union_java.dylib &&
    by_page -Dos.name="Mac OS X" -cp classes && ! by_page -Dos.name=Plan9 -cp classes >said 2>&1 &&
    grep "s2union has no library for Plan9 on amd64" said && touch -d "2 minutes ago" temporary/libs2union_java1.dll &&
    touch temporary/{libs2union_java2.dll,mine.dll} && ! by_page -Dos.name="Windows 11" -cp classes >said &&
    [ "$(ls temporary | paste -sd' ')" = "libs2union_java2.dll mine.dll" ] && rm temporary/* &&
    by_page -Dos.name="Windows 11" -cp classes
)
step "the library of another system, and what Windows keeps" elsewhere
of_its_own() ( # whoever may write what is made, by the umask: asked when it is deleted
  cat >"$work/deleted.c" <<'END' &&
#define _GNU_SOURCE
#include <stdio.h>
#include <stdlib.h>
#include <sys/stat.h>
#include <sys/syscall.h>
#include <unistd.h>
int unlink(const char* path) {
  struct stat it;
  FILE* said = stat(path, &it) == 0 && it.st_size > 9999 ? fopen(getenv("DELETED"), "a") : NULL;
  if (said) fprintf(said, "%o\n", it.st_mode), fclose(said);
  return (int)syscall(SYS_unlink, path);
}
END
    gcc -shared -fPIC "$work/deleted.c" -o "$work/deleted.so" && cd "$work" && umask 0 &&
    DELETED=$work/deleted LD_PRELOAD=$work/deleted.so by_page -XX:-UsePerfData -cp "$jar" &&
    [ "$(uniq "$work/deleted")" = 100600 ]
)
step "its library while it is loaded, which no other user may write" of_its_own
not_loaded() ( # what can't be loaded doesn't stay either
  cd "$work" && echo "no library" >classes/s2union/amd64/libs2union_java.so &&
    ! by_page -cp classes >said 2>&1 && grep UnsatisfiedLinkError said && [ -z "$(ls temporary)" ]
)
step "a library that can't be loaded" not_loaded
finish
