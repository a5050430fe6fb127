#!/usr/bin/env bash
# What anybody can check without Rattle's kit, by tools of Debian 12: tests/public/check.sh [--tier quick|gate|full]
# [--text FILE] [CALL..]; tests/public/check.sh --program FILE writes the checker of answers, and --definitions FOLDER
# the definitions in Coq's words, and does nothing else.
#
# Z3 proves that the text from which the library is compiled does what the contracts of its calls say. That text is
# FILE, or the one of the library that this machine has proved, or src/s2union.ll of the source archive in dist/. With
# CALLs only these are proved. In all tiers except quick, Frama-C then looks at C of the headers that nothing proves.
# Coq checks laws of cells, lists and files by their proofs in crates, and a checker that it proved looks at answers.
# The last line is 'N passed, M failed'.
. "$(dirname "$0")/../steps.sh"
tier=gate text='' made=() calls=() others=()
while [ $# -gt 0 ]; do
  case $1 in
    --tier) tier=${2:-} && shift ;;
    --text) text=${2:-} && shift ;;
    --program | --definitions) made=("$1" "${2:-}") && shift ;;
    *) calls+=("$1") ;;
  esac
  shift
done

need_file /usr/bin/python3 python3
need_modules z3 python3-z3
need xz xz-utils
if [ "$tier" != quick ]; then
  need frama-c frama-c-base
  need coqc coq
  need ocamlopt ocaml
  need make make
  need_installed libcoq-equations libzarith-ocaml-dev
fi
need_packages

of_this_machine() { # the text of the library that was proved here, which is kept
  "$top/tools/archive" && PYTHONPATH=$top/tools /usr/bin/python3 -Bc \
    'import portable_text; print(portable_text.text_of(portable_text.BITCODE), end="")' >"$work/s2union.ll"
}

of_the_release() {
  tar -xJf "$archive" -C "$work" --strip-components 2 --wildcards '*/src/s2union.ll'
}

choose_text() {
  if [ -n "$text" ]; then
    echo "       the text: $text"
  elif command -v rt >/dev/null && "$top/tools/archive" --is-kept; then
    step "the text of the library that is proved here" of_this_machine
  else
    archive=$(echo "$top"/dist/s2union-*-source.tar.xz)
    step "the text: src/s2union.ll of ${archive#"$top/"}" of_the_release
    [[ $archive == */s2union-$(cat "$top/VERSION")-source.tar.xz ]] || leave_version_out
  fi
  text=${text:-$work/s2union.ll}
  [ "$failed" -eq 0 ] || finish
}

leave_version_out() { # the contracts here are those of another version
  echo "       which isn't $(cat "$top/VERSION"), so s2u_version, which tells the version, isn't asked"
  others=(--except s2u_version)
}

counted() { # COMMAND..: what it says is shown, and its last line counts
  "$@" 2>&1 | tee "$work/said"
  local last
  last=$(tail -1 "$work/said")
  if [[ $last =~ ^([0-9]+)\ passed,\ ([0-9]+)\ failed$ ]]; then
    passed=$((passed + BASH_REMATCH[1])) failed=$((failed + BASH_REMATCH[2]))
  else
    echo "FAILED $1 ended without counts" && failed=$((failed + 1))
  fi
}

choose_library_file() { # $library: the one that is installed for this run, or else the release's
  library=${S2UNION_PREFIX:+$S2UNION_PREFIX/lib/libs2union.so.1}
  [ -n "$library" ] && return
  dpkg -x "$(echo "$top"/dist/libs2union1_*_amd64.deb)" "$work/package"
  library=$work/package/usr/lib/x86_64-linux-gnu/libs2union.so.1
}

tell_versions() {
  local programs
  programs="Z3 $(/usr/bin/python3 -c 'import z3; print(z3.get_version_string())')"
  if [ "$tier" != quick ]; then
    programs+=", Frama-C $(frama-c -version), Coq $(coqc --print-version | cut -d ' ' -f 1), OCaml $(ocamlopt -version)"
  fi
  echo "       with $programs"
}

if [ ${#made[@]} -gt 0 ]; then
  counted /usr/bin/python3 -B "$top/tests/public/coq/check.py" "${made[@]}"
  finish
fi
choose_text
tell_versions
counted /usr/bin/python3 -B "$top/tests/public/llvm/prove.py" --tier "$tier" --text "$text" "${others[@]}" \
  "${calls[@]}"
if [ "$tier" != quick ] && [ ${#calls[@]} -eq 0 ]; then
  counted /usr/bin/python3 "$top/tests/public/headers/check.py" --tier "$tier"
  choose_library_file
  counted /usr/bin/python3 -B "$top/tests/public/coq/check.py" --tier "$tier" --library "$library"
fi
finish
