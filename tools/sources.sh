# The calculator and its sources, for tools/prove, which sets $top to the repository. As a command it prints a checksum,
# `bash tools/sources.sh sum [CRATE [TARGET [FILE..]]]`, or lines of crates.txt, `.. below CRATE`; `.. proved` ends with
# 0 if the calculator is proved and built of its sources. It needs no Python.
[ "${BASH_SOURCE[0]}" != "$0" ] || { set -euo pipefail && top=$(cd "$(dirname "$0")/.." && pwd); }
program=$top/crates/calculator/out/calculator
sources=("$top/crates.txt" "$top"/crates/*/{src,specs,proofs})
kept=$top/.s2calc

lines_below() { # CRATE: its line of crates.txt and those of all crates below it, in order
  local -A line=()
  local name text waiting=("$1")
  while IFS= read -r text; do
    [[ ! $text =~ ^([a-z_0-9]+)[^:]*: ]] || line[${BASH_REMATCH[1]}]=$text
  done <"$top/crates.txt"
  while [ ${#waiting[@]} -gt 0 ]; do
    name=${waiting[0]} waiting=("${waiting[@]:1}")
    [ -n "${line[$name]-}" ] || continue
    printf '%s\n' "${line[$name]}"
    waiting+=(${line[$name]#*:})
    unset "line[$name]"
  done | LC_ALL=C sort
}

# The checksum of the sources of a crate and of those below it, and of other files of the repository, for a target: of
# the target, of their lines in crates.txt, and of the lines that sha256sum prints of all files in order.
checksum() { # [CRATE [TARGET [FILE..]]]
  (
    cd "$top" || exit
    lines=$(lines_below "${1:-calculator}")
    while IFS=': ' read -r crate _; do
      for folder in "crates/$crate"/{src,specs,proofs}; do [ ! -d "$folder" ] || folders+=("$folder"); done
    done <<<"$lines"
    {
      printf '%s\n' "${2:-x86_64-unknown-linux-gnu}" "$lines"
      find "${folders[@]}" "${@:3}" -type f -print0 | LC_ALL=C sort -z | xargs -0 sha256sum
    } | sha256sum | { read -r sum _ && echo "$sum"; }
  )
}

is_current() { # whether no source is newer than the program
  [ -z "$(find "${sources[@]}" -type f -newer "$program" -print -quit 2>/dev/null)" ]
}

# Whether the program was proved and built of these sources: none is newer; or all are what they were when none was, and
# were only written anew. Their checksum then stands beside the program.
is_proved() {
  local sum
  [ -x "$program" ] || return
  if is_current; then
    [ "$program.of" -nt "$program" ] || { sum=$(checksum) && is_current && echo "$sum" >"$program.of"; } 2>/dev/null ||
      true
  else
    [ "$program.of" -nt "$program" ] && sum=$(checksum) && [ "$sum" = "$(cat "$program.of")" ]
  fi
}

[ "${BASH_SOURCE[0]}" != "$0" ] || case ${1-} in
  sum) checksum "${@:2}" ;;
  below) lines_below "$2" ;;
  proved) is_proved ;;
  *) echo "bash tools/sources.sh sum [CRATE [TARGET [FILE..]]], below CRATE, or proved" >&2 && exit 2 ;;
esac
