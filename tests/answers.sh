# How two builds of the library are compared: a program asks each call in each of $rounds rounds, and prints sums of all
# answers. The caller has read tests/steps.sh. $asked is the program's source.
asked=${asked:-$top/bindings/c/tests/answers.c}

asking() { # NAME COMPILER INCLUDE WORD..: the program with a library that these are, or are the sources of
  "$2" -std=c11 -O2 -Wall -Wextra -pedantic -Werror -I"$3" "$asked" "${@:4}" -o "$work/$1"
}
answers() { # NAME COMMAND..: of three seeds, at once
  local seed jobs=() job
  for seed in 1 2 3; do
    "${@:2}" "$seed" "$rounds" >"$work/$1-$seed" &
    jobs+=($!)
  done
  for job in "${jobs[@]}"; do wait "$job" || return 1; done
}
same() { # NAME [AS]: as those of `here`, or of AS; Windows ends a line by two characters
  local seed
  for seed in 1 2 3; do
    tail -n 1 "$work/$1-$seed"
    [ -s "$work/${2:-here}-$seed" ] && diff --strip-trailing-cr "$work/${2:-here}-$seed" "$work/$1-$seed" || return 1
  done
}
