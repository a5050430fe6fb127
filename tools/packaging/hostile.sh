#!/usr/bin/env bash
# Looks at files as one who mistrusts them: hostile FOLDER WORD... FOLDER has the files of a package, and a WORD is part
# of a path of the machine that made them. The last line is 'N passed, M failed'; the status is 1 if any failed.
set -uo pipefail
folder=$1
shift
passed=0 failed=0

is() { # WHAT COMMAND..: what the command says is shown if it fails
  local said
  if said=$("${@:2}" 2>&1); then passed=$((passed + 1)); else
    failed=$((failed + 1))
    echo "FAILED $1: ${said:-no}"
  fi
}

none() { # COMMAND..: that it says nothing
  ! "$@" 2>&1 | grep .
}

# ---- what each file has to be

no_path() { # FILE WORD..: none of the words is in it
  local file=$1 word
  shift
  for word; do none grep -aoF -m 1 -- "$word" "$file" || return 1; done
}
stack_is_data() { readelf -lW "$1" | grep 'GNU_STACK.* RW ' >/dev/null || { echo "an executable stack"; return 1; }; }
no_run_path() { none grep -E 'R(UN)?PATH' <(readelf -dW "$1"); }
no_text_relocations() { none grep TEXTREL <(readelf -dW "$1"); }
relocations_read_only() { readelf -lW "$1" | grep GNU_RELRO >/dev/null && readelf -dW "$1" | grep NOW >/dev/null; }
needs_only_c() { none grep -v 'lib[cm]\.so\.6\|ld-linux' <(readelf -dW "$1" | grep NEEDED); }

# All that is not defined in it is a versioned symbol of the C library, or one of these.
nothing_undefined() { # FILE PATTERN
  none grep -vE "@GLIBC_|$2" <(nm -D --undefined-only "$1" | awk '$1 != "w" { print $2 }')
}
exports_only() { # FILE PATTERN
  none grep -vE "$2" <(nm -D --defined-only "$1" | awk '{ print $3 }')
}
wanted_of_the_server() { # FILE: the server's program exports what extensions may call
  none comm -23 <(nm -D --undefined-only "$1" | awk '$1 != "w" { print $2 }' | grep -v @ | sort -u) \
    <(nm -D --defined-only "$2" | awk '{ print $3 }' | sort -u)
}
exports() { nm -D --defined-only "$1" | awk '{ print $3 }' | grep -xE "$2" >/dev/null; }

# ---- the files

while IFS= read -r file; do
  name=$(basename "$file")
  is "$name has no path of this machine" no_path "$file" "$@"
  case $(head -c 4 "$file" | tr -d '\0') in $'\177ELF') ;; *) continue ;; esac
  is "$name: the stack is not executable" stack_is_data "$file"
  is "$name looks for no library in a folder of its own" no_run_path "$file"
  is "$name: its code is not written" no_text_relocations "$file"
  is "$name: what is linked is read only" relocations_read_only "$file"
  is "$name needs the C library alone" needs_only_c "$file"
  is "$name runs with the C library that docs/INSTALL.md names" bash "$(dirname "$0")/glibc.sh" "$file"
  case $name in
    libs2union.so.*)
      is "$name wants nothing but C's calls" nothing_undefined "$file" '^$'
      is "$name exports versioned calls" exports_only "$file" '^s2u_[a-z_]+@@S2UNION_[0-9]+$|^S2UNION_[0-9]+$'
      is "$name has its calls" exports "$file" 's2u_version@@S2UNION_[0-9]+'
      ;;
    _library.abi3.so) # what Python has since 3.8, which its headers have looked at
      is "$name wants nothing but C's calls and Python's" nothing_undefined "$file" '^_?Py[A-Z_][A-Za-z_]+$'
      is "$name exports its entry point" exports_only "$file" '^PyInit__library$'
      is "$name has an entry point" exports "$file" PyInit__library
      ;;
    mod_s2union.so)
      is "$name wants nothing but C's calls" nothing_undefined "$file" '^$'
      is "$name exports its entry points" exports_only "$file" '^sqlite3_(extension|sunion)_init$'
      is "$name has an entry point" exports "$file" sqlite3_extension_init
      ;;
    mod_s2union_geo.so)
      is "$name wants nothing but C's calls" nothing_undefined "$file" '^$'
      is "$name exports its entry points" exports_only "$file" '^sqlite3_(extension|sunion_geo)_init$'
      is "$name has an entry point" exports "$file" sqlite3_extension_init
      ;;
    s2union.so)
      is "$name exports its entry points" exports_only "$file" '^(pg_finfo_)?s2(union)?_[a-z0-9_]+$|^Pg_magic_func$'
      is "$name has an entry point" exports "$file" Pg_magic_func
      is "$name exports none of the library's calls" none grep s2u_ <(nm -D "$file")
      server=/usr/lib/$(grep -o 'postgresql/[0-9]*' <<<"$file" | tail -1)/bin/postgres
      [ ! -e "$server" ] || is "$name wants nothing but the server's calls" wanted_of_the_server "$file" "$server"
      ;;
    s2calc) is "$name wants nothing but C's calls" nothing_undefined "$file" '^$' ;;
  esac
done < <(find "$folder" -type f | sort)
echo "$passed passed, $failed failed"
[ "$failed" -eq 0 ] && [ "$passed" -gt 0 ]
