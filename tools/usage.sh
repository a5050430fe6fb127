# What a command of bash does first: `. tools/usage.sh`. With --help or -h as its first word it prints the comment at
# its head, which is its usage, and ends. usage.py is the same for a command of Python.
case "${1:-}" in --help | -h) sed -n '/^#!/d; /^#/!q; s/^# \{0,1\}//p' "$0"; exit ;; esac
