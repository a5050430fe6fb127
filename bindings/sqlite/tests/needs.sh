# What the tests of SQLite and its mutants share: packages of Debian, and the library. The caller reads steps.sh first.

need gcc gcc libc6-dev
need make make
need sqlite3 sqlite3
need_file /usr/include/sqlite3ext.h libsqlite3-dev
need_modules numpy python3-numpy
need valgrind valgrind
need gcovr gcovr
need_pytest
need_packages
need_library
