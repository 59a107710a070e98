#!/usr/bin/env bash
# The header of the C library: it compiles without a warning in C99, C11 and C++17, alone and in the examples, by each compiler that is
# there. Then programs in C and C++ read records from a pipe, and must write each document before the next octet is sent.
#
#     tests/header.sh          needs the archive of the library (`make build`), a C and a C++ compiler, and Python 3; some seconds
#
# LIBRARY names another archive.
set -eu
cd "$(dirname "$0")/.."
library=${LIBRARY:-crates/ruvkhiska_c/out/libruvkhiska_c.a}
[ -f "$library" ] || { echo "no archive at $library: make build" >&2; exit 2; }
heap=$(dirname "$(rt doc)")/c/liblibc_c.a
work=$(mktemp -d)
trap 'rm -rf "$work"' EXIT
flags="-Wall -Wextra -pedantic -Wconversion -Wshadow -Werror -O2 -Iinclude"

wrong=0
tried=0
# tries WORD..: the command succeeds without a word.
tries() {
    tried=$((tried + 1))
    "$@" > "$work/log" 2>&1 && [ ! -s "$work/log" ] && return
    echo "  wrong: $*"
    head -n 20 "$work/log"
    wrong=$((wrong + 1))
}

echo '#include "ruvkhiska.h"' > "$work/alone.c"
# Nothing else in the program may need to be included before it, and it may be included twice.
echo '#include "ruvkhiska.h"' >> "$work/alone.c"
echo 'int main(void) { return ruvkhiska_version() == RUVKHISKA_VERSION_NUMBER ? 0 : 1; }' >> "$work/alone.c"
for compiler in gcc clang; do
    command -v $compiler > /dev/null || { echo "not tried: $compiler"; continue; }
    for standard in c99 c11; do
        # shellcheck disable=SC2086
        tries $compiler -std=$standard $flags "$work/alone.c" "$library" "$heap" -o "$work/alone"
        tries "$work/alone"
        # shellcheck disable=SC2086
        tries $compiler -std=$standard -D_POSIX_C_SOURCE=200809L $flags examples/records.c "$library" "$heap" -o "$work/$compiler-$standard"
    done
    # shellcheck disable=SC2086
    tries $compiler -std=c++17 -x c++ $flags "$work/alone.c" -x none "$library" "$heap" -o "$work/alone"
    tries "$work/alone"
    # shellcheck disable=SC2086
    tries $compiler -std=c++17 -x c++ $flags examples/records.c -x none "$library" "$heap" -o "$work/$compiler-c++17"
done

for program in "$work"/gcc-* "$work"/clang-*; do
    [ ! -x "$program" ] || tries tests/records.py "$program"
done

echo "$tried tried, $wrong wrong"
[ "$wrong" = 0 ]
