#!/usr/bin/env bash
# Makes the installed C library in a folder: libruvkhiska.a and libruvkhiska.so.VERSION, for x86-64 Linux.
#
# Both come from the archive that `rt lib` makes, and contain the functions of the kit's heap that it calls. Their only global
# symbols are the calls of include/ruvkhiska.h, so they can't clash with names of the program that links them.
#
#     install/library.sh FOLDER          needs a C compiler and binutils
#
# LIBRARY names the archive, HEAP the kit's archive with the heap.
set -eu
umask 022
folder=$(realpath "$1")
cd "$(dirname "$0")/.."
version=$(cat install/version)
library=${LIBRARY:-crates/ruvkhiska_c/out/libruvkhiska_c.a}
[ -f "$library" ] || { echo "no archive at $library: make install" >&2; exit 2; }
heap=${HEAP:-$(dirname "$("${RT:-rt}" doc)")/c/liblibc_c.a}
[ -f "$heap" ] || { echo "no archive of the kit's heap at $heap" >&2; exit 2; }
shared=$folder/libruvkhiska.so.$version
work=$(mktemp -d)
trap 'rm -rf "$work"' EXIT

# The declarations alone: what is inline isn't in the library.
sed -nE 's/^(int32_t|uint32_t|void) (ruvkhiska_[a-z_]+)\(.*/\2/p' include/ruvkhiska.h | sort -u > "$work/calls"
{
    echo "RUVKHISKA_${version%%.*} { global:"
    sed 's/$/;/' "$work/calls"
    echo 'local: *; };'
} > "$work/calls.map"

# One object of all: every other name becomes local to it. Groups are resolved, since the linker compares them by name.
ld -r --force-group-allocation -o "$work/all.o" --whole-archive "$library" --no-whole-archive "$heap"
objcopy --keep-global-symbols="$work/calls" "$work/all.o" "$work/ruvkhiska.o"
rm -f "$folder/libruvkhiska.a"
ar rcsD "$folder/libruvkhiska.a" "$work/ruvkhiska.o"
${CC:-cc} -shared -o "$shared" "$work/ruvkhiska.o" "-Wl,-soname,libruvkhiska.so.${version%%.*}" \
    "-Wl,--version-script=$work/calls.map" -Wl,-z,defs,-z,text,-z,relro,-z,now,--gc-sections
chmod 644 "$shared"

nm -g --defined-only "$folder/libruvkhiska.a" | awk 'NF == 3 { print $3 }' | sort > "$work/static"
nm -D --defined-only "$shared" | awk '$2 != "A" { sub(/@.*/, "", $3); print $3 }' | sort > "$work/dynamic"
for it in static dynamic; do
    cmp -s "$work/calls" "$work/$it" || { echo "the $it library has other names than the header:" >&2; diff "$work/calls" "$work/$it" >&2; exit 1; }
done
