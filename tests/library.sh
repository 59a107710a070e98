#!/usr/bin/env bash
# The library for C: compiles and runs the examples in C and in Python over the same messages, compares what they write with the
# program's answers, refuses each allocation in turn, and counts blocks over a million messages.
#
#     tests/library.sh          needs a C compiler, Python 3, and the archive or the time to prove it; then some seconds
#
# LIBRARY names the archive (libruvkhiska_c.a, or bin/libruvkhiska-unproved.a of tests/quick.sh), PROGRAM the program for scripts,
# with which the answers are compared if it is there, MESSAGES how many messages are counted.
set -eu
cd "$(dirname "$0")/.."
library=${LIBRARY:-crates/ruvkhiska_c/out/libruvkhiska_c.a}
program=${PROGRAM:-bin/transcode}
messages=${MESSAGES:-1000000}
heap=$(dirname "$(rt doc)")/c/liblibc_c.a
[ -f "$library" ] || (cd crates/ruvkhiska_c && rt lib)
work=$(mktemp -d)
trap 'rm -rf "$work"' EXIT
cc=${CC:-cc}
warnings="-std=c11 -Wall -Wextra -Werror"

# The address sanitizer, where the compiler has its runtime.
checks=
echo 'int main(void) { return 0; }' > "$work/none.c"
if $cc -fsanitize=address,undefined -o "$work/none" "$work/none.c" 2> /dev/null && "$work/none"; then
    checks="-fsanitize=address,undefined -g"
else
    echo 'without the address sanitizer: this compiler has no runtime for it'
fi

wrong=0
fail() {
    echo "  wrong: $1"
    wrong=$((wrong + 1))
}

# shellcheck disable=SC2086
$cc -O2 $warnings $checks -Iinclude examples/messages.c "$library" "$heap" -o "$work/messages"
# shellcheck disable=SC2086
$cc -O2 $warnings $checks tests/library.c "$library" -o "$work/library"
# shellcheck disable=SC2086
$cc -O2 $warnings tests/library.c "$library" -o "$work/library-plain"

# The shared object: it hands out the calls of the header alone.
{
    echo '{ global:'
    sed -nE 's/^(int32_t|uint32_t|void) (ruvkhiska_[a-z_]+)\(.*/\2;/p' include/ruvkhiska.h | sort -u
    echo 'local: *; };'
} > "$work/calls.map"
$cc -shared -o "$work/libruvkhiska.so" -Wl,--whole-archive "$library" -Wl,--no-whole-archive "$heap" \
    -Wl,-z,defs,-z,text "-Wl,--version-script=$work/calls.map"

# What the program writes of each message, one call each.
by_program() {
    local encode=$1 decode=$2 line status
    while IFS= read -r line; do
        status=0
        printf '%s' "$line" | "$program" "$encode" '{urn:po}order' examples/order.xsd > "$work/octets" 2> "$work/complaint" || status=$?
        if [ "$status" = 0 ]; then
            od -An -v -tx1 "$work/octets" | tr -d ' \n'
            echo
            "$program" "$decode" '{urn:po}order' examples/order.xsd < "$work/octets"
            echo
        else
            printf 'message: status %d: %s\n' "$status" "$(cat "$work/complaint")"
        fi
    done < examples/orders.txt
}

for syntax in 0 1 2; do
    "$work/messages" urn:po order "$syntax" examples/orders.txt examples/order.xsd > "$work/by-c" || fail "examples/messages.c: status $?"
    RUVKHISKA_LIBRARY=$work/libruvkhiska.so PYTHONPATH=python python3 examples/messages.py \
        urn:po order "$syntax" examples/orders.txt examples/order.xsd > "$work/by-python" || fail "examples/messages.py: status $?"
    cmp "$work/by-c" "$work/by-python" || fail "C and Python answer otherwise, syntax $syntax"
    if [ -x "$program" ]; then
        case $syntax in
            0) by_program to-per to-xml ;;
            1) by_program to-per-u to-xml-u ;;
            2) by_program to-der from-der ;;
        esac > "$work/by-program"
        cmp "$work/by-c" "$work/by-program" || fail "the program answers otherwise, syntax $syntax"
    else
        echo "no program at $program: its answers aren't compared"
    fi
    printf 'syntax %s: %d lines alike\n' "$syntax" "$(wc -l < "$work/by-c")"
done
head -n 1 "$work/by-c" > /dev/null

"$work/library" refuse examples/order.xsd || fail 'memory that was refused'
"$work/library" many examples/order.xsd 10000 || fail 'blocks that were left'
"$work/library-plain" many examples/order.xsd "$messages" || fail 'memory that grows'

if [ "$wrong" = 0 ]; then echo 'library: all as it must be'; else exit 1; fi
