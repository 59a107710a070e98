#!/usr/bin/env bash
# Threads that convert with one prepared set of the C library. Eight threads convert a million messages in three transfer syntaxes, and
# each result is compared with one thread's. The same, with fewer messages, runs under helgrind and ThreadSanitizer, which have to
# report threads that use one converter at the same time. The example with threads is compiled and run.
#
#     tests/threads.sh          needs the archive of the library (`make build`), a C compiler with ThreadSanitizer's runtime, and
#                               valgrind; some minutes
#
# LIBRARY names another archive. SANITIZED names the archive of the same code with ThreadSanitizer's checks, which
# `tests/quick.sh sanitized` makes: that checker sees no access of code without them. MESSAGES is the number of messages, and FEW that
# under a checker.
set -eu
cd "$(dirname "$0")/.."
library=${LIBRARY:-crates/ruvkhiska_c/out/libruvkhiska_c.a}
sanitized=${SANITIZED:-bin/libruvkhiska-unproved-sanitized.a}
messages=${MESSAGES:-1000000}
few=${FEW:-2000}
cc=${CC:-cc}
[ -f "$library" ] || { echo "no archive at $library: make build" >&2; exit 2; }
heap=$(dirname "$(rt doc)")/c/liblibc_c.a
work=$(mktemp -d)
trap 'rm -rf "$work"' EXIT
flags="-std=c11 -D_POSIX_C_SOURCE=200809L -Wall -Wextra -Wconversion -Werror -g -pthread"

wrong=0
fail() {
    echo "  wrong: $1"
    wrong=$((wrong + 1))
}

# compile OUT WORD..: a program of the test or the example.
compile() {
    local out=$work/$1
    shift
    # shellcheck disable=SC2086
    $cc $flags "$@" -o "$out"
}

# catches NAME COMMAND..: the command reports the misuse of a converter. A run in which no two calls meet has nothing to report.
catches() {
    local name=$1
    shift
    for _ in 1 2 3 4 5; do
        "$@" > "$work/log" 2>&1 || true
        if grep -q 'data race' "$work/log"; then
            echo "$name reports threads that use one converter"
            return
        fi
    done
    fail "$name doesn't report threads that use one converter"
}

compile counted -O2 -DCOUNTED tests/threads.c "$library"
compile plain -O2 tests/threads.c "$library" "$heap"
"$work/counted" right 8 "$messages" || fail 'results, or blocks that are left'
"$work/counted" right 1 10000 || fail 'results of one thread, or blocks that are left'

# The example: what its threads encode is what examples/messages.c writes.
compile example -O2 -Iinclude examples/threads.c "$library" "$heap"
compile messages -O2 -Iinclude examples/messages.c "$library" "$heap"
"$work/example" urn:po order examples/orders.txt examples/order.xsd > "$work/example.txt" || fail "examples/threads.c: status $?"
"$work/messages" urn:po order 0 examples/orders.txt examples/order.xsd > "$work/messages.txt" || fail "examples/messages.c: status $?"
required=$(awk '/^[0-9a-f]+$/ { n++; octets += length($0) / 2 } /^message: / { rejected++ }
    END { printf "threads: %d messages as %d octets, %d rejected", n, octets, rejected }' "$work/messages.txt")
[ "$(cut -d ' ' -f 2- "$work/example.txt")" = "$required" ] || fail "examples/threads.c: $(cat "$work/example.txt"), not $required"

if command -v valgrind > /dev/null; then
    helgrind="valgrind --tool=helgrind --error-exitcode=9"
    # shellcheck disable=SC2086
    if $helgrind "$work/plain" right 8 "$few" > "$work/log" 2>&1; then
        echo "helgrind: $(grep -m 1 threads, "$work/log")"
    else
        fail 'helgrind'
        tail -n 60 "$work/log"
    fi
    # shellcheck disable=SC2086
    catches helgrind $helgrind "$work/plain" misuse 8 200
else
    echo 'not tried: helgrind, for which valgrind is not installed'
fi

echo 'int main(void) { return 0; }' > "$work/none.c"
if [ ! -f "$sanitized" ]; then
    echo "not tried: ThreadSanitizer, for which $sanitized is missing: tests/quick.sh sanitized"
elif ! { compile none -fsanitize=thread "$work/none.c" 2> /dev/null && "$work/none"; }; then
    echo 'not tried: ThreadSanitizer, for which this compiler has no runtime'
else
    # The kit's compiler calls names that runtimes of older compilers lack. Their own memset, memcpy and memmove note what they touch.
    cat > "$work/names.c" <<'END'
#include <string.h>
#define LACKED __attribute__((weak))
LACKED void *__tsan_memset(void *to, int byte, size_t count) { return memset(to, byte, count); }
LACKED void *__tsan_memcpy(void *to, const void *from, size_t count) { return memcpy(to, from, count); }
LACKED void *__tsan_memmove(void *to, const void *from, size_t count) { return memmove(to, from, count); }
END
    compile sanitized -O1 -fno-builtin -Wno-missing-prototypes -fsanitize=thread tests/threads.c "$work/names.c" "$sanitized" "$heap"
    if "$work/sanitized" right 8 $((few * 5)) > "$work/log" 2>&1; then
        echo "ThreadSanitizer: $(grep -m 1 threads, "$work/log")"
    else
        fail 'ThreadSanitizer'
        head -n 60 "$work/log"
    fi
    catches ThreadSanitizer "$work/sanitized" misuse 8 20000
fi

if [ "$wrong" = 0 ]; then echo 'threads: all as required'; else echo "$wrong wrong"; exit 1; fi
