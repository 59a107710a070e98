#!/usr/bin/env bash
# Messages of some 300 bytes over schemas that are read once, both ways, beside expat alone over the same bytes and beside the
# program called once for each. It needs the archive of the library (`rt lib` in crates/ruvkhiska_c), a C compiler and expat's
# header; without the program (`make run`) that part is left out.
#
# LIBRARY and PROGRAM name others, COUNT the messages, TURNS how often they are gone through, CALLS the calls of the program.
set -eu
cd "$(dirname "$0")/.."
library=${LIBRARY:-crates/ruvkhiska_c/out/libruvkhiska_c.a}
program=${PROGRAM:-bin/transcode}
calls=${CALLS:-1000}
heap=$(dirname "$(rt doc)")/c/liblibc_c.a
work=$(mktemp -d)
trap 'rm -rf "$work"' EXIT
${CC:-cc} -O2 -std=c11 -D_POSIX_C_SOURCE=199309L -Wall -Wextra -o "$work/messages" bench/messages.c "$library" "$heap" -lexpat
"$work/messages" examples/order.xsd "${COUNT:-100000}" "${TURNS:-5}"

[ -x "$program" ] || { echo "no program at $program: make run"; exit 0; }
"$work/messages" write "$work" "$calls"
TIMEFORMAT='%U %S'
time_of() {
    local user system
    { time "$@"; } 2> "$work/time"
    read -r user system < "$work/time"
    awk -v what="$1" -v calls="$calls" -v time="$(awk -v u="$user" -v s="$system" 'BEGIN { print u + s }')" \
        'BEGIN { printf "%-28s %8.3f s %10.0f messages/s %7.2f us each, by %d calls of the program\n", what, time, calls / time, time / calls * 1e6, calls }'
}
to_per() {
    for ((i = 0; i < calls; i++)); do "$program" to-per '{urn:po}order' examples/order.xsd < "$work/$i.xml" > "$work/$i.per"; done
}
to_xml() {
    for ((i = 0; i < calls; i++)); do "$program" to-xml '{urn:po}order' examples/order.xsd < "$work/$i.per" > /dev/null; done
}
time_of to_per
time_of to_xml
