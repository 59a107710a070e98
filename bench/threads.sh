#!/usr/bin/env bash
# Messages a second by number of threads that convert with one prepared set, from one thread to as many as there are processors: an
# order, and the same order with names over 22 bytes. The memory of such names is shared, with a count of its owners.
#
# It needs the archive of the library (`make build`) and a C compiler. Run it on a quiet machine: the first line is the load.
#
# LIBRARY names another archive, THREADS the most threads, COUNT the messages of each thread, TURNS how often all is repeated.
set -eu
cd "$(dirname "$0")/.."
library=${LIBRARY:-crates/ruvkhiska_c/out/libruvkhiska_c.a}
[ -f "$library" ] || { echo "no archive at $library: make build" >&2; exit 2; }
threads=${THREADS:-$(nproc)}
heap=$(dirname "$(rt doc)")/c/liblibc_c.a
work=$(mktemp -d)
trap 'rm -rf "$work"' EXIT
${CC:-cc} -O2 -std=c11 -D_POSIX_C_SOURCE=200809L -Wall -Wextra -pthread -o "$work/threads" bench/threads.c "$library" "$heap"

echo "load: $(cut -d ' ' -f 1-3 /proc/loadavg), processors: $(nproc)"
sed -n 2p examples/orders.txt > "$work/order.xml"
long() {
    sed -E "s/(<\/?|name=[\"'])(order|line|note|sku|qty)\b/\1\2-of-a-long-purchase-order/g" "$1"
}
long examples/order.xsd > "$work/long.xsd"
long "$work/order.xml" > "$work/long.xml"
echo 'an order'
"$work/threads" urn:po order examples/order.xsd "$work/order.xml" "$threads" "${COUNT:-100000}" "${TURNS:-5}"
echo 'the order with long names'
"$work/threads" urn:po order-of-a-long-purchase-order "$work/long.xsd" "$work/long.xml" "$threads" "${COUNT:-100000}" "${TURNS:-5}"
