#!/usr/bin/env bash
# Writes the octets of each FILE as one UDP datagram to PORT in a capture: tests/interop/pcap.sh OUT.pcap PORT FILE...
set -eu
out=$1
port=$2
shift 2
# With -q it still writes a line of hyphens.
for it; do od -Ax -tx1 -v "$it"; done | text2pcap -q -u "40000,$port" - "$out" 2> >(grep -v '^-*$' >&2)
