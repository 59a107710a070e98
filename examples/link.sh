#!/usr/bin/env bash
# Sends and receives a document over a link that damages octets (docs/guide/LINK.md). Needs gzip.
#
#     examples/link.sh send SCHEMA < DOCUMENT > FRAME
#     examples/link.sh receive SCHEMA < FRAME > DOCUMENT
#
# A frame is a message in unaligned PER with its stamp, and then its CRC-32. PEOPLE names another program.
set -euo pipefail
program=${PEOPLE:-bin/ruvkhiska}
work=$(mktemp -d)
trap 'rm -rf "$work"' EXIT

crc() { # FILE: its CRC-32, from the last 8 octets of gzip
    gzip -c "$1" | tail -c 8 | head -c 4
}

send() {
    "$program" to-per -t uper --stamp "$1" -o "$work/message"
    cat "$work/message"
    crc "$work/message"
}

receive() {
    cat > "$work/frame"
    head -c -4 "$work/frame" > "$work/message"
    if ! tail -c 4 "$work/frame" | cmp -s - <(crc "$work/message"); then
        echo 'damaged: request it again' >&2
        return 1
    fi
    "$program" to-xml -t uper --stamp "$1" < "$work/message"
}

"$@"
