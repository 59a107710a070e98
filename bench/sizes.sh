#!/usr/bin/env bash
# The sizes of orders, in bytes, for the table of README.md: the document as it is written without layout, the same by
# `gzip -9n`, its encoding, and the encoding by `gzip -9n`. The lines are those of `trial`.
#
#     bench/sizes.sh [LINES..]          needs the program (`make run`), awk and gzip; 1, 100, 1000 and 100000 lines
#
# PROGRAM names another program.
set -eu
cd "$(dirname "$0")/.."
program=${PROGRAM:-bin/transcode}
work=$(mktemp -d)
trap 'rm -rf "$work"' EXIT
. bench/orders.sh

size() {
    stat -c %s "$1"
}

echo '| Lines | XML | gzip | PER | PER in gzip |'
echo '|---|---|---|---|---|'
for lines in "${@:-1}" $([ $# -gt 0 ] || echo 100 1000 100000); do
    order "$lines" > "$work/document"
    "$program" to-per '{urn:po}order' "$work/order.xsd" < "$work/document" > "$work/octets"
    gzip -9nk "$work/document" "$work/octets"
    echo "| $lines | $(size "$work/document") | $(size "$work/document.gz") | $(size "$work/octets") | $(size "$work/octets.gz") |" |
        sed -E ':again; s/([0-9])([0-9]{3})([ ,])/\1,\2\3/; t again'
    rm "$work"/document* "$work"/octets*
done
