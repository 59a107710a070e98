#!/usr/bin/env bash
# The sizes in docs/guide/NARROW.md: examples whose schemas were rewritten, as XML, in gzip, as octets, and these in gzip.
#
#     narrow/tests/sizes.sh          needs bin/ruvkhiska (or PROGRAM), gzip, and python3-xmlschema (PYTHON names its Python)
set -eu
cd "$(dirname "$0")/../.."
program=${PROGRAM:-bin/ruvkhiska}
python=${PYTHON:-python3}
work=$(mktemp -d)
trap 'rm -rf "$work"' EXIT
echo '| Document | XML | gzip | PER | PER in gzip |'
echo '|---|---|---|---|---|'
while read -r name root words; do
    "$python" narrow/ruvkhiska-narrow -o "$work/$name" "examples/$name.xsd" > /dev/null || [ $? -le 2 ]
    "$program" to-per "$root" "$work/$name"/*.xsd -i "examples/$name.xml" -o "$work/per"
    printf '| %s | %d | %d | %d | %d |\n' "$words" "$(wc -c < "examples/$name.xml")" "$(gzip -9n < "examples/$name.xml" | wc -c)" \
        "$(wc -c < "$work/per")" "$(gzip -9n < "$work/per" | wc -c)"
done << 'END'
purchase-order purchaseOrder an order of 2 lines
ubl-invoice {urn:example:ubl:Invoice-2}Invoice an invoice of 8 lines
track {urn:example:track:1}gpx a track of 60 points
END
