#!/usr/bin/env bash
# Measures `to-per`, which reads a document, says whether it is valid and writes the encoding of its value, beside
# `xmllint --noout --schema` in the same run; then beside `xmllint --stream`, which keeps no tree, and beside a few lines of
# C over expat that only parse. bench/measure.sh says what is needed and what the columns are; the last part wants a C
# compiler and libexpat1-dev.
set -eu
cd "$(dirname "$0")/.."
. bench/measure.sh
. bench/orders.sh

ours() { run "$file" "$program" to-per '{urn:po}order' "$work/order.xsd"; }

peer() { run /dev/null xmllint --huge --noout --schema "$work/order.xsd" "$file"; }
headings
for lines in ${LINES_OF:-10000 100000 349524}; do
    file=$work/order-$lines
    order "$lines" > "$file"
    compare "$lines" "$file"
done

echo 'beside xmllint --stream:'
peer() { run /dev/null xmllint --huge --stream --noout --schema "$work/order.xsd" "$file"; }
file=$work/order-100000
order 100000 > "$file"
compare 100000 "$file"

if cc -O2 -o "$work/parse" bench/parse.c -lexpat 2> /dev/null; then
    echo 'beside expat, which only parses:'
    peer() { run "$file" "$work/parse"; }
    compare 100000 "$file"
fi
