#!/usr/bin/env bash
# Measures `to-xml`, which reads an encoding and writes the document of its value, beside `to-per` of that document (the
# columns of the peer) in the same run. bench/measure.sh says what is needed and what the columns are.
set -eu
cd "$(dirname "$0")/.."
. bench/measure.sh
. bench/orders.sh

ours() { run "$file.per" "$program" to-xml '{urn:po}order' "$work/order.xsd"; }
peer() { run "$file" "$program" to-per '{urn:po}order' "$work/order.xsd"; }
headings
for lines in ${LINES_OF:-10000 100000 349524}; do
    file=$work/order-$lines
    order "$lines" > "$file"
    "$program" to-per '{urn:po}order' "$work/order.xsd" < "$file" > "$file.per"
    compare "$lines" "$file"
done
