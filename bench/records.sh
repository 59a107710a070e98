#!/usr/bin/env bash
# Measures `each-to-xml` over 1,000,000 encodings of 8 octets, one behind the other: the time for each, beside `to-xml` of one
# order of 100,000 lines, which decodes and writes about as many values, and the most memory of 1,000, 100,000 and 1,000,000
# records, which doesn't grow with their number. bench/measure.sh says what is needed.
#
# LIMIT=1 also tries the greatest number of octets that records may have, 1,073,741,824, with records of one octet: just so
# many are taken, and one more is too long. That takes long, and writes much to /dev/null.
set -eu
cd "$(dirname "$0")/.."
. bench/measure.sh
. bench/orders.sh

order 1 > "$work/order"
"$program" to-per '{urn:po}order' "$work/order.xsd" < "$work/order" > "$work/one"
printf 'one record: %d octets\n' "$(stat -c %s "$work/one")"


# By doubling, so that no process is started for each.
cp "$work/one" "$work/records-1"
count=1
while [ "$count" -lt 1000000 ]; do
    cat "$work/records-$count" "$work/records-$count" > "$work/records-$((2 * count))"
    count=$((2 * count))
done
octets=$(stat -c %s "$work/one")

printf '%10s %10s %10s %10s %12s\n' records s 'cpu s' kB 'us of each'
for n in 1000 100000 1000000; do
    head -c $((n * octets)) "$work/records-$count" > "$work/input"
    : > "$work/ours"
    for _ in $(seq "$runs"); do
        run "$work/input" "$program" each-to-xml '{urn:po}order' "$work/order.xsd" >> "$work/ours"
    done
    # shellcheck disable=SC2046
    printf '%10d %10s %10s %10s' "$n" $(best < "$work/ours")
    awk -v n="$n" -v ours="$(best < "$work/ours")" 'BEGIN { split(ours, a); printf " %12.3f\n", a[2] * 1000000 / n }'
done

# Decoding and writing alone, in instructions: `to-xml` of one record less `each-to-xml` of none, which reads the schemas too.
if command -v valgrind > /dev/null; then
    counted() {
        local input=$1
        shift
        valgrind --tool=callgrind --callgrind-out-file=/dev/null "$program" "$@" '{urn:po}order' "$work/order.xsd" < "$input" 2>&1 > /dev/null |
            awk '/Collected/ { print $NF }'
    }
    head -c $((1000 * octets)) "$work/records-$count" > "$work/thousand"
    awk -v none="$(counted /dev/null each-to-xml)" -v alone="$(counted "$work/one" to-xml)" -v thousand="$(counted "$work/thousand" each-to-xml)" \
        'BEGIN { printf "instructions of a record: alone %d, of a thousand %d each (%.2f)\n", alone - none, (thousand - none) / 1000, (thousand - none) / 1000 / (alone - none) }'
fi

if [ "${LIMIT:-}" = 1 ]; then
    printf '<xs:schema xmlns:xs="http://www.w3.org/2001/XMLSchema"><xs:element name="e"><xs:complexType/></xs:element></xs:schema>' > "$work/e.xsd"
    for n in 1073741824 1073741825; do
        status=0
        head -c "$n" /dev/zero | "$program" each-to-xml e "$work/e.xsd" > /dev/null 2> "$work/complaint" || status=$?
        printf '%d octets: status %d %s\n' "$n" "$status" "$(cat "$work/complaint")"
    done
fi
