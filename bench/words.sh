#!/usr/bin/env bash
# Measures `to-per` of a list of 1,000,000 items whose simple type has 10,000 words, beside the same over 10 words (the columns
# of the peer): how many words a type has must not cost its values. bench/measure.sh says what is needed and what the
# columns are.
set -eu
cd "$(dirname "$0")/.."
. bench/measure.sh

# A list of so many items, each one of so many words, and its schema.
words() {
    {
        printf '<xs:schema xmlns:xs="http://www.w3.org/2001/XMLSchema">'
        printf '<xs:simpleType name="Word"><xs:restriction base="xs:token">'
        awk -v words="$1" 'BEGIN { for (i = 0; i < words; i++) printf "<xs:enumeration value=\"w%05d\"/>", i }'
        printf '</xs:restriction></xs:simpleType><xs:simpleType name="Words"><xs:list itemType="Word"/></xs:simpleType>'
        printf '<xs:element name="words" type="Words"/></xs:schema>\n'
    } > "$work/$1.xsd"
    awk -v words="$1" 'BEGIN {
        printf "<words>"
        for (i = 0; i < 1000000; i++) printf "w%05d ", (i * 7919) % words
        printf "</words>"
    }' > "$work/$1"
}
words 10000
words 10

ours() { run "$work/10000" "$program" to-per words "$work/10000.xsd"; }
peer() { run "$work/10" "$program" to-per words "$work/10.xsd"; }
headings
compare words "$work/10000"
