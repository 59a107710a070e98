#!/usr/bin/env bash
# Measures `check`, which reads a document and says whether it is valid, beside `xmllint --noout --schema`, in the same
# run. bench/measure.sh says what is needed and what the columns are.
set -eu
cd "$(dirname "$0")/.."
. bench/measure.sh
. bench/orders.sh
. bench/names.sh

head='<xs:schema xmlns:xs="http://www.w3.org/2001/XMLSchema">'

# An order of 100,000 lines, 4.28 MB.
order 100000 > "$work/order"

# 100,000 children under 16 sequences in one another.
{
    printf '%s<xs:element name="r"><xs:complexType>' "$head"
    for _ in $(seq 15); do printf '<xs:sequence>'; done
    printf '<xs:sequence maxOccurs="unbounded"><xs:element name="a" type="xs:string"/></xs:sequence>'
    for _ in $(seq 15); do printf '</xs:sequence>'; done
    printf '</xs:complexType></xs:element></xs:schema>\n'
} > "$work/groups.xsd"
awk 'BEGIN { printf "<r>"; for (i = 0; i < 100000; i++) printf "<a/>"; printf "</r>" }' > "$work/groups"

# 1,500,000 times the last of 9,800 names, which stand in 20 choices in a repeated choice.
names 1500000

# A list of 300,000 words, each one of 1,000.
{
    printf '%s<xs:simpleType name="Word"><xs:restriction base="xs:token">' "$head"
    awk 'BEGIN { for (i = 0; i < 1000; i++) printf "<xs:enumeration value=\"w%d\"/>", i }'
    printf '</xs:restriction></xs:simpleType><xs:simpleType name="Words"><xs:list itemType="Word"/></xs:simpleType>'
    printf '<xs:element name="words" type="Words"/></xs:schema>\n'
} > "$work/words.xsd"
awk 'BEGIN { printf "<words>"; for (i = 0; i < 300000; i++) printf "w%d ", (i * 7919) % 1000; printf "</words>" }' > "$work/words"

ours() { run "$file" "$program" check "$root" "$file.xsd"; }
peer() { run /dev/null xmllint --huge --noout --schema "$file.xsd" "$file"; }

headings
for document in ${DOCUMENTS:-order groups names words}; do
    file=$work/$document
    case $document in
        order) root='{urn:po}order' ;;
        words) root=words ;;
        *) root=r ;;
    esac
    compare "$document" "$file"
done
