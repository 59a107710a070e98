#!/usr/bin/env bash
# The least stack, in kilobytes, in which each command answers over the deepest document that the limits allow: 64 elements in
# one another, each below 16 groups; and `show-back` over modules of 1,024 types in one another. What recurses goes as deep as
# these stand in one another, and no deeper.
#
#     bench/stack.sh          needs the program (`make run`)
#
# PROGRAM names another program.
set -eu
cd "$(dirname "$0")/.."
program=$(realpath "${PROGRAM:-bin/transcode}")
work=$(mktemp -d)
trap 'rm -rf "$work"' EXIT
cd "$work"

opened= closed= shorts=
for i in {1..15}; do
    opened+="<xs:sequence maxOccurs=\"2\"><xs:element name=\"x$i\" type=\"xs:boolean\"/>"
    closed+='</xs:sequence>'
    shorts+="<x$i>1</x$i>"
done
echo '<xs:schema xmlns:xs="http://www.w3.org/2001/XMLSchema"><xs:element name="z"><xs:complexType>' "$opened" \
    '<xs:choice><xs:element ref="z"/><xs:element name="b" type="xs:boolean"/></xs:choice>' "$closed" \
    '</xs:complexType></xs:element></xs:schema>' > deep.xsd
{ for i in {1..63}; do printf '<z>%s' "$shorts"; done; printf '<b>1</b>'; for i in {1..63}; do printf '</z>'; done; } > check
cp check to-per
cp check to-der
"$program" to-per z deep.xsd < to-per > to-xml
"$program" to-der z deep.xsd < to-der > from-der
: > show

# 1,024 types in one another, each in braces behind the word.
in_braces() {
    echo "F ::= $1 {"
    for i in {1..1022}; do printf '%*sa %s {\n' $((4 * i)) '' "$1"; done
    printf '%*sa BOOLEAN\n' $((4 * 1023)) ''
    for i in {1022..0}; do printf '%*s}\n' $((4 * i)) ''; done
}

# 1,024 types in one another, each the item of the one before.
in_lists() {
    printf 'F ::= '
    for i in {1..1023}; do printf 'SEQUENCE OF a '; done
    echo BOOLEAN
}

# module NAME WORD..: the module of the assignment that these words write.
module() {
    {
        "$program" show deep.xsd | head -n 1
        "${@:2}"
        "$program" show deep.xsd | tail -n 4
    } > "$1"
    [ "$("$program" show-back "$1")" = 'F {}F 1024' ]
}
module sequences.asn1 in_braces SEQUENCE
module choices.asn1 in_braces CHOICE
module lists.asn1 in_lists

# least NAME WORD..: the least stack of these words, over the input of this name.
least() {
    local input=$1 least=- size
    shift
    for size in 8192 6144 4096 3072 2048 1536 1024 512 384 256 192 128 96 64; do
        { bash -c 'ulimit -s "$1" && shift && exec "$@"' bash "$size" "$program" "$@" < "$input"; } > /dev/null 2>&1 || break
        least=$size
    done
    echo "$*: $least kB"
}

least show show deep.xsd
for command in check to-per to-xml to-der from-der; do
    least "$command" "$command" z deep.xsd
done
for module in sequences choices lists; do
    least show show-back "$module.asn1"
done
