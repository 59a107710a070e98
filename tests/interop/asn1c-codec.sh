#!/usr/bin/env bash
# Makes a program of a module that tests/interop/adapt.py adapted, with Debian's asn1c (0.9.28):
#
#     tests/interop/asn1c-codec.sh MODULE OUT
#     OUT -p TYPE -iper -oxer FILE      writes the value of unaligned PER as XML of ASN.1; -iber of DER
#     OUT -p TYPE -ixer -oper FILE      encodes it; -ixer -oder in DER
#
# asn1c knows no aligned PER. SKELETON names a folder that keeps the objects of the files that asn1c adds to every module.
set -eu
module=$(readlink -f "$1")
out=$(readlink -f "$2")
work=$(mktemp -d)
trap 'rm -rf "$work"' EXIT
skeleton=${SKELETON:-$work/skeleton}
mkdir -p "$skeleton"
cd "$work"
asn1c -gen-PER -fcompound-names -fwide-types -pdu=all "$module" > said 2>&1 || { grep -v '^Compiled\|^Symlinked\|^Copied\|^Generated' said >&2; exit 1; }
# The program needs one type's name even where -p names another.
first=$(sed -n 's/.*&asn_DEF_\(\w*\),.*/\1/p' pdu_collection.c | head -n 1)
objects=
for file in *.c; do
    object=$work/${file%.c}.o
    if [ "$file" != converter-sample.c ] && [ -e "/usr/share/asn1c/$file" ]; then object=$skeleton/${file%.c}.o; fi
    objects="$objects $object"
    [ -e "$object" ] || gcc -O1 -w -I. -DPDU="$first" -DASN_PDU_COLLECTION -DASN__DEFAULT_STACK_MAX=1000000 -c -o "$object" "$file" 2> said || { head -n 3 said >&2; exit 1; }
done
# shellcheck disable=SC2086
gcc -o "$out" $objects
