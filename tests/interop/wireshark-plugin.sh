#!/usr/bin/env bash
# Makes a Wireshark plugin of a module that tests/interop/adapt.py adapted. It dissects UDP datagrams of one port for each root:
#
#     tests/interop/wireshark-plugin.sh MODULE per|uper|der NAME FOLDER ROOT=PORT...
#
# FOLDER is the home of a user, whose Wireshark then loads .local/lib/wireshark/plugins/4.0/epan/NAME.so. ROOT is the name of an
# assignment. With STAMP=8 the octets begin with a stamp of 8 octets. With BARE=1 the plugin has no code of its own for UTF8String
# and INTEGER, which Wireshark 4.0 lacks or does wrongly.
set -eu
module=$(readlink -f "$1")
syntax=$2
name=$3
mkdir -p "$4/.local/lib/wireshark/plugins/4.0/epan"
out=$(readlink -f "$4/.local/lib/wireshark/plugins/4.0/epan")/$name.so
here=$(dirname "$(readlink -f "$0")")
shift 4
work=$(mktemp -d)
trap 'rm -rf "$work"' EXIT
cd "$work"
roots=
{
    echo '#.PDU'
    for it; do
        echo "${it%=*}"
        roots="$roots ROOT($(printf %s "${it%=*}" | tr -- - _), ${it#*=})"
    done
    echo '#.END'
} > m.cnf
flags=
case $syntax in uper) flags=-u ;; der) flags=-b ;; esac
# shellcheck disable=SC2086
/usr/bin/python3 /usr/share/pyshared/asn2wrs.py $flags -p m -c m.cnf -O . "$module" > said 2>&1 || { tail -n 5 said >&2; exit 1; }
# A part that is empty isn't written.
for it in val.h hf.c ett.c fn.c hfarr.c ettarr.c; do [ -e "packet-m-$it" ] || : > "packet-m-$it"; done
# Fields have names as NAME.field.
sed -i "s/\"m\.\([^\"]*\)\"/\"$name.\1\"/" packet-m-hfarr.c
# shellcheck disable=SC2046
gcc -O1 -w -Werror=implicit-function-declaration -Wl,--no-undefined -fPIC -shared -I. $(pkg-config --cflags wireshark) \
    -D"ROOTS=$roots" -DNAME="\"$name\"" -DSTAMP="${STAMP:-0}" -DBARE="${BARE:-0}" -o "$out" "$here/wireshark-plugin.c" $(pkg-config --libs wireshark) 2> said || { head -n 5 said >&2; exit 1; }
