#!/usr/bin/env bash
# Tries all tools that docs/guide/INTEROP.md tells of: the examples, COUNT random sets, and the known faults.
#
#     tests/interop/all.sh [--install] [COUNT]      needs the program (`make run`); 40 random sets, some ten minutes
#
# --install first installs on Debian what is missing, as root. Without it, a tool that isn't installed is reported, and the status is 2
# if nothing else is wrong. PROGRAM names another program than bin/ruvkhiska. tests/interop/tool.py says what is tried and printed.
set -eu
cd "$(dirname "$0")"
tools='openssl asn1crypto libtasn1 asn1c wireshark erlang'
if [ "${1:-}" = --install ]; then
    shift
    packages=
    for it in $tools; do
        ./"$it".sh --check || packages="$packages $(./"$it".sh --packages)"
    done
    if [ -n "$packages" ]; then
        apt-get update -qq
        # shellcheck disable=SC2086
        DEBIAN_FRONTEND=noninteractive apt-get install -qq -y --no-install-recommends $packages > /dev/null
    fi
fi
there=
status=0
for it in $tools; do
    if ./"$it".sh --check; then
        there="$there $it"
    else
        echo "$it: not installed: apt-get install $(./"$it".sh --packages)"
        status=2
    fi
done
# shellcheck disable=SC2086
/usr/bin/python3 tool.py "${1:-40}" $there || status=$?
exit "$status"
