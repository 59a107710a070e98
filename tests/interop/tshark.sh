#!/usr/bin/env bash
# Runs tshark of a user whose home is FOLDER: tests/interop/tshark.sh FOLDER WORD... . For root it loads no plugins of a home, so that
# root runs it as nobody.
set -eu
export HOME=$1
shift
if [ "$(id -u)" = 0 ]; then
    exec setpriv --reuid=65534 --regid=65534 --clear-groups tshark "$@"
fi
exec tshark "$@"
