# shellcheck shell=bash disable=SC2154
# What each tests/interop/NAME.sh runs after it said what the tool is: `packages`, of Debian, and `check`, a command that succeeds if
# they are there. `NAME.sh --packages` prints the packages; `NAME.sh --check` succeeds if they are installed.
set -eu
here=$(dirname "$(readlink -f "$0")")
name=$(basename "$0" .sh)
case ${1:-} in
--packages)
    echo "$packages"
    exit
    ;;
--check)
    eval "$check" > /dev/null 2>&1
    exit
    ;;
esac
"$0" --check || { echo "$name: not installed: apt-get install $packages" >&2; exit 2; }
exec /usr/bin/python3 "$here/tool.py" "${1:-40}" "$name"
