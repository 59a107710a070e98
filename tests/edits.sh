#!/usr/bin/env bash
# Tries the must-fail edits that the gate leaves out: those of crates/NAME/edits, for the crates that are named, or for all.
# Each has to be refused. They are put beside those of the gate while `rt must-fail` runs, which begins with what `rt check`
# left, and are taken away again, however it ends.
set -eu
cd "$(dirname "$0")/.."

if [ $# -eq 0 ]; then
    for folder in crates/*/edits; do
        set -- "$@" "$(basename "$(dirname "$folder")")"
    done
fi

put=()
take_away() {
    for file in "${put[@]}"; do
        rm -f "$file"
    done
    for name in "$@"; do
        rmdir "crates/$name/must-fail" 2> /dev/null || true
    done
}
trap 'take_away "$@"' EXIT

for name in "$@"; do
    mkdir -p "crates/$name/must-fail"
    for edit in crates/"$name"/edits/*.edit; do
        file=crates/$name/must-fail/$(basename "$edit")
        if [ -e "$file" ]; then
            echo "$file stands already" >&2
            exit 1
        fi
        put+=("$file")
        cp "$edit" "$file"
    done
done
rt must-fail "$@"
