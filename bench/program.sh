#!/usr/bin/env bash
# Proves and builds a program of bench/programs, and puts it at bin/NAME. These programs serve measures alone, so the gate leaves
# them out. Here one becomes a crate of a repository of its own, beside the crates that stand in its `uses` and those below them:
# `rt ci` there proves it, runs it over its `stdin` with its `args`, and compares what comes with its `stdout`. What `make test`
# passed on this machine isn't proved again, so that it takes two to four minutes behind it.
#
#     bench/program.sh NAME          needs rt and git, and `make test` before it
set -eu
cd "$(dirname "$0")/.."
top=$PWD
name=$1
from=$top/bench/programs/$name
mkdir -p bin
room=$(mktemp -d "$top/bin/bench-XXXXXX")
trap 'rm -rf "$room"' EXIT
mkdir -p "$room/crates/$name/src"
for file in "$from"/*.rattle; do
    cp "$file" "$room/crates/$name/src/$(basename "$file" .rattle).rt"
done
for file in stdin stdout args; do
    [ ! -e "$from/$file" ] || cp "$from/$file" "$room/crates/$name"
done
cp HANDLES "$room"
git -C "$room" init -q

# The rows of the crates below, from those that the program uses on.
awk -v uses="$(cat "$from/uses")" '
    { sub(/#.*/, "") }
    /:/ { split($0, parts, ":"); split(parts[1], words, " "); row[words[1]] = $0; used[words[1]] = parts[2] }
    END {
        count = split(uses, names, " ")
        for (i = 1; i <= count; i++) {
            if (!(names[i] in row) || names[i] in taken) continue
            taken[names[i]]
            print row[names[i]]
            more = split(used[names[i]], others, " ")
            for (j = 1; j <= more; j++) names[++count] = others[j]
        }
    }' crates.txt > "$room/crates.txt"
while IFS=': ' read -r crate _; do
    mkdir -p "$room/crates/$crate"
    (cd "crates/$crate" && cp -r $(ls -d src specs proofs 2> /dev/null) "$room/crates/$crate")
done < "$room/crates.txt"
echo "$name: $(cat "$from/uses")" >> "$room/crates.txt"

if ! (cd "$room" && ${RT:-rt} ci) > "$room/said" 2>&1; then
    cat "$room/said" >&2
    exit 1
fi
cp "$room/crates/$name/out/$name" "bin/$name"
