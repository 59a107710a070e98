#!/usr/bin/env bash
# Measures the matcher of content models beside a plain map, in one run: the instructions of a step of the matcher, and those
# of a look-up of the same name in an `IndexMap<Name, u32>` of all names (the program bench/programs/plain_map, which
# `bench/program.sh plain_map` proves and builds where it isn't there). A name is a namespace and a local part in both; the map
# has the hash that `IndexMap` takes by itself. The document has 1,500,000 times the last of 9,800 names, which stand in 20
# choices in a repeated choice, and the map is asked as often. Valgrind counts, so that a run tells the same numbers again; it
# takes a minute or two. STEPS=20000 does with fewer.
set -eu
cd "$(dirname "$0")/.."
. bench/measure.sh
. bench/names.sh
steps=${STEPS:-1500000}
plain=${PLAIN:-bin/plain_map}
[ -x "$plain" ] || bench/program.sh plain_map

names "$steps"
{
    grep -o 'name="[a-z]*" type="E"' "$work/names.xsd" | cut -d '"' -f 2 > "$work/keys"
    cat "$work/keys"
    echo
    awk -v steps="$steps" -v name="$(tail -n 1 "$work/keys")" 'BEGIN { for (i = 0; i < steps; i++) print name }'
} > "$work/lines"

# Runs a program with its instructions counted.
count() {
    local profile=$1
    shift
    valgrind --tool=callgrind --compress-strings=no --compress-pos=no --callgrind-out-file="$work/$profile" "$@" > /dev/null 2>&1
}
count of_steps "$program" check r "$work/names.xsd" < "$work/names"
count of_plain "$plain" < "$work/lines"

# In a profile stand, for each call from a place, the called function, how often it was called, and in the next line all
# instructions that this took.
awk '
    /^cfn=/ { called = $0 }
    /^calls=/ {
        sub(/^calls=/, "", $1)
        calls = $1
        getline
        if (called ~ /Matcher::step/) { steps += calls; taken += $2 }
        if (called ~ /plain_map::look_up/) { lookups += calls; looking += $2 }
    }
    END {
        if (steps * lookups == 0) { print "no step or no look-up stands in the profiles"; exit 1 }
        printf "%10s %10s %10s %10s %6s\n", "steps", "of a step", "look-ups", "of one", "ratio"
        printf "%10d %10.1f %10d %10.1f %6.2f\n", steps, taken / steps, lookups, looking / lookups, taken / steps * lookups / looking
    }' "$work/of_steps" "$work/of_plain"
