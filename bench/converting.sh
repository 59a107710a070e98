#!/usr/bin/env bash
# What converting an order costs, in one run: `check`, and the conversions to each transfer syntax and back, beside a few lines of
# C over expat that only parse the document, and beside `xmllint --noout --schema`, which only checks it.
#
# Of an order of 10,000 lines the instructions, in millions, counted by valgrind's callgrind, so that a run tells the same
# numbers again; of one of 100,000 lines the least processor seconds of fifteen runs that take turns, and the most memory in
# megabytes (the resident set that getrusage tells).
#
#     bench/converting.sh          needs the program (`make run`), awk, GNU time, valgrind, xmllint, cc and libexpat1-dev
#
# COUNTED and TIMED name other numbers of lines, RUNS how often they take turns.
set -eu
cd "$(dirname "$0")/.."
runs=${RUNS:-15}
. bench/measure.sh
. bench/orders.sh
counted=${COUNTED:-10000}
timed=${TIMED:-100000}
cc -O2 -o "$work/parse" bench/parse.c -lexpat
root='{urn:po}order'

for lines in "$counted" "$timed"; do
    order "$lines" > "$work/order-$lines"
    for command in to-per to-per-u to-der; do
        "$program" "$command" "$root" "$work/order.xsd" < "$work/order-$lines" > "$work/order-$lines.$command"
    done
done

# The command of a row, with its input first.
command_of() {
    local document=$work/order-$2
    case $1 in
        expat) command=("$document" "$work/parse") ;;
        xmllint) command=(/dev/null xmllint --huge --noout --schema "$work/order.xsd" "$document") ;;
        to-xml) command=("$document.to-per" "$program" to-xml "$root" "$work/order.xsd") ;;
        to-xml-u) command=("$document.to-per-u" "$program" to-xml-u "$root" "$work/order.xsd") ;;
        from-der) command=("$document.to-der" "$program" from-der "$root" "$work/order.xsd") ;;
        *) command=("$document" "$program" "$1" "$root" "$work/order.xsd") ;;
    esac
}

instructions() {
    local input=$1
    shift
    valgrind --tool=callgrind --callgrind-out-file=/dev/null "$@" < "$input" 2>&1 > /dev/null |
        awk '/Collected/ { printf "%.1f", $NF / 1000000 }'
}

rows='check to-per to-per-u to-der to-xml to-xml-u from-der expat xmllint'
for _ in $(seq "$runs"); do
    for row in $rows; do
        command_of "$row" "$timed"
        run "${command[@]}" >> "$work/runs-$row"
    done
done

printf '%-10s %16s %12s %10s\n' command "M instructions" "processor s" MB
for row in $rows; do
    command_of "$row" "$counted"
    million=$(instructions "${command[@]}")
    read -r _ processor kilobytes < <(best < "$work/runs-$row"; echo)
    awk -v row="$row" -v million="$million" -v processor="$processor" -v kilobytes="$kilobytes" \
        'BEGIN { printf "%-10s %16s %12.3f %10.1f\n", row, million, processor, kilobytes / 1000 }'
done
