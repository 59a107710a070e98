#!/usr/bin/env bash
# Measures decoding beside encoding. For each order: the least times, in microseconds, of `decode` to read its encoding and of
# `encode` to write it again, which take turns in one process (the program bench/programs/per_times, which `bench/program.sh
# per_times` proves and builds where it isn't there). What memory of the value the next turn has again is as the C library will;
# in the row `kept` it is told to keep all. The row `first` is of the quickest of as many processes that make one turn each: the
# system gives each of them its memory anew, page by page, while it decodes. Then, where there is valgrind, the instructions that
# `to-xml` takes in `decode` and `to-per` in `encode`: it counts, so that a run tells the same numbers again.
#
# Below them stand the same of the unaligned variant, with how many times the aligned ones they take.
#
#     bench/decode.sh          needs the program (`make run`), awk, and rt where there is no bin/per_times
#
# LINES_OF names other numbers of lines, TIMES how often they take turns.
set -eu
cd "$(dirname "$0")/.."
. bench/measure.sh
. bench/orders.sh
times=${PER_TIMES:-bin/per_times}
[ -x "$times" ] || bench/program.sh per_times

# The instructions of one run of a command in that function of a crate which takes most, and in what it calls: the one through
# which the crate is entered. Of calls that recur in one another the outermost counts.
instructions() {
    local crate=$1 input=$2
    shift 2
    valgrind --tool=callgrind --callgrind-out-file="$work/profile" "$program" "$@" < "$input" > /dev/null 2>&1
    callgrind_annotate --inclusive=yes --threshold=100 "$work/profile" | awk -v crate=":$crate::" '
        index($0, crate) && !/\x27[0-9]/ {
            gsub(/,/, "", $1)
            if ($1 + 0 > most) most = $1 + 0
        }
        END { print most + 0 }'
}

row() {
    awk -v lines="$1" -v octets="$2" -v decode="$3" -v encode="$4" -v how="${5-}" 'BEGIN {
        printf "%-8d %10d %12d %12d %6.2f %s\n", lines, octets, decode, encode, (encode > 0) ? decode / encode : 0, how
    }'
}

# Tells the C library to give no memory back.
keep=glibc.malloc.mmap_threshold=1000000000:glibc.malloc.trim_threshold=1000000000

# The least times of so many turns in one process.
turns() {
    if ! "$times" "$1" ${3:+"$3"} < "$2" > "$work/same" 2> "$work/least" || ! grep -q 'the same came back' "$work/same"; then
        cat "$work/same" "$work/least" >&2
        exit 1
    fi
    cat "$work/least"
}

# A row of the times of decoding and encoding that stand on the input.
time_row() {
    local lines=$1 file=$2 how=$3
    read -r decode encode
    row "$lines" "$(stat -c %s "$file")" "$decode" "$encode" "$how"
}

for lines in ${LINES_OF:-10000 100000}; do
    file=$work/order-$lines
    order "$lines" > "$file"
    "$program" to-per '{urn:po}order' "$work/order.xsd" < "$file" > "$file.per"
done
printf '%-8s %10s %12s %12s %6s\n' lines octets 'decode: us' 'encode: us' ratio
for lines in ${LINES_OF:-10000 100000}; do
    file=$work/order-$lines.per
    turns "${TIMES:-20}" "$file" > "$work/turns"
    time_row "$lines" "$file" '' < "$work/turns"
    GLIBC_TUNABLES=$keep turns "${TIMES:-20}" "$file" > "$work/turns"
    time_row "$lines" "$file" kept < "$work/turns"
    for _ in $(seq "${TIMES:-20}"); do turns 1 "$file"; done | sort -n | head -1 > "$work/turns"
    time_row "$lines" "$file" first < "$work/turns"
done
printf '\n%-8s %10s %12s %12s %14s %14s\n' lines octets 'decode: us' 'encode: us' 'of aligned: de' 'en'
for lines in ${LINES_OF:-10000 100000}; do
    file=$work/order-$lines
    "$program" to-per-u '{urn:po}order' "$work/order.xsd" < "$file" > "$file.uper"
    turns "${TIMES:-20}" "$file.per" > "$work/turns"
    read -r decode encode < "$work/turns"
    turns "${TIMES:-20}" "$file.uper" unaligned > "$work/turns"
    read -r decode_u encode_u < "$work/turns"
    awk -v lines="$lines" -v octets="$(stat -c %s "$file.uper")" -v d="$decode_u" -v e="$encode_u" -v da="$decode" -v ea="$encode" 'BEGIN {
        printf "%-8d %10d %12d %12d %14.2f %14.2f\n", lines, octets, d, e, d / da, e / ea
    }'
done
command -v valgrind > /dev/null || exit 0
printf '%-8s %10s %12s %12s %6s\n' lines octets 'decode: ir' 'encode: ir' ratio
for lines in ${LINES_OF:-10000 100000}; do
    file=$work/order-$lines
    decode=$(instructions per_decode "$file.per" to-xml '{urn:po}order' "$work/order.xsd")
    encode=$(instructions per_encode "$file" to-per '{urn:po}order' "$work/order.xsd")
    row "$lines" "$(stat -c %s "$file.per")" "$decode" "$encode"
done
