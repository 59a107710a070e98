# What the scripts of this folder share; it is sourced by them. They need the program (`make run`), awk, GNU time and
# xmllint. Two commands take turns, seven times each; of each the least wall time and the least processor time in seconds
# and the most memory in kilobytes that a run took are told (the resident set that getrusage tells), and our parts of the
# peer's. What takes more than ten seconds is stopped.
program=${PROGRAM:-bin/transcode}
runs=${RUNS:-7}
work=$(mktemp -d)
trap 'rm -rf "$work"' EXIT
TIMEFORMAT='%3R %3U %3S'

# One run of a command over an input: wall and processor seconds, and kilobytes.
run() {
    local input=$1
    shift
    { time /usr/bin/time -f '%M' -o "$work/memory" timeout 10 "$@" < "$input" > /dev/null 2>&1 || true; } 2> "$work/time"
    read -r wall user system < "$work/time"
    awk -v wall="$wall" -v user="$user" -v system_="$system" -v kilobytes="$(tail -n 1 "$work/memory")" \
        'BEGIN { print wall, user + system_, kilobytes }'
}

# Of lines of runs: the least times and the most memory.
best() {
    awk 'NR == 1 || $1 < wall { wall = $1 } NR == 1 || $2 < processor { processor = $2 } $3 > most { most = $3 }
        END { printf "%.3f %.3f %d", wall, processor, most }'
}

headings() {
    printf '%-12s %10s %8s %8s %9s %9s %8s %9s %8s %6s %6s\n' \
        document bytes 'ours: s' 'cpu s' kB 'xmllint:' 'cpu s' kB 'ratio: s' cpu kB
}

# A line of the table: of this document, with the functions `ours` and `peer` of the script, each of which runs one command once.
compare() {
    local document=$1 file=$2
    : > "$work/ours"
    : > "$work/peer"
    for _ in $(seq "$runs"); do
        ours >> "$work/ours"
        peer >> "$work/peer"
    done
    local our peers ratios
    our=$(best < "$work/ours")
    peers=$(best < "$work/peer")
    ratios=$(awk -v ours="$our" -v peer="$peers" 'BEGIN {
        split(ours, a); split(peer, b)
        for (i = 1; i <= 3; i++) printf "%.2f ", (b[i] > 0) ? a[i] / b[i] : 0
    }')
    # Each is three words.
    # shellcheck disable=SC2086
    printf '%-12s %10d %8s %8s %9s %9s %8s %9s %8s %6s %6s\n' "$document" "$(stat -c %s "$file")" $our $peers $ratios
}
