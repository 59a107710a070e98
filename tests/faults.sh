#!/usr/bin/env bash
# Refuses memory: runs each command over the examples, and in each run one allocation is refused, first the first, then the
# second, and so on; and then the same with all from that one on. Of a command that makes more than 2,000 allocations the
# first 2,000 are refused in turn, and of the rest so many at even steps that these are about 300 more.
#
# A run must answer what it answers with memory, or have the status of want of memory, an empty output and just its line.
# Nothing else: no other status, no signal, no hang, no front of an output.
#
#     tests/faults.sh          needs the program (`make run`) and a C compiler; some minutes
#
# PROGRAM names another program, EACH and STEPS other numbers than 2,000 and 300.
set -eu
cd "$(dirname "$0")/.."
program=$(realpath -m "${PROGRAM:-bin/transcode}")
[ -x "$program" ] || { echo "no program at $program: make run" >&2; exit 2; }
each=${EACH:-2000}
steps=${STEPS:-300}
work=$(mktemp -d)
trap 'rm -rf "$work"' EXIT

# The functions that give memory, in place of those of the C library: they count, and refuse what the environment says.
cat > "$work/refuse.c" <<'END'
#include <errno.h>
#include <fcntl.h>
#include <stdlib.h>
#include <sys/mman.h>
#include <unistd.h>

extern void *__libc_malloc(size_t);
extern void *__libc_calloc(size_t, size_t);
extern void *__libc_realloc(void *, size_t);
extern void *__libc_memalign(size_t, size_t);

/* How many allocations were asked for. It lies in a file, so that it is there however the program ends. */
static unsigned long *asked;

/* The first and the last that are refused. */
static unsigned long first, last;

__attribute__((constructor)) static void begin(void) {
    const char *path = getenv("REFUSE_COUNT"), *from = getenv("REFUSE_FROM"), *to = getenv("REFUSE_TO");
    if (!path || !from || !to) return;
    first = strtoul(from, 0, 10);
    last = strtoul(to, 0, 10);
    int file = open(path, O_RDWR);
    if (file < 0) _exit(99);
    void *found = mmap(0, sizeof *asked, PROT_READ | PROT_WRITE, MAP_SHARED, file, 0);
    close(file);
    if (found == MAP_FAILED) _exit(99);
    asked = found;
    *asked = 0;
}

static int refused(void) {
    if (!asked) return 0;
    unsigned long number = ++*asked;
    if (number < first || last < number) return 0;
    errno = ENOMEM;
    return 1;
}

void *malloc(size_t size) { return refused() ? 0 : __libc_malloc(size); }
void *calloc(size_t count, size_t size) { return refused() ? 0 : __libc_calloc(count, size); }
void *realloc(void *old, size_t size) { return refused() ? 0 : __libc_realloc(old, size); }
void *memalign(size_t align, size_t size) { return refused() ? 0 : __libc_memalign(align, size); }
void *aligned_alloc(size_t align, size_t size) { return refused() ? 0 : __libc_memalign(align, size); }
int posix_memalign(void **place, size_t align, size_t size) {
    if (refused()) return ENOMEM;
    void *found = __libc_memalign(align, size);
    if (!found) return ENOMEM;
    *place = found;
    return 0;
}
END
cc -O2 -shared -fPIC -o "$work/refuse.so" "$work/refuse.c"

# One run of the program over the input, in which the allocations of these numbers are refused: its status, which is over
# 128 where a signal ended it, as one does after ten seconds of the processor.
run() {
    local from=$1 to=$2 input=$3
    shift 3
    status=0
    (
        ulimit -c 0
        ulimit -t 10
        export REFUSE_COUNT="$work/count" REFUSE_FROM="$from" REFUSE_TO="$to" LD_PRELOAD="$work/refuse.so"
        exec "$program" "$@"
    ) < "$input" > "$work/output" 2> "$work/complaint" || status=$?
}

# What the file holds, byte for byte, where it has no zero byte.
contents() {
    held=
    IFS= read -r -d '' held < "$1" || true
}

wrong=0
runs=0
no_memory=30
line_of_no_memory=$'out of memory\n'

# Whether the last run answered as it must.
judge() {
    runs=$((runs + 1))
    if [ "$status" = "$no_memory" ]; then
        contents "$work/complaint"
        answered=$((answered + 1))
        [ ! -s "$work/output" ] && [ "$held" = "$line_of_no_memory" ] && return
    elif [ "$status" = "$due_status" ]; then
        contents "$work/complaint"
        [ "$held" = "$due_complaint" ] && cmp -s "$work/output" "$work/due" && return
    fi
    contents "$work/complaint"
    printf '  wrong: refused %s: status %s, %d bytes of output, complaint: %s\n' \
        "$1" "$status" "$(stat -c %s "$work/output")" "${held%$'\n'}"
    wrong=$((wrong + 1))
}

# All the faults of a command over an input.
faults() {
    local input=$1 number step
    shift
    head -c 8 /dev/zero > "$work/count"
    run 0 0 "$input" "$@"
    local all
    read -r all < <(od -An -tu8 "$work/count")
    due_status=$status
    contents "$work/complaint"
    due_complaint=$held
    cp "$work/output" "$work/due"
    step=$(((all - each) / steps + 1))
    answered=0
    number=1
    while [ "$number" -le "$all" ]; do
        run "$number" "$number" "$input" "$@"
        judge "number $number alone"
        run "$number" 18446744073709551615 "$input" "$@"
        judge "all from number $number on"
        if [ "$number" -lt "$each" ]; then number=$((number + 1)); else number=$((number + step)); fi
    done
    printf '%-60s status %2d, %7d allocations, %5d answers of want of memory\n' "$*" "$due_status" "$all" "$answered"
    if [ "$answered" = 0 ]; then
        echo '  wrong: no refusal was felt'
        wrong=$((wrong + 1))
    fi
}

cd examples
for schema in boolean names features order defaults; do
    faults /dev/null show "$schema.xsd"
done
faults /dev/null show collisions-1.xsd collisions-2.xsd collisions-3.xsd
for schema in refused-*.xsd; do
    faults /dev/null show "$schema"
done

# Documents of features.xsd, each with its root: a union, a list, an element that is nil, mixed content.
documents() {
    cat <<'END'
u <u> 007 </u>
v <v>1 255</v>
k <k xmlns:xsi="http://www.w3.org/2001/XMLSchema-instance" xsi:nil="true"/>
p <p>Hi <b>x</b>!</p>
END
}

# The commands that read an input, over a document.
inputs() {
    local root=$1 schema=$2 document=$3
    faults "$document" check "$root" "$schema"
    faults "$document" to-per "$root" "$schema"
    "$program" to-per "$root" "$schema" < "$document" > "$work/octets"
    faults "$work/octets" to-xml "$root" "$schema"
    faults "$document" to-der "$root" "$schema"
    "$program" to-der "$root" "$schema" < "$document" > "$work/octets"
    faults "$work/octets" from-der "$root" "$schema"
}
inputs f boolean.xsd boolean.xml
inputs '{urn:po}order' order.xsd order.xml
inputs reading defaults.xsd defaults.xml
inputs contact any-order.xsd any-order.xml
while read -r root document; do
    printf '%s' "$document" > "$work/document"
    inputs "$root" features.xsd "$work/document"
done < <(documents)

# An invalid document, a broken one, and octets that are no encoding.
printf '<e/>' > "$work/document"
faults "$work/document" check f boolean.xsd
printf '<f>true</g>' > "$work/document"
faults "$work/document" to-per f boolean.xsd
printf '\001' > "$work/document"
faults "$work/document" to-xml f boolean.xsd
faults "$work/document" from-der f boolean.xsd

# The trial reads its document: its 400th allocation, of some 480, is wanted.
run 400 400 /dev/null trial 1000
due_status=$no_memory
due_complaint=$line_of_no_memory
: > "$work/due"
judge 'trial 1000: number 400 alone'

printf '%d runs, %d wrong\n' "$runs" "$wrong"
[ "$wrong" = 0 ]
