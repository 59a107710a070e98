#!/usr/bin/env bash
# Measures the merge gate, or the proofs of `make run`, from nothing: for each crate the processor time, the time by the clock and
# the peak memory of its checks. Run it on a quiet machine: other work makes processor time grow, too.
#
#     bench/gate.sh [run] [CRATE..]     the gate (`.ci/run`), or with `run` what `make run` proves; CRATE..: these and those below
#
# It measures what is committed, in a clone in a temporary folder. rt keeps results of earlier runs next to its kit. So this script
# puts a copy of rt and links to the rest of the kit into that folder, too, and rt finds nothing kept. `rattle` there calls the real
# one and notes what each call took. Each check has one job. LANES checks run side by side, or one for each processor; rt does not
# look at the free memory then. It needs git, Python 3, and some 4 GB of memory for each check that runs.
#
# The output of the gate goes to the standard error, the tables to the standard output. The peak memory is that of the largest
# process. The status is that of the gate.
set -eu
cd "$(dirname "$0")/.."
what=gate
if [ "${1:-}" = run ]; then
    what='make run'
    shift
fi
lanes=${LANES:-$(nproc)}
kit=$(dirname "$(dirname "$(realpath "$(command -v rt)")")")
work=$(mktemp -d)
trap 'rm -rf "$work"' EXIT
[ -z "$(git status --porcelain)" ] || echo 'note: only what is committed is measured' >&2
git clone -q . "$work/repository"

mkdir -p "$work/kit/bin"
for file in "$kit"/*; do
    [ "$file" = "$kit/bin" ] || ln -s "$file" "$work/kit/"
done
for file in "$kit"/bin/*; do
    case ${file##*/} in
        rattle) ;;
        rt*) cp "$file" "$work/kit/bin/" ;;
        *) ln -s "$file" "$work/kit/bin/" ;;
    esac
done
cat > "$work/kit/bin/rattle" <<'END'
#!/usr/bin/env python3
# Calls the real rattle, and writes a line: the crate, the command, processor and elapsed seconds, peak memory in KB.
import os, re, sys, time

begun = time.monotonic()
child = os.fork()
if not child:
    os.execv("@real@", ["@real@", *sys.argv[1:]])
_, status, used = os.wait4(child, 0)
words = " ".join(sys.argv[1:])
crate = re.search(r"--crate-name (\w+)", words) or re.search(r"/crates/(\w+)/", words)
line = (crate[1] if crate else "-", sys.argv[1] if sys.argv[1:] else "-", used.ru_utime + used.ru_stime, time.monotonic() - begun, used.ru_maxrss)
with open("@log@", "a") as log:
    log.write("\t".join(map(str, line)) + "\n")
if os.WIFSIGNALED(status):
    # rt repeats a check that was killed, so it has to see the signal.
    os.kill(os.getpid(), os.WTERMSIG(status))
sys.exit(os.waitstatus_to_exitcode(status))
END
sed -i "s|@real@|$kit/bin/rattle|g; s|@log@|$work/calls|" "$work/kit/bin/rattle"
chmod +x "$work/kit/bin/rattle"
: > "$work/calls"

case $what,$# in
    gate,0) command=(.ci/run) ;;
    gate,*) command=(rt ci "$@") ;;
    *,0) command=(make run "JOBS=$lanes") ;;
    *) command=(tests/prove.py --jobs "$lanes" "$@") ;;
esac
PATH=$work/kit/bin:$PATH RT_JOBS=$lanes python3 - "$work" "$what" "$lanes" "${command[@]}" <<'END'
import collections, os, resource, subprocess, sys, time

work, what, lanes, *command = sys.argv[1:]
asked = lambda *words: subprocess.run(words, cwd=f"{work}/repository", capture_output=True, text=True).stdout.strip()
with open("/proc/loadavg") as file:
    load = file.read().split()[0]
head = f"{what} ({' '.join(command)}) of {asked('git', 'rev-parse', '--short', 'HEAD')}, {time.strftime('%Y-%m-%d %H:%M')}, {asked('rt', 'version')}"
head += f"; {len(os.sched_getaffinity(0))} processors, load {load} at the start; {lanes} checks side by side, one job each"
begun = time.monotonic()
status = subprocess.run(command, cwd=f"{work}/repository", stdin=subprocess.DEVNULL, stdout=sys.stderr).returncode
clock, whole = time.monotonic() - begun, resource.getrusage(resource.RUSAGE_CHILDREN)

class Took:
    calls = processor = elapsed = peak = 0

crates = collections.defaultdict(Took)
with open(f"{work}/calls") as file:
    for line in file:
        crate, _, processor, elapsed, peak = line.split("\t")
        it = crates[crate]
        it.calls, it.processor, it.elapsed, it.peak = it.calls + 1, it.processor + float(processor), it.elapsed + float(elapsed), max(it.peak, int(peak))
rows = sorted(((name, it) for name, it in crates.items() if name != "-"), key=lambda it: -it[1].processor)
of_checks = sum(it.processor for _, it in rows)
total = max(whole.ru_utime + whole.ru_stime, of_checks)
def table(rows):
    print("| Crate | Processor, s | Clock, s | Peak memory, GiB |\n|---|---|---|---|")
    for name, it in rows:
        print(f"| `{name}` | {it.processor:.0f} | {it.elapsed:.0f} | {it.peak / 2**20:.1f} |")
print(f"{head}\n\nstatus {status}; {total / 60:.1f} processor minutes, {clock / 60:.1f} minutes by the clock")
print(f"{of_checks / 60:.1f} processor minutes in {sum(it.calls for _, it in rows)} checks and builds of crates, {(total - of_checks) / 60:.1f} in rt, linking and the programs' runs")
print(f"most memory of one check: {max((it.peak for _, it in rows), default=0) / 2**20:.1f} GiB\n\nThe ten dearest:\n")
table(rows[:10])
print("\nAll:\n")
table(rows)
sys.exit(status)
END
