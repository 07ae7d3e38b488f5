#!/bin/bash
# Steps per second of the proved interpreter beside the plain ones, interleaved in one run, and instructions a step of all of them by
# callgrind, which load doesn't change, outside the gate.
# usage: bench/steps.sh [ROUNDS]      5 rounds by default; 10^8 steps a round. With 0 rounds nothing is timed
# BUILT=FOLDER names where what is built is kept, and taken from if it is there
set -e
top=$(cd "$(dirname "$0")/.." && pwd)
rounds=${1:-5}
work=$([ -n "$BUILT" ] && realpath -m "$BUILT" || mktemp -d /tmp/bench-steps-XXXX)
[ -n "$BUILT" ] || trap 'rm -rf "$work"' EXIT
mkdir -p "$work"

proved=$work/crates/bench_steps/out/bench_steps
if [ ! -e "$work/built" ]; then
    for name in plain plain_fast plain_runs; do rustc -O --edition 2021 -o "$work/$name" "$top/bench/$name.rs"; done
    tar -C "$top" -c --exclude=incremental crates crates.txt HANDLES | tar -C "$work" -x
    mkdir -p "$work/crates/bench_steps/src"
    cp "$top/bench/steps.rattle" "$work/crates/bench_steps/src/main.rt"
    echo "bench_steps: tp_cpu tp_mem tp_model" >> "$work/crates.txt"
    (cd "$work/crates/bench_steps" && rt run > "$work/build.log" 2>&1) || true
    [ -x "$proved" ] || { tail -20 "$work/build.log"; exit 1; }
    touch "$work/built"
fi

for listing in "$top"/examples/{compute,talk}.txt "$top"/bench/loops/*.txt; do
    loop=$(basename "$listing" .txt)
    "$top/tools/make-image" "$listing" "$work/$loop.img"
    python3 - "$proved" "$work" "$loop" "$rounds" "$listing" <<'PY'
import os, re, resource, shutil, subprocess, sys
proved, work, loop, rounds, listing = sys.argv[1:6]
shutil.copy(os.path.join(work, loop + ".img"), os.path.join(work, "node.img"))

def command(kind, count):
    """The program of that kind, which makes COUNT steps."""
    return [proved, str(count)] if kind == "proved" else [os.path.join(work, kind), "steps", "node.img", str(count)]

def seconds(kind):
    before = resource.getrusage(resource.RUSAGE_CHILDREN).ru_utime
    out = subprocess.run(command(kind, 100000000), cwd=work, capture_output=True, text=True, check=True).stdout
    return resource.getrusage(resource.RUSAGE_CHILDREN).ru_utime - before, out.split()[-5:]

def instructions(kind, count):
    said = subprocess.run(["valgrind", "--tool=callgrind", "--callgrind-out-file=/dev/null", *command(kind, count)],
                          cwd=work, capture_output=True, text=True, check=True).stderr
    return int(re.search(r"Collected : (\d+)", said).group(1))

KINDS = ("proved", "plain", "plain_fast", "plain_runs")
result = re.search(r"# After (\d+) steps A is ([0-9A-F]{8})", open(listing).read())
for kind in KINDS if result else ():
    ended = subprocess.run(command(kind, result.group(1)), cwd=work, capture_output=True, text=True, check=True).stdout.split()
    if ended[2] != result.group(2):
        sys.exit("%s: after %s steps A is %s by %s, and not %s" % (loop, result.group(1), ended[2], kind, result.group(2)))
each = [(instructions(kind, 100000) - instructions(kind, 50000)) / 50000 for kind in KINDS]
print("%-9s instructions a step: proved %.1f, plain %.1f, at its best %.1f, by runs %.1f; proved over the best %.2f" % (loop, *each, each[0] / each[2]), flush=True)
times = {kind: [] for kind in KINDS}
for _ in range(int(rounds)):
    ends = []
    for kind in KINDS:
        took, ended = seconds(kind)
        times[kind].append(took)
        ends.append(ended)
    if ends != ends[:1] * len(KINDS):
        sys.exit("%s: the registers differ: %s" % (loop, ends))
if times["proved"]:
    mine, other, fast, known = (min(times[kind]) for kind in KINDS)
    print("%-9s million steps a second: proved %.1f, plain %.1f, at its best %.1f, by runs %.1f; ratios %.2f, %.2f (best of %s)" % (
        loop, 100 / mine, 100 / other, 100 / fast, 100 / known, other / mine, fast / mine, rounds), flush=True)
PY
done
