#!/bin/bash
# The call `tp_recover::open` alone, without the process around it, by a program of an older commit and by one of this tree, in turns: each run opens
# the device once, in a process of its own, and takes the clock just before the call and behind it. Both are compiled alike, without proofs
# (bench/unchecked). Instructions of the whole process by callgrind, which load doesn't change. Outside the gate.
# usage: bench/opens.sh [ROUNDS]     21 rounds by default, over 16 nodes of 256 pages and 100,000 entries of 64, 16 and 1 steps, in areas of form
#                                    Plain. With 0 rounds nothing is timed. COMMIT names the older commit
# BUILT=FOLDER names where what is built is kept, and taken from if it is there
set -e
top=$(cd "$(dirname "$0")/.." && pwd)
rounds=${1:-21}
commit=${COMMIT:-28088551}
work=$([ -n "$BUILT" ] && realpath -m "$BUILT" || mktemp -d /tmp/bench-opens-XXXX)
[ -n "$BUILT" ] || trap 'rm -rf "$work"' EXIT
mkdir -p "$work"

# copy_with_program NAME COMMIT: makes a repository of that commit with the program in it
copy_with_program() {
    mkdir -p "$work/$1/crates/bench_opens/src"
    git -C "$top" archive "$2" crates crates.txt HANDLES | tar -C "$work/$1" -x
    git -C "$work/$1" init -q
    cp "$top/bench/opens.rattle" "$work/$1/crates/bench_opens/src/main.rt"
    echo "bench_opens: tp_recover tp_disk" >> "$work/$1/crates.txt"
}

if [ ! -e "$work/built" ]; then
    copy_with_program tree-before "$commit"
    copy_with_program tree-now HEAD
    for name in before now; do "$top/bench/unchecked" "$work/tree-$name" bench_opens "$work/$name"; done
    sed "s/^pages 4/pages 256/" "$top/examples/compute.txt" > "$work/compute.txt"
    "$top/tools/make-image" "$work/compute.txt" "$work/node.img"
    # an area of form Plain, which both programs open
    sed 's/2 << 48/0/' "$top/bench/make-device" > "$work/make-plain"
    for steps in 64 16 1; do python3 "$work/make-plain" "$work/node.img" 16 100000 $steps "$work/device-$steps"; done
    touch "$work/built"
fi
python3 - "$work" "$rounds" <<'PY'
import re, statistics, subprocess, sys
work, rounds = sys.argv[1], int(sys.argv[2])
NAMES = ("before", "now")

def instructions(name, device):
    said = subprocess.run(["valgrind", "--tool=callgrind", "--callgrind-out-file=/dev/null", work + "/" + name, device],
                          capture_output=True, text=True, check=True).stderr
    return int(re.search(r"Collected : (\d+)", said).group(1))

for steps in (64, 16, 1):
    device = "%s/device-%d" % (work, steps)
    counts = [instructions(name, device) for name in NAMES]
    print("%2d steps: %.1f and %.1f million instructions, ratio %.2f" % (steps, counts[0] / 1e6, counts[1] / 1e6, counts[0] / counts[1]), flush=True)
    took = {name: [] for name in NAMES}
    for _ in range(rounds):
        for name in NAMES:
            nanoseconds, entries = subprocess.run([work + "/" + name, device], capture_output=True, text=True, check=True).stdout.split()
            if entries != "100000":
                sys.exit("%s: %s entries" % (name, entries))
            took[name].append(int(nanoseconds) / 1e6)
    for word, pick in (("best", min), ("median", statistics.median)):
        if rounds:
            before, now = (pick(took[name]) for name in NAMES)
            print("%2d steps, %s of %d: before %.1f ms, now %.1f ms, ratio %.2f" % (steps, word, rounds, before, now, before / now), flush=True)
PY
