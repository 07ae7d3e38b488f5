#!/bin/bash
# Instructions a step and steps per second over flat memory, and over memory that copies before it writes: not frozen, and frozen behind the
# first copies. Interleaved in one run, outside the gate. Where the loop lies makes a build faster or slower by up to a third, so each is
# linked at four places, 16 bytes apart. One program is timed not frozen and frozen, as a node is: where it is known that none is ever
# frozen, the compiler makes another loop.
# usage: bench/memories.sh [ROUNDS]      5 rounds by default; 2 * 10^7 steps a round. With 0 rounds nothing is timed
# BUILT=FOLDER names where what is built is kept, and taken from if it is there
set -e
top=$(cd "$(dirname "$0")/.." && pwd)
rounds=${1:-5}
work=$([ -n "$BUILT" ] && realpath -m "$BUILT" || mktemp -d /tmp/bench-memories-XXXX)
[ -n "$BUILT" ] || trap 'rm -rf "$work"' EXIT
mkdir -p "$work"

if [ ! -e "$work/built" ]; then
    tar -C "$top" -c --exclude=incremental crates crates.txt HANDLES | tar -C "$work" -x
    cow='s/FlatMemory::new(rt.alloc(), 4, /CowMemory::new(rt.alloc(), 4, 4, /; s/FlatMemory/CowMemory/g'
    freezes="$cow; s/use tp_mem::CowMemory;/use tp_mem::{CowMemory, Freeze};/; s/^    let none = /    if fs::read(\&rt, \"frozen\").is_ok() {\n        memory.freeze();\n    }\n&/"
    for kind in flat cow; do
        mkdir -p "$work/crates/bench_$kind/src"
        echo "bench_$kind: tp_cpu tp_mem tp_model" >> "$work/crates.txt"
    done
    cp "$top/bench/steps.rattle" "$work/crates/bench_flat/src/main.rt"
    sed "$freezes" "$top/bench/steps.rattle" > "$work/crates/bench_cow/src/main.rt"
    for kind in flat cow; do
        (cd "$work/crates/bench_$kind" && rt run > "$work/$kind.log" 2>&1) || true
        [ -x "$work/crates/bench_$kind/out/bench_$kind" ] || { tail -20 "$work/$kind.log"; exit 1; }
    done
    touch "$work/built"
fi
mkdir -p "$work/flat" "$work/cow" "$work/frozen"
touch "$work/frozen/frozen"
kit=$(dirname "$(rt doc)")
for place in 0 1 2 3; do
    printf '.text\n.p2align 6\n.skip %d, 0xcc\n' $((16 * place + 16)) | cc -c -x assembler -o "$work/place.o" -
    for kind in flat cow; do
        "$kit/bin/rattle-link" --target x86_64-unknown-linux-gnu --toolchain "$kit/toolchain" -o "$work/$kind.$place" "$work/place.o" \
            "$work/crates/bench_$kind/out/bench_$kind.o" "$kit"/c/lib{os,libc}_c.a > "$work/linked" 2>&1
    done
done

for listing in "$top"/examples/{compute,talk}.txt "$top"/bench/loops/*.txt; do
    loop=$(basename "$listing" .txt)
    for kind in flat cow frozen; do "$top/tools/make-image" "$listing" "$work/$kind/node.img"; done
    python3 - "$work" "$loop" "$rounds" <<'PY'
import os, re, resource, subprocess, sys
work, loop, rounds = sys.argv[1:4]
kinds, places = ["flat", "cow", "frozen"], range(4)

def command(kind, place, count):
    return [os.path.join(work, "%s.%d" % ("flat" if kind == "flat" else "cow", place)), str(count)]

def instructions(kind, count):
    said = subprocess.run(["valgrind", "--tool=callgrind", "--callgrind-out-file=/dev/null", *command(kind, 0, count)],
                          cwd=os.path.join(work, kind), capture_output=True, text=True, check=True).stderr
    return int(re.search(r"Collected : (\d+)", said).group(1))

def seconds(kind, place):
    before = resource.getrusage(resource.RUSAGE_CHILDREN).ru_utime
    out = subprocess.run(command(kind, place, 20000000), cwd=os.path.join(work, kind), capture_output=True, text=True, check=True).stdout
    return resource.getrusage(resource.RUSAGE_CHILDREN).ru_utime - before, out.split()[-5:]

each = [(instructions(kind, 100000) - instructions(kind, 50000)) / 50000 for kind in kinds]
print("%-9s instructions a step: flat %.1f, copying before a write, not frozen %.1f, frozen %.1f; flat over these %.2f, %.2f" % (
    loop, *each, each[0] / each[1], each[0] / each[2]), flush=True)
took = {(kind, place): [] for kind in kinds for place in places}
for _ in range(int(rounds)):
    ends = []
    for kind, place in took:
        time, end = seconds(kind, place)
        took[kind, place].append(time)
        ends.append(end)
    if any(end != ends[0] for end in ends):
        sys.exit("%s: the registers differ: %s" % (loop, ends))
if int(rounds) > 0:
    best = {kind: sorted(min(took[kind, place]) for place in places) for kind in kinds}
    speed = lambda kind: "%.1f to %.1f" % (20 / best[kind][-1], 20 / best[kind][0])
    ratio = lambda kind: "%.2f at the best places, %.2f in the mean of all" % (
        best["flat"][0] / best[kind][0], sum(best["flat"]) / sum(best[kind]))
    print("%-9s million steps a second: flat %s; copying before a write, not frozen %s: %s; frozen %s: %s (best of %s)" % (
        loop, speed("flat"), speed("cow"), ratio("cow"), speed("frozen"), ratio("frozen"), rounds), flush=True)
PY
done
