#!/bin/bash
# What a snapshot and the entries beside it cost a book, by how many nodes and entries it has, in one run, outside the gate; and the
# instructions by callgrind, which load doesn't change, of what is done under the book's lock: the copy of the tail and the trim.
# usage: bench/book.sh [ROUNDS]     5 rounds by default. With 0 rounds nothing is timed. The devices have no wire, so a cut is whole once
#                                   all nodes have recorded, and all their entries are inside it
# The commits of a run and of a take are timed on devices with one wire, by a program that isn't proved and that stops at faults
# BUILT=FOLDER names where what is built is kept, and taken from if it is there
set -e
top=$(cd "$(dirname "$0")/.." && pwd)
rounds=${1:-5}
work=$([ -n "$BUILT" ] && realpath -m "$BUILT" || mktemp -d /tmp/bench-book-XXXX)
[ -n "$BUILT" ] || trap 'rm -rf "$work"' EXIT
mkdir -p "$work"

if [ ! -e "$work/built" ]; then
    tar -C "$top" -c --exclude=incremental crates crates.txt HANDLES | tar -C "$work" -x
    for name in book tails; do
        mkdir -p "$work/crates/bench_$name/src"
        cp "$top/bench/$name.rattle" "$work/crates/bench_$name/src/main.rt"
        "$top/bench/with-disk" "$work/crates/bench_$name"
        echo "bench_$name: tp_book tp_disk tp_recover" >> "$work/crates.txt"
        (cd "$work/crates/bench_$name" && rt run > "$work/build-$name.log" 2>&1) || true
    done
    [ -x "$work/crates/bench_tails/out/bench_tails" ] || { tail -20 "$work/build-tails.log"; exit 1; }
    touch "$work/built"
fi
program=$work/crates/bench_book/out/bench_book
tails=$work/crates/bench_tails/out/bench_tails

"$top/tools/make-image" "$top/examples/compute.txt" "$work/node.img"
python3 - "$tails" "$top/bench/make-device" "$work" <<'PY'
import re, subprocess, sys
tails, make, work = sys.argv[1:4]
COUNTS = (10000, 1000000)

def instructions(device, phase):
    said = subprocess.run(["valgrind", "--tool=callgrind", "--callgrind-out-file=/dev/null", tails, device, "x" * phase],
                          capture_output=True, text=True, check=True).stderr
    return int(re.search(r"Collected : (\d+)", said).group(1))

took = {}
for entries in COUNTS:
    device = "%s/tails-%d" % (work, entries)
    subprocess.run([make, work + "/node.img", "16", str(entries), "1", device], check=True)
    all_of = [instructions(device, phase) for phase in range(4)]
    took[entries] = [b - a for a, b in zip(all_of, all_of[1:])]
    subprocess.run(["rm", device], check=True)
for at, name in enumerate(("begin and record", "copy of the tail", "trim")):
    few, many = (took[entries][at] for entries in COUNTS)
    print("%-17s %9d instructions with 10,000 entries, %11d with 1,000,000: ratio %.2f" % (name, few, many, many / max(few, 1)), flush=True)
PY
[ "$rounds" -gt 0 ] || exit 0
git -C "$work" init -q
[ -x "$program" ] || echo "the timed program isn't proved (build-book.log): it is timed with its checks at run time"
python3 - "$program" "$top/bench/make-device" "$work" "$rounds" <<'PY'
import os, subprocess, sys
program, make, work, rounds = sys.argv[1:5]

KINDS = [(1, 64), (16, 64), (16, 100000)]

def timed(device):
    """What the program prints of a device."""
    command, crate = [program, device], os.path.join(work, "crates", "bench_book")
    if not os.access(program, os.X_OK):
        command = ["rt", "try", "--seconds", "300", "--data", "device=" + device, "--", "device"]
    said = subprocess.run(command, cwd=crate, capture_output=True, text=True, check=True).stdout
    return [int(word) for word in [line for line in said.splitlines() if line[:1].isdigit()][-1].split()]

best = {}
for nodes, entries in KINDS:
    subprocess.run([make, work + "/node.img", str(nodes), str(entries), "16", "%s/%d-%d" % (work, nodes, entries)], check=True)
for _ in range(int(rounds)):
    for nodes, entries in KINDS:
        times = timed("%s/%d-%d" % (work, nodes, entries))
        best[nodes, entries] = [min(pair) for pair in zip(times, best.get((nodes, entries), times))]
print("nodes entries  1,024 inputs  begin  inputs while it runs  record all  whole   (ns, best of %s)" % rounds)
for kind in KINDS:
    print("%5d %7d  %12d  %5d  %20d  %10d  %5d" % (kind + tuple(best[kind])))
few, many = best[16, 64], best[16, 100000]
print("100,000 entries beside 64: inputs %.2f, begin %.2f, inputs while it runs %.2f, record %.2f, whole %.2f" % tuple(
    b / max(a, 1) for a, b in zip(few, many)))
PY

mkdir -p "$work/crates/bench_entries/src"
grep -q bench_entries "$work/crates.txt" || echo "bench_entries: tp_model tp_net tp_book tp_disk tp_node tp_recover tp_turn" >> "$work/crates.txt"
cp "$top/bench/entries.rattle" "$work/crates/bench_entries/src/main.rt"
echo "entries  commit of a run  commit of a take   (ns, best of 50 books)"
for entries in 64 100000; do
    device=$work/wired-$entries
    cp "$work/16-$entries" "$device"
    printf '\x80' | dd of="$device" bs=1 seek=56 conv=notrunc 2> /dev/null
    times=$(cd "$work/crates/bench_entries" && rt try --seconds 300 --data "device=$device" -- device | grep '^[0-9]')
    echo "$entries $times"
done
