#!/bin/bash
# What checkpoints cost a run, as ratios of programs that run in turns on one machine, outside the gate:
#   entries   16 busy nodes of 256 pages (or NODES of PAGES), one step a turn: durable entries a second with checkpoints as they come beside none
#   copy      the seconds of a checkpoint of these nodes beside a raw copy of as many bytes with the same syncs
# What is compared goes first in turns.
#   turns     one worker, 1,024 or 4,096 steps a turn, and the flusher, which sleeps where nothing is new: the slowest turn of a hundred
#             (the 99th percentile) while a snapshot of these nodes runs beside the median turn just before it, in many short rounds
#             (bench/turns.rattle); and, in as many rounds of one form, the same of loops that take as long as that median, beside a raw copy of a
#             checkpoint (bench/beside.c): of a plain interpreter, as busy as a turn, and of multiplications that wait for each other. What the
#             first shows is the machine's: it has no lock, no journal and no page that parts
# usage: bench/checkpoint.sh TPNET [ROUNDS [FOLDER ..]]      5 rounds in /dev/shm (in memory, so only our own cost shows) by default
#        TURNS_ALONE=1 bench/checkpoint.sh ..                the turns alone, also without a TPNET of the same day
#        NODES=64 PAGES=1024 TURNS_ALONE=1 bench/checkpoint.sh ..      of other networks: as many nodes of as many pages
# BUILT=FOLDER names where what is built is kept, and taken from if it is there; with 0 ROUNDS nothing else is done
set -e
nodes=${NODES:-16}
pages=${PAGES:-256}
head=512
[ "$nodes" -le 16 ] && [ "$pages" -le 256 ] || head=1024
top=$(cd "$(dirname "$0")/.." && pwd)
tpnet=$(realpath -m "$1")
rounds=${2:-5}
folders=("${@:3}")
[ ${#folders[@]} -gt 0 ] || folders=(/dev/shm)
work=$([ -n "$BUILT" ] && realpath -m "$BUILT" || mktemp -d /tmp/bench-checkpoint-XXXX)
[ -n "$BUILT" ] || trap 'rm -rf "$work"' EXIT
mkdir -p "$work"

if [ ! -e "$work/built" ]; then
    # writes what a checkpoint writes: the other area's gate and a sync where it is open, images piece by piece, the rest and a sync, the gate
    # and a sync
    cat > "$work/raw.c" <<'C'
#include <fcntl.h>
#include <stdlib.h>
#include <string.h>
#include <unistd.h>

static char page[8192];

static void put(int file, size_t count, off_t at) {
    if (pwrite(file, page, count, at) != (ssize_t)count) exit(1);
}

static void settle(int file) {
    if (fdatasync(file) != 0) exit(1);
}

int main(int count, char **words) {
    int file = open(words[1], O_RDWR);
    if (count != 5 || file < 0) return 1;
    off_t area = atoll(words[2]), at = area + 21;
    int nodes = atoi(words[3]), pages = atoi(words[4]), lines = 4 * (4 * nodes + 1);
    memset(page, 1, sizeof page);
    for (int node = 0; node < nodes; node++) {
        put(file, 172, at), at += 172;
        for (int piece = 0; piece < pages; piece++) put(file, 1024, at), at += 1024;
    }
    put(file, 8, area + 13), put(file, lines, at), put(file, sizeof page, at + lines), put(file, 12, area + 1);
    settle(file);
    put(file, 1, area);
    settle(file);
    return 0;
}
C
    cc -O2 -o "$work/raw" "$work/raw.c"

    cc -O2 -o "$work/beside" "$top/bench/beside.c" -lpthread

    tar -C "$top" -c --exclude=incremental crates crates.txt HANDLES | tar -C "$work" -x
    turns=$work/crates/bench_turns
    mkdir -p "$turns/src" "$turns/specs" "$turns/proofs/time_in"
    begun=$top/crates/tp_tests_threads
    cp "$top/bench/turns.rattle" "$turns/src/main.rt"
    cp "$begun/src/opening.rt" "$turns/src/"
    cp "$begun/specs/Spelt.antt" "$turns/specs/"
    echo 'pub mod Spelt' > "$turns/specs/Lib.antt"
    cp -r "$begun/proofs/opening" "$turns/proofs/"
    cp "$begun/proofs/scenes/play_in/"*.antt "$turns/proofs/time_in/"
    mkdir -p "$turns/proofs/make_turns" "$turns/proofs/make_rounds"
    for pair in make_turns:loop-number make_rounds:loop; do
        cat > "$turns/proofs/${pair%:*}/Invariants.antt" <<A
use Rattle.std.proofs.Common.{◌≡◌, Some}
use Rattle.bench_turns.proofs.${pair%:*}.Given as goal

abbrev pub invariant-${pair#*:} : goal.invariant-${pair#*:}
invariant-${pair#*:} g l = l.seat.hand.of ≡ Some l.net.queue
A
    done
    "$top/bench/with-disk" "$turns"
    find "$turns" -type f | xargs sed -i 's/tp_tests_threads/bench_turns/g; s/proofs\.scenes\.play_in/proofs.time_in/g; s/-play\b/-time_all/g; s/play-requires/time_all-requires/g'
    sed -n 's/ tp_tests_[a-z]*//g; s/^tp_tests_threads:/bench_turns:/p' "$top/crates.txt" >> "$work/crates.txt"
    (cd "$turns" && rt run > "$work/build.log" 2>&1) || true
    [ -x "$turns/out/bench_turns" ] || { tail -20 "$work/build.log"; exit 1; }
    touch "$work/built"
fi
[ "$rounds" -gt 0 ] || exit 0

sed "s/^pages .*/pages $pages/" "$top/examples/compute.txt" > "$work/node.txt"
: > "$work/net"
for ((node = 0; node < nodes; node++)); do
    name=n$node
    "$top/tools/make-image" "$work/node.txt" "$work/$name.img"
    echo "node $name $pages" >> "$work/net"
done
echo 'port host' >> "$work/net"
"$tpnet" format "$work/device" "$work/net" "$work" $((1024 * nodes * pages + (1 << 22))) > "$work/said"
python3 - "$tpnet" "$work" "$rounds" "$head $nodes $pages" "${folders[@]}" <<'PY'
import os, re, statistics, subprocess, sys, tempfile, threading, time
tpnet, work, rounds, sizes = sys.argv[1:5]
rounds = range(int(rounds))
TURNS, NEVER = 130000, (1 << 32) - 1

def timed(command):
    begun = time.monotonic()
    subprocess.run(command, capture_output=True, check=True)
    return time.monotonic() - begun

def raw_of(file):
    """What makes a raw copy of a checkpoint."""
    return [os.path.join(work, "raw"), file, *sizes.split()]

def run(file, turns, workers, every):
    """The seconds of a run on a new copy of the formatted device, and what `show` says of it then."""
    subprocess.run(["cp", "--sparse=never", os.path.join(work, "device"), file], check=True)
    subprocess.run(["sync", file], check=True)
    took = timed([tpnet, "run", file, "--turns", str(turns), "--workers", str(workers), "--quantum", "1", "--every", str(every)])
    shown = subprocess.run([tpnet, "show", file], capture_output=True, text=True, check=True).stdout
    found = re.search(r"generation (\d+) base \d+ entries \d+ next (\d+)", shown)
    return took, int(found[1]) - 1, int(found[2])

def said(name, mine, other, what):
    print("    %-8s %s; ratio of the medians %.2f" % (name, what, statistics.median(other) / statistics.median(mine)), flush=True)

def rounds_of(turns, quantum):
    """The nanoseconds of the turns alone and of those beside a snapshot, of each round."""
    found, last = [], 1
    for runs, time, steps in turns:
        if last and not runs:
            found.append(([], []))
        last = runs
        if steps == quantum:
            found[-1][runs].append(time)
    return [(alone, beside) for alone, beside in found if len(beside) > 1]

def late(times, middle):
    return statistics.quantiles(times, n=100)[98] / middle

def loops_of(file, kind, usual):
    """The rounds of loops of `usual` nanoseconds, and raw copies beside them."""
    words = [os.path.join(work, "beside"), kind, str(round(usual)), "20", "600", file, *sizes.split()]
    lines = subprocess.run(words, capture_output=True, text=True, check=True).stdout.splitlines()
    return rounds_of([tuple(map(int, line.split())) for line in lines], 0)

def late_of(found):
    """The 99th percentile beside, the most that it is in the quietest quarter of the rounds, that of those alone, and the slowest beside, each in
    medians alone of its round."""
    medians = [statistics.median(alone) for alone, _ in found]
    beside_all = [late(beside, middle) for (_, beside), middle in zip(found, medians)]
    return (statistics.median(beside_all), statistics.quantiles(beside_all, n=4)[0],
        statistics.median(late(alone, middle) for (alone, _), middle in zip(found, medians)),
        statistics.median(max(beside) / middle for (_, beside), middle in zip(found, medians)))

def of_turns(file, quantum):
    """Times turns of `quantum` steps, and in turns with them loops that take as long as the median turn."""
    of_rounds, of_kinds = [], {"turn": [], "bare": []}
    for _ in rounds:
        subprocess.run(["cp", "--sparse=never", os.path.join(work, "device"), file], check=True)
        program = os.path.join(work, "crates", "bench_turns", "out", "bench_turns")
        lines = subprocess.run([program, file, "20", "600", str(quantum)], capture_output=True, text=True, check=True).stdout.splitlines()
        found = rounds_of([tuple(map(int, line.split())) for line in lines], quantum)
        usual = statistics.median(statistics.median(alone) for alone, _ in found)
        for kind, rounds_found in of_kinds.items():
            subprocess.run(["cp", "--sparse=never", os.path.join(work, "device"), file], check=True)
            rounds_found += loops_of(file, kind, usual)
        of_rounds += found
    print("    turns    of %d steps, %d rounds, of %d turns alone and %d beside a snapshot: %.1f us alone; the 99th percentile %.2f times that (quietest quarter %.2f), %.2f alone; the slowest %.1f" % (
        quantum, len(of_rounds), statistics.median(len(alone) for alone, _ in of_rounds), statistics.median(len(beside) for _, beside in of_rounds),
        statistics.median(statistics.median(alone) for alone, _ in of_rounds) / 1e3, *late_of(of_rounds)))
    for kind, name in (("turn", "a plain interpreter"), ("bare", "multiplications")):
        print("             loops of %s beside a raw copy: %.2f (%.2f), %.2f alone; the slowest %.1f" % (name, *late_of(of_kinds[kind])), flush=True)

for folder in sys.argv[5:]:
    kind = subprocess.run(["stat", "-f", "-c", "%T", folder], capture_output=True, text=True, check=True).stdout.strip()
    print("%s (%s), medians of %d:" % (folder, kind, len(rounds)))
    with tempfile.TemporaryDirectory(prefix="bench-checkpoint-", dir=folder) as place:
        file = os.path.join(place, "device")
        if os.environ.get("TURNS_ALONE"):
            of_turns(file, 1024)
            of_turns(file, 4096)
            continue
        idle = statistics.median(run(file, 0, 2, NEVER)[0] for _ in rounds)
        times, switches = {10000: [], NEVER: []}, []
        for number in rounds:
            for every in (10000, NEVER) if number % 2 else (NEVER, 10000):
                took, count, entries = run(file, TURNS, 2, every)
                times[every].append((took - idle) / entries)
                if every == NEVER:
                    assert count == 0
                else:
                    switches.append(count)
        with_them, without = times[10000], times[NEVER]
        said("entries", with_them, without, "with %.0f, without %.0f a second, %d checkpoints a run" % (
            1 / statistics.median(with_them), 1 / statistics.median(without), statistics.median(switches)))
        # four turns of each process, in which one checkpoint is due, behind the second turn of most nodes
        nodes = int(sizes.split()[1])
        turns, due = 4 * (nodes + 1), 30 * nodes // 16
        def checkpoint():
            plain = run(file, turns, 1, NEVER)[0]
            took, count, entries = run(file, turns, 1, due)
            assert count == 1, count
            return took - plain
        def copy():
            subprocess.run(["cp", "--sparse=never", os.path.join(work, "device"), file], check=True)
            subprocess.run(["sync", file], check=True)
            return timed(raw_of(file)) - timed(["true"])
        ours, raw = [], []
        for number in range(4 * len(rounds)):
            for what, found in ((checkpoint, ours), (copy, raw)) if number % 2 else ((copy, raw), (checkpoint, ours)):
                found.append(what())
        said("copy", ours, raw, "ours %.1f, raw %.1f milliseconds" % (1e3 * statistics.median(ours), 1e3 * statistics.median(raw)))
        for quantum in (1024, 4096):
            of_turns(file, quantum)
PY
