#!/bin/bash
# The speed of `tpnet run`, as ratios of programs that run in turns on one machine, outside the gate. A run makes the turns that it was
# asked for, and those of the host, which find nothing to do, are more where workers are many: so what is compared isn't turns but the
# steps and entries that stand in the journal afterwards:
#   workers   four busy nodes, 4,096 steps a turn: steps a second, and entries, of four workers beside one
#   steps     one busy node, 4,096 steps a turn: steps a second beside the interpreter alone (bench/steps.rattle), over memory that copies
#             before it writes, as a node's does, and over flat memory; and beside the plain interpreter at its best (bench/plain_fast.rs)
#   turns     four busy nodes, one step a turn, one worker: nanoseconds of an entry, in memory alone
#   entries   one busy node, one step a turn: durable entries a second beside the same groups written and synced alone. Where a sync costs
#             next to nothing, as in memory, this compares turns with writes: two turns make an entry, that of the node and that of the host.
#             Now the run goes first, now the groups, four times as often as the others: on a disk a sync takes now 70 and now 2,000
#             microseconds, so a few rounds say nothing
# usage: bench/run.sh TPNET [ROUNDS [FOLDER ..]]      5 rounds in /dev/shm (in memory, so only our own cost shows) by default.
#                                                     The time of a run is that of a run without turns less
#        MEASURES="workers turns" bench/run.sh ..                   these alone; for workers and turns nothing is built
# BUILT=FOLDER names where what is built is kept, and taken from if it is there; with 0 ROUNDS nothing else is done
set -e
top=$(cd "$(dirname "$0")/.." && pwd)
tpnet=$(realpath -m "$1")
rounds=${2:-5}
folders=("${@:3}")
[ ${#folders[@]} -gt 0 ] || folders=(/dev/shm)
work=$([ -n "$BUILT" ] && realpath -m "$BUILT" || mktemp -d /tmp/bench-run-XXXX)
[ -n "$BUILT" ] || trap 'rm -rf "$work"' EXIT
mkdir -p "$work"

measures=${MEASURES:-workers steps turns entries}
if [ ! -e "$work/built" ] && [[ $measures == *steps* || $measures == *entries* ]]; then
    tar -C "$top" -c --exclude=incremental crates crates.txt HANDLES | tar -C "$work" -x
    cow='s/FlatMemory::new(rt.alloc(), 4, /CowMemory::new(rt.alloc(), 4, 4, /; s/FlatMemory/CowMemory/g'
    mkdir -p "$work/crates/bench_flat/src" "$work/crates/bench_cow/src" "$work/steps"
    cp "$top/bench/steps.rattle" "$work/crates/bench_flat/src/main.rt"
    sed "$cow" "$top/bench/steps.rattle" > "$work/crates/bench_cow/src/main.rt"
    for kind in flat cow; do
        echo "bench_$kind: tp_cpu tp_mem tp_model" >> "$work/crates.txt"
        (cd "$work/crates/bench_$kind" && rt run > "$work/build.log" 2>&1) || true
        [ -x "$work/crates/bench_$kind/out/bench_$kind" ] || { tail -20 "$work/build.log"; exit 1; }
    done

    # writes the groups whose numbers of entries stand on standard input, as the store does: the bytes behind the gate, a sync, the gate, a sync;
    # and prints the seconds that this took
    cat > "$work/raw.c" <<'C'
#include <fcntl.h>
#include <stdio.h>
#include <stdlib.h>
#include <string.h>
#include <time.h>
#include <unistd.h>

static char body[16 + 16 * 64];
static int counts[1 << 22];

static double seconds(void) {
    struct timespec now;
    clock_gettime(CLOCK_MONOTONIC, &now);
    return now.tv_sec + 1e-9 * now.tv_nsec;
}

static void put(int file, const void *bytes, size_t count, off_t at) {
    if (pwrite(file, bytes, count, at) != (ssize_t)count || fdatasync(file) != 0) exit(1);
}

int main(int count, char **words) {
    int file = open(words[1], O_RDWR);
    off_t gate = atoll(words[2]);
    const unsigned char is_open = 0xA5;
    int groups = 0;
    double begun;
    if (count != 3 || file < 0) return 1;
    memset(body, 1, sizeof body);
    while (groups < 1 << 22 && scanf("%d", &counts[groups]) == 1) groups++;
    begun = seconds();
    for (int i = 0; i < groups; i++) {
        size_t length = 16 + 16 * (size_t)counts[i];
        put(file, body, length, gate + 1);
        put(file, &is_open, 1, gate);
        gate += (off_t)length;
    }
    printf("%.9f\n", seconds() - begun);
    return 0;
}
C
    cc -O2 -o "$work/raw" "$work/raw.c"
    rustc -O --edition 2021 -o "$work/plain_fast" "$top/bench/plain_fast.rs"
    touch "$work/built"
fi
[ "$rounds" -gt 0 ] || exit 0

mkdir -p "$work/steps"
"$top/tools/make-image" "$top/examples/compute.txt" "$work/a.img"
for name in b c d; do cp "$work/a.img" "$work/$name.img"; done
cp "$work/a.img" "$work/steps/node.img"
printf 'node a 4\nport h\n' > "$work/one.net"
printf 'node a 4\nnode b 4\nnode c 4\nnode d 4\nport h\n' > "$work/four.net"
"$tpnet" format "$work/one" "$work/one.net" "$work" $((1 << 23)) > "$work/said"
"$tpnet" format "$work/four" "$work/four.net" "$work" $((1 << 23)) > "$work/said"
python3 - "$tpnet" "$work" "$rounds" "$measures" "${folders[@]}" <<'PY'
import os, shutil, statistics, struct, subprocess, sys, tempfile, time
tpnet, work, rounds, measures = sys.argv[1:5]
rounds = range(int(rounds))
TURNS, SHORT_TURNS, NEVER = 20000, 200000, (1 << 32) - 1

def timed(command, cwd=None, given=None):
    begun = time.monotonic()
    subprocess.run(command, cwd=cwd, input=given, capture_output=True, check=True)
    return time.monotonic() - begun

def fresh(which, file):
    subprocess.run(["cp", "--sparse=never", os.path.join(work, which), file], check=True)
    subprocess.run(["sync", file], check=True)

def journal(file):
    """Where the first group begins, how many entries each has, and how many steps all have."""
    device = open(file, "rb").read()
    first = at = 512 + 13 + struct.unpack_from("<I", device, 521)[0]
    found, steps = [], 0
    while device[at] == 0xA5:
        found.append(struct.unpack_from("<H", device, at + 2)[0])
        for kind, _, count, _, _ in struct.iter_unpack("<BBHIQ", device[at + 16:at + 16 + 16 * found[-1]]):
            if kind in (1, 5):
                steps += count
        at += 16 + 16 * found[-1]
    return first, found, steps

def run(which, file, turns, workers, quantum):
    """The seconds of a run on a new copy of the formatted device."""
    fresh(which, file)
    return timed([tpnet, "run", file, "--turns", str(turns), "--workers", str(workers), "--quantum", str(quantum), "--every", str(NEVER)])

def made(which, file, turns, workers, quantum, idle):
    """The seconds of a run for each step, and for each entry, and how many entries a turn it made."""
    took = run(which, file, turns, workers, quantum) - idle
    _, counts, steps = journal(file)
    return took / steps, took / sum(counts), sum(counts) / turns

def said(name, mine, other, what):
    print("    %-8s %s; ratio %.2f best, %.2f median" % (
        name, what, min(other) / min(mine), statistics.median(other) / statistics.median(mine)), flush=True)

def workers(file):
    one, four = [], []
    for _ in rounds:
        idle = run("four", file, 0, 1, 4096)
        one.append(made("four", file, TURNS, 1, 4096, idle))
        four.append(made("four", file, TURNS, 4, 4096, idle))
    steps_of, entries_of = ([[way[at] for way in ways] for ways in (four, one)] for at in (0, 1))
    said("workers", *steps_of, "1 worker %.1f, 4 workers %.1f million steps a second" % tuple(1e-6 / min(ways) for ways in reversed(steps_of)))
    said("", *entries_of, "1 worker %.0f, 4 workers %.0f entries a second; %.2f and %.2f a turn" % (
        1 / min(entries_of[1]), 1 / min(entries_of[0]), one[0][2], four[0][2]))

def steps(file):
    ours, alone = [], {"cow memory": [], "flat memory": [], "plain at its best": []}
    for _ in rounds:
        idle = run("one", file, 0, 1, 4096)
        ours.append(made("one", file, TURNS, 1, 4096, idle)[0])
        for kind, times in alone.items():
            if kind == "plain at its best":
                times.append(timed([os.path.join(work, "plain_fast"), "steps", os.path.join(work, "a.img"), "100000000"]) / 1e8)
            else:
                program = "bench_" + kind.split()[0]
                times.append(timed([os.path.join(work, "crates", program, "out", program)], cwd=os.path.join(work, "steps")) / 1e8)
    for kind, times in alone.items():
        said("steps", ours, times, "run %.1f, interpreter alone %.1f million a second (%s)" % (1e-6 / min(ours), 1e-6 / min(times), kind))

def turns(file):
    found = []
    for _ in rounds:
        idle = run("four", file, 0, 1, 1)
        found.append(made("four", file, SHORT_TURNS, 1, 1, idle)[1])
    print("    turns    one step: %.0f ns an entry best, %.0f median" % (1e9 * min(found), 1e9 * statistics.median(found)), flush=True)

def run_entries(file):
    idle = run("one", file, 0, 2, 1)
    took = run("one", file, SHORT_TURNS, 2, 1) - idle
    first, counts, _ = journal(file)
    return took / sum(counts), first, counts

def write_groups(file, first, counts):
    fresh("one", file)
    raw = subprocess.run([os.path.join(work, "raw"), file, str(first)], input=" ".join(map(str, counts)).encode(), capture_output=True, check=True)
    return float(raw.stdout) / sum(counts)

def entries(file):
    ours, plain, sizes = [], [], []
    _, first, counts = run_entries(file)
    for number in range(4 * len(rounds)):
        if number % 2 == 1:
            plain.append(write_groups(file, first, counts))
        took, first, now = run_entries(file)
        if number % 2 == 0:
            plain.append(write_groups(file, first, now))
        counts = now
        ours.append(took)
        sizes.append(sum(counts) / len(counts))
    said("entries", ours, plain, "run %.0f, raw %.0f a second, groups of %.1f" % (
        1 / statistics.median(ours), 1 / statistics.median(plain), statistics.median(sizes)))

MEASURES = {"workers": workers, "steps": steps, "turns": turns, "entries": entries}
for folder in sys.argv[5:]:
    kind = subprocess.run(["stat", "-f", "-c", "%T", folder], capture_output=True, text=True, check=True).stdout.strip()
    print("%s (%s), best and median of %d:" % (folder, kind, len(rounds)))
    with tempfile.TemporaryDirectory(prefix="bench-run-", dir=folder) as place:
        for measure in measures.split():
            # in memory alone: elsewhere it would be a measure of syncs
            if measure != "turns" or kind == "tmpfs":
                MEASURES[measure](os.path.join(place, "device"))
PY
