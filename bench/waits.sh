#!/bin/bash
# What hosts wait for, as ratios of programs that run in turns on one machine, outside the gate:
#   byte      one byte in and out of an idle network: a node that echoes, on a device in FOLDER. Beside it a raw program answers each byte once it
#             has written one group, as the store writes it: the bytes behind the gate, a sync, the gate, a sync. Both are asked by one program,
#             byte after byte, 3 milliseconds apart
#   hop       that raw program with a thread that reads and hands each byte on, as a program without leave to ask the system for input needs one,
#             beside that without
#   streams   four nodes that compute, a port each: entries a second of `run --stream` by four workers beside one, in memory; and of `run` by four
#             beside one, which says what the machine gives
#   hands     four pairs of nodes that hand a byte back and forth: entries a second of `run` by four workers beside one, in memory
#   works     of four such pairs whose nodes compute for some 1,000 steps between two bytes
#   disk      such a stream of four nodes on a device in FOLDER: its seconds beside the longer of two, those of that stream in memory, and those of
#             its groups written and synced alone in FOLDER
#   floor     what the machine gives of that: four threads that loop for as long as that stream took in memory, while the first also writes and syncs
#             these groups between its loops: their seconds in FOLDER beside those in memory
# usage: bench/waits.sh TPNET [ROUNDS [FOLDER]]      5 rounds, and /tmp, which should be on a disk, by default
# Times are those of a run less a run without turns. Best and median of the rounds
set -e
top=$(cd "$(dirname "$0")/.." && pwd)
tpnet=$(realpath "$1")
rounds=${2:-5}
folder=${3:-/tmp}
work=$(mktemp -d /tmp/bench-waits-XXXX)
trap 'rm -rf "$work"' EXIT

# with `echo`: answers each byte of standard input once a group of five entries is written, with `echo thread` by a thread that reads; else writes the groups whose numbers of entries
# stand on standard input, and prints the seconds that this took
cat > "$work/raw.c" <<'C'
#include <fcntl.h>
#include <pthread.h>
#include <stdio.h>
#include <stdlib.h>
#include <string.h>
#include <time.h>
#include <unistd.h>

static char body[16 + 16 * 64];
static int counts[1 << 22];

static double seconds(void) {
    struct timespec now;
    clock_gettime(CLOCK_MONOTONIC, &now);
    return now.tv_sec + 1e-9 * now.tv_nsec;
}

static void put(int file, const void *bytes, size_t count, off_t at) {
    if (pwrite(file, bytes, count, at) != (ssize_t)count || fdatasync(file) != 0) exit(1);
}

static off_t group(int file, int entries, off_t gate) {
    const unsigned char is_open = 0xA5;
    size_t length = 16 + 16 * (size_t)entries;
    put(file, body, length, gate + 1);
    put(file, &is_open, 1, gate);
    return gate + (off_t)length;
}

static pthread_mutex_t lock = PTHREAD_MUTEX_INITIALIZER;
static pthread_cond_t changed = PTHREAD_COND_INITIALIZER;
static int handed = -1, is_over;

static void *reads(void *unused) {
    unsigned char byte;
    while (read(0, &byte, 1) == 1) {
        pthread_mutex_lock(&lock);
        handed = byte;
        pthread_cond_signal(&changed);
        pthread_mutex_unlock(&lock);
    }
    pthread_mutex_lock(&lock);
    is_over = 1;
    pthread_cond_signal(&changed);
    pthread_mutex_unlock(&lock);
    return unused;
}

static int take(char *byte) {
    int was;
    pthread_mutex_lock(&lock);
    while (handed < 0 && !is_over) pthread_cond_wait(&changed, &lock);
    was = handed;
    handed = -1;
    pthread_mutex_unlock(&lock);
    *byte = (char)was;
    return was >= 0;
}

int main(int count, char **words) {
    pthread_t reader;
    int file = open(words[1], O_RDWR), groups = 0;
    off_t gate = 4096;
    double begun;
    char byte;
    if (count < 2 || file < 0) return 1;
    memset(body, 1, sizeof body);
    if (count == 4) pthread_create(&reader, NULL, reads, NULL);
    if (count > 2) {
        while (count == 4 ? take(&byte) : read(0, &byte, 1) == 1) {
            gate = group(file, 5, gate);
            if (write(1, &byte, 1) != 1) return 1;
        }
        return 0;
    }
    while (groups < 1 << 22 && scanf("%d", &counts[groups]) == 1) groups++;
    begun = seconds();
    for (int i = 0; i < groups; i++) gate = group(file, counts[i], gate);
    printf("%.9f\n", seconds() - begun);
    return 0;
}
C
cc -O2 -pthread -o "$work/raw" "$work/raw.c"

# floor FILE LOOPS: four threads make LOOPS loops together, each of some two microseconds, and one of them writes the groups whose numbers of
# entries stand on standard input, as evenly, between its own; prints the seconds that this took
sed '/^static pthread_mutex_t/,$d' "$work/raw.c" > "$work/floor.c"
cat >> "$work/floor.c" <<'C'
#include <stdatomic.h>

static atomic_long taken;
static long loops, groups;
static int file = -1;

static void *go(void *writes) {
    unsigned long x = 1;
    long written = 0;
    off_t gate = 4096;
    for (long at; (at = atomic_fetch_add(&taken, 1)) < loops;) {
        for (; writes && written < groups && written * loops <= at * groups; written++) gate = group(file, counts[written], gate);
        for (int i = 0; i < 1000; i++) {
            x ^= x << 13;
            x ^= x >> 7;
            x ^= x << 17;
        }
    }
    for (; writes && written < groups; written++) gate = group(file, counts[written], gate);
    return (void *)x;
}

int main(int count, char **words) {
    pthread_t threads[4];
    double begun;
    if (count != 3 || (file = open(words[1], O_RDWR)) < 0) return 1;
    loops = atol(words[2]);
    memset(body, 1, sizeof body);
    while (groups < 1 << 22 && scanf("%d", &counts[groups]) == 1) groups++;
    begun = seconds();
    for (long at = 0; at < 4; at++) pthread_create(&threads[at], NULL, go, at == 0 ? body : NULL);
    for (int at = 0; at < 4; at++) pthread_join(threads[at], NULL);
    printf("%.9f\n", seconds() - begun);
    return 0;
}
C
cc -O2 -pthread -o "$work/floor" "$work/floor.c"

# takes a byte from link 0 and sends it on link 0 (echo), or on link 3 (hands), or there once it has computed for some 1,000 steps (works), for
# ever; `_first` sends first
cat > "$work/hands.asm" <<'T'
process start 80000200
place = 1
left = 2
start:
    ldlp place
    mint
    ldnlp 4             # link0.in
    ldc 1
    in
send:
    ldlp place
    mint
    ldnlp 3             # link3.out
    ldc 1
    out
    j start
T
sed 's/ldnlp 3 .*/ldnlp 0             # link0.out/' "$work/hands.asm" > "$work/echo.asm"
sed 's/^send:/    ldc 160\n    stl left\nagain:\n    ldl left\n    adc -1\n    stl left\n    ldl left\n    cj send\n    j again\nsend:/' "$work/hands.asm" > "$work/works.asm"
for name in hands works; do sed 's/^process start/process send/' "$work/$name.asm" > "$work/${name}_first.asm"; done
for name in echo hands hands_first works works_first; do "$top/tools/assemble" "$work/$name.asm" "$work/$name.img"; done
"$top/tools/make-image" "$top/examples/compute.txt" "$work/n0.img"
for number in 1 2 3; do cp "$work/n0.img" "$work/n$number.img"; done
printf 'node echo 4\nport h\nwire echo.0 h\n' > "$work/echo.net"
for number in 0 1 2 3; do printf 'node n%d 4\n' $number; done > "$work/four.net"
for number in 0 1 2 3; do printf 'port p%d\n' $number; done >> "$work/four.net"
for number in 0 1 2 3; do printf 'wire n%d.0 p%d\n' $number $number; done >> "$work/four.net"
for pairs in hands works; do
    mkdir "$work/$pairs.d"
    for number in 0 1 2 3; do
        cp "$work/${pairs}_first.img" "$work/$pairs.d/a$number.img"
        cp "$work/$pairs.img" "$work/$pairs.d/b$number.img"
        printf 'node a%d 4\nnode b%d 4\n' $number $number
    done > "$work/$pairs.net"
    printf 'port h\n' >> "$work/$pairs.net"
    for number in 0 1 2 3; do printf 'wire a%d.3 b%d.0\nwire b%d.3 a%d.0\n' $number $number $number $number; done >> "$work/$pairs.net"
    "$tpnet" format "$work/$pairs" "$work/$pairs.net" "$work/$pairs.d" $((1 << 24)) > "$work/said"
done
for name in echo four; do "$tpnet" format "$work/$name" "$work/$name.net" "$work" $((1 << 24)) > "$work/said"; done

python3 - "$tpnet" "$work" "$rounds" "$folder" <<'PY'
import os, shutil, statistics, struct, subprocess, sys, tempfile, time
tpnet, work, rounds, folder = sys.argv[1:5]
rounds = range(int(rounds))
BYTES, TURNS, PAIR_TURNS, NEVER = 100, 160000, 400000, (1 << 32) - 1

def timed(command):
    begun = time.monotonic()
    done = subprocess.run(command, capture_output=True, check=True)
    return time.monotonic() - begun, done.stderr.decode()

def fresh(which, place):
    file = os.path.join(place, which)
    shutil.copyfile(os.path.join(work, which), file)
    subprocess.run(["sync", file], check=True)
    return file

def counts_of(file):
    """How many entries each group of the area has that a new device counts in."""
    device = open(file, "rb").read()
    at, found = 512 + 13 + struct.unpack_from("<I", device, 521)[0], []
    while device[at] == 0xA5:
        found.append(struct.unpack_from("<H", device, at + 2)[0])
        at += 16 + 16 * found[-1]
    return found

def said(name, mine, other, what):
    print("    %-8s %s; ratio %.2f best, %.2f median" % (name, what, min(mine) / min(other), statistics.median(mine) / statistics.median(other)), flush=True)

def waits(command):
    """The seconds that each byte takes to come back."""
    process = subprocess.Popen(command, stdin=subprocess.PIPE, stdout=subprocess.PIPE, stderr=subprocess.PIPE)
    found = []
    for number in range(BYTES):
        time.sleep(0.003)
        begun = time.monotonic()
        os.write(process.stdin.fileno(), bytes([number]))
        if os.read(process.stdout.fileno(), 1) != bytes([number]):
            sys.exit("another byte came back")
        found.append(time.monotonic() - begun)
    process.stdin.close()
    process.wait()
    return found[BYTES // 10:]

def ran(place, which, words, turns, workers, stream):
    """The seconds of a run on a new device there, and how many entries each of its groups has."""
    def command(file, turns):
        rest = ["--stream"] + [word for port in range(4) for word in ("--discard", str(port))] if stream else []
        return [tpnet, "run", file] + rest + ["--turns", str(turns), "--workers", str(workers), "--every", str(NEVER)] + words
    idle, _ = timed(command(fresh(which, place), 0))
    file = fresh(which, place)
    took, _ = timed(command(file, turns))
    return took - idle, counts_of(file)

def floor(place, loops, counts):
    """The seconds of loops in four threads, while the first also writes these groups there."""
    done = subprocess.run([os.path.join(work, "floor"), fresh("four", place), str(loops)], input=" ".join(map(str, counts)).encode(), capture_output=True, check=True)
    return float(done.stdout)

def an_entry(*run):
    """The seconds of an entry of a run."""
    took, counts = ran(*run)
    return took / sum(counts)

kind = subprocess.run(["stat", "-f", "-c", "%T", folder], capture_output=True, text=True, check=True).stdout.strip()
print("best and median of %d, on %s (%s) and in memory:" % (len(rounds), folder, kind))
with tempfile.TemporaryDirectory(prefix="bench-waits-", dir=folder) as disk, tempfile.TemporaryDirectory(prefix="bench-waits-", dir="/dev/shm") as memory:
    ours, raw, hops = [], [], []
    for _ in rounds:
        hops.append(statistics.median(waits([os.path.join(work, "raw"), fresh("echo", disk), "echo", "thread"])))
        raw.append(statistics.median(waits([os.path.join(work, "raw"), fresh("echo", disk), "echo"])))
        ours.append(statistics.median(waits([tpnet, "run", fresh("echo", disk), "--stream", "--until-quiet", "--in", "0=-", "--out", "0=-"])))
    said("byte", ours, raw, "there and back %.0f, raw %.0f microseconds" % (1e6 * statistics.median(ours), 1e6 * statistics.median(raw)))
    said("hop", hops, raw, "raw by two threads %.0f, by one %.0f microseconds" % (1e6 * statistics.median(hops), 1e6 * statistics.median(raw)))
    for name, which, words, turns, stream in (("streams", "four", ["--quantum", "4096"], TURNS, True), ("run", "four", ["--quantum", "4096"], TURNS, False), ("hands", "hands", [], PAIR_TURNS, False), ("works", "works", [], TURNS, False)):
        one, four = [], []
        for _ in rounds:
            one.append(an_entry(memory, which, words, turns, 1, stream))
            four.append(an_entry(memory, which, words, turns, 4, stream))
        said(name, one, four, "1 worker %.0f, 4 workers %.0f entries a second" % (1 / statistics.median(one), 1 / statistics.median(four)))
    ours, longer, ways, beside, without = [], [], [], [], []
    for _ in rounds:
        turns, _ = ran(memory, "four", ["--quantum", "4096"], TURNS, 4, True)
        took, counts = ran(disk, "four", ["--quantum", "4096"], TURNS, 4, True)
        alone = subprocess.run([os.path.join(work, "raw"), fresh("four", disk)], input=" ".join(map(str, counts)).encode(), capture_output=True, check=True)
        ours.append(took)
        longer.append(max(turns, float(alone.stdout)))
        ways.append((turns, float(alone.stdout), len(counts)))
        loops = int(turns * 1000000 / floor(memory, 1000000, []))
        without.append(floor(memory, loops, counts))
        beside.append(floor(disk, loops, counts))
    turns, alone, groups = (statistics.median(way[at] for way in ways) for at in range(3))
    said("disk", ours, longer, "stream %.2f, its turns in memory %.2f, its %d groups alone %.2f seconds" % (statistics.median(ours), turns, groups, alone))
    said("floor", beside, without, "loops that write these groups meanwhile %.2f, in memory %.2f seconds" % (statistics.median(beside), statistics.median(without)))
PY
