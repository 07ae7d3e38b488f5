#!/bin/bash
# The speed of `tpnet run --stream`, outside the gate: bytes go in through standard input, through a relay of two nodes, and out through
# standard output, on a device whose areas have 256 KiB. Beside it a raw program takes the same bytes from a pipe to a pipe, and meanwhile
# writes and syncs as many entries as the stream journalled, in groups of 64 as the store writes them, round and round in as much room.
# What came out has to be what went in, and it is looked at that the memory of the program stays in its bounds.
# usage: bench/stream.sh TPNET [MIB [FOLDER ..]]      16 MiB in /dev/shm (in memory, so only our own cost shows) by default
set -e
top=$(cd "$(dirname "$0")/.." && pwd)
tpnet=$(realpath "$1")
mib=${2:-16}
folders=("${@:3}")
[ ${#folders[@]} -gt 0 ] || folders=(/dev/shm)
work=$(mktemp -d /tmp/bench-stream-XXXX)
trap 'rm -rf "$work"' EXIT

# takes standard input to standard output, and meanwhile writes groups of 64 entries, each as the store does: the bytes behind the gate, a
# sync, the gate, a sync
cat > "$work/raw.c" <<'C'
#include <fcntl.h>
#include <stdlib.h>
#include <string.h>
#include <unistd.h>

enum { PIECE = 4096, GROUP = 16 + 16 * 64 };
static char piece[PIECE], body[GROUP];

static void put(int file, const void *bytes, size_t count, off_t at) {
    if (pwrite(file, bytes, count, at) != (ssize_t)count || fdatasync(file) != 0) exit(1);
}

int main(int count, char **words) {
    int file = open(words[1], O_RDWR);
    double bytes = atof(words[2]), entries = atof(words[3]), taken = 0, written = 0;
    off_t room = atoll(words[4]), at = 0;
    const unsigned char is_open = 0xA5;
    ssize_t got;
    if (count != 5 || file < 0) return 1;
    memset(body, 1, sizeof body);
    while ((got = read(0, piece, PIECE)) > 0) {
        taken += (double)got;
        for (; written < entries * (taken / bytes); written += 64) {
            if (at + GROUP + 1 > room) at = 0;
            put(file, body, GROUP, at + 1);
            put(file, &is_open, 1, at);
            at += GROUP;
        }
        if (write(1, piece, (size_t)got) != got) return 1;
    }
    return 0;
}
C
cc -O2 -o "$work/raw" "$work/raw.c"

# takes a byte from link 0 and sends it on link 3, for ever
cat > "$work/a.txt" <<'T'
pages 4
iptr 80000100
wptr 80000200
at 80000100: 11 24 F2 54 41 F7
at 80000106: 11 24 F2 53 41 FB
at 8000010C: 60 02
T
"$top/tools/make-image" "$work/a.txt" "$work/a.img"
cp "$work/a.img" "$work/b.img"
printf 'node a 4\nnode b 4\nport in\nport out\nwire a.0 in\nwire a.3 b.0\nwire b.3 out\n' > "$work/relay.net"
python3 - "$tpnet" "$work" "$mib" "${folders[@]}" <<'PY'
import os, resource, subprocess, sys, tempfile, threading, time
tpnet, work, mib = sys.argv[1:4]
COUNT, AREA = int(float(mib) * (1 << 20)), 1 << 18
given = bytes(range(251)) * (COUNT // 251 + 1)
given = given[:COUNT]

def through(command):
    """The seconds that it took, what came out, standard error, and the most memory that the program held."""
    begun = time.monotonic()
    process = subprocess.Popen(command, stdin=subprocess.PIPE, stdout=subprocess.PIPE, stderr=subprocess.PIPE)
    most, is_over = [0], threading.Event()
    def look():
        while not is_over.wait(0.2):
            try:
                with open("/proc/%d/status" % process.pid) as file:
                    most[0] = max([most[0]] + [int(line.split()[1]) for line in file if line.startswith("VmRSS")])
            except OSError:
                pass
    looks = threading.Thread(target=look)
    looks.start()
    out, err = process.communicate(given)
    took = time.monotonic() - begun
    is_over.set()
    looks.join()
    if process.returncode != 0:
        sys.exit("%s: %s" % (command, err.decode()))
    return took, out, err.decode(), most[0]

for folder in sys.argv[4:]:
    kind = subprocess.run(["stat", "-f", "-c", "%T", folder], capture_output=True, text=True, check=True).stdout.strip()
    with tempfile.TemporaryDirectory(prefix="bench-stream-", dir=folder) as place:
        device = os.path.join(place, "device")
        subprocess.run([tpnet, "format", device, os.path.join(work, "relay.net"), work, str(AREA)], check=True, capture_output=True)
        took, out, said, held = through([tpnet, "run", device, "--stream", "--until-quiet", "--in", "0=-", "--discard", "0", "--out", "1=-"])
        if out != given:
            sys.exit("what came out isn't what went in: %d of %d bytes" % (len(out), len(given)))
        last = said.strip().splitlines()[-1].split()
        entries = int(last[1])
        shown = subprocess.run([tpnet, "show", device], check=True, capture_output=True, text=True).stdout
        checkpoints = int(shown.split("generation ")[1].split()[0]) - 1
        plain, out, _, _ = through([os.path.join(work, "raw"), device, str(COUNT), str(entries), str(AREA)])
        print("%s (%s): %d bytes, %d entries, %d checkpoints, at most %.1f MiB held" % (folder, kind, COUNT, entries, checkpoints, held / 1024))
        print("    stream %.0f bytes, %.0f entries a second (%.1f s); raw %.0f bytes, %.0f entries a second (%.1f s); ratio %.2f" % (
            COUNT / took, entries / took, took, COUNT / plain, entries / plain, plain, plain / took))
PY
