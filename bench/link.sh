#!/bin/bash
# The instructions of a link turn by callgrind, which load doesn't change, beside those of a plain network without locks, a journal or a
# device (bench/plain_fast.rs), outside the gate: a byte that goes round eight nodes, each of which takes it and sends it on in a turn,
# and a host that has nothing to do. Both count the turns of nodes and of the host, which are one in nine; what the difference of two lengths
# says is without what comes once. The run's flusher isn't counted, where the program names its functions.
# usage: bench/link.sh TPNET
# BUILT=FOLDER names where what is built is kept, and taken from if it is there
set -e
top=$(cd "$(dirname "$0")/.." && pwd)
tpnet=$(realpath "$1")
work=$([ -n "$BUILT" ] && realpath -m "$BUILT" || mktemp -d /tmp/bench-link-XXXX)
[ -n "$BUILT" ] || trap 'rm -rf "$work"' EXIT
mkdir -p "$work/ring.d"

[ -e "$work/plain_fast" ] || rustc -O --edition 2021 -o "$work/plain_fast" "$top/bench/plain_fast.rs"
# takes a byte from link 1 and sends it on link 0; the first sends first
printf 'pages 4\niptr 80000100\nwptr 80000200\nat 80000100: 11 24 F2 55 41 F7\nat 80000106: 11 24 F2 41 FB\nat 8000010B: 60 03\n' > "$work/ring.txt"
sed 's/iptr 80000100/iptr 80000106/' "$work/ring.txt" > "$work/first.txt"
for kind in ring first; do "$top/tools/make-image" "$work/$kind.txt" "$work/$kind.img"; done
for i in 0 1 2 3 4 5 6 7; do cp "$work/ring.img" "$work/ring.d/n$i.img"; done
cp "$work/first.img" "$work/ring.d/n0.img"
{ for i in 0 1 2 3 4 5 6 7; do echo "node n$i 4"; done; echo "port host"; for i in 0 1 2 3 4 5 6 7; do echo "wire n$i.0 n$(((i + 1) % 8)).1"; done; } > "$work/ring.net"
rm -f "$work/ring"
"$tpnet" format "$work/ring" "$work/ring.net" "$work/ring.d" $((1 << 23)) > /dev/null
python3 - "$tpnet" "$work" <<'PY'
import re, subprocess, sys
tpnet, work = sys.argv[1:3]
FEW, MANY, NEVER = 9000, 27000, str((1 << 32) - 1)

def counted(command):
    """The instructions of each function itself, those that are named the same taken together, and of all."""
    out = work + "/callgrind"
    subprocess.run(["valgrind", "--tool=callgrind", "--callgrind-out-file=" + out, *command], capture_output=True, check=True)
    said = subprocess.run(["callgrind_annotate", "--threshold=100", out], capture_output=True, text=True, check=True).stdout
    each = {}
    for line in said.splitlines():
        found = re.match(r"\s*([\d,]+) \([ \d.]+%\)\s+(.*)", line)
        if found:
            name = re.sub(r" \[.*", "", found.group(2)).split(":", 1)[-1]
            each[name] = each.get(name, 0) + int(found.group(1).replace(",", ""))
    return each

def plain(turns):
    return counted([work + "/plain_fast", "ring", work + "/first.img", str(turns), work + "/ring.img"])

def ours(turns):
    subprocess.run(["cp", work + "/ring", work + "/device"], check=True)
    return counted([tpnet, "run", work + "/device", "--turns", str(turns), "--workers", "1", "--quantum", "4096", "--every", NEVER])

def a_turn(make):
    few, many = make(FEW), make(MANY)
    return {name: (many[name] - few.get(name, 0)) / (MANY - FEW) for name in many}

mine, other = a_turn(ours), a_turn(plain)
total = "PROGRAM TOTALS"
print("a link turn: run %.0f instructions, the plain network %.0f: ratio %.2f" % (mine[total], other[total], mine[total] / other[total]))
for name, count in sorted(mine.items(), key=lambda it: -it[1])[1:25]:
    print("    %7.0f %s" % (count, name[:120]))
PY
