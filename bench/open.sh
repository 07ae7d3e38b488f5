#!/bin/bash
# Opening a large device by one thread and by four, beside a plain read of it and a plain replay, interleaved in one run, outside the gate.
# usage: bench/open.sh TPNET [ROUNDS]     16 nodes of 256 pages, 100,000 entries: of 64 steps, then of 16
#        NODES=64 PAGES=256 ENTRIES=1000000 bench/open.sh ..      other devices
# BUILT=FOLDER names where what is built and made is kept, and taken from if it is there; with 0 ROUNDS nothing else is done
set -e
top=$(cd "$(dirname "$0")/.." && pwd)
tpnet=$(realpath -m "$1")
rounds=${2:-5}
nodes=${NODES:-16}
pages=${PAGES:-256}
entries=${ENTRIES:-100000}
work=$([ -n "$BUILT" ] && realpath -m "$BUILT" || mktemp -d /tmp/bench-open-XXXX)
[ -n "$BUILT" ] || trap 'rm -rf "$work"' EXIT
if [ ! -e "$work/built" ]; then
    mkdir -p "$work"
    rustc -O --edition 2021 -o "$work/plain" "$top/bench/plain.rs"
    sed "s/^pages 4/pages $pages/" "$top/examples/compute.txt" > "$work/compute.txt"
    "$top/tools/make-image" "$work/compute.txt" "$work/node.img"
    for steps in 64 16; do
        "$top/bench/make-device" "$work/node.img" "$nodes" "$entries" $steps "$work/device-$steps"
    done
    touch "$work/built"
fi
[ "$rounds" -gt 0 ] || exit 0
python3 - "$tpnet" "$work" "$rounds" "$entries" <<'PY'
import statistics, subprocess, sys, time
tpnet, work, rounds, entries = sys.argv[1:5]


def commands(device):
    return {
        "by one thread": [tpnet, "recover", "--workers", "1", device],
        "by four": [tpnet, "recover", "--workers", "4", device],
        "plain replay": [work + "/plain", "open", device],
        "plain read": ["cat", device],
    }


def seconds(command):
    begun = time.monotonic()
    out = subprocess.run(command, cwd=work, capture_output=True, check=True).stdout
    return time.monotonic() - begun, out


def say(device, took):
    for word, pick in (("best", min), ("median", statistics.median)):
        each = {name: pick(times) for name, times in took.items()}
        print("%s, %s of %s: %s; one thread over four %.2f, plain replay over one thread %.2f" % (
            device, word, rounds, ", ".join("%s %.3f s" % pair for pair in each.items()),
            each["by one thread"] / each["by four"], each["plain replay"] / each["by one thread"]))


for device in ("device-64", "device-16"):
    took = {}
    for _ in range(int(rounds)):
        for name, command in commands(device).items():
            once, out = seconds(command)
            took.setdefault(name, []).append(once)
            if name != "plain read" and out != b"next %s\n" % entries.encode():
                sys.exit("%s, %s: the answer is %s" % (device, name, out))
    say(device, took)
PY
