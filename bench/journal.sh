#!/bin/bash
# Durable entries per second of the store beside the same writes and syncs alone, interleaved in one run, outside the gate.
# usage: bench/journal.sh TPNET [ROUNDS [FOLDER ..]]     5 rounds in /tmp and in /dev/shm by default; each folder names a file
#                                                        system. The entries are input bytes, which are never replayed here
# BUILT=FOLDER names where what is built is kept, and taken from if it is there; with 0 ROUNDS nothing else is done
set -e
top=$(cd "$(dirname "$0")/.." && pwd)
tpnet=$(realpath -m "$1")
rounds=${2:-5}
folders=("${@:3}")
[ ${#folders[@]} -gt 0 ] || folders=(/tmp /dev/shm)
work=$([ -n "$BUILT" ] && realpath -m "$BUILT" || mktemp -d /tmp/bench-journal-XXXX)
[ -n "$BUILT" ] || trap 'rm -rf "$work"' EXIT
mkdir -p "$work"
proved=$work/crates/bench_journal/out/bench_journal

if [ ! -e "$work/built" ]; then
    rustc -O --edition 2021 -o "$work/raw" "$top/bench/raw.rs"
    tar -C "$top" -c --exclude=incremental crates crates.txt HANDLES | tar -C "$work" -x
    mkdir -p "$work/crates/bench_journal/src"
    cp "$top/bench/journal.rattle" "$work/crates/bench_journal/src/main.rt"
    # three of its functions stand in tp_tests_opening, too, with their proofs
    cp "$top/crates/tp_tests_opening/src/appendable.rt" "$work/crates/bench_journal/src"
    for file in Numbered appendable/are_appendable/Invariants devices/number_from/Invariants devices/number_from/Answers devices/append_numbered/Answers; do
        proof=$work/crates/bench_journal/proofs/${file#devices/}.antt
        mkdir -p "$(dirname "$proof")"
        sed 's/tp_tests_opening\.proofs\.devices/bench_journal.proofs/; s/tp_tests_opening/bench_journal/; s/^\(append_group[^ ]*\) c =/\1 g c =/' \
            "$top/crates/tp_tests_opening/proofs/$file.antt" > "$proof"
    done
    "$top/bench/with-disk" "$work/crates/bench_journal"
    echo "mod Numbered" > "$work/crates/bench_journal/proofs/Lib.antt"
    echo "bench_journal: tp_area tp_disk tp_net tp_model tp_recover" >> "$work/crates.txt"
    (cd "$work/crates/bench_journal" && rt run > "$work/build.log" 2>&1) || true
    [ -x "$proved" ] || { tail -20 "$work/build.log"; exit 1; }
    touch "$work/built"
fi
[ "$rounds" -gt 0 ] || exit 0

"$top/tools/make-image" "$top/examples/letter.txt" "$work/a.img"
printf 'node a 4\nport h\nwire a.0 h\n' > "$work/topology"
"$tpnet" format "$work/device" "$work/topology" "$work" $((1 << 26))
python3 - "$proved" "$work/raw" "$work/device" "$rounds" "${folders[@]}" <<'PY'
import os, statistics, subprocess, sys, tempfile, time
proved, raw, device, rounds = sys.argv[1:5]

def seconds(program, file, groups, entries):
    """One run on a new copy of the formatted device."""
    subprocess.run(["cp", "--sparse=never", device, file], check=True)
    subprocess.run(["sync", file], check=True)
    begun = time.monotonic()
    subprocess.run([program, file, str(groups), str(entries)], check=True)
    return time.monotonic() - begun

for folder in sys.argv[5:]:
    kind = subprocess.run(["stat", "-f", "-c", "%T", folder], capture_output=True, text=True, check=True).stdout.strip()
    groups = 60000 if kind == "tmpfs" else 500
    with tempfile.TemporaryDirectory(prefix="bench-journal-", dir=folder) as place:
        file = os.path.join(place, "device")
        for entries in (1, 64):
            ours, plain = [], []
            for _ in range(int(rounds)):
                ours.append(seconds(proved, file, groups, entries))
                plain.append(seconds(raw, file, groups, entries))
            mine, other = statistics.median(ours), statistics.median(plain)
            print("%s (%s), groups of %2d: %.0f entries a second, raw %.0f, %.2f us more a group; ratio %.2f best, %.2f median" % (
                folder, kind, entries, groups * entries / mine, groups * entries / other, 1e6 * (mine - other) / groups,
                min(plain) / min(ours), other / mine), flush=True)
PY
