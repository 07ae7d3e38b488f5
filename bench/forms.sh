#!/bin/bash
# What a turn as one entry saves, as ratios of today's program over two devices that differ in the form of their open area alone (formatted,
# and with the form set back to plain, where a turn has an entry for each token that it takes), in turns, outside the gate. The areas are so
# large that no checkpoint begins, which would end the plain one:
#   relay    bytes from a pipe to a pipe through three nodes, `run --stream`: bytes a second, and bytes of the journal for each byte
#   ring     a byte that goes round eight nodes, one worker: entries a turn
#   busy     four nodes that compute, 4,096 steps a turn, one worker: turns a second
# usage: bench/forms.sh TPNET [KIB [ROUNDS [FOLDER]]]      64 KiB of bytes, 5 rounds, in /dev/shm by default
set -e
top=$(cd "$(dirname "$0")/.." && pwd)
tpnet=$(realpath "$1")
work=$(mktemp -d "${4:-/dev/shm}/bench-forms-XXXX")
trap 'rm -rf "$work"' EXIT

# takes a byte from link 0 and sends it on link 3; takes one from link 1 and sends it on link 0; the first that does so; computes
printf 'pages 4\niptr 80000100\nwptr 80000200\nat 80000100: 11 24 F2 54 41 F7\nat 80000106: 11 24 F2 53 41 FB\nat 8000010C: 60 02\n' > "$work/relay.txt"
printf 'pages 4\niptr 80000100\nwptr 80000200\nat 80000100: 11 24 F2 55 41 F7\nat 80000106: 11 24 F2 41 FB\nat 8000010B: 60 03\n' > "$work/ring.txt"
sed 's/iptr 80000100/iptr 80000106/' "$work/ring.txt" > "$work/first.txt"
printf 'pages 4\niptr 80000100\nwptr 80000200\nat 80000100: 60 0E\n' > "$work/busy.txt"
for kind in relay ring first busy; do "$top/tools/make-image" "$work/$kind.txt" "$work/$kind"; done
mkdir "$work/relay.d" "$work/ring.d" "$work/busy.d"
for name in a b c; do cp "$work/relay" "$work/relay.d/$name.img"; done
for i in 0 1 2 3 4 5 6 7; do cp "$work/ring" "$work/ring.d/n$i.img"; done
cp "$work/first" "$work/ring.d/n0.img"
for i in 0 1 2 3; do cp "$work/busy" "$work/busy.d/n$i.img"; done
printf 'node a 4\nnode b 4\nnode c 4\nport in\nport out\nwire a.0 in\nwire a.3 b.0\nwire b.3 c.0\nwire c.3 out\n' > "$work/relay.net"
{ for i in 0 1 2 3 4 5 6 7; do echo "node n$i 4"; done; echo "port host"; for i in 0 1 2 3 4 5 6 7; do echo "wire n$i.0 n$(((i + 1) % 8)).1"; done; } > "$work/ring.net"
printf 'node n0 4\nnode n1 4\nnode n2 4\nnode n3 4\nport host\n' > "$work/busy.net"
python3 - "$tpnet" "$work" "${2:-64}" "${3:-5}" <<'PY'
import os, re, shutil, statistics, subprocess, sys, time
tpnet, work, kib, rounds = sys.argv[1], sys.argv[2], int(sys.argv[3]), int(sys.argv[4])
HEAD, FORM = 512, 19
FORMS = ("turns", "plain")
COUNT, RING_TURNS, BUSY_TURNS = kib << 10, 100_000, 40_000
given = (bytes(range(251)) * (COUNT // 251 + 1))[:COUNT]

def must(command, **options):
    done = subprocess.run(command, capture_output=True, **options)
    if done.returncode != 0:
        sys.exit("%s: %s" % (command, done.stderr.decode()))
    return done

def device(kind, form, area):
    """A device of this kind, whose first area has this form."""
    path = os.path.join(work, "device")
    must([tpnet, "format", path, os.path.join(work, kind + ".net"), os.path.join(work, kind + ".d"), str(area)])
    if form == "plain":
        with open(path, "r+b") as file:
            file.seek(HEAD + FORM)
            if file.read(2) != b"\x02\x00":
                sys.exit("the form isn't where it was")
            file.seek(HEAD + FORM)
            file.write(b"\x00\x00")
    return path

def of_form(path, form):
    """How many entries there are. The device's first area is still the one that counts, and of the form."""
    said = must([tpnet, "status", path]).stdout.decode()
    if "form %s " % form not in said or "generation 1 " not in said:
        sys.exit("a checkpoint was made: %s" % said)
    return int(re.search(r"next (\d+)", said).group(1))

def journal_bytes(path):
    """The bytes of all groups in the first area."""
    end = 0
    with open(path, "rb") as file:
        data = file.read()
    topology_lines = int.from_bytes(data[HEAD + 9:HEAD + 13], "little")
    at = begin = HEAD + 13 + topology_lines
    while data[at] == 0xA5:
        at += 16 + 16 * int.from_bytes(data[at + 2:at + 4], "little")
    return at - begin

def relay(form):
    path = device("relay", form, max(1 << 21, 800 * COUNT))
    begun = time.monotonic()
    out = must([tpnet, "run", path, "--stream", "--until-quiet", "--in", "0=-", "--discard", "0", "--out", "1=-"], input=given).stdout
    took = time.monotonic() - begun
    if out != given:
        sys.exit("what came out isn't what went in")
    entries = of_form(path, form)
    return COUNT / took, journal_bytes(path) / COUNT, entries / COUNT

def turned(kind, form, turns):
    path = device(kind, form, 1 << 27)
    begun = time.monotonic()
    must([tpnet, "run", path, "--turns", str(turns), "--workers", "1", "--quantum", "4096"])
    took = time.monotonic() - begun
    return turns / took, of_form(path, form) / turns

said = {form: {"relay": [], "ring": [], "busy": []} for form in FORMS}
for i in range(rounds):
    for form in FORMS if i % 2 else FORMS[::-1]:
        said[form]["relay"].append(relay(form))
        said[form]["ring"].append(turned("ring", form, RING_TURNS))
        said[form]["busy"].append(turned("busy", form, BUSY_TURNS))

def best(kind, at):
    return [max(each[at] for each in said[form][kind]) for form in FORMS]

def median(kind, at):
    return [statistics.median(each[at] for each in said[form][kind]) for form in FORMS]

for kind, name in ("relay", "bytes a second"), ("busy", "turns a second"):
    a, b = best(kind, 0), median(kind, 0)
    print("%s: %.0f %s with turns, %.0f plain: best %.2f, median %.2f" % (kind, a[0], name, a[1], a[0] / a[1], b[0] / b[1]))
a, b = median("relay", 1), median("relay", 2)
print("relay: %.1f bytes of the journal for a byte with turns, %.1f plain: %.2f; %.2f entries, and %.2f" % (a[0], a[1], a[0] / a[1], b[0], b[1]))
a = median("ring", 1)
b = median("busy", 1)
print("entries a turn, those of the host among them: ring %.2f with turns, %.2f plain; busy %.2f and %.2f" % (a[0], a[1], b[0], b[1]))
PY
