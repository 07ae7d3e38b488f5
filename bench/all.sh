#!/bin/bash
# Runs what compares the program with its anchors, and makes one table of it in bench/README.md: what is measured, the anchor that it is divided by, the
# ratio, date and machine. Each ratio is ours over the anchor: of times and instructions less is better, of what is done in a second more;
# in some 30 minutes on a quiet machine once all is built, outside the gate. What fails or takes too long is a row without a ratio.
# usage: bench/all.sh TPNET [ROUNDS]      3 rounds by default, in /dev/shm; where it says so on /tmp, which should be on a disk
#        ONLY="steps link run.disk" bench/all.sh ..      these alone; the other rows stay as they are
# BUILT=FOLDER names where what is built, and what each said, is kept (/tmp/bench-all where it isn't named)
top=$(cd "$(dirname "$0")/.." && pwd)
tpnet=$(realpath "$1") || exit 2
rounds=${2:-3}
kept=$(realpath -m "${BUILT:-/tmp/bench-all}")
mkdir -p "$kept/said"

# one of the scripts: its name, or its name, a `.` and what is measured by it; its seconds, its words
one() {
    local name=$1 script=${1%%.*} seconds=$2
    shift 2
    case " ${ONLY:-$name} " in *" $name "*) ;; *) return ;; esac
    echo "$name .." >&2
    BUILT="$kept/$script" timeout "$seconds" "$top/bench/$script.sh" "$@" > "$kept/said/$name" 2> "$kept/said/$name.err" || echo "    $name stopped: status $?" >&2
}

# what is built first isn't timed; steps and book build what they count
for name in run open checkpoint journal; do one "$name" 3600 "$tpnet" 0; done
one steps 1200 0
one book 1200 0
one link 240 "$tpnet"
one run 300 "$tpnet" "$rounds"
MEASURES=entries one run.disk 300 "$tpnet" 4 /tmp
one journal 300 "$tpnet" 5 /dev/shm
one journal.disk 300 "$tpnet" 16 /tmp
one open 180 "$tpnet" "$rounds"
one forms 180 "$tpnet" 64 "$rounds"
one stream 180 "$tpnet" 4
one waits 180 "$tpnet" "$rounds"
one checkpoint 300 "$tpnet" "$rounds"

python3 - "$top/bench/README.md" "$kept/said" "${ONLY:-all}" <<'PY'
import datetime, os, re, sys
page, folder, only = sys.argv[1:4]
BEGIN, END = "<!-- bench/all.sh writes this table -->\n", "<!-- its end -->\n"

# the script, what is measured, the anchor that it is divided by, what is wanted, and where the ratio stands in what it said; then whether the script says
# the anchor's over ours, which is turned over here
ROWS = [
    ("steps", "instructions a step in `compute`", "over the plain interpreter at its best", "at most 1.15", r"compute +instructions.*best ([\d.]+)"),
    ("steps", "instructions a step in `talk`", "over the plain interpreter at its best", "at most 1.15", r"talk +instructions.*best ([\d.]+)"),
    ("book", "instructions of the copy of the tail at 10^6 entries", "over those at 10^4", "at most 1.2", r"copy of the tail .*ratio ([\d.]+)"),
    ("book", "instructions of the trim at 10^6 entries", "over those at 10^4", "at most 1.2", r"trim .*ratio ([\d.]+)"),
    ("link", "instructions of a link turn", "over a plain network without locks or device", "at most 2.5", r"a link turn.*ratio ([\d.]+)"),
    ("run", "steps a second, four workers", "over one worker", "at least 3.6", r"workers .*ratio ([\d.]+ best, [\d.]+ median)"),
    ("run", "steps a second of `run`", "over the interpreter alone, over such memory", "", r"\(cow memory\); ratio ([\d.]+ best, [\d.]+ median)"),
    ("run", "steps a second of `run`", "over the plain interpreter at its best", "", r"\(plain at its best\); ratio ([\d.]+ best, [\d.]+ median)"),
    ("run", "durable entries a second of `run`, in memory", "over equal groups written alone", "at least 0.5", r"entries  run .*ratio ([\d.]+ best, [\d.]+ median)"),
    ("run.disk", "durable entries a second of `run`, on a disk", "over equal groups written alone", "at least 0.95", r"entries  run .*ratio ([\d.]+ best, [\d.]+ median)"),
    ("journal", "durable entries a second of the store, groups of 64, in memory", "over equal groups written alone", "at least 0.5", r"groups of 64: .*ratio ([\d.]+ best, [\d.]+ median)"),
    ("journal.disk", "durable entries a second of the store, groups of 64, on a disk", "over equal groups written alone", "at least 0.95", r"groups of 64: .*ratio ([\d.]+ best, [\d.]+ median)"),
    ("open", "seconds to open, 64 steps an entry, four threads", "over those by one thread", "at most 0.45", r"device-64, best.*one thread over four ([\d.]+)", True),
    ("open", "seconds to open, 16 steps an entry, four threads", "over those by one thread", "at most 0.56", r"device-16, best.*one thread over four ([\d.]+)", True),
    ("forms", "bytes a second through three nodes", "over that in a plain area", "", r"relay: .*best ([\d.]+, median [\d.]+)"),
    ("stream", "bytes a second from pipe to pipe, two nodes", "over equal groups written alone", "at least 0.5", r"stream .*ratio ([\d.]+)"),
    ("waits", "microseconds of one byte in and out of an idle network, on a disk", "over a group written alone", "at most 1.3", r"byte .*ratio ([\d.]+ best, [\d.]+ median)"),
    ("waits", "that of a raw program whose first thread of two reads", "over that by one", "", r"hop .*ratio ([\d.]+ best, [\d.]+ median)"),
    ("waits", "entries a second of a stream of four nodes that compute, four workers", "over one worker", "at least 3", r"streams .*ratio ([\d.]+ best, [\d.]+ median)"),
    ("waits", "entries a second of four pairs that hand a byte back and forth, four workers", "over one worker", "at least 2", r"hands .*ratio ([\d.]+ best, [\d.]+ median)"),
    ("waits", "entries a second of such pairs that compute for 1,000 steps a byte, four workers", "over one worker", "at least 2", r"works .*ratio ([\d.]+ best, [\d.]+ median)"),
    ("waits", "seconds of a stream of four nodes that compute, on a disk", "over the longer of turns and groups", "at most 1.1", r"disk .*ratio ([\d.]+ best, [\d.]+ median)"),
    ("waits", "seconds of four threads that loop, while the first also writes those groups, on a disk", "over those in memory", "", r"floor .*ratio ([\d.]+ best, [\d.]+ median)"),
    ("checkpoint", "entries a second with checkpoints", "over those without", "at least 0.8", r"entries  with .*ratio of the medians ([\d.]+)"),
    ("checkpoint", "seconds of a checkpoint", "over those of a raw copy", "at most 1.0", r"copy .*ratio of the medians ([\d.]+)", True),
    ("checkpoint", "the 99th percentile of turns of 1,024 steps beside a snapshot", "over the median turn without one", "at most 1.3", r"of 1024 steps.*the 99th percentile ([\d.]+)"),
]

def machine():
    said = open("/proc/cpuinfo").read()
    model = re.search(r"model name\s*: (.*)", said)
    return "%d x %s, load %s" % (os.cpu_count(), model.group(1) if model else "unknown", "%.1f" % os.getloadavg()[1])

text = open(page).read()
if BEGIN not in text:
    sys.exit("no table in " + page)
before, rest = text.split(BEGIN)
table, after = rest.split(END)
old = {tuple(cell.strip() for cell in line.split("|")[1:3]): line for line in table.splitlines() if line.startswith("| ")}
today = "%s, %s" % (datetime.datetime.now(datetime.timezone.utc).strftime("%d %B %Y"), machine())
lines = ["| Measured | Anchor | Wanted | Ratio | Date and machine |", "|---|---|---|---|---|"]
for script, goal, anchor, wanted, pattern, *is_turned in ROWS:
    if only != "all" and script not in only.split():
        lines.append(old.get((goal, anchor), "| %s | %s | %s | | |" % (goal, anchor, wanted)))
        continue
    path = os.path.join(folder, script)
    found = re.search(pattern, open(path).read()) if os.path.exists(path) else None
    ratio = found.group(1) if found else "it stopped"
    if is_turned:
        ratio = re.sub(r"\d+\.\d+", lambda number: "%.2f" % (1 / float(number.group())), ratio)
    lines.append("| %s | %s | %s | %s | %s |" % (goal, anchor, wanted, ratio, today))
open(page, "w").write(before + BEGIN + "\n".join(lines) + "\n" + END + after)
print("\n".join(lines))
PY
