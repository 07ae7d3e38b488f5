#!/bin/bash
# 100,000 commands of a pool of frames beside a plain list of them, under the address sanitizer of `rt try`, outside the gate.
# usage: bench/pool.sh
set -e
top=$(cd "$(dirname "$0")/.." && pwd)
work=$(mktemp -d /tmp/bench-pool-XXXX)
trap 'rm -rf "$work"' EXIT

mkdir -p "$work/crates/bench_pool/src"
tar -C "$top" -c --exclude=out crates/tp_model crates/tp_law_machine crates/tp_mem HANDLES | tar -C "$work" -x
grep -E '^tp_(model|law_machine|mem):' "$top/crates.txt" > "$work/crates.txt"
echo "bench_pool: tp_mem" >> "$work/crates.txt"
cp "$top/bench/pool.rattle" "$work/crates/bench_pool/src/main.rt"
cd "$work/crates/bench_pool"
exec rt try --steps 1000 --seconds 100
