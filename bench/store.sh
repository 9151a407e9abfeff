#!/usr/bin/env bash
# Time for each act on a store, and memory for each cell, with 10, 10^4 and 10^6 live blocks of 16 cells.
# Prints nanoseconds of an act: the quickest of three runs with the acts less the quickest of three without them, over
# their number; and bytes of a cell: the memory of the process less that with 10 blocks.
set -eu
top=$(cd "$(dirname "${BASH_SOURCE[0]}")/.." && pwd)
(cd "$top/crates/bench_store" && rt run -- 10 churn 1 >/dev/null 2>&1)
program=$top/crates/bench_store/out/bench_store
acts=${1:-4000000}

quickest() {
  local best="" from took
  for _ in 1 2 3; do
    from=$(date +%s%N)
    "$program" "$@" >/dev/null
    took=$(($(date +%s%N) - from))
    if [ -z "$best" ] || [ "$took" -lt "$best" ]; then best=$took; fi
  done
  echo "$best"
}

kilobytes() {
  { /usr/bin/time -f %M "$program" "$1" load 0 >/dev/null; } 2>&1
}

empty=$(kilobytes 10)
printf '%10s %8s %8s %8s %12s\n' live churn save load bytes/cell
for live in 10 10000 1000000; do
  base=$(quickest "$live" load 0)
  row=()
  for act in churn save load; do
    row+=($((($(quickest "$live" "$act" "$acts") - base) / acts)))
  done
  cell=$(awk -v k="$(($(kilobytes "$live") - empty))" -v l="$live" 'BEGIN { if (l > 10) printf "%.1f", k * 1024 / (l * 16); else printf "-" }')
  printf '%10s %8s %8s %8s %12s\n' "$live" "${row[@]}" "$cell"
done
