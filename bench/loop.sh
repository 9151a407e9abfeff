#!/usr/bin/env bash
# Time for each wait of the event loop, with 10, 1,000 and 100,000 items that wait.
# Prints nanoseconds for an item that is woken, has its turn and waits again: the quickest of three runs with the acts less
# the quickest of three without them, over the number of the items that were woken.
set -eu
top=$(cd "$(dirname "${BASH_SOURCE[0]}")/.." && pwd)
(cd "$top/crates/bench_loop" && rt run >/dev/null 2>&1)
program=$top/crates/bench_loop/out/bench_loop
acts=${1:-4000000}

quickest() {
  local best= from took
  for _ in 1 2 3; do
    from=$(date +%s%N)
    "$program" "$@" >/dev/null
    took=$(($(date +%s%N) - from))
    if [ -z "$best" ] || [ "$took" -lt "$best" ]; then best=$took; fi
  done
  echo "$best"
}

woken() {
  "$program" "$@" | sed 's/.*; \([0-9]*\) woken.*/\1/'
}

printf '%10s %10s %10s %10s\n' waiters condition timer descriptor
for waiters in 10 1000 100000; do
  row=()
  for kind in condition timer descriptor; do
    base=$(quickest "$waiters" "$kind" 0)
    row+=($((($(quickest "$waiters" "$kind" "$acts") - base) / $(woken "$waiters" "$kind" "$acts"))))
  done
  printf '%10s %10s %10s %10s\n' "$waiters" "${row[@]}"
done
