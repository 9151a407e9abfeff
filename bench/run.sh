#!/usr/bin/env bash
# Steps per second of the built program: loops of 10^5, 10^6 and 10^7 steps, loops over bodies of 10 and 2,000 statements, calls
# nested 100 and 10^4 deep, and loops beside 10 and 10^5 live blocks. Each row is the quickest of three runs, less the time of an empty
# program; the last column is its rate over that of the first row of its group, which says what a step pays for the length of a
# run, of its function, or for the store.
set -eu
top=$(cd "$(dirname "${BASH_SOURCE[0]}")/.." && pwd)
"$top/cpc" check "$top/crates/examples/data/seven.c" >/dev/null
program=$top/crates/cpc/out/cpc
# shellcheck source=bench/steps.sh
. "$top/bench/steps.sh"
room=$(mktemp -d)
trap 'rm -rf "$room"' EXIT

quickest() {
  local best="" from took
  for _ in 1 2 3; do
    from=$(date +%s%N)
    "$program" run "$1" --steps 1000000000 --cells 50000000 >/dev/null
    took=$(($(date +%s%N) - from))
    if [ -z "$best" ] || [ "$took" -lt "$best" ]; then best=$took; fi
  done
  echo "$best"
}

printf 'int main(void){ return 0; }' >"$room/empty.c"
empty=$(quickest "$room/empty.c")
first=

# row NAME STEPS FILE: the steps per second of a file's run, of which so many count
row() {
  local took=$(($(quickest "$3") - empty)) rate
  [ "$took" -gt 0 ] || took=1
  rate=$(awk -v n="$2" -v t="$took" 'BEGIN { printf "%.0f", n * 1e9 / t }')
  [ -n "$first" ] || first=$rate
  printf '%-24s %10s steps %12s steps/s %6s\n' "$1" "$2" "$rate" "$(awk -v a="$rate" -v b="$first" 'BEGIN { printf "%.2f", a / b }')"
}

for turns in 33333 333333 3333333; do
  loop_text "$turns" >"$room/loop.c"
  row "loop" $((3 * turns)) "$room/loop.c"
done

first=
for long in 10 2000; do
  turns=$((1000000 / (long + 2)))
  body_text "$turns" "$long" >"$room/body.c"
  row "loop, a body of $long" $((turns * (long + 2))) "$room/body.c"
done

first=
for deep in 100 10000; do
  turns=$((1000000 / (4 * deep)))
  calls_text "$turns" "$deep" >"$room/calls.c"
  row "calls, $deep deep" $((turns * (4 * deep + 6))) "$room/calls.c"
done

first=
for live in 10 100000; do
  blocks_text "$live" 333333 >"$room/blocks.c"
  row "loop, $live blocks" $((999999 + 6 * live)) "$room/blocks.c"
done
