#!/usr/bin/env bash
# instructions.sh [PROGRAM]: how many instructions the built program, or another, makes for a step: in a loop, in loops over bodies of 10 and of
# 2,000 statements, in calls nested 100 and 3,700 deep, and where blocks are made. Counted by valgrind's callgrind, so that they are the same
# whatever else the machine does; those of a program that does nothing are taken off.
set -eu
top=$(cd "$(dirname "${BASH_SOURCE[0]}")/.." && pwd)
if [ $# -gt 0 ]; then
  program=$1
else
  "$top/cpc" check "$top/crates/examples/data/seven.c" >/dev/null
  program=$top/crates/cpc/out/cpc
fi
command -v valgrind >/dev/null || { echo 'instructions.sh: needs valgrind' >&2; exit 1; }
# shellcheck source=bench/steps.sh
. "$top/bench/steps.sh"
room=$(mktemp -d)
trap 'rm -rf "$room"' EXIT

counted() {
  valgrind --tool=callgrind --callgrind-out-file=/dev/null "$program" run "$1" 2>&1 >/dev/null | awk '/Collected/ { print $4 }'
}

printf 'int main(void){ return 0; }' >"$room/empty.c"
empty=$(counted "$room/empty.c")

# row NAME STEPS FILE
row() {
  awk -v name="$1" -v steps="$2" -v all="$(counted "$3")" -v empty="$empty" 'BEGIN { printf "%-24s %8d steps %8.0f instructions/step\n", name, steps, (all - empty) / steps }'
}

loop_text 5000 >"$room/loop.c"
row loop 15000 "$room/loop.c"

for long in 10 2000; do
  turns=$((15000 / (long + 2)))
  body_text "$turns" "$long" >"$room/body.c"
  row "loop, a body of $long" $((turns * (long + 2))) "$room/body.c"
done

for deep in 100 3700; do
  turns=$((14800 / (4 * deep)))
  calls_text "$turns" "$deep" >"$room/calls.c"
  row "calls, $deep deep" $((turns * (4 * deep + 6))) "$room/calls.c"
done

blocks_text 2400 0 >"$room/blocks.c"
row "blocks that are made" 14400 "$room/blocks.c"
