#!/usr/bin/env bash
# sections.sh [PROGRAM]: what a section takes of the built program, or of another, in microseconds, beside 10 and 1,500 functions: the quickest
# of three runs of a thread that waits for 2,000 sections in turn, less that of one that waits for none.
set -eu
top=$(cd "$(dirname "${BASH_SOURCE[0]}")/.." && pwd)
if [ $# -gt 0 ]; then
  program=$1
else
  "$top/cpc" check "$top/crates/examples/data/seven.c" >/dev/null
  program=$top/crates/cpc/out/cpc
fi
room=$(mktemp -d)
trap 'rm -rf "$room"' EXIT

# text SECTIONS FUNCTIONS
text() {
  local at
  for ((at = 0; at < $2; at++)); do printf 'int f%s(int a) { int b; b = a + 1; if (b > 3) return b; while (a < 9) a = a + b; return a * 2; }\n' "$at"; done
  printf 'detached int one(int *p) { return 1; }\n'
  printf 'cps int main(void) { int i; int r; r = 0; for (i = 0; i < %s; i++) r = cpc_detached one(0); cpc_print(r); return 0; }\n' "$1"
}

# each poll tells that the section is back that the one before it submitted
for ((at = 0; at < 2000; at++)); do printf 'poll %s d%s\n' "$((at + 1))" "$at"; done >"$room/polls"

# quickest FILE HISTORY
quickest() {
  local best="" from took
  for _ in 1 2 3; do
    from=$(date +%s%N)
    "$program" run "$1" --history "$2" >/dev/null || exit
    took=$(($(date +%s%N) - from))
    if [ -z "$best" ] || [ "$took" -lt "$best" ]; then best=$took; fi
  done
  echo "$best"
}

for functions in 10 1500; do
  text 0 "$functions" >"$room/none.c"
  text 2000 "$functions" >"$room/all.c"
  none=$(quickest "$room/none.c" /dev/null)
  all=$(quickest "$room/all.c" "$room/polls")
  awk -v f="$functions" -v a="$all" -v n="$none" 'BEGIN { printf "a section beside %4d functions: %8.1f microseconds\n", f, (a - n) / 2000 / 1000 }'
done
