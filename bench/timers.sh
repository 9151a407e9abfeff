#!/usr/bin/env bash
# Time of a run of 100,000, 200,000 and 400,000 threads that sleep, the longest first, and are all woken by one poll: so it shows whether the
# next one is looked for among all. The quickest of three, by the built program. Ends with status 1 where a run writes anything but 1 and 2.
set -eu
top=$(cd "$(dirname "${BASH_SOURCE[0]}")/.." && pwd)
if [ -z "${CPC:-}" ]; then "$top/cpc" check "$top/crates/examples/data/seven.c" >/dev/null; fi
# CPC names another built program
program=${CPC:-$top/crates/cpc/out/cpc}
room=$(mktemp -d)
trap 'rm -rf "$room"' EXIT

echo 'poll 9007199254740992' >"$room/h"
printf '1\n2\n' >"$room/due"
for many in 100000 200000 400000; do
  cat >"$room/timers.c" <<TEXT
cps void z(long n){ cpc_sleep(n); if (n == 1) cpc_print(1); if (n == $many) cpc_print(2); }
int main(void){ long i; for (i = $many; i > 0; i--) cpc_spawn z(i); return 0; }
TEXT
  best=""
  for _ in 1 2 3; do
    from=$(date +%s%N)
    "$program" run "$room/timers.c" --history "$room/h" --cells 10000000 --steps 1000000000 >"$room/out"
    took=$((($(date +%s%N) - from) / 1000000))
    cmp -s "$room/out" "$room/due" || { echo "$many threads: not what is due" >&2; exit 1; }
    if [ -z "$best" ] || [ "$took" -lt "$best" ]; then best=$took; fi
  done
  printf '%s threads that sleep: %s ms\n' "$many" "$best"
done
