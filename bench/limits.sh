#!/usr/bin/env bash
# limits.sh: limits that take too long, or too much memory, for the gate, each from both sides: files of the greatest length that the program
# takes and of one byte more (a text of events, and a history of `run` and of `exec`, 16,777,216 bytes each), and as many steps, steps of a
# section and cells as there are where no option is given, and as many cells as there can be, and one more. Prints the time of each call, and
# ends with status 1 where one does not end as is due; a call is cut off after two minutes of a processor. It takes 2 GB of memory.
set -u
top=$(cd "$(dirname "${BASH_SOURCE[0]}")/.." && pwd)
program=${CPC:-$top/crates/cpc/out/cpc}
[ -x "$program" ] || { echo 'limits.sh: build the program first (./cpc)' >&2; exit 126; }
room=$(mktemp -d)
trap 'rm -rf "$room"' EXIT
cd "$room" || exit 126
limit=16777216
wrong=0

# padded FILE BYTES: blanks behind a file up to this length
padded() { printf '%*s' $(($2 - $(wc -c <"$1"))) '' >>"$1"; }

# lined FILE BYTES: lines that say nothing, of 64 bytes each, in front of a file, and the rest in its first line, up to this length
lined() {
  local last=$1.last
  mv "$1" "$last"
  head -c $(($2 - $(wc -c <"$last") - 1)) < <(yes "#$(printf '%062d' 0)") >"$1"
  echo >>"$1"
  cat "$last" >>"$1"
}

# due STATUS OUT ERR WORDS..: makes a call, and compares how it ends
due() {
  local status=$1 out=$2 err=$3 from told took
  shift 3
  from=$(date +%s%N)
  (
    ulimit -t 120
    exec "$program" "$@" >out 2>err </dev/null
  )
  told=$?
  took=$((($(date +%s%N) - from) / 1000000))
  if [ "$told" -ne "$status" ] || [ "$(cat out)" != "$out" ] || [ "$(cat err)" != "$err" ]; then
    wrong=1
    echo "$*: it ended with $told, and said $(head -c 200 out) $(head -c 200 err)"
  fi
  printf '%-32s %6d ms\n' "$*" "$took"
}

say='void say(void *p, int r){ cpc_print(r + 1); } int main(void){ rt_sleep(1, say, 0); return 0; }'
thread='cps void f(void){ cpc_sleep(1); cpc_print(1); } int main(void){ cpc_spawn f(); return 0; }'
printf %s "$say" >longest.c
padded longest.c "$limit"
printf %s "$say" >longer.c
padded longer.c $((limit + 1))
printf %s "$say" >say.c
printf %s "$thread" >thread.c
printf 'poll 1\n' >polls
printf 'poll 1\n' >longest
lined longest "$limit"
printf 'poll 1\n' >longer
lined longer $((limit + 1))
[ "$(wc -c <longest.c)" -eq "$limit" ] && [ "$(wc -c <longest)" -eq "$limit" ] && [ "$(wc -c <longer)" -eq $((limit + 1)) ] || exit 126

due 0 1 '' exec longest.c --history polls
due 13 '' "too long: longer.c limit $limit" exec longer.c --history polls
due 0 1 '' exec say.c --history longest
due 13 '' "too long: longer limit $limit" exec say.c --history longer
due 0 1 '' run thread.c --history longest
due 13 '' "too long: longer limit $limit" run thread.c --history longer

# A loop of N turns takes 2 * N + 1 steps; two stand before it in its function, and one behind it. A run has three more: the loop turns to
# the call of `main`, makes it, and ends.
steps='int main(void){ int i; i = 0; while (i < 49999996) i++; %s return 0; }'
# shellcheck disable=SC2059  # the format is the text
printf "$steps" ';' >steps.c
# shellcheck disable=SC2059
printf "$steps" ';;' >more-steps.c
section='detached int g(int *p, int n){ int i; i = 0; while (i < n) i++; %s return i; }
cps void f(int n){ int r; r = cpc_detached g(0, n); cpc_print(r); } int main(void){ cpc_spawn f(4999998); return 0; }'
# shellcheck disable=SC2059
printf "$section" '' >section.c
# shellcheck disable=SC2059
printf "$section" ';' >longer-section.c
printf 'poll 0 d0\n' >back

due 0 '' '' run steps.c
due 6 '' 'stopped after 100000000 steps' run more-steps.c
due 0 4999998 '' run section.c --history back
due 1 '' 'fault section steps in g' run longer-section.c --history back

# the pointer is a cell too
cells='int main(void){ int *p; p = malloc(%s); p[%s] = 7; cpc_print(7); return 0; }'
# shellcheck disable=SC2059
printf "$cells" 3999999 3999998 >cells.c
# shellcheck disable=SC2059
printf "$cells" 4000000 3999999 >more-cells.c
# shellcheck disable=SC2059
printf "$cells" 49999999 49999998 >most-cells.c
# shellcheck disable=SC2059
printf "$cells" 50000000 49999999 >too-many-cells.c

due 0 7 '' run cells.c
due 7 '' 'full: cap 4000000, asked 4000001' run more-cells.c
due 0 7 '' run most-cells.c --cells 50000000
due 7 '' 'full: cap 50000000, asked 50000001' run too-many-cells.c --cells 50000000
exit "$wrong"
