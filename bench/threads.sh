#!/usr/bin/env bash
# What threads cost by the built program: event steps for each step of the threads, on five programs; cells of a thread that waits; and the
# time of `translate` for texts of 64 and 256 KiB.
# A program goes N and 2 N times round a loop: the event steps of N turns are the difference of the two runs, and the steps that the
# threads take in a turn are counted by hand below. The steps of a run are the least bound with which it ends, and its most cells the
# least cap, both found by halving.
set -eu
top=$(cd "$(dirname "${BASH_SOURCE[0]}")/.." && pwd)
if [ -z "${CPC:-}" ]; then "$top/cpc" check "$top/crates/examples/data/seven.c" >/dev/null; fi
# CPC names another built program
program=${CPC:-$top/crates/cpc/out/cpc}
room=$(mktemp -d)
trap 'rm -rf "$room"' EXIT

# least OPTION MOST FILE: the least bound or cap with which a file's run ends by itself
least() {
  local low=0 high=$2 half
  while [ $((high - low)) -gt 1 ]; do
    half=$(((low + high) / 2))
    if "$program" run "$3" "$1" "$half" >/dev/null 2>&1; then high=$half; else low=$half; fi
  done
  echo "$high"
}

# ratio NAME STEPS TEXT: TEXT is a program with TURNS in it, whose threads take so many steps in a turn
ratio() {
  local one two turns=100
  printf '%s' "${3//TURNS/$turns}" >"$room/one.c"
  printf '%s' "${3//TURNS/$((2 * turns))}" >"$room/two.c"
  one=$(least --steps 1000000 "$room/one.c")
  two=$(least --steps 1000000 "$room/two.c")
  awk -v name="$1" -v own="$2" -v event=$((two - one)) -v turns="$turns" \
    'BEGIN { printf "%-34s %5.1f of %3d: %5.2f\n", name, event / turns, own, event / turns / own }'
}

echo 'event steps in a turn, of so many steps of the threads: for each'
# the test, the print, the yield, its arrival and the step of the loop
ratio 'a loop that yields' 5 \
  'cps void f(int n){ int i; for (i = 0; i < n; i++) { cpc_print(i); cpc_yield(); } } int main(void){ cpc_spawn f(TURNS); return 0; }'
# the test, the call, the callee's return, the arrival, the sum and the step of the loop
ratio 'a call with a value' 6 \
  'cps int g(int n){ return n + 1; } cps void f(int n){ int i; int r; int s; s = 0; for (i = 0; i < n; i++) { r = g(i); s += r; } cpc_print(s); } int main(void){ cpc_spawn f(TURNS); return 0; }'
# a level has its declaration, its test, the call of the next one, the arrival of its value and the return
ratio 'recursion' 5 \
  'cps int d(int n){ int r; if (n == 0) return 0; r = d(n - 1); return r + 1; } cps void f(void){ int r; r = d(TURNS); cpc_print(r); } int main(void){ cpc_spawn f(); return 0; }'
# the test, the assignment, the yield, its arrival and the step of the loop, beside an array and twelve variables that stay
ratio 'an array and twelve variables' 5 \
  'cps void f(int n){ int a[8]; int b; int c; int d; int e; int g; int h; int j; int k; int l; int m; int o; int i; b = 0; c = 0; d = 0; e = 0; g = 0; h = 0; j = 0; k = 0; l = 0; m = 0; o = 0; for (i = 0; i < n; i++) { a[i % 8] = i; cpc_yield(); } cpc_print(a[0] + b + c + d + e + g + h + j + k + l + m + o); } int main(void){ cpc_spawn f(TURNS); return 0; }'
# the test, the spawn and the step of the loop, and of the thread its sum and its end
ratio 'a thread for each turn' 5 \
  'int s; cps void w(int n){ s += n; } int main(void){ int i; for (i = 0; i < TURNS; i++) cpc_spawn w(i); return 0; }'

# cells NAME VARIABLES: the cells of a thread with so many variables in use behind its wait
cells() {
  local at many declared="" sum="0" one two
  for at in $(seq 1 "$1"); do declared+=" int v$at; v$at = n;"; sum+=" + v$at"; done
  for many in 100 200; do
    printf 'cps void f(int n){%s cpc_yield(); cpc_print(%s); } int main(void){ int i; for (i = 0; i < %s; i++) cpc_spawn f(i); return 0; }' \
      "$declared" "$sum" "$many" >"$room/$many.c"
  done
  one=$(least --cells 1000000 "$room/100.c")
  two=$(least --cells 1000000 "$room/200.c")
  awk -v used="$1" -v more=$((two - one)) 'BEGIN { printf "%3d variables in use: %6.2f cells\n", used, more / 100 }'
}

echo 'cells of a thread that waits'
for used in 1 5 20; do cells "$used"; done

# translated BYTES: the quickest of three translations of a text of about so many bytes of functions that call, loop and yield
translated() {
  local at=0 best="" from took
  while :; do
    printf 'cps int g%s(int n){ int i; int s; s = 0; for (i = 0; i < n; i++) { s += i; cpc_yield(); } return s; }\n' "$at"
    printf 'cps void f%s(int n){ int r; if (n > 0) r = g%s(n); else r = n; cpc_print(r); }\n' "$at" "$at"
    at=$((at + 1))
    [ $((at * 180)) -lt "$1" ] || break
  done >"$room/text.c"
  printf 'int main(void){ cpc_spawn f0(3); return 0; }\n' >>"$room/text.c"
  for _ in 1 2 3; do
    from=$(date +%s%N)
    "$program" translate "$room/text.c" >"$room/printed"
    took=$((($(date +%s%N) - from) / 1000000))
    if [ -z "$best" ] || [ "$took" -lt "$best" ]; then best=$took; fi
  done
  printf 'translate of %7s bytes: %6s ms, %9s bytes printed\n' "$(wc -c <"$room/text.c")" "$best" "$(wc -c <"$room/printed")"
}

translated 63000
translated 252000
