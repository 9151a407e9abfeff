#!/usr/bin/env bash
# Time for functions of threads of hostile shapes, each at a limit of the language: `check`, which only reads, beside `translate`, which makes
# graphs, leaders, owners and closures of them and prints an event program. Each is the quickest of three runs. With the word --texts and a
# folder it only puts the texts there. Ends with status 1 where a text is not accepted or not translated.
set -eu
top=$(cd "$(dirname "${BASH_SOURCE[0]}")/.." && pwd)
room=$(mktemp -d)
trap 'rm -rf "$room"' EXIT

# 200,000 statements in one function without variables: one less for its body
awk 'BEGIN {
  printf "cps void f(void){"
  for (i = 1; i < 200000; i++) printf ";"
  print "}int main(void){return 0;}"
}' >"$room/statements.c"

# 250 variables in 1,990 statements, the most that breadth leaves: the body, the declarations, and turns of waits and assignments
awk 'BEGIN {
  printf "cps void f(void){"
  for (i = 0; i < 250; i++) printf "int v%d;", i
  for (i = 0; i < 1739; i++) if (i % 3 == 2) printf "cpc_yield();"; else printf "v%d=v%d;", i % 250, (i * 7 + 1) % 250
  print "}int main(void){return 0;}"
}' >"$room/breadth.c"

# a goto into every second statement, from far away, and past it, so that each label is a leader
awk 'BEGIN {
  printf "cps void f(void){"
  count = 10000
  for (i = 0; i < count; i++) printf "a%d:;if(1)goto a%d;", i, (i * 7919 + 1) % count
  print "}int main(void){return 0;}"
}' >"$room/gotos.c"

# jumps from wait to wait, so that all that is between two waits is one goto
awk 'BEGIN {
  printf "cps void f(void){"
  count = 8000
  for (i = 0; i < count; i++) printf "a%d:cpc_yield();goto a%d;", i, (i * 7919 + 1) % count
  print "}int main(void){return 0;}"
}' >"$room/waits.c"

# loops nested 250 deep around a wait, in a hundred functions
awk 'BEGIN {
  for (f = 0; f < 100; f++) {
    printf "cps void f%d(int n){", f
    for (i = 0; i < 250; i++) printf "while(n)"
    print "cpc_yield();}"
  }
  print "int main(void){return 0;}"
}' >"$room/loops.c"

# a cycle through 1,245 waits, all of which need each of 249 variables, since each is used somewhere on the way round
awk 'BEGIN {
  printf "cps void f(void){"
  for (i = 0; i < 249; i++) printf "int v%d;", i
  printf "again:;"
  for (i = 0; i < 249; i++) {
    for (k = 0; k < 5; k++) printf "cpc_yield();"
    printf "v%d=v%d+1;", i, i
  }
  print "goto again;}int main(void){return 0;}"
}' >"$room/cycle.c"

if [ "${1:-}" = --texts ]; then
  cp "$room"/*.c "$2"
  exit 0
fi

program=$top/crates/cpc/out/cpc
"$top/cpc" check "$top/crates/examples/data/seven.c" >/dev/null
wrong=0

# the milliseconds of the quickest of three runs with this word
quickest() {
  local best="" from took
  for _ in 1 2 3; do
    from=$(date +%s%N)
    "$program" "$1" "$2" >/dev/null 2>"$room/said" || return 1
    took=$((($(date +%s%N) - from) / 1000000))
    if [ -z "$best" ] || [ "$took" -lt "$best" ]; then best=$took; fi
  done
  echo "$best"
}

printf '%-12s %8s %10s %12s\n' shape bytes 'check ms' 'translate ms'
for name in statements breadth gotos waits loops cycle; do
  text=$room/$name.c
  row=()
  for word in check translate; do
    if took=$(quickest "$word" "$text"); then row+=("$took"); else
      row+=("$(head -c 60 "$room/said")")
      wrong=1
    fi
  done
  printf '%-12s %8s %10s %12s\n' "$name" "$(wc -c <"$text")" "${row[@]}"
done
exit "$wrong"
