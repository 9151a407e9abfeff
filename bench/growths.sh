#!/usr/bin/env bash
# growths.sh [EACH]: refuses each growth of memory of a run in turn, or each EACH-th, and says how the runs ended. A growth is a call of malloc
# or realloc, which are all that the built program asks for memory; a small library that is put in front of the C library's counts them, and
# answers that there is none at the one whose number it is told. Afterwards the status has to be 11, with `no memory` on standard error, or the
# answer unchanged; and what is on standard output a front of the answer. Ends with status 1 where something else is seen. Where workers run
# sections the order of the growths is not that of the run before, so that a number may stand for another growth there, or for none.
set -u
top=$(cd "$(dirname "${BASH_SOURCE[0]}")/.." && pwd)
program=${CPC:-$top/crates/cpc/out/cpc}
each=${1:-1}
[ -x "$program" ] || { echo 'growths.sh: build the program first (./cpc)' >&2; exit 126; }
room=$(mktemp -d)
trap 'rm -rf "$room"' EXIT

cat >"$room/growths.c" <<'C'
#include <errno.h>
#include <stddef.h>
#include <stdio.h>
#include <stdlib.h>
#include <sys/syscall.h>
#include <unistd.h>

extern void *__libc_malloc(size_t);
extern void *__libc_realloc(void *, size_t);
static _Atomic unsigned long made;
static unsigned long refused;

__attribute__((constructor)) static void begin(void) {
    const char *number = getenv("REFUSED");
    refused = number ? strtoul(number, NULL, 10) : 0;
    made = 0;
}

static int refuses(void) {
    const unsigned long number = ++made;
    if (number == refused) errno = ENOMEM;
    return number == refused;
}

void *malloc(size_t bytes) { return refuses() ? NULL : __libc_malloc(bytes); }
void *realloc(void *old, size_t bytes) { return refuses() ? NULL : __libc_realloc(old, bytes); }

static void tell(void) {
    const unsigned long all = made;
    const char *name = getenv("GROWTHS");
    FILE *file = name ? fopen(name, "w") : NULL;
    if (file) {
        fprintf(file, "%lu\n", all);
        fclose(file);
    }
}

// A program with threads ends by this call, which runs no destructor.
void _exit(int status) {
    tell();
    syscall(SYS_exit_group, status);
    __builtin_unreachable();
}

__attribute__((destructor)) static void end(void) { tell(); }
C
cc -O2 -shared -fPIC -o "$room/growths.so" "$room/growths.c" || exit 126

# a local across a call
cat >"$room/local.c" <<'C'
cps int g(int n){ int c; c = n * 2; cpc_yield(); c = c + 1; return c; }
cps void f(void){ int c; int r; int i; c = 1;
  for(i=0;i<3;i++){ c = c + 10; r = g(c); c = c + r; cpc_print(c); } }
int main(void){ cpc_spawn f(); return 0; }
C
printf '%s\n' 34 133 430 >"$room/local.due"

# a relay with a limit of time
cat >"$room/relay.c" <<'C'
struct conn { int fd; int got; int late; int refs; char buf[64]; cpc_condvar c; };
int served;
void drop(struct conn *k) {
  k->refs--;
  if (k->refs == 0) { cpc_cond_free(k->c); free(k); }
}
cps void reader(struct conn *k) {
  int i;
  for (i = 0; i < 2; i++) { cpc_io_wait(k->fd, 0); k->buf[i] = 65 + i; k->got++; }
  cpc_signal(k->c);
  drop(k);
}
cps void timer(struct conn *k, long limit) {
  cpc_sleep(limit);
  if (k->got < 2) k->late = 1;
  cpc_signal(k->c);
  drop(k);
}
cps void serve(int fd) {
  struct conn *k;
  k = malloc(sizeof(struct conn));
  k->fd = fd; k->got = 0; k->late = 0; k->refs = 3;
  k->c = cpc_cond_new();
  cpc_spawn reader(k); cpc_spawn timer(k, 100);
  cpc_wait(k->c);
  cpc_print(fd);
  if (k->late) cpc_puts("late\n"); else cpc_puts("ok\n");
  drop(k);
  served++;
  if (served == 2) cpc_exit(0);
}
cps void accept(void) {
  int n;
  for (n = 1; n < 3; n++) { cpc_io_wait(0, 0); cpc_spawn serve(n); }
}
int main(void) { cpc_spawn accept(); return 0; }
C
printf '%s\n' 'poll 10 r0' 'poll 20 r0' 'poll 30 r1' 'poll 40 r2 r1' 'poll 50' 'poll 120' 'poll 130' 'poll 131' >"$room/polls"
printf '%s\n' 1 ok 2 late >"$room/relay.due"
printf '%s\n' 'io 0 r' 'poll 10 r0' 'io 0 r' 'poll 20 r0' 'wait 0' 'io 1 r' 'sleep 100' 'wait 1' 'poll 30 r1' 'io 2 r' 'sleep 100' 'io 1 r' \
  'poll 40 r2 r1' 'io 2 r' 'poll 50' 'out 310a' 'out 6f6b0a' 'poll 120' 'poll 130' 'poll 131' 'out 320a' 'out 6c6174650a' 'exit 0' >"$room/trace.due"

# sections that come back in the other order
cat >"$room/sections.c" <<'C'
struct p { int a; int b; };
struct p g;
detached int sum(struct p *q, int k){ q->b = q->a * k; return q->a + q->b; }
cps void f(int k){ int r; r = cpc_detached sum(&g, k); cpc_print(r); cpc_print(g.a); cpc_print(g.b); }
cps void h(void){ cpc_yield(); g.a = 50; g.b = 60; cpc_print(99); }
int main(void){ g.a = 2; g.b = 3; cpc_spawn f(10); cpc_spawn f(100); cpc_spawn h(); return 0; }
C
printf '%s\n' 'poll 0' 'poll 1 d1' 'poll 2 d0' >"$room/backs"
printf '%s\n' 99 202 2 200 22 2 20 >"$room/sections.due"

# refuse NUMBER: makes the call with this growth refused, and prints `memory`, `unchanged`, or what is not so
refuse() {
  local status out=$room/$1.out err=$room/$1.err
  # shellcheck disable=SC2086  # no word has a blank
  env LD_PRELOAD="$room/growths.so" REFUSED="$1" "$program" $words >"$out" 2>"$err" </dev/null
  status=$?
  if [ "$status" -eq 11 ] && [ "$(cat "$err")" = 'no memory' ] && cmp -s -n "$(wc -c <"$out")" "$out" "$room/out"; then
    echo memory
  elif [ "$status" -eq 0 ] && cmp -s "$out" "$room/out" && cmp -s "$err" "$room/err"; then
    echo unchanged
  else
    echo "growth $1: status $status, $(wc -c <"$out") bytes on standard output, and $(head -c 80 "$err")"
  fi
  rm -f "$out" "$err"
}
export -f refuse
export room program words

wrong=0
# row NAME DUE WORDS..: refuses the growths of this call in turn, whose output has to be that of the file DUE
row() {
  local name=$1 due=$2 growths
  shift 2
  words=$*
  env LD_PRELOAD="$room/growths.so" GROWTHS="$room/count" "$program" "$@" >"$room/out" 2>"$room/err" </dev/null
  growths=$(cat "$room/count")
  if ! cmp -s "$room/out" "$due"; then
    echo "$name: with all its memory it does not write what is due"
    wrong=1
    return
  fi
  seq 1 "$each" "$growths" | xargs -P "$(nproc)" -I{} bash -c 'refuse {}' >"$room/ends"
  grep '^growth' "$room/ends" && wrong=1
  echo "$name: $growths growths, $(wc -l <"$room/ends") of them refused in turn: $(grep -cx memory "$room/ends") ended with 11, $(grep -cx unchanged "$room/ends") as before"
}

row 'a local across a call' "$room/local.due" run "$room/local.c"
row 'sections, by the loop' "$room/sections.due" run "$room/sections.c" --history "$room/backs" --workers 0
row 'sections, by two workers' "$room/sections.due" run "$room/sections.c" --history "$room/backs" --workers 2
row 'a relay' "$room/relay.due" run "$room/relay.c" --history "$room/polls"
row 'a relay, traced' "$room/trace.due" run "$room/relay.c" --history "$room/polls" --trace
exit "$wrong"
