# steps.sh: texts whose steps are counted, each to standard output; run.sh and instructions.sh read this file.

# loop_text TURNS: a turn takes its test, the addition and the step of the `for`
loop_text() {
  printf 'int main(void){ int i; int s; s = 0; for (i = 0; i < %s; i++) s = (s + i) %% 1000; cpc_print(s); return 0; }' "$1"
}

# body_text TURNS LONG: a turn takes its test, so many statements of its body and the step of the `for`
body_text() {
  local at
  printf 'int main(void){ int i; int x; x = 0; for (i = 0; i < %s; i++) {' "$1"
  for ((at = 0; at < $2; at++)); do printf ' x = 1;'; done
  printf ' } cpc_print(x); return 0; }'
}

# calls_text TURNS DEEP: a call that goes deeper takes its test, itself, the arrival of its value and the return
calls_text() {
  printf 'int f(int n){ int r; if (n == 0) return 0; r = f(n - 1); return r; } int main(void){ int i; int r; for (i = 0; i < %s; i++) r = f(%s); cpc_print(r); return 0; }' "$1" "$2"
}

# blocks_text LIVE TURNS: a list of so many blocks, and then a loop that reads one of them
blocks_text() {
  printf 'struct node { int a; struct node *next; }; int main(void){ struct node *p; struct node *q; int i; q = 0; for (i = 0; i < %s; i++) { p = malloc(sizeof(struct node)); p->next = q; p->a = i; q = p; } for (i = 0; i < %s; i++) p->a = (p->a + i) %% 1000; cpc_print(p->a); return 0; }' "$1" "$2"
}
