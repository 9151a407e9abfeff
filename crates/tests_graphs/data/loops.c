/* Loops of every kind. */

cps void while_loop(int n) {
    while (n > 0) n--;
}

cps void do_loop(int n) {
    do n--; while (n > 0);
}

/* `continue` goes to the test of a `do`. */
cps void do_continue(int n) {
    do {
        if (n == 2) continue;
        n = 1;
    } while (n > 1);
}

/* A `for` with all its parts: `continue` goes to its step. */
cps void for_loop(int n) {
    int i;
    for (i = 0; i < n; i++) {
        if (i == 3) continue;
        if (i == 5) break;
        cpc_print(i);
    }
}

/* The step is behind the wait, and so belongs to the piece that begins there. */
cps void counted(int n) {
    for (int i = 0; i < n; i++) cpc_yield();
}

/* Nothing reaches the end. */
cps void endless(void) {
    for (;;) cpc_yield();
}

int main(void) {
    cpc_spawn endless();
    return 0;
}
