/* Jumps: `goto` and `return`. */

/* Into a loop and out of it. */
cps void in_and_out(int n) {
    goto in;
    while (n > 0) {
    in:
        n--;
        if (n == 2) goto out;
    }
out:
    ;
}

/* What nothing reaches has no owner. */
cps void after_return(int n) {
    return;
    n = 1;
}

/* Two ways lead to the label, though control never comes on one of them. */
cps void dead_way(int n) {
    goto done;
    n = 1;
done:
    n = 2;
}

/* A return in the middle. */
cps int early(int n) {
    if (n > 3) return n;
    cpc_yield();
    return 0;
}

/* A loop that is none of the three. */
cps void again_and_again(void) {
again:
    cpc_print(1);
    cpc_yield();
    goto again;
}

/* What is needed behind a wait is needed all around. */
cps void around(int a, int b) {
again:
    cpc_yield();
    if (a > 0) goto again;
    b = 0;
    goto again;
}

int main(void) {
    cpc_spawn again_and_again();
    return 0;
}
