/* Calls and waits. */

cpc_condvar done;

extern long host(long a);

int twice(int a) {
    return a + a;
}

int one(void) {
    return 1;
}

detached int solve(int *p) {
    return *p;
}

/* No statement at all. */
cps void child(void) {}

cps int given(int n) {
    return n;
}

cps void two_calls(void) {
    child();
    child();
}

/* Waits in the arms of a test. */
cps void either(int n) {
    if (n > 0) cpc_yield(); else cpc_sleep(n);
    cpc_print(1);
}

cps void in_a_loop(int a, int b) {
    while (a > 0) {
        if (b > 0) {
            cpc_yield();
            continue;
        }
        a = 0;
    }
}

/* The call of a native function stays in its piece, and so does its value. */
cps void native_value(int n) {
    n = twice(n);
    cpc_print(n);
}

/* The value of a cps call arrives in the next piece. */
cps void cps_value(void) {
    int x;
    x = given(1);
    cpc_print(x);
}

cps void section(int *p) {
    int x;
    x = cpc_detached solve(p);
    cpc_print(x);
}

cps void spawner(int n) {
    cpc_spawn either(n);
}

cps void waits(int n) {
    while (n > 0) cpc_wait(done);
    cpc_signal(done);
}

/* A function of the host is called in place. */
cps void asks(long n) {
    n = host(n);
}

/* A variable that holds a function is called over a frame. */
cps void by_pointer(void) {
    int (*g)(void);
    g = one;
    g();
}

int main(void) {
    done = cpc_cond_new();
    cpc_spawn two_calls();
    return 0;
}
