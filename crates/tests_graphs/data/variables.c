/* Variables: registers, boxes and scopes. */

/* What is only written is kept. */
cps void only_written(void) {
    int a;
    cpc_yield();
    a = 1;
}

/* A box is kept behind the wait for the end alone. */
cps void box_alone(void) {
    int a;
    int *p;
    p = &a;
    cpc_yield();
}

/* A parameter is a box, which each return frees. */
cps int two_ends(int n) {
    int *p;
    p = &n;
    if (*p == 1) return 1;
    cpc_yield();
    return 2;
}

/* An inner variable of the same name is another. */
cps void inner_name(int n) {
    {
        int n;
        n = 1;
    }
    n = 2;
}

/* An empty block is a point, and so is an empty statement. */
cps void nothing_much(int n) {
    if (n > 0) {} else ;
    {}
}

int main(void) {
    cpc_spawn box_alone();
    return 0;
}
