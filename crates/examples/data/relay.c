/* A relay: three runners start together, rest for a round, and each sends another on. Whoever is ready when a round begins runs
   in that round, in order; whoever becomes ready meanwhile runs in the next. */

cps void second(void) {
    cpc_print(300);
}

cps void first(void) {
    cpc_print(100);
    cpc_yield();
    cpc_print(200);
    cpc_spawn second();
}

int main(void) {
    int started;
    started = 0;
    while (started < 3) {
        cpc_spawn first();
        started = started + 1;
        cpc_print(started);
    }
    return 0;
}
