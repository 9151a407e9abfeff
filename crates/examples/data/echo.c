/* A server for two clients, at the descriptors 3 and 4. A request has come when a descriptor can be read, and its answer goes out when
   the descriptor can be written. Beside them one thread tells each minute how many answers were given, and the program closes after the
   fourth. */

int answered;
cpc_condvar enough;

cps int serve(int descriptor, int number) {
    cpc_io_wait(descriptor, 0);
    cpc_io_wait(descriptor, 1);
    return number * number;
}

cps void client(int descriptor) {
    int number;
    for (number = 1; ; number++) {
        int answer = serve(descriptor, number);
        cpc_puts("client ");
        cpc_putc('0' + descriptor);
        cpc_puts(" gets ");
        cpc_print(answer);
        answered++;
        if (answered == 4) cpc_signal(enough);
    }
}

cps void report(void) {
    while (1) {
        cpc_sleep(60000000);
        cpc_puts("answers: ");
        cpc_print(answered);
    }
}

cps int main(void) {
    enough = cpc_cond_new();
    cpc_spawn client(3);
    cpc_spawn client(4);
    cpc_spawn report();
    cpc_wait(enough);
    cpc_puts("closing\n");
    cpc_exit(0);
    return 0;
}
