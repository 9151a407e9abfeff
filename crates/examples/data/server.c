/* A server for three clients, at the descriptors 3, 4 and 5. A request has come when a descriptor can be read; it is worked on in a
   section, beside the threads, and answered when the descriptor can be written. At most two requests are worked on at once. */

struct request {
    int number;
    int answer;
};

int working;
long served;
cpc_condvar done;

detached int solve(struct request *r, int rounds) {
    int i;
    r->answer = r->number;
    for (i = 0; i < rounds; i++) r->answer = (r->answer * 31 + 7) % 1000;
    return r->answer;
}

cps int work(struct request *r) {
    int answer;
    while (working == 2) cpc_wait(done);
    working++;
    answer = cpc_detached solve(r, 1000);
    working--;
    cpc_signal(done);
    return answer;
}

cps void client(int descriptor) {
    struct request r;
    int answer;
    r.number = 0;
    while (1) {
        cpc_io_wait(descriptor, 0);
        r.number++;
        answer = work(&r);
        cpc_io_wait(descriptor, 1);
        cpc_print(answer);
        served++;
    }
}

cps void report(void) {
    while (1) {
        cpc_sleep(60000000);
        cpc_print(served);
    }
}

int main(void) {
    done = cpc_cond_new();
    cpc_spawn client(3);
    cpc_spawn client(4);
    cpc_spawn client(5);
    cpc_spawn report();
    return 0;
}
