/* A server of accounts, in threads. Clients put their requests into a queue, two workers serve them, and each client waits for its
   answer. A request is a local of the function that asks, and its answer is written to where it stands. */

struct request {
    char what;       /* 'i': put the amount in, 'o': take it out */
    int account;
    long amount;
    long answer;     /* what is left, or -1 where there was too little */
    int is_answered;
};

struct request *queue[4];
int first;
int waiting;
int clients;
long balances[3];

void serve(struct request *r) {
    long *balance;
    balance = &balances[r->account];
    if (r->what == 'i') *balance += r->amount;
    else if (*balance >= r->amount) *balance -= r->amount;
    else { r->answer = -1; return; }
    r->answer = *balance;
}

cps void worker(void) {
    struct request *r;
    while (clients > 0) {
        if (waiting == 0) { cpc_yield(); continue; }
        r = queue[first];
        first = (first + 1) % 4;
        waiting--;
        serve(r);
        cpc_yield();
        r->is_answered = 1;
    }
    cpc_puts("a worker goes home\n");
}

cps long ask(char what, int account, long amount) {
    struct request r;
    r.what = what;
    r.account = account;
    r.amount = amount;
    r.is_answered = 0;
    while (waiting == 4) cpc_yield();
    queue[(first + waiting) % 4] = &r;
    waiting++;
    while (!r.is_answered) cpc_yield();
    return r.answer;
}

cps void client(int account, long salary) {
    long left;
    for (left = ask('i', account, salary); left >= 0; left = ask('o', account, 30)) {
        cpc_print(1000 * (account + 1) + left);
    }
    cpc_puts("too little on account ");
    cpc_print(account + 1);
    clients--;
}

int main(void) {
    int i;
    clients = 3;
    for (i = 0; i < 3; i++) cpc_spawn client(i, 100 - 30 * i);
    cpc_spawn worker();
    cpc_spawn worker();
    return 0;
}
