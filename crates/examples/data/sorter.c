/* A sorting office. Batches of numbers come over the descriptors 3 and 4. Each is sorted in a section, beside the loop, so that a long
   batch holds up nobody, and is shown when its section has come back: a later batch may overtake an earlier one. When descriptor 0 can
   be read, the office closes: it waits for what is still being sorted, and then it ends. */

struct batch {
    int count;
    unsigned check;
    int numbers[8];
};

int batches;
int open;
cpc_condvar idle;

/* what sections may call: functions that are detached themselves */

detached unsigned mix(unsigned check, int number) {
    return (check ^ number) * 16777619u;
}

detached int insert(int *numbers, int at) {
    int number;
    int moves;
    number = numbers[at];
    for (moves = 0; moves < at && numbers[at - moves - 1] > number; moves++)
        numbers[at - moves] = numbers[at - moves - 1];
    numbers[at - moves] = number;
    return moves;
}

/* The section: its copy of the batch is sorted, and goes back into the batch when the section is told. */
detached int sort(struct batch *b) {
    int i;
    int moves;
    int sum;
    sum = 0;
    for (i = 0; i < b->count; i++) {
        moves = insert(b->numbers, i);
        sum += moves;
    }
    b->check = 2166136261u;
    for (i = 0; i < b->count; i++) b->check = mix(b->check, b->numbers[i]);
    return sum;
}

void put(unsigned n) {
    if (n > 9) put(n / 10);
    cpc_putc('0' + n % 10);
}

void show(int name, struct batch *b, int moves) {
    int i;
    cpc_puts("batch ");
    put(name);
    cpc_puts(":");
    for (i = 0; i < b->count; i++) {
        cpc_putc(' ');
        put(b->numbers[i]);
    }
    cpc_puts("; moves ");
    put(moves);
    cpc_puts(", check ");
    put(b->check);
    cpc_putc('\n');
}

void fill(struct batch *b, unsigned *seed) {
    int i;
    b->count = 3 + *seed % 6;
    b->check = 0;
    for (i = 0; i < b->count; i++) {
        *seed = *seed * 1103515245u + 12345u;
        b->numbers[i] = *seed / 65536 % 100;
    }
}

cps void handle(int name, struct batch *b) {
    int moves;
    moves = cpc_detached sort(b);
    show(name, b, moves);
    free(b);
    open--;
    if (open == 0) cpc_signal(idle);
}

cps void line(int descriptor, unsigned seed) {
    struct batch *b;
    while (1) {
        cpc_io_wait(descriptor, 0);
        b = malloc(sizeof(struct batch));
        fill(b, &seed);
        batches++;
        open++;
        cpc_spawn handle(batches, b);
    }
}

cps void closing(void) {
    cpc_io_wait(0, 0);
    cpc_puts("closing\n");
    while (open > 0) cpc_wait(idle);
    cpc_puts("all sorted\n");
    cpc_exit(0);
}

int main(void) {
    idle = cpc_cond_new();
    cpc_spawn line(3, 2021);
    cpc_spawn line(4, 1977);
    cpc_spawn closing();
    return 0;
}
