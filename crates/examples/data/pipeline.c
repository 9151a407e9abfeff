/* A pipeline of threads. Letters go from one to the next, through places for one letter each: the first thread reads a text, the
   second drops blanks behind blanks, the third makes the first letter of each word a capital, and the last puts out what comes. */

struct pipe {
    int is_full;
    char letter;
};

char text[40] = "  threads   that say  in order, hello";
struct pipe pipes[3];

cps void send(struct pipe *to, char letter) {
    while (to->is_full) cpc_yield();
    to->letter = letter;
    to->is_full = 1;
}

cps char receive(struct pipe *from) {
    while (!from->is_full) cpc_yield();
    from->is_full = 0;
    return from->letter;
}

cps void read(struct pipe *out) {
    char *p;
    for (p = text; *p; p++) send(out, *p);
    send(out, 0);
}

cps void squeeze(struct pipe *in, struct pipe *out) {
    char before = ' ';
    char letter;
    do {
        letter = receive(in);
        if (letter != ' ' || before != ' ') send(out, letter);
        before = letter;
    } while (letter);
}

cps void capitals(struct pipe *in, struct pipe *out) {
    char before = ' ';
    char letter;
    do {
        letter = receive(in);
        send(out, before == ' ' && letter >= 'a' && letter <= 'z' ? letter - 'a' + 'A' : letter);
        before = letter;
    } while (letter);
}

cps int write(struct pipe *in) {
    int count = 0;
    while (1) {
        char letter = receive(in);
        if (!letter) return count;
        cpc_putc(letter);
        count++;
    }
}

cps int main(void) {
    int count;
    cpc_spawn read(&pipes[0]);
    cpc_spawn squeeze(&pipes[0], &pipes[1]);
    cpc_spawn capitals(&pipes[1], &pipes[2]);
    count = write(&pipes[2]);
    cpc_putc('\n');
    cpc_print(count);
    return 0;
}
