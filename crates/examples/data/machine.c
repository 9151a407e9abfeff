/* A state machine over a text: counts its lines, its words and its numbers, and writes it without comments. */

char text[68] = "one 22 /* a comment */ three\n4/5 ***/* x *y /z **/ six66\n/* open";

int main(void) {
    int at;
    int lines;
    int words;
    int numbers;
    char c;
    at = 0;
    lines = 0;
    words = 0;
    numbers = 0;

between:
    c = text[at];
    if (c == 0) goto done;
    if (c == '/' && text[at + 1] == '*') {
        at += 2;
        goto comment;
    }
    if (c >= '0' && c <= '9') {
        numbers++;
        goto number;
    }
    if (c >= 'a' && c <= 'z') {
        words++;
        goto word;
    }
    if (c == '\n') lines++;
    cpc_putc(c);
    at++;
    goto between;

word:
    do {
        cpc_putc(text[at]);
        at++;
        c = text[at];
        if ((c < 'a' || c > 'z') && (c < '0' || c > '9')) goto between;
    } while (1);

number:
    while (text[at] >= '0' && text[at] <= '9') {
        cpc_putc(text[at]);
        at++;
    }
    goto between;

comment:
    for (;; at++) {
        if (text[at] == 0) goto open;
        if (text[at] == '*' && text[at + 1] == '/') break;
    }
    at += 2;
    goto between;

open:
    cpc_puts("open comment\n");
done:
    cpc_print(lines);
    cpc_print(words);
    cpc_print(numbers);
    return 0;
}
