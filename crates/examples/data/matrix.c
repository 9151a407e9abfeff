/* Powers of a matrix, whose numbers lie in one array of a struct, row by row. They are those of Fibonacci. */

struct matrix {
    int size;
    long cells[9];
};

void clear(struct matrix *m, int size) {
    int i;
    m->size = size;
    for (i = 0; i < size * size; i++)
        m->cells[i] = 0;
}

void copy(struct matrix *to, struct matrix *from) {
    int i;
    to->size = from->size;
    for (i = 0; i < from->size * from->size; i++)
        to->cells[i] = from->cells[i];
}

/* to = a * b; to is neither of them. */
void multiply(struct matrix *to, struct matrix *a, struct matrix *b) {
    int row;
    int column;
    int i;
    clear(to, a->size);
    for (row = 0; row < a->size; row++)
        for (column = 0; column < a->size; column++)
            for (i = 0; i < a->size; i++)
                to->cells[row * a->size + column] += a->cells[row * a->size + i] * b->cells[i * a->size + column];
}

int main(void) {
    struct matrix step;
    struct matrix power;
    struct matrix next;
    int n;
    clear(&step, 2);
    step.cells[0] = 1;
    step.cells[1] = 1;
    step.cells[2] = 1;
    copy(&power, &step);
    for (n = 1; n <= 90; n++) {
        if (n % 15 == 0)
            cpc_print(power.cells[1]);
        multiply(&next, &power, &step);
        copy(&power, &next);
    }
    cpc_print(sizeof(struct matrix));
    return 0;
}
