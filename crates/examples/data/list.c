/* A sorted list of numbers: made, looked through, turned round and given back. */

struct node {
    int number;
    struct node *next;
};

struct node *first;
int live;

/* Puts a number before the first that is not below it. */
void insert(int number) {
    struct node *made;
    struct node *before;
    made = malloc(sizeof(struct node));
    live++;
    made->number = number;
    if (!first || first->number >= number) {
        made->next = first;
        first = made;
        return;
    }
    before = first;
    while (before->next && before->next->number < number)
        before = before->next;
    made->next = before->next;
    before->next = made;
}

void show(void) {
    struct node *here;
    for (here = first; here; here = here->next) {
        cpc_print(here->number);
    }
}

void reverse(void) {
    struct node *done;
    struct node *rest;
    done = 0;
    while (first) {
        rest = first->next;
        first->next = done;
        done = first;
        first = rest;
    }
    first = done;
}

void drop(void) {
    struct node *rest;
    while (first) {
        rest = first->next;
        free(first);
        live--;
        first = rest;
    }
}

int main(void) {
    int i;
    for (i = 0; i < 7; i++)
        insert(i * 37 % 11);
    show();
    cpc_puts("turned round\n");
    reverse();
    show();
    drop();
    cpc_print(live);
    return 0;
}
