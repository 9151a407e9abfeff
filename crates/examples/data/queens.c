/* Recursion in threads: in how many ways can n queens stand on n rows of n fields so that none attacks another? Each board has a
   thread and an array of its own, and lets the others go on whenever it has placed a queen. */

int is_free(int *columns, int row, int column) {
    int i;
    int d;
    for (i = 0; i < row; i++) {
        d = columns[i] - column;
        if (d == 0 || d == row - i || d == i - row) return 0;
    }
    return 1;
}

cps int ways(int *columns, int n, int row) {
    int column;
    int found;
    int more;
    int is_good;
    if (row == n) return 1;
    found = 0;
    for (column = 0; column < n; column++) {
        is_good = is_free(columns, row, column);
        if (!is_good) continue;
        columns[row] = column;
        cpc_yield();
        more = ways(columns, n, row + 1);
        found += more;
    }
    return found;
}

cps void board(int n) {
    int columns[6];
    int found;
    found = ways(columns, n, 0);
    cpc_putc('0' + n);
    cpc_puts(" queens: ");
    cpc_print(found);
}

int main(void) {
    cpc_spawn board(6);
    cpc_spawn board(5);
    cpc_spawn board(4);
    return 0;
}
