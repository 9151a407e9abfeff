/* Factorials by recursion, until one is no int any more: the run ends with that fault, in the function that made it. */

int factorial(int n) {
    int below;
    if (n == 0) return 1;
    below = factorial(n - 1);
    return n * below;
}

int main(void) {
    int n;
    int result;
    for (n = 0; n < 20; n++) {
        result = factorial(n);
        cpc_print(result);
    }
    return 0;
}
