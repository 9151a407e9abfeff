/* A calculator: each line of the text is a sum of products of numbers and of sums in parentheses. */

char text[64] = "1+2*3\n(1+2)*3\n100-7*(2+3)-5\n2*(3+4*(5-1))\n1000000*1000\n";
int at;

void sum(long *result);

/* A number, or a sum in parentheses. */
void atom(long *result) {
    long value;
    value = 0;
    if (text[at] == '(') {
        at++;
        sum(&value);
        at++;
    } else {
        while (text[at] >= '0' && text[at] <= '9') {
            value = value * 10 + (text[at] - '0');
            at++;
        }
    }
    *result = value;
}

void product(long *result) {
    long left;
    long right;
    atom(&left);
    while (text[at] == '*') {
        at++;
        atom(&right);
        left = left * right;
    }
    *result = left;
}

void sum(long *result) {
    long left;
    long right;
    char sign;
    product(&left);
    while (text[at] == '+' || text[at] == '-') {
        sign = text[at];
        at++;
        product(&right);
        left = sign == '+' ? left + right : left - right;
    }
    *result = left;
}

int main(void) {
    long result;
    for (at = 0; at < 64 && text[at]; at++) {
        sum(&result);
        cpc_print(result);
    }
    return 0;
}
