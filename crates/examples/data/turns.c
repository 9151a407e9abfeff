/* Two threads that take turns: each prints a number, lets the other go on, and prints the next. */
cps void ones(void) { cpc_print(1); cpc_yield(); cpc_print(2); cpc_yield(); cpc_print(3); }
cps void tens(void) { cpc_print(10); cpc_yield(); cpc_print(20); cpc_yield(); cpc_print(30); }
int main(void) { cpc_spawn ones(); cpc_spawn tens(); cpc_print(0); return 0; }
