cps void z(long n){ cpc_sleep(n); if (n == 1) cpc_print(1); if (n == 400000) cpc_print(2); }
cps void waits(void){ cpc_condvar c; c = cpc_cond_new(); cpc_wait(c); }
int main(void){ long i; cpc_spawn waits(); for (i = 400000; i > 0; i--) cpc_spawn z(i); return 0; }
