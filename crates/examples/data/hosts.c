/* Functions of the host: threads that ask it which of two numbers is nearer to a third. */
extern long abs_diff(long, long);
extern long least(long, long);
extern long clamp(long, long, long);

cps void nearest(long to, long a, long b) {
  long d;
  long e;
  long m;
  d = abs_diff(to, a);
  cpc_yield();
  e = abs_diff(to, b);
  m = least(d, e);
  if (m == d) cpc_print(a);
  else cpc_print(b);
}

int main(void) {
  long far;
  cpc_spawn nearest(10, 4, 15);
  cpc_spawn nearest(0, -3, 8);
  far = abs_diff(-9223372036854775807 - 1, 1);
  cpc_print(far);
  far = clamp(50, 0, 9);
  cpc_print(far);
  return 0;
}
