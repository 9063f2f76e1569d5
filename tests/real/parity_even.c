/* Needs the other member, which needs this one. */
int odd(unsigned n);
int even_calls;
int even(unsigned n) {
  even_calls++;
  return n == 0 ? 1 : odd(n - 1);
}
