#include <stdio.h>

int even(unsigned n);
int odd(unsigned n);
extern int even_calls;

int main(void) {
  int a = even(8), b = even(1), c = odd(1);
  printf("%d %d %d %d\n", a, b, c, even_calls);
  return 0;
}
