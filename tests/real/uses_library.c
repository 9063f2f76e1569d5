#include <stdio.h>

int triple(int x);

int main(void) {
  printf("%d\n", triple(14));
  return 0;
}
