/* A weak definition that loses, one that stands alone, and a weak reference to nothing. */
#include <stdio.h>

__attribute__((weak)) int level(void) { return 1; }
__attribute__((weak)) int alone(void) { return 2; }
extern int absent(void) __attribute__((weak));
extern int other_level(void);

int main(void) {
  printf("%d %d %d %s\n", level(), alone(), other_level(), absent ? "there" : "absent");
  return 0;
}
