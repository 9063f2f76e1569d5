#include <stdio.h>

int main(int argc, char **argv) {
  (void)argv;
  printf("hello %d %s %x\n", argc, "world", 255);
  return 0;
}
