/* Constructors of two files: by priority, then by file. */
#include <stdio.h>

char seen[8];
int count;
void see(char c) { seen[count++] = c; }

__attribute__((constructor)) static void last(void) { see('d'); }
__attribute__((constructor(300))) static void third(void) { see('c'); }
__attribute__((constructor(200))) static void first(void) { see('a'); }

int main(void) {
  printf("%s\n", seen);
  return 0;
}
