/* Files, the environment and words, which constructors of the C library prepare. */
#include <stdio.h>
#include <stdlib.h>

int main(int argc, char **argv) {
  const char *home = getenv("PLACE");
  FILE *file = fopen("/here/told.txt", "w");
  if (!file) return 1;
  fprintf(file, "%d words, %s\n", argc, home ? home : "nowhere");
  fclose(file);
  file = fopen("/here/told.txt", "r");
  char line[64];
  if (!file || !fgets(line, sizeof line, file)) return 2;
  fputs(line, stdout);
  printf("no newline");
  return 0;
}
