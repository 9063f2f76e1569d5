/* malloc, qsort, function pointers, data with pointers. */
#include <stdio.h>
#include <stdlib.h>
#include <string.h>

static const char *const words[] = {"pear", "apple", "fig", "quince", "cherry"};

static int by_text(const void *a, const void *b) {
  return strcmp(*(const char *const *)a, *(const char *const *)b);
}

static int by_length(const void *a, const void *b) {
  size_t x = strlen(*(const char *const *)a), y = strlen(*(const char *const *)b);
  return x < y ? -1 : x > y ? 1 : by_text(a, b);
}

static int (*const orders[])(const void *, const void *) = {by_text, by_length};

int main(void) {
  size_t count = sizeof words / sizeof words[0];
  const char **list = malloc(count * sizeof *list);
  for (size_t o = 0; o < 2; o++) {
    memcpy(list, words, sizeof words);
    qsort(list, count, sizeof *list, orders[o]);
    for (size_t i = 0; i < count; i++) printf("%s%c", list[i], i + 1 < count ? ' ' : '\n');
  }
  free(list);
  return 0;
}
