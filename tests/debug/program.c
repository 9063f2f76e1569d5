// Calls into a library of which half is dead, and traps where it is told to.
#include "shared.h"

int table[4] = {1, 2, 3, 4};
int (*volatile chosen)(int) = scaled;

static int checked(int place) {
  if (place < 0 || place > 3) {
    __builtin_trap();
  }
  return table[place];
}

__attribute__((export_name("look"))) int look(int place) {
  int sum = 0;
  for (int i = 0; i <= place; i++) {
    sum += chosen(checked(i));
  }
  return between(sum, counted());
}

static int unused(int a) { return look(a) + 1; }

int never_called(int a) {
  int twice = unused(a) * 2;
  return twice;
}
