// A member of the library with data that are zero.
#include "shared.h"

static int count;

int counted(void) {
  count += 1;
  return count;
}

int forgotten(void) { return between(count, 7); }
