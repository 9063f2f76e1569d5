// A member of the library, half of it dead.
#include "shared.h"

static int factor = 3;

int not_asked_for(int value) {
  factor = value;
  return between(value, factor);
}

int scaled(int value) {
  int result = value * factor;
  return result;
}
