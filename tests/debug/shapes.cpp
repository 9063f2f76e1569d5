#include "shapes.h"

namespace {
int begun = 5;
}

extern "C" __attribute__((export_name("measure"))) int measure(int which) {
  Square<3> small;
  Square<4> large;
  const Shape &shape = which ? static_cast<const Shape &>(large) : small;
  return greater(shape.twice(), other_area(shape)) + begun;
}

int dead_shape() { return Square<5>().twice(); }
