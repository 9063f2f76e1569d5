#include "shapes.h"

int other_area(const Shape &shape) {
  Square<3> square;
  return greater(square.area(), shape.area()) + square.twice();
}

int dead_greater(int a) { return greater(a, 4); }
