#pragma once
// Templates and inline functions that two objects have.
struct Shape {
  virtual int area() const { return 0; }
  int twice() const { return area() * 2; }
};

template <int Side> struct Square : Shape {
  int area() const override {
    int side = Side;
    return side * side;
  }
};

template <typename T> inline T greater(T a, T b) {
  if (a > b)
    return a;
  return b;
}

int other_area(const Shape &shape);
