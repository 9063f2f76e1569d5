// Virtual functions, templates, constructors and what two objects share.
#include "counted.h"
#include <cstdio>

struct Shape : Counted<Shape> {
  virtual ~Shape() {}
  virtual int area() const = 0;
  virtual const char *name() const { return "shape"; }
};

struct Square : Shape {
  int side;
  explicit Square(int s) : side(s) {}
  int area() const override { return side * side; }
  const char *name() const override { return "square"; }
};

struct Box : Shape {
  int wide, high;
  Box(int w, int h) : wide(w), high(h) {}
  int area() const override { return wide * high; }
};

static Square early(3);

struct Ordered {
  static int last;
  int at;
  Ordered() : at(++last) {}
};
int Ordered::last = 0;
__attribute__((init_priority(2000))) static Ordered second;
__attribute__((init_priority(1000))) static Ordered first;

int main() {
  Box box(2, 5);
  const Shape *shapes[] = {&early, &box};
  for (const Shape *s : shapes) std::printf("%s %d\n", s->name(), s->area());
  std::printf("%d %d\n", first.at, second.at);
  std::printf("%d %lld\n", twice(4), twice(1LL << 33));
  std::printf("%d %d %d\n", from_other(), Counted<Shape>::made, calls());
  return 0;
}
