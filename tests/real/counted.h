// What two files share: inline functions, templates and a static member, each of which stands in both objects.
#pragma once

template <typename T> struct Counted {
  static int made;
  Counted() { made++; }
};
template <typename T> int Counted<T>::made = 0;

inline int &calls() {
  static int count = 0;
  return count;
}

template <typename T> T twice(T x) {
  calls()++;
  return x + x;
}

int from_other();
