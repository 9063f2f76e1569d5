// The streams of the C++ library.
#include <iostream>
#include <string>

static const std::string greeting = "hello from a stream";

int main() {
  std::cout << greeting << ' ' << 40 + 2 << std::endl;
  return 0;
}
