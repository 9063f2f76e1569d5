/* Numbers, a table, memory that grows, and a function of the host. */
__attribute__((import_module("host"), import_name("ask"))) int ask(int x);

#define EXPORT(name) __attribute__((export_name(name)))

static int twice(int x) { return 2 * x; }
static int square(int x) { return x * x; }
static int (*const functions[])(int) = {twice, square};
static long long total;

EXPORT("apply") int apply(int which, int x) { return functions[which](x); }
EXPORT("divide") int divide(int x, int y) { return x / y; }
EXPORT("add") long long add(long long x) { return total += x; }
EXPORT("answer") int answer(int x) { return ask(x + 1) - 1; }
EXPORT("grow") int grow(int pages) { return __builtin_wasm_memory_grow(0, pages); }
EXPORT("half") double half(int x) { return x / 2.0; }
EXPORT("beyond") int beyond(int at) { return *(volatile int *)at; }

EXPORT("gcd") int gcd(unsigned x, unsigned y) {
  while (y) {
    unsigned rest = x % y;
    x = y;
    y = rest;
  }
  return x;
}
