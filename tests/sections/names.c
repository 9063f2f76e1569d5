// Functions of each kind: exported, static, imported, weak and undefined, and one of two names.
__attribute__((import_module("env"), import_name("told"))) void tell(int);
__attribute__((weak)) int absent(int);
static __attribute__((noinline)) int doubled(int a) { return 2 * a; }
static int (*volatile held)(int) = doubled;
__attribute__((noinline)) int first(int a) { return a + 1; }
int second(int) __attribute__((alias("first")));
static int dead(int a) { return a - 1; }
int (*const *dead_too)(int) = 0;
__attribute__((constructor)) static void prepare(void) { held = doubled; }
__attribute__((export_name("out"))) int run(int a) {
  tell(a);
  if (absent) return absent(a);
  return held(a) + first(a) + second(a);
}
int unused(int a) { return dead(a); }
