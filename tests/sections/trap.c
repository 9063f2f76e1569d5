// A trap within two functions that have names.
static __attribute__((noinline)) void falls_here(volatile int *at) {
  *at = 1;
  __builtin_trap();
}
static int place;
__attribute__((export_name("run"))) int run(void) {
  falls_here(&place);
  return place;
}
