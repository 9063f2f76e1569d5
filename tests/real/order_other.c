void see(char c);

__attribute__((constructor)) static void last(void) { see('e'); }
__attribute__((constructor(200))) static void second(void) { see('b'); }
