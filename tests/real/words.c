/* What words export, import and drop. clang hides what isn't said to be visible. */
#define VISIBLE __attribute__((visibility("default")))

int from_host(int x);

static int table[4] = {1, 2, 4, 8};
VISIBLE int *shared = &table[2];
int inside = 3;

VISIBLE int doubled(int x) { return x + x; }
int hidden(int x) { return x * inside; }
static int (*const choice[])(int) = {doubled, hidden};
VISIBLE int asked(int x) { return from_host(choice[x & 1](x)) + *shared; }
