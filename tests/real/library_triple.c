int add(int a, int b);
int triple(int x) { return add(x, add(x, x)); }
