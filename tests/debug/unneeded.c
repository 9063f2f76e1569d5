// A member of the library that nobody needs.
int unneeded(int value) { return value - 1; }
