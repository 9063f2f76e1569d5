int level(void) { return 7; }
int other_level(void) { return level() + 1; }
