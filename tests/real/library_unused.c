int never_defined(void);
int unused(void) { return never_defined(); }
