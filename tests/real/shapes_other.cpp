#include "counted.h"

struct Unseen : Counted<Unseen> {};
static Unseen unseen;

int from_other() { return twice(10) + Counted<Unseen>::made; }
