"""Random programs of C in two files, without undefined behaviour. `f` and `g` are called from outside."""

import random

OPERATORS = ("+", "-", "*", "&", "|", "^")
COMPARISONS = ("<", "<=", ">", ">=", "==", "!=")
WIDTHS = {"u32": 31, "u64": 63}


class RandomProgram:
    """A program by its seed: functions of two numbers in two files, which call those made before them, by name or through a table, and read
    and write arrays."""

    def __init__(self, seed):
        self.random = random.Random(seed)
        self.made = []
        self.level = self.random.choice(("-O0", "-O1", "-O2", "-Os"))
        self.kind = self.random.choice(("u32", "u32", "u64"))
        files = [self.file(0), self.file(1)]
        self.sources = [self.head() + "".join(text) for text in files]
        self.calls = [(self.random.choice("fg"), self.number(), self.number()) for _ in range(4)]

    def number(self):
        return self.random.choice((0, 1, 2, 7, 255, 256, 65535, 2**31 - 1, 2**31, 2**32 - 1, self.random.randrange(2**32)))

    def head(self):
        return (
            "typedef unsigned int u32;\ntypedef unsigned long long u64;\n"
            + "extern %s data0[16], data1[16];\nextern u32 count;\n" % self.kind
            + "typedef %s pair(%s, %s);\n" % (self.kind, self.kind, self.kind)
            + "extern pair *const table[4];\n"
            + "__attribute__((weak)) %s missing(%s);\n" % (self.kind, self.kind)
            + "".join("%s %s(%s a, %s b);\n" % (self.kind, name, self.kind, self.kind) for name in self.made + ["f", "g"])
        )

    def file(self, at):
        texts = ["%s data%d[16] = {%s};\n" % (self.kind, at, ", ".join(str(self.number()) for _ in range(self.random.randrange(1, 16))))]
        for _ in range(self.random.randrange(2, 5)):
            name = "h%d" % len(self.made)
            texts.append(self.function(name))
            self.made.append(name)
        if at == 0:
            texts.append("u32 count;\n__attribute__((constructor)) static void start(void) { count = count * 3 + %d; }\n" % self.random.randrange(100))
            texts.append("pair *const table[4] = {%s};\n" % ", ".join(self.random.choice(self.made) for _ in range(4)))
        texts.append(self.function("fg"[at]))
        return texts

    def function(self, name):
        body = "".join(self.statement(2) for _ in range(self.random.randrange(1, 5)))
        hint = self.random.choice(("", "", "__attribute__((noinline)) "))
        return "%s%s %s(%s a, %s b) {\n  %s c = a, d = b;\n%s  return %s;\n}\n" % (hint, self.kind, name, self.kind, self.kind, self.kind, body, self.value(2))

    def value(self, depth):
        if depth == 0 or self.random.random() < 0.2:
            return self.random.choice(("a", "b", "c", "d", "(%s)%du" % (self.kind, self.random.choice((0, 1, 3, 10, 1000)))))
        one, other = self.value(depth - 1), self.value(depth - 1)
        choice = self.random.randrange(10)
        if choice < 4:
            return "(%s %s %s)" % (one, self.random.choice(OPERATORS), other)
        if choice == 4:
            return "(%s %s (%s | 1))" % (one, self.random.choice("/%"), other)
        if choice == 5:
            return "(%s %s (%s & %d))" % (one, self.random.choice(("<<", ">>")), other, WIDTHS[self.kind])
        if choice == 6:
            return "(%s %s %s ? %s : %s)" % (one, self.random.choice(COMPARISONS), other, self.value(depth - 1), self.value(depth - 1))
        if choice == 7:
            return "data%d[%s & 15]" % (self.random.randrange(2), one)
        if choice == 8 and self.made:
            return "%s(%s, %s)" % (self.random.choice(self.made), one, other)
        return "(%s ^ (%s)count)" % (one, self.kind)

    def statement(self, depth):
        choice = self.random.randrange(8)
        if choice == 0:
            return "  data%d[%s & 15] = %s;\n" % (self.random.randrange(2), self.value(1), self.value(2))
        if choice == 1 and depth:
            return "  for (u32 i = 0; i < %d; i++) {\n  c += i;\n%s  }\n" % (self.random.randrange(1, 6), self.statement(depth - 1))
        if choice == 2 and depth:
            return "  if (%s %s %s) {\n%s  } else {\n%s  }\n" % (self.value(1), self.random.choice(COMPARISONS), self.value(1), self.statement(depth - 1), self.statement(depth - 1))
        if choice == 3:
            cases = "".join("  case %d: c = %s; break;\n" % (k, self.value(1)) for k in range(4))
            return "  switch (%s & 7) {\n%s  default: d = %s;\n  }\n" % (self.value(1), cases, self.value(1))
        if choice == 4 and len(self.made) > 5:
            return "  c = table[%s & 3](%s, d);\n" % (self.value(1), self.value(1))
        if choice == 5:
            return "  count += (u32)%s;\n" % self.value(1)
        if choice == 6 and self.random.random() < 0.2:
            return "  if (a == %d) c = missing(d);\n" % self.number()
        return "  %s = %s;\n" % (self.random.choice("cd"), self.value(2))
