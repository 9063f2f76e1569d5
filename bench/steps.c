// What steps.sh runs: each export is one kind of work.
typedef unsigned u;
typedef unsigned long long ull;

#define RUNS(name) __attribute__((export_name(#name), noinline))
#define CALLED __attribute__((noinline)) static

static u words[1024];

RUNS(memory) u memory(u rounds) {
  u sum = 1;
  for (u round = 0; round < rounds; round++)
    for (u i = 0; i < 1024; i++) {
      words[i] = words[i] * 3u + sum;
      sum += words[(i * 7u) & 1023];
    }
  return sum;
}

RUNS(bytes) u bytes(u rounds) {
  unsigned char *at = (unsigned char *)words;
  u mixed = 0;
  for (u round = 0; round < rounds; round++)
    for (u i = 0; i < 4096; i++) {
      mixed = (mixed << 1 | mixed >> 31) ^ at[i];
      at[i] = (unsigned char)(mixed + i);
    }
  return mixed;
}

RUNS(sums) ull sums(u rounds) {
  ull sum = 0;
  for (u i = 0; i < rounds; i++) {
    if (i & 1)
      sum += (ull)i * i;
    else
      sum ^= sum << 3;
    if ((sum & 15) == 3)
      sum += 7;
  }
  return sum;
}

RUNS(fib) u fib(u n) { return n < 2 ? n : fib(n - 1) + fib(n - 2); }

CALLED u add(u a, u b) { return a + b * 3u; }
CALLED u mix(u a, u b) { return (a ^ b) + 5u; }
CALLED u times(u a, u b) { return a * 7u - b; }
static u (*const functions[4])(u, u) = {add, mix, times, add};

RUNS(calls) u calls(u rounds) {
  u sum = 1;
  for (u i = 0; i < rounds; i++)
    sum = mix(add(sum, i), i);
  return sum;
}

RUNS(through) u through(u rounds) {
  u sum = 1;
  for (u i = 0; i < rounds; i++)
    sum = functions[sum & 3](sum, i);
  return sum;
}

static struct item {
  struct item *next;
  u value;
} items[256];

RUNS(lists) u lists(u rounds) {
  for (u i = 0; i < 256; i++) {
    items[i].next = &items[(i * 37u + 11u) & 255];
    items[i].value = i;
  }
  u sum = 0;
  struct item *item = items;
  for (u i = 0; i < rounds; i++, item = item->next)
    switch (item->value & 7) {
    case 0: sum += 1; break;
    case 1: sum ^= item->value; break;
    case 2: sum -= 3; break;
    case 3: sum *= 5; break;
    case 4: sum |= 1; break;
    default: sum += item->value;
    }
  return sum;
}
