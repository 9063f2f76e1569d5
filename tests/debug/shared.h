#pragma once
#ifdef __cplusplus
extern "C" {
#endif
int scaled(int value);
int counted(void);
#ifdef __cplusplus
}
#endif

static inline int between(int a, int b) {
  int both = a + b;
  return both / 2;
}
