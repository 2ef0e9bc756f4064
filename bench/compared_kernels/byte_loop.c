// Small letters are made large; how many.
#include <stdint.h>
#define N 256
static uint8_t text[N];

__attribute__((noinline)) int32_t kernel(uint8_t *p, int32_t n) {
  int32_t changed = 0;
  for (int32_t i = 0; i < n; i++) {
    uint8_t c = p[i];
    if (c >= 97 && c <= 122) {
      p[i] = c - 32;
      changed = changed + 1;
    }
  }
  return changed;
}

int64_t main(void) {
  for (int32_t i = 0; i < N; i++) text[i] = (uint8_t)(i * 7);
  return kernel(text, N);
}
