// Bytes are copied one by one, by pointers that move.
#include <stdint.h>
#define N 256
static uint8_t a[N], b[N];

__attribute__((noinline)) void kernel(uint8_t *to, uint8_t *from, int64_t n) {
  while (n > 0) {
    *to = *from;
    to = to + 1;
    from = from + 1;
    n = n - 1;
  }
}

int64_t main(void) {
  for (int32_t i = 0; i < N; i++) a[i] = (uint8_t)(i * 13);
  kernel(b, a, N);
  uint64_t s = 0;
  for (int32_t i = 0; i < N; i++) s = s * 3 + b[i];
  return s;
}
