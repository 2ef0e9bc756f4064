// The sum of the products of two lists of numbers.
#include <stdint.h>
#define N 256
static int32_t a[N], b[N];

__attribute__((noinline)) int64_t kernel(int32_t *p, int32_t *q, int32_t n) {
  int64_t s = 0;
  for (int32_t i = 0; i < n; i++) s = s + (int64_t)p[i] * (int64_t)q[i];
  return s;
}

int64_t main(void) {
  for (int32_t i = 0; i < N; i++) {
    a[i] = i * 1000003;
    b[i] = i * i - 300;
  }
  return kernel(a, b, N);
}
