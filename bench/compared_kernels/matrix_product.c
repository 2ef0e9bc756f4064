// A product of two square matrices.
#include <stdint.h>
#define N 12
static int32_t a[N * N], b[N * N], c[N * N];

__attribute__((noinline)) int32_t kernel(int32_t *p, int32_t *q, int32_t *r, int32_t n) {
  for (int32_t i = 0; i < n; i++) {
    for (int32_t j = 0; j < n; j++) {
      int32_t s = 0;
      for (int32_t k = 0; k < n; k++) s = s + p[i * n + k] * q[k * n + j];
      r[i * n + j] = s;
    }
  }
  return r[n * n - 1];
}

int64_t main(void) {
  for (int32_t i = 0; i < N * N; i++) {
    a[i] = i * 7 % 23;
    b[i] = i * 5 % 19;
  }
  uint64_t s = kernel(a, b, c, N);
  for (int32_t i = 0; i < N * N; i++) s = s * 3 + c[i];
  return s;
}
