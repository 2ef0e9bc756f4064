// Adler's checksum of bytes.
#include <stdint.h>
#define N 256
static uint8_t text[N];

__attribute__((noinline)) uint32_t kernel(uint8_t *p, int32_t n) {
  uint32_t a = 1, b = 0;
  for (int32_t i = 0; i < n; i++) {
    a = (a + p[i]) % 65521;
    b = (b + a) % 65521;
  }
  return (b << 16) | a;
}

int64_t main(void) {
  for (int32_t i = 0; i < N; i++) text[i] = (uint8_t)(i * 11);
  return kernel(text, N);
}
