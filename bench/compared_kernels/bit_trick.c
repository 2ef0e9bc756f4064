// How many bits of a word are set.
#include <stdint.h>

__attribute__((noinline)) int32_t kernel(uint64_t x) {
  x = x - ((x >> 1) & 0x5555555555555555u);
  x = (x & 0x3333333333333333u) + ((x >> 2) & 0x3333333333333333u);
  x = (x + (x >> 4)) & 0x0f0f0f0f0f0f0f0fu;
  return (int32_t)((x * 0x0101010101010101u) >> 56);
}

int64_t main(void) {
  uint64_t s = 0;
  uint64_t x = 0xDEADBEEF12345678u;
  for (int32_t i = 0; i < 100; i++) {
    s = s * 3 + kernel(x);
    x = x * 6364136223846793005u + 1442695040888963407u;
  }
  return s;
}
