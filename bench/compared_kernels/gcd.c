// The greatest common divisor, by remainders.
#include <stdint.h>

__attribute__((noinline)) uint32_t kernel(uint32_t a, uint32_t b) {
  while (b != 0) {
    uint32_t rest = a % b;
    a = b;
    b = rest;
  }
  return a;
}

int64_t main(void) {
  int64_t s = 0;
  for (int32_t i = 1; i < 201; i++) s = s + kernel((uint32_t)i * 1071, (uint32_t)i * (uint32_t)i + 462);
  return s;
}
