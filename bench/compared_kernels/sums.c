// The sum of the numbers from 1 to n.
#include <stdint.h>

__attribute__((noinline)) int64_t kernel(int32_t n) {
  int64_t s = 0;
  for (int32_t i = 1; i < n + 1; i++) s = s + i;
  return s;
}

int64_t main(void) { return kernel(1000); }
