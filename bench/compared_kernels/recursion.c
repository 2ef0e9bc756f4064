// Fibonacci's numbers by two calls.
#include <stdint.h>

__attribute__((noinline)) int32_t kernel(int32_t n) {
  if (n < 2) return n;
  return kernel(n - 1) + kernel(n - 2);
}

int64_t main(void) { return kernel(15); }
