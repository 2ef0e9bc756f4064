// In how many ways as many queens as a board has rows stand on it, none of which attacks another.
#include <stdint.h>

__attribute__((noinline)) int32_t kernel(uint32_t all, uint32_t columns, uint32_t left, uint32_t right) {
  if (columns == all) return 1;
  uint32_t free = all & ~(columns | left | right);
  int32_t found = 0;
  while (free != 0) {
    uint32_t bit = free & -free;
    free = free - bit;
    found = found + kernel(all, columns | bit, (left | bit) << 1, (right | bit) >> 1);
  }
  return found;
}

int64_t main(void) { return kernel(63, 0, 0, 0); }
