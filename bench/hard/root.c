/* A square root of a number, bit by bit: is it the largest whose square is no larger? */
#include <assert.h>

unsigned nondet_any(void);

int main(void)
{
  unsigned number = nondet_any() & (1u << BITS) - 1, left = number, root = 0;
  for (unsigned bit = 1u << (BITS - 1 & ~1); bit; bit >>= 2)
    if (left >= root + bit) {
      left -= root + bit;
      root = (root >> 1) + bit;
    } else
      root >>= 1;
  assert(root * root <= number && (root + 1) * (root + 1) > number);
}
