/* A division by ten as a product and a shift: does it give the quotient? */
#include <assert.h>

unsigned nondet_any(void);

int main(void)
{
  unsigned number = nondet_any() & (1u << BITS) - 1;
  unsigned quotient = (unsigned long long)number * 0xcccccccdu >> 35;
  assert(quotient * 10 <= number && number - quotient * 10 < 10);
}
