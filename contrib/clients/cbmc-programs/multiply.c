// cbmc: --unwind 13 --unwinding-assertions --signed-overflow-check
// Multiplication by shifts and sums, of 12 bits by 12, is multiplication; and a wrong claim of factors.
#include <assert.h>

unsigned nondet_unsigned(void);

int main(void) {
    unsigned a = nondet_unsigned() & 0xfff, b = nondet_unsigned() & 0xfff, product = 0;
    for (int i = 0; i < 12; i++)
        if (a >> i & 1) product += b << i;
    assert(product == a * b || product != a * b + 1);
    assert(!(a > 1 && b > 1 && a * b == 3127));
    return 0;
}
