// cbmc: --unwind 17 --unwinding-assertions --div-by-zero-check
// Division of 16 bits by subtraction of shifted divisors, against the machine's; the divisor 0 is found.
#include <assert.h>

unsigned short nondet_short(void);

int main(void) {
    unsigned n = nondet_short(), d = nondet_short(), rest = n, quotient = 0;
    __CPROVER_assume(d < 64);
    for (int i = 15; i >= 0; i--)
        if (d && rest >= d << i) {
            rest -= d << i;
            quotient |= 1u << i;
        }
    if (d) assert(quotient * d + rest == n && rest < d);
    assert(quotient == n / d);
    return 0;
}
