// cbmc: --unwind 4 --unwinding-assertions --bounds-check --signed-overflow-check
// Insertion sort of three numbers: what comes out is in order, and has the same sum.
#include <assert.h>

int nondet_int(void);

int main(void) {
    int a[3], sum = 0;
    for (int i = 0; i < 3; i++) {
        a[i] = nondet_int();
        __CPROVER_assume(a[i] > -1000 && a[i] < 1000);
        sum += a[i];
    }
    for (int i = 1; i < 3; i++) {
        int it = a[i], j = i;
        for (; j > 0 && a[j - 1] > it; j--) a[j] = a[j - 1];
        a[j] = it;
    }
    for (int i = 1; i < 3; i++) assert(a[i - 1] <= a[i]);
    for (int i = 0; i < 3; i++) sum -= a[i];
    assert(sum == 0);
    return 0;
}
