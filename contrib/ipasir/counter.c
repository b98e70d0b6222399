/* Bounded model checking through IPASIR: a counter of some bits counts in a step where its input is true. After how many steps
 * can it be at the goal? One solver keeps the steps that it has; each question is asked under assumptions. */
#include "ipasir.h"

#include <stdio.h>

enum { BITS = 4, GOAL = 11, MOST_STEPS = 20 };

static void *solver;
static int variables;

static void clause(int a, int b, int c) {
    ipasir_add(solver, a);
    ipasir_add(solver, b);
    if (c) ipasir_add(solver, c);
    ipasir_add(solver, 0);
}

/* a xor b */
static int xor_of(int a, int b) {
    int out = ++variables;
    clause(-out, a, b);
    clause(-out, -a, -b);
    clause(out, -a, b);
    clause(out, a, -b);
    return out;
}

/* a and b */
static int and_of(int a, int b) {
    int out = ++variables;
    clause(-out, a, 0);
    clause(-out, b, 0);
    clause(out, -a, -b);
    return out;
}

int main(void) {
    int bits[BITS], inputs[MOST_STEPS];
    solver = ipasir_init();
    for (int i = 0; i < BITS; i++) {
        bits[i] = ++variables;
        ipasir_add(solver, -bits[i]), ipasir_add(solver, 0);
    }
    for (int step = 0; step < MOST_STEPS; step++) {
        for (int i = 0; i < BITS; i++) ipasir_assume(solver, GOAL >> i & 1 ? bits[i] : -bits[i]);
        int answer = ipasir_solve(solver);
        printf("%2d steps: %s\n", step, answer == 10 ? "reached" : answer == 20 ? "not reached" : "unknown");
        if (answer != 20) {
            printf("it counts in the steps");
            for (int k = 0; k < step; k++) if (ipasir_val(solver, inputs[k]) > 0) printf(" %d", k);
            return printf("\n"), ipasir_release(solver), answer != 10;
        }
        for (int carry = inputs[step] = ++variables, i = 0; i < BITS; i++) {
            int sum = xor_of(bits[i], carry), next = and_of(bits[i], carry);
            bits[i] = sum, carry = next;
        }
    }
    return ipasir_release(solver), 1;
}
