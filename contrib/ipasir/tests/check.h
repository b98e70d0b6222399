/* What the tests share. */
#ifndef CHECK_H
#define CHECK_H

#include "../ipasir.h"

#include <stdio.h>
#include <stdlib.h>

/* Ends the test where the condition does not hold. */
#define CHECK(condition) \
    do { \
        if (!(condition)) { \
            printf("FAILED: %s:%d: %s\n", __FILE__, __LINE__, #condition); \
            exit(1); \
        } \
    } while (0)

/* Adds a clause. */
static inline void add_clause(void *solver, const int *numbers, int count) {
    for (int i = 0; i < count; i++)
        ipasir_add(solver, numbers[i]);
    ipasir_add(solver, 0);
}

/* Puts one pigeon more into the holes than there are, no two in one: no assignment does, but where a literal is true that lets
 * pigeons stay outside. 0 is none. */
static inline void add_pigeons(void *solver, int holes, int outside) {
    for (int p = 0; p <= holes; p++) {
        for (int h = 0; h < holes; h++)
            ipasir_add(solver, p * holes + h + 1);
        if (outside)
            ipasir_add(solver, outside);
        ipasir_add(solver, 0);
    }
    for (int h = 0; h < holes; h++)
        for (int p = 0; p <= holes; p++)
            for (int q = 0; q < p; q++)
                add_clause(solver, (int[]){-(p * holes + h + 1), -(q * holes + h + 1)}, 2);
}

#endif
