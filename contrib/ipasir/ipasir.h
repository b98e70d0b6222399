/* IPASIR, the incremental interface of SAT solvers, as the annual competitions have it since 2015.
 *
 * Literals are the numbers v and -v of variables v from 1 to 2^28; 0 ends a clause. Names come into use up to the highest one,
 * each of which takes memory: number variables from 1 on.
 *
 * What a program may get wrong:
 * - A number beyond those is refused as its search begins or its clause ends, where some assignment satisfies the clauses
 *   before; else it may be taken in a clause. Memory that runs out and a full store of clauses are refused too. From then on
 *   ipasir_solve answers 0, ipasir_val and ipasir_failed tell 0, and all else does nothing.
 * - A clause counts once its 0 was given. What was assumed counts for the next ipasir_solve alone.
 * - ipasir_val tells of the last ipasir_solve that answered 10, and ipasir_failed of the last that answered 20, whatever was
 *   called since; before one did they tell 0.
 * - With NULL in place of a solver, as ipasir_init returns it where there is no memory, all answers are 0 and nothing is done.
 * - From within the callback of ipasir_set_terminate only ipasir_val and ipasir_failed may be called: any other call of that
 *   solver does nothing, and ipasir_solve answers 0.
 * Nothing finds out a solver that was released, or that two threads use at once. */
#ifndef IPASIR_H
#define IPASIR_H

#include <stdint.h>

#ifdef __cplusplus
extern "C" {
#endif

/* The name and the version. */
const char *ipasir_signature(void);

/* A new solver, or NULL where there is no memory. */
void *ipasir_init(void);

/* Ends the solver and frees its memory. */
void ipasir_release(void *solver);

/* Adds a literal to the clause that is being given, or ends that clause by 0. */
void ipasir_add(void *solver, int32_t number);

/* Assumes a literal for the next search. 0 assumes none. */
void ipasir_assume(void *solver, int32_t number);

/* Searches: 10 where some assignment satisfies the clauses and the assumptions, 20 where none does, and 0 where the callback
 * ended the search or a call was refused. */
int ipasir_solve(void *solver);

/* The number where its literal is true in the last model, the opposite number where it is false, and 0 where its variable is above
 * all that were given. A variable below that was not given is false. */
int32_t ipasir_val(void *solver, int32_t number);

/* 1 where the literal is one of the assumptions for which the last search answered 20, and else 0. */
int ipasir_failed(void *solver, int32_t number);

/* The callback is asked each 1,000 steps of a search and after each part of a simplification. The search ends if it returns another
 * number than 0. NULL asks none. */
void ipasir_set_terminate(void *solver, void *data, int (*terminate)(void *data));

/* Does nothing: learned clauses are not told. */
void ipasir_set_learn(void *solver, void *data, int max_length, void (*learn)(void *data, int32_t *clause));

#ifdef __cplusplus
}
#endif

#endif
