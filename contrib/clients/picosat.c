/* The calls of IPASIR that packages.c makes, over Debian's libpicosat. */
#include "../ipasir/ipasir.h"

#include <picosat/picosat.h>

void *ipasir_init(void) { return picosat_init(); }

void ipasir_release(void *solver) { picosat_reset(solver); }

void ipasir_add(void *solver, int32_t number) { picosat_add(solver, number); }

void ipasir_assume(void *solver, int32_t number) { picosat_assume(solver, number); }

int ipasir_solve(void *solver) { return picosat_sat(solver, -1); }

int ipasir_failed(void *solver, int32_t number) { return picosat_failed_assumption(solver, number); }
