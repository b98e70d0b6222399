/* Numbers out of range and calls out of turn, which end as ipasir.h says. */
#include "check.h"

#include "../../c/varisat.h"

#include <limits.h>

static const int beyond[] = {0x10000001, -0x10000001, INT_MAX, -INT_MAX, INT_MIN};

enum { BEYOND = sizeof beyond / sizeof *beyond };

/* Every call of a solver that refused one. */
static void check_refused(void *solver, int reason) {
    CHECK(varisat_ipasir_error(solver) == reason);
    add_clause(solver, (int[]){1, -2}, 2);
    ipasir_assume(solver, 1);
    CHECK(ipasir_solve(solver) == 0);
    CHECK(ipasir_solve(solver) == 0);
    CHECK(ipasir_val(solver, 1) == 0 && ipasir_failed(solver, 1) == 0);
    ipasir_set_terminate(solver, NULL, NULL);
    CHECK(varisat_ipasir_error(solver) == reason);
}

static void past_in_clauses(void) {
    for (int i = 0; i < BEYOND; i++) {
        void *solver = ipasir_init();
        add_clause(solver, (int[]){1, 2}, 2);
        CHECK(ipasir_solve(solver) == 10);
        /* Asking is no error, and tells 0. */
        CHECK(ipasir_val(solver, beyond[i]) == 0 && ipasir_failed(solver, beyond[i]) == 0);
        ipasir_add(solver, 1);
        ipasir_add(solver, beyond[i]);
        CHECK(varisat_ipasir_error(solver) == 0);
        ipasir_add(solver, 0);
        check_refused(solver, VARISAT_VARIABLE_LIMIT);
        ipasir_release(solver);
    }
}

static void past_in_assumptions(void) {
    for (int i = 0; i < BEYOND; i++) {
        void *solver = ipasir_init();
        add_clause(solver, (int[]){1, 2}, 2);
        ipasir_assume(solver, beyond[i]);
        CHECK(varisat_ipasir_error(solver) == 0);
        CHECK(ipasir_solve(solver) == 0);
        check_refused(solver, VARISAT_VARIABLE_LIMIT);
        ipasir_release(solver);
    }
}

static void asked_early_and_late(void) {
    void *solver = ipasir_init();
    CHECK(ipasir_val(solver, 1) == 0 && ipasir_failed(solver, 1) == 0);
    CHECK(ipasir_solve(solver) == 10);
    ipasir_assume(solver, 0);
    add_clause(solver, (int[]){1, 2}, 2);
    ipasir_assume(solver, -1);
    CHECK(ipasir_solve(solver) == 10);
    CHECK(ipasir_val(solver, 1) == -1 && ipasir_val(solver, -1) == -1 && ipasir_val(solver, 2) == 2 && ipasir_val(solver, 3) == 0);
    ipasir_assume(solver, -1);
    ipasir_assume(solver, -2);
    CHECK(ipasir_solve(solver) == 20);
    CHECK(ipasir_val(solver, 2) == 2);
    CHECK(ipasir_failed(solver, -1) == 1 && ipasir_failed(solver, -2) == 1 && ipasir_failed(solver, 1) == 0);
    /* The assumptions are gone, and what failed is told still. */
    CHECK(ipasir_solve(solver) == 10);
    CHECK(ipasir_failed(solver, -1) == 1);
    ipasir_release(solver);
}

static void unfinished_clauses(void) {
    void *solver = ipasir_init();
    ipasir_add(solver, 1);
    ipasir_assume(solver, -1);
    CHECK(ipasir_solve(solver) == 10);
    CHECK(ipasir_val(solver, 1) == -1);
    ipasir_add(solver, 0);
    ipasir_assume(solver, -1);
    CHECK(ipasir_solve(solver) == 20);
    ipasir_add(solver, 0);
    CHECK(ipasir_solve(solver) == 20);
    CHECK(ipasir_failed(solver, -1) == 0);
    ipasir_add(solver, 5);
    ipasir_release(solver);
}

/* Names and values of settings, hints and counters that are none. */
static void settings(void) {
    void *solver = ipasir_init();
    CHECK(varisat_ipasir_set(solver, "simplify", 0) == 1 && varisat_ipasir_set(solver, "simplify", INT_MAX) == 1);
    CHECK(varisat_ipasir_set(solver, "simplify", -1) == 0 && varisat_ipasir_set(solver, "other", 1) == 0);
    CHECK(varisat_ipasir_set(solver, NULL, 1) == 0 && varisat_ipasir_set(NULL, "simplify", 1) == 0);
    CHECK(varisat_ipasir_counter(solver, "other") == -1 && varisat_ipasir_counter(solver, NULL) == -1);
    CHECK(varisat_ipasir_counter(NULL, "eliminated") == -1);
    CHECK(varisat_ipasir_counter(solver, "eliminated") == 0 && varisat_ipasir_counter(solver, "restored") == 0);
    CHECK(varisat_ipasir_counter(solver, "milliseconds") == 0);
    for (int i = 0; i < BEYOND; i++)
        varisat_ipasir_freeze(solver, beyond[i]), varisat_ipasir_melt(solver, beyond[i]);
    varisat_ipasir_freeze(solver, 0), varisat_ipasir_melt(solver, 0), varisat_ipasir_melt(solver, 7);
    varisat_ipasir_freeze(NULL, 1), varisat_ipasir_melt(NULL, 1);
    CHECK(varisat_ipasir_error(solver) == 0);
    /* A frozen variable is not eliminated; without the hint it is. */
    for (int frozen = 1; frozen >= 0; frozen--) {
        void *client = ipasir_init();
        CHECK(varisat_ipasir_set(client, "simplify", 1) == 1);
        varisat_ipasir_freeze(client, 1);
        if (!frozen)
            varisat_ipasir_melt(client, -1);
        add_clause(client, (int[]){1, 2}, 2);
        varisat_ipasir_freeze(client, 2);
        CHECK(ipasir_solve(client) == 10);
        CHECK(varisat_ipasir_counter(client, "eliminated") == !frozen);
        ipasir_release(client);
    }
    ipasir_release(solver);
}

static void without_a_solver(void) {
    ipasir_add(NULL, 1);
    ipasir_assume(NULL, 1);
    ipasir_set_terminate(NULL, NULL, NULL);
    ipasir_set_learn(NULL, NULL, 0, NULL);
    CHECK(ipasir_solve(NULL) == 0 && ipasir_val(NULL, 1) == 0 && ipasir_failed(NULL, 1) == 0);
    ipasir_release(NULL);
}

static int asked;

/* Makes each call of the solver that is searching. */
static int calls_back(void *solver) {
    ipasir_val(solver, 1);
    ipasir_failed(solver, 1);
    add_clause(solver, NULL, 0);
    ipasir_assume(solver, 1);
    ipasir_set_terminate(solver, NULL, NULL);
    CHECK(ipasir_solve(solver) == 0);
    ipasir_release(solver);
    return ++asked == 3;
}

static void called_from_within(void) {
    void *solver = ipasir_init();
    const int outside = 200;
    ipasir_set_terminate(solver, solver, calls_back);
    add_pigeons(solver, 11, outside);
    ipasir_assume(solver, -outside);
    CHECK(ipasir_solve(solver) == 0);
    CHECK(asked == 3);
    CHECK(varisat_ipasir_error(solver) == 0);
    /* Neither the empty clause nor the assumption came from within. */
    ipasir_set_terminate(solver, NULL, NULL);
    add_clause(solver, (int[]){-1}, 1);
    CHECK(ipasir_solve(solver) == 10);
    CHECK(ipasir_val(solver, outside) == outside);
    ipasir_release(solver);
}

int main(void) {
    past_in_clauses();
    past_in_assumptions();
    asked_early_and_late();
    unfinished_clauses();
    settings();
    without_a_solver();
    called_from_within();
    printf("numbers out of range and calls out of turn: all right\n");
    return 0;
}
