/* Clients that give two large batches of gates. The callback is asked in each part of the simplification, also of the second batch where it
 * ended the search in the first one. */
#include "check.h"

#include "../../c/varisat.h"

enum { INPUTS = 100, GATES = 20000, LEAST_PARTS = 8 };

static int variable_count;
static unsigned long long seed;
static long asked;
/* How often the callback goes on before it ends the search. */
static long patience;
static void *solver;

static int draw(int below) {
    seed ^= seed << 13, seed ^= seed >> 7, seed ^= seed << 17;
    return (int)((seed >> 33) % (unsigned)below);
}

static int draw_literal(void) {
    int variable = 1 + draw(variable_count);
    return draw(2) ? variable : -variable;
}

/* Each gate is the conjunction of two literals of variables before it. */
static void add_gates(void) {
    for (int gate = 0; gate < GATES; gate++) {
        int left = draw_literal(), right = draw_literal(), out = ++variable_count;
        add_clause(solver, (int[]){-out, left}, 2);
        add_clause(solver, (int[]){-out, right}, 2);
        add_clause(solver, (int[]){out, -left, -right}, 3);
    }
}

static int ends(void *data) {
    (void)data;
    asked++;
    return patience-- == 0;
}

/* How often the callback is asked in a search that it ends once it went on so many times, or never where they are negative. */
static long ask(long times, int wanted) {
    asked = 0;
    patience = times;
    CHECK(ipasir_solve(solver) == wanted);
    return asked;
}

/* A new solver with the first batch. */
static void begin(void) {
    seed = 88172645463325252ULL;
    variable_count = INPUTS;
    solver = ipasir_init();
    CHECK(solver);
    ipasir_set_terminate(solver, NULL, ends);
    add_gates();
}

int main(void) {
    begin();
    long first = ask(-1, 10);
    add_gates();
    long second = ask(-1, 10);
    ipasir_release(solver);
    CHECK(first >= LEAST_PARTS && second >= LEAST_PARTS);

    begin();
    CHECK(ask(2, 0) == 3);
    add_gates();
    long both = ask(-1, 10);
    ipasir_release(solver);
    CHECK(both > first && both > second);
    printf("%s: the callback is asked %ld times as two batches are simplified: all right\n", ipasir_signature(), first + second);
    return 0;
}
