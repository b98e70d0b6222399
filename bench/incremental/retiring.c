/* Calls whose clauses are retired, as model checkers make them, through IPASIR. One step of a random circuit is given once. Each
 * call asks whether a cube of its states has a predecessor outside the cube. The clause that leaves the cube out, and twenty lemmas or
 * as many as the second argument says, hold with a literal of their own, which the call assumes; a unit clause makes it false for good
 * once the call is answered.
 *
 * Printed is a line for each 1,000 calls: how many were made; the processor's milliseconds of one of the last 500; the resident size
 * in KiB; how many searches were satisfiable; and a checksum of all answers so far, which is the same for each solver. */
#include "client.h"

#include <unistd.h>

enum {
    LATCHES = 500,
    INPUTS = 200,
    GATES = 10000,
    CUBE = 12,
    LEMMA = 3,
    TOLD = 1000,
    TIMED = 500,
};

/* How many lemmas a call gives. */
static int lemmas = 20;

/* The literal that a latch has after the step. */
static int next[LATCHES];

static void add(void *solver, const int *lits, int count) {
    for (int i = 0; i < count; i++)
        ipasir_add(solver, lits[i]);
    ipasir_add(solver, 0);
}

static void give_and(void *solver, int out, int a, int b) {
    add(solver, (int[]){-out, a}, 2);
    add(solver, (int[]){-out, b}, 2);
    add(solver, (int[]){out, -a, -b}, 3);
}

static void give_xor(void *solver, int out, int a, int b) {
    add(solver, (int[]){-out, a, b}, 3);
    add(solver, (int[]){-out, -a, -b}, 3);
    add(solver, (int[]){out, -a, b}, 3);
    add(solver, (int[]){out, a, -b}, 3);
}

/* Gives a circuit whose variables are latches, inputs and gates, in this order, and returns how many it has. A gate reads two of the
 * variables before it. */
static int give_circuit(void *solver) {
    int count = LATCHES + INPUTS;
    for (int gate = 0; gate < GATES; gate++) {
        int a = draw_sign(1 + draw(count)), b = draw_sign(1 + draw(count));
        count++;
        if (draw(4))
            give_and(solver, count, a, b);
        else
            give_xor(solver, count, a, b);
    }
    for (int latch = 0; latch < LATCHES; latch++)
        next[latch] = draw_sign(count - draw(GATES / 2));
    return count;
}

static int after_step(int literal) {
    return literal > 0 ? next[literal - 1] : -next[-literal - 1];
}

/* Gives a clause that holds where the literal is true. */
static void give_while(void *solver, int literal, const int *lits, int count) {
    ipasir_add(solver, -literal);
    add(solver, lits, count);
}

static void draw_states(int *lits, int count) {
    for (int i = 0; i < count; i++)
        lits[i] = draw_sign(1 + draw(LATCHES));
}

/* One call, whose clauses hold with this literal: 10 or 20. */
static int ask(void *solver, int literal) {
    int cube[CUBE], outside[CUBE], lemma[LEMMA];
    draw_states(cube, CUBE);
    for (int i = 0; i < CUBE; i++)
        outside[i] = -cube[i];
    give_while(solver, literal, outside, CUBE);
    for (int i = 0; i < lemmas; i++) {
        draw_states(lemma, LEMMA);
        give_while(solver, literal, lemma, LEMMA);
    }
    ipasir_assume(solver, literal);
    for (int i = 0; i < CUBE; i++)
        ipasir_assume(solver, after_step(cube[i]));
    int answer = ipasir_solve(solver), told = 0;
    if (answer != 10 && answer != 20)
        stop("a search came to no end");
    for (int latch = 1; answer == 10 && latch <= LATCHES; latch++)
        told += ipasir_val(solver, latch) != 0;
    for (int i = 0; answer == 20 && i < CUBE; i++)
        told += ipasir_failed(solver, after_step(cube[i]));
    if (answer == 10 && told == 0)
        stop("a model has no values");
    add(solver, (int[]){-literal}, 1);
    return answer;
}

static long resident_kibibytes(void) {
    long pages = 0;
    FILE *file = fopen("/proc/self/statm", "r");
    if (!file || fscanf(file, "%*d %ld", &pages) != 1)
        stop("/proc/self/statm does not tell the resident size");
    fclose(file);
    return pages * (sysconf(_SC_PAGESIZE) / 1024);
}

int main(int count, char **words) {
    int calls = count > 1 ? atoi(words[1]) : 10000;
    if (count > 2)
        lemmas = atoi(words[2]);
    void *solver = ipasir_init();
    int variables = give_circuit(solver);
    int satisfiable = 0;
    unsigned checksum = 0;
    double began = 0;
    for (int call = 1; call <= calls; call++) {
        int answer = ask(solver, variables + call);
        satisfiable += answer == 10;
        checksum = checksum * 31 + (unsigned)answer;
        if (call % TOLD == TOLD - TIMED)
            began = milliseconds();
        if (call % TOLD == 0)
            printf("%d %.4f %ld %d %u\n", call, (milliseconds() - began) / TIMED, resident_kibibytes(), satisfiable, checksum);
    }
    ipasir_release(solver);
    return 0;
}
