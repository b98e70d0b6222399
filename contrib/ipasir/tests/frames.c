/* A client that unrolls a random circuit frame by frame. It names the same gates of each frame in the next one, and these are no longer
 * eliminated once that was seen, so that nothing is restored later. */
#include "check.h"

#include "../../c/varisat.h"

enum { LATCHES = 60, INPUTS = 20, GATES = 800, VARIABLES = LATCHES + INPUTS + GATES, FRAMES = 12, SEEN = 3 };

/* A gate of each frame is the conjunction of two literals of latches, inputs and gates before it. A literal is twice the variable's
 * place in the frame, and one more if it is negated. */
static int reads[GATES][2];
/* The solver's variables of the last frame: of latches, of inputs, and of gates. */
static int variables[VARIABLES];
static int variable_count;
static unsigned long long seed = 88172645463325252ULL;
static void *solver;

static int draw(int below) {
    seed ^= seed << 13, seed ^= seed >> 7, seed ^= seed << 17;
    return (int)((seed >> 33) % (unsigned)below);
}

static int in_frame(int literal) {
    return literal % 2 ? -variables[literal / 2] : variables[literal / 2];
}

/* Gives a frame, whose latches are the last gates of the frame before, or new variables in the first one. */
static void add_frame(int frame) {
    for (int latch = 0; latch < LATCHES; latch++)
        variables[latch] = frame > 1 ? variables[VARIABLES - LATCHES + latch] : ++variable_count;
    for (int place = LATCHES; place < VARIABLES; place++)
        variables[place] = ++variable_count;
    for (int gate = 0; gate < GATES; gate++) {
        int out = variables[LATCHES + INPUTS + gate], left = in_frame(reads[gate][0]), right = in_frame(reads[gate][1]);
        add_clause(solver, (int[]){-out, left}, 2);
        add_clause(solver, (int[]){-out, right}, 2);
        add_clause(solver, (int[]){out, -left, -right}, 3);
    }
}

int main(void) {
    int64_t eliminated = 0, restored = 0;
    for (int gate = 0; gate < GATES; gate++)
        for (int k = 0; k < 2; k++)
            reads[gate][k] = draw(2 * (LATCHES + INPUTS + gate));
    solver = ipasir_init();
    CHECK(solver);
    CHECK(varisat_ipasir_set(solver, "simplify", 1000) == 1);
    for (int frame = 1; frame <= FRAMES; frame++) {
        add_frame(frame);
        ipasir_assume(solver, variables[LATCHES + INPUTS + GATES / 2]);
        CHECK(ipasir_solve(solver) != 0);
        int64_t all = varisat_ipasir_counter(solver, "eliminated"), back = varisat_ipasir_counter(solver, "restored");
        CHECK(all > eliminated + GATES / 4);
        CHECK(frame == 1 || back > 0);
        CHECK(frame <= SEEN || back == restored);
        eliminated = all, restored = back;
    }
    ipasir_release(solver);
    printf("%s: %d frames, %ld variables eliminated, %ld restored: all right\n", ipasir_signature(), FRAMES, (long)eliminated, (long)restored);
    return 0;
}
