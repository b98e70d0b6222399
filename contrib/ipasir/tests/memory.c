/* Runs a client with the n-th allocation refused, and all after it, for each n: it does not crash, and no answer is wrong. Link
 * it with -Wl,--wrap=calloc,--wrap=realloc. */
#include "check.h"

#include "../../c/varisat.h"

void *__real_calloc(size_t count, size_t size);
void *__real_realloc(void *at, size_t size);

/* How many allocations are left; below 0: any number. */
static long left = -1;

static int is_refused(void) {
    return left == 0 || (left > 0 && left-- == 0);
}

void *__wrap_calloc(size_t count, size_t size) {
    return is_refused() ? NULL : __real_calloc(count, size);
}

void *__wrap_realloc(void *at, size_t size) {
    return is_refused() ? NULL : __real_realloc(at, size);
}

enum { FIRST = 50, LAST = 90, NAMED = 70 };

/* Each variable from 52 on is the XOR of the two before it. */
static void add_gates(void *solver) {
    for (int x = FIRST + 2; x <= LAST; x++) {
        add_clause(solver, (int[]){-x, x - 1, x - 2}, 3);
        add_clause(solver, (int[]){-x, 1 - x, 2 - x}, 3);
        add_clause(solver, (int[]){x, 1 - x, x - 2}, 3);
        add_clause(solver, (int[]){x, x - 1, 2 - x}, 3);
    }
}

static void check_gates(void *solver) {
    for (int x = FIRST + 2; x <= LAST; x++)
        CHECK((ipasir_val(solver, x) > 0) == ((ipasir_val(solver, x - 1) > 0) != (ipasir_val(solver, x - 2) > 0)));
}

/* A search under assumptions that fail, one that finds a model in which an eliminated variable is true that it assumes, and one that finds
 * that there is none: whether all came to an answer. */
static int is_answered(void *solver) {
    ipasir_assume(solver, 41);
    ipasir_assume(solver, -42);
    add_clause(solver, (int[]){-41, 42}, 2);
    add_gates(solver);
    int answers[3];
    answers[0] = ipasir_solve(solver);
    CHECK(answers[0] == 0 || (answers[0] == 20 && ipasir_failed(solver, 41) && ipasir_failed(solver, -42)));
    ipasir_assume(solver, NAMED);
    answers[1] = ipasir_solve(solver);
    CHECK(answers[1] == 0 || (answers[0] == 20 && answers[1] == 10 && ipasir_val(solver, 41) != 0 && ipasir_val(solver, NAMED) == NAMED));
    if (answers[1] == 10)
        check_gates(solver);
    add_pigeons(solver, 5, 0);
    answers[2] = ipasir_solve(solver);
    CHECK(answers[2] == 0 || (answers[1] == 10 && answers[2] == 20));
    return answers[2] == 20;
}

/* Refuses the n-th allocation and all after it, for each n, of clients that simplify batches of so many literals. */
static void refuse_in_turn(int literals) {
    int unopened = 0, refused = 0;
    for (long most = 0;; most++) {
        left = most;
        void *solver = ipasir_init();
        if (!solver) {
            unopened++;
            continue;
        }
        CHECK(varisat_ipasir_set(solver, "simplify", literals) == 1);
        int answered = is_answered(solver);
        /* Running out of memory is told, and nothing else. */
        CHECK(varisat_ipasir_error(solver) == (answered ? 0 : VARISAT_OUT_OF_MEMORY));
        CHECK(answered || (ipasir_solve(solver) == 0 && ipasir_val(solver, 41) == 0 && ipasir_failed(solver, 41) == 0));
        CHECK(!answered || (varisat_ipasir_counter(solver, "restored") > 0) == (literals == 1));
        ipasir_release(solver);
        if (answered)
            break;
        refused++;
    }
    left = -1;
    CHECK(unopened > 0 && refused > 20);
    printf("allocations refused in turn: %d without a solver, %d without an answer: all right\n", unopened, refused);
}

int main(void) {
    refuse_in_turn(1);
    refuse_in_turn(1000);
    return 0;
}
