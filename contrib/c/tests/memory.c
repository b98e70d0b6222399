/* Makes calls with the n-th allocation refused, and all after it, for each n: none crashes, and no answer is wrong. Link it with
 * -Wl,--wrap=malloc,--wrap=realloc,--wrap=calloc: compilers make malloc of a realloc of nothing. */
#include "../varisat.h"

#include <stdio.h>
#include <stdlib.h>
#include <unistd.h>

#define CHECK(it) ((it) ? (void)0 : (printf("%s:%d: %s\n", __FILE__, __LINE__, #it), exit(1)))

void *__real_malloc(size_t size);
void *__real_realloc(void *at, size_t size);
void *__real_calloc(size_t count, size_t size);

/* How many allocations are left; below 0: any number. */
static long left = -1;

static int is_refused(void) {
    return left == 0 || (left > 0 && left-- == 0);
}

void *__wrap_malloc(size_t size) {
    return is_refused() ? NULL : __real_malloc(size);
}

void *__wrap_realloc(void *at, size_t size) {
    return is_refused() ? NULL : __real_realloc(at, size);
}

void *__wrap_calloc(size_t count, size_t size) {
    return is_refused() ? NULL : __real_calloc(count, size);
}

static int take(void *data, const void *bytes, size_t size) {
    (void)bytes;
    *(size_t *)data += size;
    return 0;
}

/* Reads a text through a pipe. */
static int read_text(varisat *solver) {
    int ends[2];
    CHECK(!pipe(ends) && write(ends[1], "-6 7 0\n6 -7 0\n", 14) == 14 && !close(ends[1]));
    int answer = varisat_read_dimacs_fd(solver, ends[0]);
    CHECK(!close(ends[0]));
    return answer;
}

/* Whether the answer came, or memory ran out. */
static int is_there(int answer, int want) {
    CHECK(answer == want || answer == VARISAT_OUT_OF_MEMORY || answer == VARISAT_PROOF_IO || answer == VARISAT_INVALID);
    return answer == want;
}

/* Whether all calls came to their answers. */
static int is_answered(varisat *solver, size_t *bytes) {
    int32_t list[8];
    const int32_t rules[] = {-1, 2, 0, -2, -3, 0, 1, 3, 0}, both[] = {1, 3}, none[] = {-1, -3};
    int all = is_there(varisat_write_proof(solver, VARISAT_MARKED, take, bytes), 0);
    all &= is_there(varisat_read_dimacs(solver, "4 5 0\n-4 5", 10), 0) && is_there(varisat_read_dimacs(solver, " 0\n", 3), 0);
    if (all) all &= is_there(varisat_end_dimacs(solver), 5);
    if (all) all &= is_there(varisat_add_clauses(solver, rules, 9), 0);
    if (all) all &= is_there(varisat_set_phase(solver, 5), 0) && is_there(varisat_unset_phase(solver, 4), 0);
    if (all) all &= is_there(varisat_assume(solver, both, 2), 0) && is_there(varisat_solve(solver), VARISAT_UNSATISFIABLE);
    if (all) all &= is_there(varisat_failed_core(solver, list, 8), 2) && is_there(varisat_is_failed(solver, 1), 1);
    if (all) all &= is_there(varisat_assume(solver, NULL, 0), 0) && is_there(varisat_solve(solver), VARISAT_SATISFIABLE);
    if (all) all &= is_there(varisat_model(solver, list, 8), 5) && is_there(varisat_value(solver, 5), 1);
    if (all) all &= is_there(varisat_val(solver, -5), 5) && is_there(varisat_last_error(), 0) && is_there(varisat_var_count(solver), 5);
    if (all) all &= is_there(varisat_new_var(solver), 6) && is_there(varisat_hide_var(solver, 6), 0);
    if (all) all &= is_there(read_text(solver), 7) && is_there(varisat_var_count(solver), 7) && is_there(varisat_set_named(solver, "vsids_decay", 900), 0);
    if (all) all &= is_there(varisat_add(solver, 1), 0) && is_there(varisat_add(solver, 0), 0);
    if (all) all &= is_there(varisat_fixed(solver, 1), 1) && is_there(varisat_fixed(solver, -1), 0);
    if (all) all &= is_there(varisat_assume(solver, none, 2), 0) && is_there(varisat_solve(solver), VARISAT_UNSATISFIABLE);
    if (all) all &= is_there(varisat_close_proof(solver), 0);
    return all;
}

static int simplified(varisat_simplifier *simplifier, int call) {
    static int32_t list[8];
    const int32_t rules[] = {-1, 2, 0, -2, -3, 0, 1, 3, 4, 0, -4, 5, 0}, model[] = {1, -3};
    switch (call) {
    case 0: return varisat_simplifier_add_clauses(simplifier, rules, 13);
    case 1: return varisat_simplifier_freeze(simplifier, 3);
    case 2: return varisat_simplifier_simplify(simplifier);
    case 3: return varisat_simplifier_clauses(simplifier, list, 8);
    }
    int size = varisat_simplifier_extend(simplifier, model, 2, list, 8);
    CHECK(size < 0 || (size == 5 && list[0] == 1 && list[1] == 2 && list[2] == -3));
    return size;
}

/* How many calls of a simplifier were refused. Nothing changes there, so each is made again once there is memory. */
static int count_refused(varisat_simplifier *simplifier) {
    int refused = 0;
    for (int call = 0; call < 5; call++) {
        int answer = simplified(simplifier, call);
        if (answer >= 0) continue;
        CHECK(answer == VARISAT_OUT_OF_MEMORY);
        refused++;
        left = -1;
        CHECK(simplified(simplifier, call) >= 0);
    }
    return refused;
}

static int refuse_simplifiers(void) {
    int refused = 0;
    for (long most = 0;; most++) {
        left = most;
        varisat_simplifier *simplifier = varisat_simplifier_new(0);
        CHECK(varisat_last_error() == (simplifier ? 0 : VARISAT_OUT_OF_MEMORY));
        int more = simplifier ? count_refused(simplifier) : 1;
        CHECK(varisat_simplifier_free(simplifier) == 0);
        if (!more) return refused;
        refused += more;
    }
}

int main(void) {
    int unopened = 0, refused = 0;
    for (long most = 0;; most++) {
        size_t bytes = 0;
        left = most;
        varisat *solver = varisat_new(0);
        CHECK(varisat_last_error() == (solver ? 0 : VARISAT_OUT_OF_MEMORY));
        if (!solver) {
            unopened++;
            continue;
        }
        int answered = is_answered(solver, &bytes);
        CHECK(answered ? bytes > 0 : varisat_error(solver) != 0 && *varisat_error_text(solver));
        CHECK(varisat_free(solver) == 0);
        if (answered) break;
        refused++;
    }
    CHECK(unopened > 0 && refused > 70);
    int simplifiers = refuse_simplifiers();
    CHECK(simplifiers > 35);
    printf("%d refusals passed\n", unopened + refused + simplifiers);
}
