/* Random clients, whose answers are compared with a search through all assignments. It knows nothing of the solver behind it:
 * it links to any that has IPASIR. */
#include "check.h"

#include <string.h>

enum { MOST_VARIABLES = 12, MOST_CLAUSES = 200, MOST_LITERALS = 4, MOST_ASSUMPTIONS = 4, TURNS = 12 };

struct list {
    int numbers[MOST_LITERALS];
    int count;
};

static struct list clauses[MOST_CLAUSES], assumed;
static int clause_count;
static unsigned long long seed = 88172645463325252ULL;
/* CaDiCaL 1.5.3 tells the value of a negative literal with the other sign. */
static int asks_opposites;

static int draw(int below) {
    seed ^= seed << 13, seed ^= seed >> 7, seed ^= seed << 17;
    return (int)((seed >> 33) % (unsigned)below);
}

static int draw_literal(int variables) {
    int variable = 1 + draw(variables);
    return draw(2) ? variable : -variable;
}

/* Bit v - 1 is the value of the variable v. */
static int is_true(unsigned bits, int number) {
    return number > 0 ? bits >> (number - 1) & 1 : !(bits >> (-number - 1) & 1);
}

static int some_true(unsigned bits, const struct list *list) {
    for (int i = 0; i < list->count; i++)
        if (is_true(bits, list->numbers[i]))
            return 1;
    return 0;
}

static int all_true(unsigned bits, const struct list *list) {
    for (int i = 0; i < list->count; i++)
        if (!is_true(bits, list->numbers[i]))
            return 0;
    return 1;
}

static int satisfies(unsigned bits) {
    for (int i = 0; i < clause_count; i++)
        if (!some_true(bits, &clauses[i]))
            return 0;
    return 1;
}

/* Whether some assignment satisfies the clauses and makes the literals of the list true. */
static int is_possible(int variables, const struct list *list) {
    for (unsigned bits = 0; bits < 1u << variables; bits++)
        if (all_true(bits, list) && satisfies(bits))
            return 1;
    return 0;
}

static int names(const struct list *list, int variable) {
    for (int i = 0; i < list->count; i++)
        if (abs(list->numbers[i]) == variable)
            return 1;
    return 0;
}

static int is_given(int variable) {
    for (int i = 0; i < clause_count; i++)
        if (names(&clauses[i], variable))
            return 1;
    return names(&assumed, variable);
}

/* Mostly of three literals, at times a unit, and seldom empty. */
static void add_random_clause(void *solver, int variables) {
    struct list *clause = &clauses[clause_count++];
    clause->count = draw(500) == 0 ? 0 : draw(9) == 0 ? 1 : 2 + draw(MOST_LITERALS - 1);
    for (int i = 0; i < clause->count; i++)
        clause->numbers[i] = draw_literal(variables);
    add_clause(solver, clause->numbers, clause->count);
}

static void assume_some(void *solver, int variables) {
    assumed.count = draw(MOST_ASSUMPTIONS + 1);
    for (int i = 0; i < assumed.count; i++)
        ipasir_assume(solver, assumed.numbers[i] = draw_literal(variables));
}

static void check_model(void *solver, int variables) {
    unsigned bits = 0;
    for (int v = 1; v <= variables; v++) {
        if (!is_given(v))
            continue;
        int value = ipasir_val(solver, v);
        CHECK(value == v || value == -v || value == 0);
        if (asks_opposites) {
            CHECK(value != 0);
            CHECK(ipasir_val(solver, -v) == value);
        }
        if (value > 0)
            bits |= 1u << (v - 1);
    }
    CHECK(satisfies(bits));
    CHECK(all_true(bits, &assumed));
}

/* The assumptions that failed are a core. */
static void check_core(void *solver, int variables) {
    struct list core = {.count = 0};
    for (int i = 0; i < assumed.count; i++)
        if (ipasir_failed(solver, assumed.numbers[i]))
            core.numbers[core.count++] = assumed.numbers[i];
    CHECK(!is_possible(variables, &core));
}

static void play(int variables) {
    void *solver = ipasir_init();
    CHECK(solver);
    clause_count = 0;
    for (int turn = 0; turn < TURNS; turn++) {
        for (int more = draw(8); more > 0; more--)
            add_random_clause(solver, variables);
        assume_some(solver, variables);
        int answer = ipasir_solve(solver);
        CHECK(answer == (is_possible(variables, &assumed) ? 10 : 20));
        if (answer == 10)
            check_model(solver, variables);
        else
            check_core(solver, variables);
    }
    ipasir_release(solver);
}

static int polls;

static int ends_at(void *most) {
    return ++polls >= *(int *)most;
}

/* A search that its callback ends, and what is asked after it. */
static void interrupt(void) {
    void *solver = ipasir_init();
    int most = 5;
    ipasir_set_terminate(solver, &most, ends_at);
    add_pigeons(solver, 11, 0);
    CHECK(ipasir_solve(solver) == 0);
    CHECK(polls >= most);
    ipasir_set_terminate(solver, NULL, NULL);
    add_clause(solver, (int[]){-1, -2}, 2);
    ipasir_assume(solver, 1);
    ipasir_assume(solver, 2);
    CHECK(ipasir_solve(solver) == 20);
    CHECK(ipasir_failed(solver, 1) && ipasir_failed(solver, 2) && !ipasir_failed(solver, 3));
    ipasir_release(solver);
}

int main(int count, char **words) {
    int rounds = count > 1 ? atoi(words[1]) : 1000;
    asks_opposites = !strncmp(ipasir_signature(), "varisat", 7);
    for (int i = 0; i < rounds; i++)
        play(2 + i % (MOST_VARIABLES - 1));
    void *solver = ipasir_init();
    add_pigeons(solver, 7, 0);
    CHECK(ipasir_solve(solver) == 20);
    ipasir_release(solver);
    interrupt();
    printf("%s: %d rounds of %d searches: all right\n", ipasir_signature(), rounds, TURNS);
    return 0;
}
