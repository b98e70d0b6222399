/* Random calls, whose answers are compared with a search through all assignments. random ROUNDS */
#include "../varisat.h"

#include <stdio.h>
#include <stdlib.h>
#include <unistd.h>

#define CHECK(it) ((it) ? (void)0 : (printf("%s:%d: round %ld: %s\n", __FILE__, __LINE__, round_number, #it), exit(1)))

enum { MOST_VARIABLES = 10, MOST_CLAUSES = 80, MOST_LITERALS = 4, MOST_ASSUMED = 4, TURNS = 12, ROOM = 16, LEFT = 2000 };

struct clause {
    int32_t literals[MOST_LITERALS];
    size_t count;
};

static long round_number;
static struct clause clauses[MOST_CLAUSES], assumed;
static size_t clause_count;
static uint64_t seed = 88172645463325252u;

static int draw(int below) {
    seed ^= seed << 13, seed ^= seed >> 7, seed ^= seed << 17;
    return (int)((seed >> 33) % (unsigned)below);
}

static void draw_clause(struct clause *clause, int variables, int most) {
    clause->count = (size_t)draw(most + 1);
    for (size_t i = 0; i < clause->count; i++)
        clause->literals[i] = (1 + draw(variables)) * (draw(2) ? 1 : -1);
}

/* Bit v - 1 of an assignment is the value of the variable v. */
static int is_true(unsigned values, int32_t literal) {
    return literal > 0 ? values >> (literal - 1) & 1 : !(values >> (-literal - 1) & 1);
}

static int satisfies(unsigned values) {
    for (size_t c = 0; c < clause_count; c++) {
        int some = 0;
        for (size_t i = 0; i < clauses[c].count; i++) some |= is_true(values, clauses[c].literals[i]);
        if (!some) return 0;
    }
    return 1;
}

/* Whether some assignment satisfies the clauses and makes these literals true. */
static int is_satisfiable(int variables, const int32_t *literals, size_t count) {
    for (unsigned values = 0; values < 1u << variables; values++) {
        int all = satisfies(values);
        for (size_t i = 0; i < count; i++) all &= is_true(values, literals[i]);
        if (all) return 1;
    }
    return 0;
}

static void check_model(varisat *solver, int variables) {
    int32_t model[ROOM];
    unsigned values = 0;
    int count = varisat_model(solver, model, ROOM);
    CHECK(count >= 0 && count <= ROOM);
    for (int i = 0; i < count; i++) {
        CHECK(i == 0 || abs(model[i - 1]) < abs(model[i]));
        CHECK(varisat_value(solver, model[i]) == 1 && varisat_value(solver, -model[i]) == 0);
        CHECK(varisat_val(solver, model[i]) == model[i] && varisat_val(solver, -model[i]) == model[i] && varisat_last_error() == 0);
        if (abs(model[i]) <= variables && model[i] > 0) values |= 1u << (model[i] - 1);
    }
    CHECK(satisfies(values));
    for (size_t i = 0; i < assumed.count; i++) CHECK(is_true(values, assumed.literals[i]));
    CHECK(varisat_failed_core(solver, model, ROOM) == VARISAT_NOTHING);
}

static void check_core(varisat *solver, int variables) {
    int32_t core[ROOM];
    int count = varisat_failed_core(solver, core, ROOM);
    CHECK(count >= 0 && count <= ROOM);
    for (int i = 0; i < count; i++) {
        int is_assumed = 0;
        for (size_t j = 0; j < assumed.count; j++) is_assumed |= assumed.literals[j] == core[i];
        CHECK(is_assumed && varisat_is_failed(solver, core[i]) == 1);
    }
    for (size_t j = 0; j < assumed.count; j++) {
        int is_in = 0;
        for (int i = 0; i < count; i++) is_in |= assumed.literals[j] == core[i];
        CHECK(varisat_is_failed(solver, assumed.literals[j]) == is_in);
    }
    CHECK(!is_satisfiable(variables, core, (size_t)count));
    CHECK(varisat_model(solver, core, ROOM) == VARISAT_NOTHING);
}

/* What is fixed is true wherever the clauses are, and to ask for it changes nothing. */
static void check_fixed(varisat *solver, int variables) {
    for (int v = 1; v <= variables; v++)
        for (int sign = -1; sign <= 1; sign += 2) {
            int32_t literal = v * sign, opposite = -literal;
            int fixed = varisat_fixed(solver, literal);
            CHECK(fixed == 0 || fixed == 1);
            CHECK(!fixed || !is_satisfiable(variables, &opposite, 1));
        }
    /* A clause of one literal fixes it at once. */
    for (size_t c = 0; c < clause_count; c++)
        if (clauses[c].count == 1 && is_satisfiable(variables, NULL, 0)) CHECK(varisat_fixed(solver, clauses[c].literals[0]) == 1);
}

/* Gives the text through a pipe. */
static void add_file(varisat *solver, const char *text, size_t size) {
    int ends[2];
    CHECK(!pipe(ends) && write(ends[1], text, size) == (ssize_t)size && !close(ends[1]));
    CHECK(varisat_read_dimacs_fd(solver, ends[0]) >= 0 && !close(ends[0]));
}

/* Gives the clause in one of four ways. */
static void add(varisat *solver, const struct clause *clause) {
    char text[100], *end = text;
    int way = draw(4);
    switch (way) {
    case 0: CHECK(varisat_add_clause(solver, clause->literals, clause->count) == 0); break;
    case 1:
        for (size_t i = 0; i < clause->count; i++) CHECK(varisat_add(solver, clause->literals[i]) == 0);
        CHECK(varisat_add(solver, 0) == 0);
        break;
    default:
        for (size_t i = 0; i < clause->count; i++) end += sprintf(end, "%d ", clause->literals[i]);
        end += sprintf(end, "0\n");
        if (way == 2) add_file(solver, text, (size_t)(end - text));
        else CHECK(varisat_read_dimacs(solver, text, (size_t)(end - text)) == 0 && varisat_end_dimacs(solver) >= 0);
    }
}

static void play(void) {
    varisat *solver = varisat_new(0);
    int variables = 2 + draw(MOST_VARIABLES - 1);
    clause_count = assumed.count = 0;
    for (int turn = 0; turn < TURNS; turn++) {
        for (int more = draw(MOST_CLAUSES / TURNS); more > 0; more--) {
            draw_clause(&clauses[clause_count], variables, MOST_LITERALS);
            /* An empty clause would end the game early. */
            if (!clauses[clause_count].count && draw(20)) continue;
            add(solver, &clauses[clause_count++]);
        }
        if (draw(3)) {
            draw_clause(&assumed, variables, MOST_ASSUMED);
            CHECK(varisat_assume(solver, assumed.literals, assumed.count) == 0);
        }
        if (draw(2)) check_fixed(solver, variables);
        /* No verdict depends on phases. */
        for (int more = draw(4); more > 0; more--) {
            int variable = 1 + draw(variables);
            CHECK((draw(3) ? varisat_set_phase(solver, draw(2) ? variable : -variable) : varisat_unset_phase(solver, variable)) == 0);
        }
        int answer = draw(2) ? varisat_solve(solver) : varisat_solve_steps(solver, (uint64_t)draw(3));
        if (draw(2)) check_fixed(solver, variables);
        if (answer == VARISAT_UNKNOWN) continue;
        CHECK(answer == (is_satisfiable(variables, assumed.literals, assumed.count) ? VARISAT_SATISFIABLE : VARISAT_UNSATISFIABLE));
        if (answer == VARISAT_SATISFIABLE) check_model(solver, variables);
        else check_core(solver, variables);
    }
    CHECK(varisat_is_valid(solver) == 1 && varisat_error(solver) != VARISAT_INVALID && varisat_free(solver) == 0);
}

/* What is left of the clauses, each ended by a 0. */
static int32_t left[LEFT];
static int left_size;

static int satisfies_left(unsigned values) {
    int some = 0;
    for (int i = 0; i < left_size; i++) {
        if (!left[i] && !some) return 0;
        some = left[i] ? some | is_true(values, left[i]) : 0;
    }
    return 1;
}

/* Draws clauses for the simplifier and flags of its frozen variables, and simplifies. */
static unsigned draw_simplified(varisat_simplifier *simplifier, int variables) {
    unsigned frozen = 0;
    clause_count = 0;
    for (int more = draw(3 * variables); more > 0; more--) {
        struct clause *clause = &clauses[clause_count];
        draw_clause(clause, variables, MOST_LITERALS);
        if (!clause->count && draw(20)) continue;
        CHECK(varisat_simplifier_add_clause(simplifier, clause->literals, clause->count) == 0);
        clause_count++;
    }
    for (int v = 1; v <= variables; v++)
        if (!draw(3)) {
            frozen |= 1u << (v - 1);
            CHECK(varisat_simplifier_freeze(simplifier, v) == 0);
        }
    CHECK(varisat_simplifier_simplify(simplifier) == 0);
    left_size = varisat_simplifier_clauses(simplifier, left, LEFT);
    CHECK(left_size >= 0 && left_size <= LEFT);
    return frozen;
}

/* Extends the model: the values satisfy the clauses, and those of frozen variables are the same. */
static void check_extension(varisat_simplifier *simplifier, unsigned frozen, const int32_t *model, int count) {
    int32_t list[ROOM];
    unsigned values = 0;
    int size = varisat_simplifier_extend(simplifier, model, (size_t)count, list, ROOM);
    CHECK(size >= 0 && size <= ROOM);
    for (int i = 0; i < size; i++) {
        CHECK(abs(list[i]) == i + 1);
        if (list[i] > 0) values |= 1u << i;
    }
    CHECK(satisfies(values));
    for (int i = 0; i < count; i++) {
        int v = abs(model[i]);
        if (v <= size && frozen >> (v - 1) & 1) CHECK(list[v - 1] == model[i]);
    }
}

/* Under each assignment of the frozen variables what is left is satisfiable just where the clauses are, and each of its models is extended,
 * those that a solver finds too. */
static void simplify(void) {
    varisat_simplifier *simplifier = varisat_simplifier_new(0);
    int variables = 2 + draw(MOST_VARIABLES - 3);
    unsigned frozen = draw_simplified(simplifier, variables), all = 1u << variables;
    static char given_there[1 << MOST_VARIABLES], left_there[1 << MOST_VARIABLES];
    for (unsigned values = 0; values < all; values++) given_there[values] = left_there[values] = 0;
    for (unsigned values = 0; values < all; values++) {
        given_there[values & frozen] |= (char)satisfies(values);
        if (!satisfies_left(values)) continue;
        left_there[values & frozen] = 1;
        int32_t model[ROOM];
        int first = draw(variables);
        for (int i = 0; i < variables; i++) {
            int v = (first + i) % variables + 1;
            model[i] = values >> (v - 1) & 1 ? v : -v;
        }
        check_extension(simplifier, frozen, model, variables);
    }
    for (unsigned values = 0; values < all; values++) CHECK(given_there[values] == left_there[values]);
    varisat *solver = varisat_new(0);
    int32_t model[ROOM];
    CHECK(varisat_add_clauses(solver, left, (size_t)left_size) == 0);
    if (varisat_solve(solver) == VARISAT_SATISFIABLE) check_extension(simplifier, frozen, model, varisat_model(solver, model, ROOM));
    else CHECK(!is_satisfiable(variables, NULL, 0));
    CHECK(varisat_free(solver) == 0 && varisat_simplifier_free(simplifier) == 0);
}

int main(int count, char **words) {
    long rounds = count > 1 ? atol(words[1]) : 1000;
    for (round_number = 0; round_number < rounds; round_number++) play(), simplify();
    printf("%ld random rounds passed\n", rounds);
}
