/* Random clients that give clauses in batches, some of which are simplified, and name eliminated variables again. Their callbacks end some
 * searches, also while a batch is simplified. The variables are a few inputs, and gates of earlier variables, so that a table of all values
 * of the inputs says what each search has to answer. */
#include "check.h"

#include "../../c/varisat.h"

#include <string.h>

enum {
    INPUTS = 8,
    ROWS = 1 << INPUTS,
    WORDS = ROWS / 64,
    MOST_VARIABLES = 3000,
    MOST_NUMBERS = 60000,
    MOST_ASSUMPTIONS = 12,
};

/* Bit k is the value in row k, in which the inputs have the values of the bits of k. */
struct table {
    uint64_t words[WORDS];
};

static struct table tables[MOST_VARIABLES + 1], allowed;
static int numbers[MOST_NUMBERS];
static int number_count, variables;
static int assumed[MOST_ASSUMPTIONS];
static int assumed_count;
static unsigned long long seed = 88172645463325252ULL;
static void *solver;
static long searches, satisfiable, ended, eliminated, restored;
/* How often the callback goes on before it ends the search. */
static int patience;

static int draw(int below) {
    seed ^= seed << 13, seed ^= seed >> 7, seed ^= seed << 17;
    return (int)((seed >> 33) % (unsigned)below);
}

static int draw_literal(void) {
    int variable = 1 + draw(variables);
    return draw(2) ? variable : -variable;
}

static uint64_t word_of(int literal, int index) {
    uint64_t word = tables[abs(literal)].words[index];
    return literal > 0 ? word : ~word;
}

/* Whether some row is left in which all literals are true. */
static int is_possible(const int *literals, int count) {
    for (int i = 0; i < WORDS; i++) {
        uint64_t left = allowed.words[i];
        for (int k = 0; k < count; k++)
            left &= word_of(literals[k], i);
        if (left)
            return 1;
    }
    return 0;
}

static void give(const int *literals, int count) {
    add_clause(solver, literals, count);
    memcpy(numbers + number_count, literals, (size_t)count * sizeof *literals);
    number_count += count;
    numbers[number_count++] = 0;
}

/* A clause that leaves only the rows in which it is true. */
static void constrain(const int *literals, int count) {
    give(literals, count);
    for (int i = 0; i < WORDS; i++) {
        uint64_t some = 0;
        for (int k = 0; k < count; k++)
            some |= word_of(literals[k], i);
        allowed.words[i] &= some;
    }
}

static void add_input(void) {
    int input = ++variables;
    for (int row = 0; row < ROWS; row++)
        if (row >> (input - 1) & 1)
            tables[input].words[row / 64] |= 1ULL << row % 64;
}

/* A new variable, and the clauses that make it an AND, an XOR or a choice of earlier ones. */
static void add_gate(void) {
    int a = draw_literal(), b = draw_literal(), c = draw_literal(), kind = draw(3), x = ++variables;
    for (int i = 0; i < WORDS; i++) {
        uint64_t p = word_of(a, i), q = word_of(b, i), r = word_of(c, i);
        tables[x].words[i] = kind == 0 ? p & q : kind == 1 ? p ^ q : (p & q) | (~p & r);
    }
    if (kind == 0) {
        give((int[]){-x, a}, 2), give((int[]){-x, b}, 2), give((int[]){x, -a, -b}, 3);
    } else if (kind == 1) {
        give((int[]){-x, a, b}, 3), give((int[]){-x, -a, -b}, 3), give((int[]){x, -a, b}, 3), give((int[]){x, a, -b}, 3);
    } else {
        give((int[]){-x, -a, b}, 3), give((int[]){-x, a, c}, 3), give((int[]){x, -a, -b}, 3), give((int[]){x, a, -c}, 3);
    }
}

/* Gives gates of about so many literals, and seldom a clause that not all rows satisfy. */
static void give_batch(int literals) {
    int most = number_count + literals + draw(literals);
    while (number_count < most && number_count + 64 < MOST_NUMBERS && variables < MOST_VARIABLES) {
        if (draw(30) == 0)
            varisat_ipasir_freeze(solver, 1 + draw(variables + 3));
        if (draw(30) == 0)
            varisat_ipasir_melt(solver, 1 + draw(variables + 3));
        add_gate();
        if (draw(25) == 0)
            constrain((int[]){draw_literal(), draw_literal(), draw_literal(), draw_literal()}, 4);
        if (draw(400) == 0)
            constrain((int[]){draw_literal()}, 1);
    }
}

/* Each clause that was ever given, and each assumption, is true in the model. */
static void check_model(void) {
    int some = 0;
    for (int i = 0; i < number_count; i++) {
        if (numbers[i] == 0) {
            CHECK(some);
            some = 0;
        } else {
            int value = ipasir_val(solver, numbers[i]);
            CHECK(abs(value) == abs(numbers[i]));
            some = some || value == numbers[i];
        }
    }
    for (int i = 0; i < assumed_count; i++)
        CHECK(ipasir_val(solver, assumed[i]) == assumed[i]);
    CHECK(ipasir_val(solver, variables + 1000) == 0);
}

/* The assumptions that failed are a core, and nothing else failed. */
static void check_core(void) {
    int core[MOST_ASSUMPTIONS], count = 0;
    for (int i = 0; i < assumed_count; i++)
        if (ipasir_failed(solver, assumed[i]))
            core[count++] = assumed[i];
    CHECK(!is_possible(core, count));
    int other = draw_literal(), is_assumed = 0;
    for (int i = 0; i < assumed_count; i++)
        is_assumed = is_assumed || assumed[i] == other;
    CHECK(is_assumed || !ipasir_failed(solver, other));
}

static int ends(void *data) {
    (void)data;
    return patience-- == 0;
}

/* A search under new assumptions: its answer, which is right or 0. */
static int ask(void) {
    assumed_count = draw(3) ? draw(4) : draw(MOST_ASSUMPTIONS + 1);
    for (int i = 0; i < assumed_count; i++)
        ipasir_assume(solver, assumed[i] = draw_literal());
    int answer = ipasir_solve(solver);
    CHECK(answer == 0 || answer == (is_possible(assumed, assumed_count) ? 10 : 20));
    return answer;
}

/* A search that the callback may end, in any part of a batch. */
static void try_to_search(void) {
    patience = draw(8);
    ipasir_set_terminate(solver, NULL, ends);
    ended += ask() == 0;
    ipasir_set_terminate(solver, NULL, NULL);
}

static void search(void) {
    if (draw(3) == 0)
        try_to_search();
    int answer = ask();
    CHECK(answer != 0);
    searches++;
    if (answer == 10)
        satisfiable++, check_model();
    else
        check_core();
}

static void play(int literals) {
    solver = ipasir_init();
    CHECK(solver);
    CHECK(varisat_ipasir_set(solver, "simplify", literals < 1000 ? 1 : 1000) == 1);
    memset(tables, 0, sizeof tables);
    memset(&allowed, 255, sizeof allowed);
    number_count = variables = 0;
    while (variables < INPUTS)
        add_input();
    for (int turn = 4 + draw(8); turn > 0; turn--) {
        give_batch(draw(4) ? literals : 1 + draw(20));
        for (int k = draw(5); k >= 0; k--)
            search();
    }
    eliminated += varisat_ipasir_counter(solver, "eliminated");
    restored += varisat_ipasir_counter(solver, "restored");
    ipasir_release(solver);
}

int main(int count, char **words) {
    int most = count > 1 ? atoi(words[1]) : 2000;
    for (int i = 0; searches < most; i++)
        play(i % 8 ? 20 + draw(150) : 1200);
    CHECK(eliminated > searches && restored > 0 && restored < eliminated);
    CHECK(satisfiable > most / 20 && satisfiable < searches && ended > most / 20);
    printf("%s: %ld searches over batches, %ld satisfiable, %ld more ended, %ld variables eliminated, %ld restored: all right\n",
        ipasir_signature(), searches, satisfiable, ended, eliminated, restored);
    return 0;
}
