/* Incremental calls over 100,000 variables, through IPASIR, so that any solver that has it can be linked. It prints the
 * processor's milliseconds of giving the clauses, of the first search, and of all further calls with their searches; the largest
 * resident size in KiB; how many searches were satisfiable; and a checksum of all answers, which is the same for each solver. */
#include "client.h"

#include <sys/resource.h>

enum {
    VARIABLES = 100000,
    IMPLICATIONS = 60000,
    CLAUSES = 100000,
    MORE = 10,
    ASSUMPTIONS = 200,
    VALUES = 1000,
};

static int draw_literal(void) {
    return draw_sign(1 + draw(VARIABLES));
}

static void add_random_clause(void *solver, int length) {
    for (int i = 0; i < length; i++)
        ipasir_add(solver, draw_literal());
    ipasir_add(solver, 0);
}

/* Reads values of variables that were given, as a program does that looks at a model. */
static void read_values(void *solver, const int *assumed) {
    for (int i = 0; i < ASSUMPTIONS; i++)
        if (ipasir_val(solver, abs(assumed[i])) != assumed[i])
            stop("an assumption is not true in the model");
    for (int i = 0; i < VALUES; i++) {
        int variable = 1 + i * (VARIABLES / VALUES);
        int value = ipasir_val(solver, variable);
        if (abs(value) != variable && value != 0)
            stop("a value is no value");
    }
}

static void read_core(void *solver, const int *assumed) {
    int count = 0;
    for (int i = 0; i < ASSUMPTIONS; i++)
        count += ipasir_failed(solver, assumed[i]);
    if (count == 0)
        stop("nothing failed");
}

/* Adds clauses, assumes literals, searches, and reads what came of it: whether it was satisfiable. */
static int ask(void *solver) {
    for (int i = 0; i < MORE; i++)
        add_random_clause(solver, 3);
    int assumed[ASSUMPTIONS];
    for (int i = 0; i < ASSUMPTIONS; i++)
        ipasir_assume(solver, assumed[i] = draw_literal());
    int answer = ipasir_solve(solver);
    if (answer != 10 && answer != 20)
        stop("a search came to no end");
    if (answer == 10)
        read_values(solver, assumed);
    else
        read_core(solver, assumed);
    return answer == 10;
}

int main(int count, char **words) {
    int calls = count > 1 ? atoi(words[1]) : 1000;
    void *solver = ipasir_init();
    double started = milliseconds();
    for (int i = 0; i < IMPLICATIONS; i++)
        add_random_clause(solver, 2);
    for (int i = 0; i < CLAUSES; i++)
        add_random_clause(solver, 3);
    double given = milliseconds();
    if (ipasir_solve(solver) != 10)
        stop("the clauses alone have a model");
    double first = milliseconds();
    int satisfiable = 0;
    unsigned checksum = 0;
    for (int i = 0; i < calls; i++) {
        int answer = ask(solver);
        satisfiable += answer;
        checksum = checksum * 31 + (unsigned)answer;
    }
    double ended = milliseconds();
    struct rusage usage;
    getrusage(RUSAGE_SELF, &usage);
    printf("%.1f %.1f %.1f %ld %d %u\n", given - started, first - given, ended - first, usage.ru_maxrss, satisfiable, checksum);
    ipasir_release(solver);
    return 0;
}
