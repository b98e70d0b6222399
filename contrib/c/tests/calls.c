/* Each call, used rightly and wrongly. */
#include "../varisat.h"

#include <errno.h>
#include <fcntl.h>
#include <pthread.h>
#include <stdatomic.h>
#include <stdbool.h>
#include <stdio.h>
#include <stdlib.h>
#include <string.h>
#include <unistd.h>

#define CHECK(it) ((it) ? (void)0 : (printf("%s:%d: %s\n", __FILE__, __LINE__, #it), exit(1)))
#define LITS(...) (const int32_t[]){__VA_ARGS__}, sizeof((int32_t[]){__VA_ARGS__}) / sizeof(int32_t)

enum { ROOM = 8 };
static int32_t list[ROOM];

/* Whether the list has just these numbers: told counts it. */
static int is_list(int told, int size, const int32_t *want) {
    return told == size && !memcmp(list, want, (size_t)size * sizeof *want);
}

/* n pigeons in n - 1 holes */
static void add_pigeons(varisat *s, int n) {
    for (int p = 0; p < n; p++) {
        for (int h = 0; h < n - 1; h++) CHECK(!varisat_add(s, p * (n - 1) + h + 1));
        CHECK(!varisat_add(s, 0));
    }
    for (int h = 0; h < n - 1; h++)
        for (int p = 0; p < n; p++)
            for (int q = 0; q < p; q++) CHECK(!varisat_add_clause(s, LITS(-(p * (n - 1) + h + 1), -(q * (n - 1) + h + 1))));
}

static void right_calls(void) {
    varisat *s = varisat_new(0);
    CHECK(varisat_is_valid(s) == 1 && varisat_error(s) == 0 && !strcmp(varisat_error_text(s), ""));
    CHECK(varisat_add_clauses(s, LITS(1, 2, 0, -1, 2, 0)) == 0);
    CHECK(varisat_solve(s) == VARISAT_SATISFIABLE);
    CHECK(is_list(varisat_model(s, list, ROOM), 2, (int32_t[]){-1, 2}));
    CHECK(varisat_value(s, 2) == 1 && varisat_value(s, -2) == 0 && varisat_value(s, -1) == 1);
    CHECK(varisat_value(s, 3) == VARISAT_NOTHING && strstr(varisat_error_text(s), "no such variable"));
    CHECK(varisat_assume(s, LITS(1, -2)) == 0);
    CHECK(varisat_solve(s) == VARISAT_UNSATISFIABLE);
    CHECK(varisat_failed_core(s, list, ROOM) >= 1 && varisat_is_failed(s, -2) == 1 && varisat_is_failed(s, 2) == 0);
    CHECK(varisat_model(s, list, ROOM) == VARISAT_NOTHING);
    CHECK(varisat_value(s, 1) == VARISAT_NOTHING);
    CHECK(varisat_assume(s, NULL, 0) == 0 && varisat_solve(s) == VARISAT_SATISFIABLE);
    CHECK(varisat_failed_core(s, list, ROOM) == VARISAT_NOTHING && varisat_is_failed(s, 1) == VARISAT_NOTHING);
    CHECK(varisat_new_var(s) == 3);
    CHECK(varisat_add_clause(s, NULL, 0) == 0 && varisat_solve(s) == VARISAT_UNSATISFIABLE);
    CHECK(varisat_failed_core(s, list, ROOM) == 0 && varisat_is_failed(s, 1) == 0);
    CHECK(varisat_add_clause(s, LITS(0x10000001)) == 0 && varisat_add_clause(s, LITS(0)) == VARISAT_BAD_ARGUMENT);
    CHECK(varisat_free(s) == 0);
}

/* Lists that are longer than the room for them, and look-ups behind each kind of change. */
static void lists(void) {
    varisat *s = varisat_new(0);
    CHECK(varisat_last_list(s, list, ROOM) == 0);
    CHECK(varisat_add_clauses(s, LITS(1, 0, -2, 0, 3, 0)) == 0 && varisat_solve(s) == VARISAT_SATISFIABLE);
    list[1] = 99;
    CHECK(varisat_model(s, list, 1) == 3 && list[0] == 1 && list[1] == 99);
    CHECK(varisat_model(s, NULL, 0) == 3 && is_list(varisat_last_list(s, list, ROOM), 3, (int32_t[]){1, -2, 3}));
    CHECK(varisat_value(s, 3) == 1 && varisat_add_clause(s, LITS(4)) == 0 && varisat_value(s, 3) == VARISAT_NOTHING);
    CHECK(varisat_solve(s) == VARISAT_SATISFIABLE && varisat_value(s, 4) == 1 && varisat_value(s, -4) == 0);
    CHECK(varisat_add(s, -5) == 0 && varisat_value(s, 4) == 1 && varisat_add(s, 0) == 0 && varisat_value(s, 4) == VARISAT_NOTHING);
    CHECK(varisat_solve(s) == VARISAT_SATISFIABLE && varisat_value(s, 5) == 0);
    CHECK(varisat_new_var(s) == 6 && varisat_value(s, 6) >= 0 && varisat_hide_var(s, 6) == 0 && varisat_value(s, 6) == VARISAT_NOTHING);
    CHECK(varisat_assume(s, LITS(5, 2)) == 0 && varisat_value(s, 5) == VARISAT_NOTHING && varisat_is_failed(s, 5) == VARISAT_NOTHING);
    CHECK(varisat_solve(s) == VARISAT_UNSATISFIABLE && varisat_is_failed(s, 5) + varisat_is_failed(s, 2) >= 1);
    CHECK(varisat_is_failed(s, -5) == 0 && varisat_is_failed(s, 7) == 0 && varisat_value(s, 5) == VARISAT_NOTHING);
    CHECK(varisat_assume(s, NULL, 0) == 0 && varisat_is_failed(s, 5) == VARISAT_NOTHING);
    CHECK(varisat_free(s) == 0);
}

/* Answers without an error number, and where their errors are. */
static void signs(void) {
    varisat *s = varisat_new(0);
    CHECK(varisat_last_error() == 0);
    CHECK(varisat_val(s, 1) == 0 && varisat_last_error() == VARISAT_NOTHING && varisat_error(s) == VARISAT_NOTHING);
    CHECK(varisat_count(s, VARISAT_STEPS) == 0 && varisat_last_error() == 0);
    CHECK(varisat_count(s, VARISAT_BYTES + 1) == 0 && varisat_last_error() == VARISAT_BAD_ARGUMENT && varisat_error(s) == VARISAT_BAD_ARGUMENT);
    CHECK(varisat_count(NULL, VARISAT_STEPS) == 0 && varisat_last_error() == VARISAT_BAD_ARGUMENT);
    CHECK(varisat_add_clauses(s, LITS(1, 0, -2, 0)) == 0 && varisat_solve(s) == VARISAT_SATISFIABLE);
    CHECK(varisat_val(s, 1) == 1 && varisat_val(s, -1) == 1 && varisat_val(s, 2) == -2 && varisat_val(s, -2) == -2 && varisat_last_error() == 0);
    CHECK(varisat_val(s, 3) == 0 && varisat_last_error() == VARISAT_NOTHING && varisat_val(s, 2) == -2 && varisat_last_error() == 0);
    CHECK(varisat_val(s, 0) == 0 && varisat_last_error() == VARISAT_BAD_ARGUMENT);
    CHECK(varisat_val(s, INT32_MIN) == 0 && varisat_last_error() == VARISAT_NOTHING && varisat_val(s, INT32_MAX) == 0);
    CHECK(varisat_val(NULL, 1) == 0 && varisat_last_error() == VARISAT_BAD_ARGUMENT);
    CHECK(varisat_assume(s, LITS(2)) == 0 && varisat_solve(s) == VARISAT_UNSATISFIABLE && varisat_val(s, 1) == 0 && varisat_val(s, 2) == 0);
    CHECK(varisat_free(s) == 0);
    /* a solver for which there is no memory, behind one for which there is */
    CHECK(!varisat_new(1) && varisat_last_error() == VARISAT_OUT_OF_MEMORY && !varisat_simplifier_new(1));
    CHECK(varisat_last_error() == VARISAT_OUT_OF_MEMORY && (s = varisat_new(0)) && varisat_last_error() == 0 && varisat_free(s) == 0);
}

static void errors_in_words(void) {
    const char *nothing = varisat_strerror(0), *unknown = varisat_strerror(-1);
    CHECK(!strcmp(nothing, varisat_strerror(10)) && !strcmp(unknown, varisat_strerror(INT32_MIN)) && strcmp(nothing, unknown));
    for (int error = VARISAT_READ_FAILED - 1; error <= VARISAT_PROOF_IO; error++)
        for (int other = VARISAT_READ_FAILED; other < error; other++) CHECK(strcmp(varisat_strerror(error), varisat_strerror(other)));
    CHECK(!strcmp(varisat_strerror(VARISAT_READ_FAILED - 1), unknown) && strstr(varisat_strerror(VARISAT_SIMPLIFIED), "simplified already"));
}

/* The highest variable, behind each call that names or returns one. */
static void highest_variables(void) {
    varisat *s = varisat_new(0);
    CHECK(varisat_var_count(s) == 0 && varisat_var_count(NULL) == VARISAT_BAD_ARGUMENT);
    CHECK(varisat_add_clause(s, LITS(2, -4)) == 0 && varisat_var_count(s) == 4 && varisat_add_clause(s, LITS(-1)) == 0 && varisat_var_count(s) == 4);
    CHECK(varisat_add_clauses(s, LITS(5, 0, -6, 0)) == 0 && varisat_var_count(s) == 6 && varisat_new_var(s) == 7 && varisat_var_count(s) == 7);
    CHECK(varisat_assume(s, LITS(-8)) == 0 && varisat_var_count(s) == 8 && varisat_hide_var(s, 9) == 0 && varisat_var_count(s) == 9);
    CHECK(varisat_add(s, 10) == 0 && varisat_var_count(s) == 10 && varisat_add(s, 0) == 0);
    CHECK(varisat_read_dimacs(s, "p cnf 12 1\n11 0", 15) == 0 && varisat_var_count(s) == 10 && varisat_end_dimacs(s) == 12 && varisat_var_count(s) == 12);
    /* What is refused: a witness counts, what is no literal and no variable does not. */
    CHECK(varisat_witness_var(s, 13) == 0 && varisat_var_count(s) == 13 && varisat_add_clause(s, LITS(13, 14)) == VARISAT_WITNESS_VAR);
    CHECK(varisat_var_count(s) == 14 && varisat_add_clause(s, LITS(15, 0)) == VARISAT_BAD_ARGUMENT && varisat_var_count(s) == 14);
    CHECK(varisat_add_clauses(s, LITS(15)) == VARISAT_BAD_ARGUMENT && varisat_hide_var(s, -15) == VARISAT_BAD_ARGUMENT && varisat_var_count(s) == 14);
    CHECK(varisat_add_clause(s, LITS(0x10000001)) == VARISAT_VARIABLE_LIMIT && varisat_assume(s, LITS(INT32_MIN)) == VARISAT_VARIABLE_LIMIT);
    CHECK(varisat_var_count(s) == 14);
    /* A text with a fault does not, until a model is read. */
    CHECK(varisat_read_dimacs(s, "16 0 x ", 7) == VARISAT_DIMACS && varisat_var_count(s) == 14);
    CHECK(varisat_solve(s) == VARISAT_SATISFIABLE && varisat_model(s, list, 2) == 15 && varisat_var_count(s) == 14);
    int32_t model[16];
    CHECK(varisat_last_list(s, model, 16) == 15 && model[14] == 16 && varisat_var_count(s) == 16);
    CHECK(varisat_free(s) == 0);
    /* Those that come back. */
    s = varisat_new(0);
    CHECK(varisat_add_clause(s, LITS(1, 2)) == 0 && varisat_hide_var(s, 2) == 0 && varisat_add_clause(s, LITS(-2)) == 0);
    CHECK(varisat_observe_internal_vars(s, list, ROOM) == 1 && list[0] == 3 && varisat_var_count(s) == 3);
    CHECK(varisat_free(s) == 0);
}

/* Which literals are fixed, before a search and after one. */
static void fixed_literals(void) {
    varisat *s = varisat_new(0);
    CHECK(varisat_fixed(s, 1) == 0 && varisat_fixed(s, 0) == VARISAT_BAD_ARGUMENT && varisat_fixed(NULL, 1) == VARISAT_BAD_ARGUMENT);
    CHECK(varisat_add_clauses(s, LITS(-1, 2, 0, 3, 4, 0, 5, 6, 0, 5, -6, 0)) == 0 && varisat_fixed(s, 1) == 0);
    CHECK(varisat_add_clause(s, LITS(1)) == 0 && varisat_fixed(s, 1) == 1 && varisat_fixed(s, -1) == 0);
    CHECK(varisat_assume(s, LITS(-3)) == 0 && varisat_solve(s) == VARISAT_SATISFIABLE);
    /* What follows from an assumption is not fixed. */
    CHECK(varisat_fixed(s, 2) == 1 && varisat_fixed(s, -2) == 0 && varisat_fixed(s, -3) == 0 && varisat_fixed(s, 4) == 0);
    CHECK(varisat_value(s, 4) == 1 && varisat_fixed(s, 9) == 0 && varisat_fixed(s, INT32_MIN) == 0 && varisat_var_count(s) == 6);
    /* A conflict teaches what is fixed from then on. */
    CHECK(varisat_assume(s, LITS(-5)) == 0 && varisat_solve(s) == VARISAT_UNSATISFIABLE && varisat_fixed(s, 5) == 1);
    CHECK(is_list(varisat_failed_core(s, list, ROOM), 1, (int32_t[]){-5}) && varisat_fixed(s, 1) == 1);
    /* A name that is freed has no value, and the variable that takes it has a new one. */
    CHECK(varisat_assume(s, NULL, 0) == 0 && varisat_hide_var(s, 2) == 0 && varisat_fixed(s, 2) == 0 && varisat_new_var(s) == 2);
    CHECK(varisat_fixed(s, 2) == 0 && varisat_fixed(s, -2) == 0 && varisat_free(s) == 0);
    /* An invalid solver has none. */
    s = varisat_new(10000);
    CHECK(varisat_add_clause(s, LITS(1)) == 0 && varisat_fixed(s, 1) == 1);
    for (int32_t v = 2; varisat_is_valid(s) == 1; v++) varisat_add_clause(s, LITS(v, v + 1, v + 2));
    CHECK(varisat_fixed(s, 1) == 0 && varisat_free(s) == 0);
}

/* Whether the model that a search finds has these values of 1, 2 and 3. */
static int finds(varisat *s, int32_t first, int32_t second, int32_t third) {
    return varisat_solve(s) == VARISAT_SATISFIABLE && varisat_model(s, list, 3) >= 3 && list[0] == first && list[1] == second && list[2] == third;
}

/* Phases that are set decide which model is found where several are. */
static void phases(void) {
    varisat *s = varisat_new(0);
    CHECK(varisat_set_phase(NULL, 1) == VARISAT_BAD_ARGUMENT && varisat_set_phase(s, 0) == VARISAT_BAD_ARGUMENT);
    CHECK(varisat_unset_phase(s, 0) == VARISAT_BAD_ARGUMENT && varisat_unset_phase(s, -1) == VARISAT_BAD_ARGUMENT && varisat_unset_phase(s, INT32_MAX) == 0);
    CHECK(varisat_set_phase(s, 0x10000001) == VARISAT_VARIABLE_LIMIT && varisat_set_phase(s, INT32_MIN) == VARISAT_VARIABLE_LIMIT);
    /* The phase of a name that is not in use waits, and brings none into use. */
    CHECK(varisat_set_phase(s, 2) == 0 && varisat_model(s, list, ROOM) == VARISAT_NOTHING && varisat_var_count(s) == 0);
    CHECK(varisat_add_clauses(s, LITS(1, 2, 3, 0, -1, -2, -3, 0)) == 0 && finds(s, -1, 2, -3));
    CHECK(varisat_set_phase(s, 1) == 0 && varisat_set_phase(s, -2) == 0 && varisat_value(s, 2) == 1);
    CHECK(varisat_assume(s, NULL, 0) == 0 && finds(s, 1, -2, -3));
    /* It holds in each search, also after another model was found. */
    CHECK(varisat_assume(s, LITS(-1, 2)) == 0 && finds(s, -1, 2, -3) && varisat_assume(s, NULL, 0) == 0 && finds(s, 1, -2, -3));
    /* Without it a variable is decided as it was last assigned. */
    CHECK(varisat_unset_phase(s, 1) == 0 && varisat_assume(s, LITS(-1)) == 0 && varisat_solve(s) == VARISAT_SATISFIABLE);
    CHECK(varisat_assume(s, NULL, 0) == 0 && varisat_solve(s) == VARISAT_SATISFIABLE && varisat_value(s, -1) == 1);
    /* It goes with the name of a variable that is hidden. */
    CHECK(varisat_new_var(s) == 4 && varisat_set_phase(s, 4) == 0 && varisat_hide_var(s, 4) == 0 && varisat_add_clause(s, LITS(4, 5)) == 0);
    CHECK(varisat_assume(s, LITS(5)) == 0 && varisat_solve(s) == VARISAT_SATISFIABLE && varisat_value(s, -4) == 1 && varisat_free(s) == 0);
}

static void modes(void) {
    varisat *s = varisat_new(0);
    CHECK(varisat_add_clauses(s, LITS(1, 2, 0)) == 0);
    CHECK(varisat_hide_var(s, 2) == 0);
    CHECK(varisat_add_clause(s, LITS(-2)) == 0);
    CHECK(varisat_solve(s) == VARISAT_SATISFIABLE);
    CHECK(varisat_model(s, list, ROOM) == 2 && list[1] == -2);
    CHECK(is_list(varisat_observe_internal_vars(s, list, ROOM), 1, (int32_t[]){3}));
    CHECK(varisat_add_clause(s, LITS(3)) == VARISAT_WITNESS_VAR && strstr(varisat_error_text(s), "3"));
    CHECK(varisat_sample_var(s, 3) == 0 && varisat_add_clause(s, LITS(-3)) == 0);
    CHECK(varisat_solve(s) == VARISAT_SATISFIABLE && varisat_value(s, 1) == 1);
    CHECK(varisat_witness_var(s, 1) == 0 && varisat_assume(s, LITS(1)) == VARISAT_WITNESS_VAR);
    CHECK(varisat_assume(s, LITS(3)) == 0 && varisat_hide_var(s, 3) == VARISAT_ASSUMED_VAR);
    CHECK(varisat_is_valid(s) == 1);
    CHECK(varisat_free(s) == 0);
}

static void wrong_calls(void) {
    const int32_t one[] = {1};
    CHECK(varisat_add(NULL, 1) == VARISAT_BAD_ARGUMENT && varisat_solve(NULL) == VARISAT_BAD_ARGUMENT && varisat_free(NULL) == 0);
    CHECK(varisat_model(NULL, list, ROOM) == VARISAT_BAD_ARGUMENT && varisat_interrupt(NULL) == VARISAT_BAD_ARGUMENT);
    CHECK(varisat_error(NULL) == VARISAT_BAD_ARGUMENT && varisat_count(NULL, VARISAT_STEPS) == 0);
    varisat *s = varisat_new(0);
    CHECK(varisat_add_clause(s, LITS(1, 0, 2)) == VARISAT_BAD_ARGUMENT);
    CHECK(varisat_error(s) == VARISAT_BAD_ARGUMENT && strstr(varisat_error_text(s), "literal 0"));
    CHECK(varisat_add_clause(s, NULL, 3) == VARISAT_BAD_ARGUMENT && varisat_assume(s, NULL, 3) == VARISAT_BAD_ARGUMENT);
    CHECK(varisat_add_clauses(s, one, 1) == VARISAT_BAD_ARGUMENT && strstr(varisat_error_text(s), "no 0 ends"));
    CHECK(varisat_assume(s, LITS(0)) == VARISAT_BAD_ARGUMENT);
    /* Errors that are taken for counts. */
    const size_t error = (size_t)VARISAT_NOTHING;
    CHECK(varisat_add_clause(s, one, error) == VARISAT_BAD_ARGUMENT && varisat_assume(s, one, error) == VARISAT_BAD_ARGUMENT);
    CHECK(varisat_add_clauses(s, one, error) == VARISAT_BAD_ARGUMENT && varisat_read_dimacs(s, "1 0", error) == VARISAT_BAD_ARGUMENT);
    CHECK(varisat_check_proof(VARISAT_DRAT, "1 0", error, "0", 1, NULL) == VARISAT_BAD_ARGUMENT);
    CHECK(varisat_check_proof(VARISAT_DRAT, "1 0", 3, "0", error, NULL) == VARISAT_BAD_ARGUMENT);
    CHECK(varisat_value(s, 0) == VARISAT_BAD_ARGUMENT && varisat_is_failed(s, 0) == VARISAT_BAD_ARGUMENT);
    CHECK(varisat_value(s, 1) == VARISAT_NOTHING && varisat_is_failed(s, 1) == VARISAT_NOTHING);
    CHECK(varisat_model(s, NULL, 1) == VARISAT_BAD_ARGUMENT && varisat_last_list(s, NULL, 1) == VARISAT_BAD_ARGUMENT);
    CHECK(varisat_hide_var(s, 0) == VARISAT_BAD_ARGUMENT && varisat_witness_var(s, -1) == VARISAT_BAD_ARGUMENT);
    CHECK(varisat_set(s, 99, 1) == VARISAT_BAD_ARGUMENT && varisat_set(s, VARISAT_VSIDS_DECAY, 10) == VARISAT_OUT_OF_RANGE);
    CHECK(strstr(varisat_error_text(s), "vsids_decay"));
    CHECK(varisat_set(s, VARISAT_RESTART_GLUE, 1001) == VARISAT_OUT_OF_RANGE && varisat_set(s, VARISAT_RESTART_GLUE, 125) == 0);
    CHECK(varisat_set(s, VARISAT_RESTART_GLUE + 1, 1) == VARISAT_BAD_ARGUMENT);
    for (int setting = 0; setting <= VARISAT_RESTART_GLUE; setting++) {
        CHECK(varisat_set_named(s, varisat_setting_name(setting), 1000000) == (setting == VARISAT_REDUCE_LOCALS_INTERVAL ||
              setting == VARISAT_REDUCE_MIDS_INTERVAL || setting == VARISAT_LUBY_RESTART_INTERVAL_SCALE ? 0 : VARISAT_OUT_OF_RANGE));
        if (varisat_error(s) == VARISAT_OUT_OF_RANGE && setting < VARISAT_REDUCE_LOCALS_INTERVAL)
            CHECK(strstr(varisat_error_text(s), varisat_setting_name(setting)));
    }
    CHECK(strstr(varisat_error_text(s), "restart_glue") && varisat_set_named(s, "restart_glue", 1000) == 0);
    CHECK(!varisat_setting_name(-1) && !varisat_setting_name(VARISAT_RESTART_GLUE + 1));
    CHECK(varisat_set_named(s, "restart", 1) == VARISAT_BAD_ARGUMENT && varisat_set_named(s, NULL, 1) == VARISAT_BAD_ARGUMENT);
    CHECK(varisat_set_named(NULL, "restart_glue", 1) == VARISAT_BAD_ARGUMENT);
    CHECK(varisat_add_clause(s, LITS(0x10000001)) == VARISAT_VARIABLE_LIMIT && varisat_add_clause(s, LITS(INT32_MIN)) == VARISAT_VARIABLE_LIMIT);
    CHECK(varisat_hide_var(s, INT32_MAX) == VARISAT_VARIABLE_LIMIT);
    CHECK(varisat_close_proof(s) == VARISAT_NOTHING);
    CHECK(varisat_write_proof(s, 77, NULL, NULL) == VARISAT_BAD_ARGUMENT);
    CHECK(varisat_add_clause(s, one, 1) == 0 && varisat_self_check(s) == VARISAT_PROOF_TOO_LATE);
    CHECK(varisat_solve(s) == VARISAT_SATISFIABLE && varisat_value(s, INT32_MIN) == VARISAT_NOTHING && varisat_value(s, INT32_MAX) == VARISAT_NOTHING);
    CHECK(varisat_is_valid(s) == 1);
    CHECK(varisat_free(s) == 0);
}

static void texts(void) {
    const char *text = "c a comment\np cnf 5 3\n1 -5 0\n2 3 -4\n0 -1 2 0\n";
    varisat *s = varisat_new(0);
    for (const char *p = text; *p; p++) CHECK(varisat_read_dimacs(s, p, 1) == 0);
    CHECK(varisat_end_dimacs(s) == 5 && varisat_solve(s) == VARISAT_SATISFIABLE);
    CHECK(varisat_read_dimacs(s, "1 0\n2 x 0", 9) == VARISAT_DIMACS && strstr(varisat_error_text(s), "line 2"));
    CHECK(varisat_read_dimacs(s, "-1 0 3", 6) == 0 && varisat_end_dimacs(s) == VARISAT_DIMACS);
    CHECK(varisat_solve(s) == VARISAT_UNSATISFIABLE);
    CHECK(varisat_free(s) == 0);
}

/* A file that has this text. */
static int file_of(const char *text) {
    FILE *file = tmpfile();
    CHECK(file && fputs(text, file) >= 0 && !fflush(file));
    int fd = dup(fileno(file));
    fclose(file);
    CHECK(fd >= 0 && !lseek(fd, 0, SEEK_SET));
    return fd;
}

static void files(void) {
    varisat *s = varisat_new(0);
    int fd = file_of("p cnf 5 2\n1 -5 0\n2 0");
    CHECK(varisat_read_dimacs_fd(s, fd) == 5 && varisat_var_count(s) == 5 && varisat_solve(s) == VARISAT_SATISFIABLE && varisat_val(s, 2) == 2);
    /* It is at its end, and stays open. */
    CHECK(varisat_read_dimacs_fd(s, fd) == 0 && !close(fd));
    /* It goes on with a text that was begun. */
    CHECK(varisat_read_dimacs(s, "-2 3", 4) == 0 && varisat_read_dimacs_fd(s, fd = file_of("0 0\n")) == 30 && !close(fd));
    CHECK(varisat_free(s) == 0 && (s = varisat_new(0)));
    CHECK(varisat_read_dimacs_fd(s, fd = file_of("1 0\n2 x 0")) == VARISAT_DIMACS && strstr(varisat_error_text(s), "line 2") && !close(fd));
    CHECK(varisat_read_dimacs_fd(s, fd = file_of("-1 0\n2")) == VARISAT_DIMACS && !close(fd));
    CHECK(varisat_solve(s) == VARISAT_UNSATISFIABLE && varisat_free(s) == 0 && (s = varisat_new(0)));
    /* What cannot be read: no file, and a folder. The text that was begun is over, and the clauses before it stay. */
    errno = 0;
    CHECK(varisat_read_dimacs_fd(s, -1) == VARISAT_READ_FAILED && errno == EBADF && strstr(varisat_error_text(s), "reading"));
    CHECK(varisat_read_dimacs(s, "1 0 2 ", 6) == 0 && (fd = open("/", O_RDONLY)) >= 0);
    CHECK(varisat_read_dimacs_fd(s, fd) == VARISAT_READ_FAILED && errno == EISDIR && varisat_is_valid(s) == 1 && !close(fd));
    CHECK(varisat_read_dimacs(s, "-3 0", 4) == 0 && varisat_end_dimacs(s) == 3 && varisat_solve(s) == VARISAT_SATISFIABLE);
    CHECK(varisat_val(s, 1) == 1 && varisat_val(s, 3) == -3 && varisat_read_dimacs_fd(NULL, 0) == VARISAT_BAD_ARGUMENT);
    CHECK(varisat_free(s) == 0);
}

struct sink {
    varisat *solver;
    char bytes[1 << 20];
    size_t size, most;
};

static int take(void *data, const void *bytes, size_t size) {
    struct sink *sink = data;
    if (sink->size + size > sink->most) return 1;
    memcpy(sink->bytes + sink->size, bytes, size);
    sink->size += size;
    /* From within a callback all calls but one are refused. */
    if (sink->solver) {
        CHECK(varisat_solve(sink->solver) == VARISAT_BUSY && varisat_free(sink->solver) == VARISAT_BUSY);
        CHECK(varisat_add(sink->solver, 1) == VARISAT_BUSY && varisat_count(sink->solver, VARISAT_STEPS) == 0);
        CHECK(varisat_last_error() == VARISAT_BUSY && varisat_val(sink->solver, 1) == 0 && varisat_last_error() == VARISAT_BUSY);
        CHECK(varisat_var_count(sink->solver) == VARISAT_BUSY && varisat_read_dimacs_fd(sink->solver, 0) == VARISAT_BUSY);
        CHECK(varisat_set_named(sink->solver, "restart_glue", 1) == VARISAT_BUSY);
        /* Those of another solver are fine. */
        varisat *other = varisat_new(0);
        CHECK(varisat_add_clause(other, LITS(1)) == 0 && varisat_solve(other) == 10 && varisat_free(other) == 0);
    }
    return 0;
}

static void write_text(char *text, int n) {
    text += sprintf(text, "p cnf %d %d\n", n * (n - 1), n + (n - 1) * n * (n - 1) / 2);
    for (int p = 0; p < n; p++) {
        for (int h = 0; h < n - 1; h++) text += sprintf(text, "%d ", p * (n - 1) + h + 1);
        text += sprintf(text, "0\n");
    }
    for (int h = 0; h < n - 1; h++)
        for (int p = 0; p < n; p++)
            for (int q = 0; q < p; q++) text += sprintf(text, "%d %d 0\n", -(p * (n - 1) + h + 1), -(q * (n - 1) + h + 1));
}

static void proofs(void) {
    static struct sink sink;
    static char text[1 << 16];
    uint64_t place;
    write_text(text, 6);
    for (int format = VARISAT_DRAT; format <= VARISAT_MARKED; format++) {
        varisat *s = varisat_new(0);
        sink = (struct sink){.solver = s, .most = sizeof sink.bytes};
        CHECK(varisat_write_proof(s, format, take, &sink) == 0);
        CHECK(varisat_write_proof(s, format, take, &sink) == VARISAT_PROOF_OPEN);
        add_pigeons(s, 6);
        if (format != VARISAT_MARKED) CHECK(varisat_assume(s, LITS(1)) == VARISAT_PROOF_OPEN && varisat_assume(s, NULL, 0) == 0);
        CHECK(varisat_solve_steps(s, 3) == VARISAT_UNKNOWN);
        CHECK(sink.size);
        if (format != VARISAT_MARKED) CHECK(varisat_add_clause(s, LITS(1)) == VARISAT_CLAUSE_AFTER_SOLVE);
        CHECK(varisat_solve(s) == VARISAT_UNSATISFIABLE && varisat_close_proof(s) == 0);
        CHECK(varisat_check_proof(format, text, strlen(text), sink.bytes, sink.size, &place) == VARISAT_UNSATISFIABLE);
        CHECK(varisat_check_proof(format, "p cnf 2 1\n1 2 0\n", 16, sink.bytes, sink.size, &place) < 0);
        CHECK(varisat_check_proof(format, "x", 1, sink.bytes, sink.size, &place) == VARISAT_DIMACS && place == 1);
        CHECK(varisat_free(s) == 0);
    }
    CHECK(varisat_check_proof(VARISAT_DRAT, NULL, 0, NULL, 0, NULL) == VARISAT_UNKNOWN);
    /* Lines of a solver that simplifies: the first is RAT on a new literal, the next deletes no clause. The second of the other proof
     * neither follows nor is RAT. */
    const char *square = "1 2 0 -1 2 0 1 -2 0 -1 -2 0", *rat = "3 4 0\nd 5 6 0\n2 0\n0\n", *wrong = "3 4 0\n-3 0\n0\n";
    CHECK(varisat_check_proof(VARISAT_DRAT, square, strlen(square), rat, strlen(rat), &place) == VARISAT_UNSATISFIABLE);
    CHECK(varisat_check_proof(VARISAT_DRAT, "1 2 0", 5, rat, 6, &place) == VARISAT_UNKNOWN);
    CHECK(varisat_check_proof(VARISAT_DRAT, "1 2 0", 5, wrong, strlen(wrong), &place) == VARISAT_WRONG_PROOF && place == 2);
    CHECK(varisat_check_proof(VARISAT_MARKED, square, strlen(square), rat, strlen(rat), &place) == VARISAT_WRONG_PROOF && place == 1);
    CHECK(varisat_check_proof(VARISAT_DRAT, NULL, 4, NULL, 0, NULL) == VARISAT_BAD_ARGUMENT);
    /* what takes the proof fails */
    varisat *s = varisat_new(0);
    sink = (struct sink){.most = 100};
    CHECK(varisat_write_proof(s, VARISAT_DRAT, take, &sink) == 0);
    add_pigeons(s, 7);
    CHECK(varisat_solve(s) == VARISAT_PROOF_IO && varisat_is_valid(s) == 0);
    CHECK(varisat_solve(s) == VARISAT_INVALID && varisat_add_clause(s, LITS(1)) == VARISAT_INVALID && varisat_value(s, 1) == VARISAT_NOTHING);
    CHECK(varisat_set(s, VARISAT_VSIDS_DECAY, 900) == VARISAT_INVALID && varisat_error(s) == VARISAT_PROOF_IO);
    CHECK(varisat_set_named(s, "vsids_decay", 900) == VARISAT_INVALID && varisat_read_dimacs_fd(s, 0) == VARISAT_INVALID && varisat_var_count(s) == 42);
    CHECK(varisat_free(s) == 0);
    /* a file */
    int ends[2];
    CHECK(!pipe(ends));
    s = varisat_new(0);
    CHECK(varisat_write_proof_fd(s, VARISAT_DRAT, ends[1]) == 0 && varisat_add_clauses(s, LITS(1, 2, 0, -1, 2, 0, 1, -2, 0, -1, -2, 0)) == 0);
    CHECK(varisat_solve(s) == VARISAT_UNSATISFIABLE && varisat_close_proof(s) == 0);
    char lines[100];
    CHECK(read(ends[0], lines, sizeof lines) > 2);
    CHECK(varisat_free(s) == 0);
    close(ends[0]), close(ends[1]);
}

static void heaps(void) {
    for (size_t limit = 1; limit < 400000; limit += limit / 3 + 1) {
        varisat *s = varisat_new(limit);
        if (!s) continue;
        CHECK(varisat_set(s, VARISAT_VSIDS_DECAY, 3) == VARISAT_OUT_OF_RANGE && strstr(varisat_error_text(s), "vsids_decay"));
        int answer = 0, n = 6;
        for (int p = 0; p < n && !answer; p++) {
            for (int h = 0; h < n - 1 && !answer; h++) answer = varisat_add(s, p * (n - 1) + h + 1);
            if (!answer) answer = varisat_add(s, 0);
        }
        for (int h = 0; h < n - 1; h++)
            for (int p = 0; p < n; p++)
                for (int q = 0; q < p && !answer; q++) answer = varisat_add_clause(s, LITS(-(p * (n - 1) + h + 1), -(q * (n - 1) + h + 1)));
        if (!answer) answer = varisat_solve(s);
        CHECK(answer == VARISAT_UNSATISFIABLE || answer == VARISAT_OUT_OF_MEMORY);
        CHECK(varisat_count(s, VARISAT_BYTES) <= limit + 4096);
        CHECK(limit < 300000 || answer == VARISAT_UNSATISFIABLE);
        CHECK(varisat_free(s) == 0);
    }
}

static int stop_late(void *data) {
    return ++*(int *)data == 3;
}

static void *interrupt(void *solver) {
    usleep(200000);
    varisat_interrupt(solver);
    return NULL;
}

static void interrupts(void) {
    varisat *s = varisat_new(0);
    add_pigeons(s, 12);
    CHECK(varisat_solve_steps(s, 0) == VARISAT_UNKNOWN && varisat_count(s, VARISAT_STEPS) == 0);
    CHECK(varisat_solve_steps(s, 10) == VARISAT_UNKNOWN && varisat_count(s, VARISAT_STEPS) == 10);
    CHECK(varisat_solve_steps(s, 2500) == VARISAT_UNKNOWN && varisat_count(s, VARISAT_STEPS) == 2510);
    int asked = 0;
    CHECK(varisat_set_terminate(s, stop_late, &asked) == 0 && varisat_solve(s) == VARISAT_UNKNOWN && asked == 3);
    CHECK(varisat_set_terminate(s, NULL, NULL) == 0);
    CHECK(varisat_interrupt(s) == 0 && varisat_solve(s) == VARISAT_UNKNOWN);
    pthread_t thread;
    CHECK(!pthread_create(&thread, NULL, interrupt, s));
    CHECK(varisat_solve(s) == VARISAT_UNKNOWN);
    pthread_join(thread, NULL);
    CHECK(varisat_count(s, VARISAT_CONFLICTS) > 100 && varisat_error(s) == 0);
    CHECK(varisat_free(s) == 0);
}

static void *solve_own(void *data) {
    (void)data;
    for (int i = 0; i < 20; i++) {
        varisat *s = varisat_new(1 << 20);
        add_pigeons(s, 6);
        CHECK(varisat_solve(s) == VARISAT_UNSATISFIABLE && varisat_free(s) == 0);
    }
    return NULL;
}

/* Whether the search has ended, and whether a call was refused in it. */
static atomic_bool searched;
static bool disturbed;

static void *disturb(void *solver) {
    while (!searched) {
        int answer = varisat_is_valid(solver);
        CHECK(answer == 1 || answer == VARISAT_BUSY);
        disturbed |= answer == VARISAT_BUSY;
    }
    return NULL;
}

static void threads(void) {
    pthread_t thread[4];
    for (int i = 0; i < 4; i++) CHECK(!pthread_create(&thread[i], NULL, solve_own, NULL));
    for (int i = 0; i < 4; i++) pthread_join(thread[i], NULL);
    varisat *s = varisat_new(0);
    add_pigeons(s, 9);
    CHECK(!pthread_create(&thread[0], NULL, disturb, s));
    int answer;
    while ((answer = varisat_solve(s)) == VARISAT_BUSY) {
    }
    searched = true;
    pthread_join(thread[0], NULL);
    CHECK(answer == VARISAT_UNSATISFIABLE && disturbed);
    CHECK(varisat_free(s) == 0);
}

static void checking(void) {
    varisat *s = varisat_new(0);
    CHECK(varisat_self_check(s) == 0);
    add_pigeons(s, 6);
    CHECK(varisat_solve(s) == VARISAT_UNSATISFIABLE && varisat_is_valid(s) == 1);
    CHECK(varisat_free(s) == 0);
}

/* 1 or 2, and not 2 or 3: 2 is resolved away, and is true in a model in which 1 is false. */
static void simplifiers(void) {
    varisat_simplifier *s = varisat_simplifier_new(1 << 20);
    CHECK(varisat_simplifier_add_clauses(s, LITS(1, 2, 0, -2, 3, 0)) == 0 && varisat_simplifier_add_clause(s, LITS(1, 3, -3)) == 0);
    CHECK(varisat_simplifier_freeze(s, 1) == 0 && varisat_simplifier_freeze(s, 3) == 0 && varisat_simplifier_freeze(s, 3) == 0);
    CHECK(varisat_simplifier_clauses(s, list, ROOM) == VARISAT_NOTHING && varisat_simplifier_extend(s, NULL, 0, list, ROOM) == VARISAT_NOTHING);
    CHECK(varisat_simplifier_add_clause(s, LITS(1, 0)) == VARISAT_BAD_ARGUMENT && varisat_simplifier_add_clauses(s, LITS(1)) == VARISAT_BAD_ARGUMENT);
    CHECK(varisat_simplifier_add_clause(s, NULL, 1) == VARISAT_BAD_ARGUMENT && varisat_simplifier_freeze(s, 0) == VARISAT_BAD_ARGUMENT);
    CHECK(varisat_simplifier_add_clause(s, LITS(0x10000001)) == VARISAT_VARIABLE_LIMIT && varisat_simplifier_freeze(s, INT32_MIN) == VARISAT_BAD_ARGUMENT);
    CHECK(varisat_simplifier_add_clause(s, LITS(INT32_MIN)) == VARISAT_VARIABLE_LIMIT && varisat_simplifier_freeze(s, 0x10000001) == VARISAT_VARIABLE_LIMIT);
    CHECK(varisat_simplifier_simplify(s) == 0 && varisat_simplifier_simplify(s) == VARISAT_SIMPLIFIED);
    CHECK(varisat_simplifier_add_clause(s, LITS(1)) == VARISAT_SIMPLIFIED && varisat_simplifier_freeze(s, 2) == VARISAT_SIMPLIFIED);
    list[1] = 99;
    CHECK(varisat_simplifier_clauses(s, NULL, 0) == 3 && varisat_simplifier_clauses(s, list, 1) == 3 && list[1] == 99);
    CHECK(varisat_simplifier_clauses(s, list, ROOM) == 3 && list[0] + list[1] == 4 && list[2] == 0);
    CHECK(is_list(varisat_simplifier_extend(s, LITS(3, -1), list, ROOM), 3, (int32_t[]){-1, 2, 3}));
    CHECK(is_list(varisat_simplifier_extend(s, LITS(-3, 9, 1, INT32_MIN), list, ROOM), 3, (int32_t[]){1, -2, -3}));
    CHECK(is_list(varisat_simplifier_extend(s, NULL, 0, list, 0), 3, list) && varisat_simplifier_extend(s, LITS(1, 0), list, ROOM) == VARISAT_BAD_ARGUMENT);
    CHECK(varisat_simplifier_extend(s, NULL, 1, list, ROOM) == VARISAT_BAD_ARGUMENT && varisat_simplifier_clauses(s, NULL, 1) == VARISAT_BAD_ARGUMENT);
    CHECK(varisat_simplifier_extend(s, list, (size_t)-1, list, ROOM) == VARISAT_BAD_ARGUMENT);
    CHECK(varisat_simplifier_add_clause(s, list, (size_t)-1) == VARISAT_BAD_ARGUMENT);
    CHECK(varisat_simplifier_add_clauses(s, list, (size_t)-1) == VARISAT_BAD_ARGUMENT);
    CHECK(varisat_simplifier_free(s) == 0 && varisat_simplifier_free(NULL) == 0 && varisat_simplifier_simplify(NULL) == VARISAT_BAD_ARGUMENT);
    /* no clauses, and one without literals */
    for (int empty = 0; empty < 2; empty++) {
        CHECK((s = varisat_simplifier_new(0)) && (!empty || varisat_simplifier_add_clause(s, NULL, 0) == 0));
        CHECK(varisat_simplifier_simplify(s) == 0 && varisat_simplifier_clauses(s, list, ROOM) == empty && (!empty || list[0] == 0));
        CHECK(varisat_simplifier_extend(s, LITS(1), list, ROOM) == 0 && varisat_simplifier_free(s) == 0);
    }
}

int main(void) {
    right_calls(), lists(), signs(), errors_in_words(), highest_variables(), fixed_literals(), phases(), modes(), wrong_calls(), texts(), files(), proofs(), heaps(), interrupts(), threads(), checking(), simplifiers();
    puts("all passed");
}
