/* varisat.h over the proved library. This file is not proved: it refuses wrong arguments, keeps memory within a solver's limit, calls
 * back between rounds of steps, and hands proofs on. It keeps no literal. */
#define _POSIX_C_SOURCE 200809L
#include "varisat.h"

#include <errno.h>
#include <limits.h>
#include <stdatomic.h>
#include <stdlib.h>
#include <string.h>
#include <unistd.h>

#include "callers.h"

/* Memory. Each block is charged to the solver whose call is under way, if one is; the proved library takes a refusal at any place. */

struct account {
    size_t used, limit;
};
_Thread_local struct account *charged;

struct block {
    _Alignas(16) size_t size;
};

static void *grow(void *old, size_t size) {
    struct block *block = old ? (struct block *)old - 1 : NULL;
    size_t before = block ? block->size : 0, after = sizeof *block + size;
    if (size > SIZE_MAX / 2 || (charged && after > before && after - before > charged->limit - charged->used))
        return NULL;
    block = realloc(block, after);
    if (!block)
        return NULL;
    if (charged)
        charged->used += after - before;
    block->size = after;
    return block + 1;
}

static struct tried tried(void *p) {
    static _Alignas(16) char none[16];
    return (struct tried){p != NULL, p ? p : none};
}

struct tried rattle_alloc(size_t size, size_t align) {
    return tried(grow(NULL, size ? size : align));
}

struct tried rattle_realloc(void *old, size_t kept, size_t size, size_t align) {
    (void)kept;
    return tried(grow(old, size ? size : align));
}

void rattle_dealloc(void *old) {
    struct block *block = old ? (struct block *)old - 1 : NULL;
    if (block && charged)
        charged->used -= block->size;
    free(block);
}

/* What one call at a time uses, and what memory is charged to. */

struct user {
    struct account account, *outer;
    atomic_int busy;
};

static void set_limit(struct user *user, size_t heap_limit) { user->account.limit = heap_limit ? heap_limit : SIZE_MAX; }

/* Begins a call: 0, or that another one is under way. */
static int begin(struct user *user) {
    if (atomic_exchange_explicit(&user->busy, 1, memory_order_acquire))
        return VARISAT_BUSY;
    /* A callback of another solver may be what calls. */
    user->outer = charged;
    charged = &user->account;
    return 0;
}

/* Ends it with this answer. */
static int end(struct user *user, int answer) {
    charged = user->outer;
    atomic_store_explicit(&user->busy, 0, memory_order_release);
    return answer;
}

/* Solvers. */

enum { MOST_STEPS = 1000, PIECE = 1 << 14, TEXT = 200, HIGHEST_VARIABLE = 1 << 28 };

struct varisat {
    struct handle handle;
    struct user user;
    atomic_int interrupted;
    /* The highest variable that was named or returned. */
    int32_t highest;
    int error;
    char text[TEXT];
    int (*terminate)(void *);
    void *terminate_data;
    int (*write)(void *, const void *, size_t);
    void *write_data;
    int fd;
    bool proof_failed, is_lost;
};

/* The Makefile says more: the number of the version, the commit, and whether the library was built without proofs. */
#ifndef VARISAT_IDENTITY
#define VARISAT_IDENTITY "of unknown version"
#endif

const char *varisat_version(void) {
    return "varisat " VARISAT_IDENTITY;
}

const char *varisat_strerror(int error) {
    switch (error) {
    case VARISAT_PROOF_IO: return "Error writing proof file";
    case VARISAT_OUT_OF_MEMORY: return "Out of memory";
    case VARISAT_INVALID: return "The solver is invalid after an unrecoverable error";
    case VARISAT_STORE_FULL: return "The store of clauses is full";
    case VARISAT_WITNESS_VAR: return "A witness variable cannot be constrained";
    case VARISAT_VARIABLE_LIMIT: return "The variable limit is passed";
    case VARISAT_ASSUMED_VAR: return "The mode of an assumed variable cannot change";
    case VARISAT_CLAUSE_AFTER_SOLVE: return "A clause cannot be added after solve under an open proof";
    case VARISAT_PROOF_OPEN: return "A proof is open";
    case VARISAT_PROOF_TOO_LATE: return "A proof must begin before any clause, variable or assumption";
    case VARISAT_OUT_OF_RANGE: return "The value is out of its setting's range";
    case VARISAT_DIMACS: return "Error in DIMACS input";
    case VARISAT_BAD_ARGUMENT: return "No solver, list, setting, counter, format or variable, clauses that no 0 ends, or the literal 0";
    case VARISAT_NOTHING: return "There is no model, core or proof, the model has no such variable, or the clauses are not simplified yet";
    case VARISAT_WRONG_PROOF: return "A line of the proof is wrong";
    case VARISAT_OTHER_CLAUSE: return "The proof was given a clause that the text has not";
    case VARISAT_BUSY: return "Another call of this solver or simplifier is under way";
    case VARISAT_SIMPLIFIED: return "The clauses are simplified already";
    case VARISAT_READ_FAILED: return "Error reading the file";
    default: return error < 0 ? "No error has this number" : "No error";
    }
}

/* Whether the library has a text for a refusal by this number, which names the variable, the setting or the line. */
static bool has_details(int error) {
    switch (error) {
    case VARISAT_PROOF_IO:
    case VARISAT_OUT_OF_MEMORY:
    case VARISAT_INVALID:
    case VARISAT_BAD_ARGUMENT:
    case VARISAT_NOTHING:
    case VARISAT_READ_FAILED: return false;
    default: return true;
    }
}

/* What varisat_last_error returns. */
static _Thread_local int last_error;

int varisat_last_error(void) { return last_error; }

static bool is_valid(varisat *solver) { return caller_is_valid(&solver->handle) && !solver->proof_failed; }

/* Ends a call with this answer. */
static int leave(varisat *solver, int answer) {
    /* What made the solver invalid is returned from then on. */
    if (answer < 0 && !solver->is_lost) {
        memset(solver->text, 0, TEXT);
        if (has_details(answer)) {
            /* Without the limit, which may leave no room for a text. */
            charged = NULL;
            caller_refusal_copy(&solver->handle, (uint8_t *)solver->text, TEXT - 1);
            charged = &solver->user.account;
        }
        /* There may have been no memory for that text. */
        if (!solver->text[0])
            strncpy(solver->text, varisat_strerror(answer), TEXT - 1);
        solver->error = answer;
        solver->is_lost = !is_valid(solver);
    }
    return end(&solver->user, answer);
}

/* Begins a call, of which the other arguments are right or not: 0, or why it is refused. */
static int enter(varisat *solver, bool is_right) {
    int refused = solver ? begin(&solver->user) : VARISAT_BAD_ARGUMENT;
    return refused || is_right ? refused : leave(solver, VARISAT_BAD_ARGUMENT);
}

/* Begins a call that changes the solver. */
static int enter_change(varisat *solver, bool is_right) {
    int refused = enter(solver, is_right);
    return !refused && solver->proof_failed ? leave(solver, VARISAT_INVALID) : refused;
}

/* Returns from a call that does not begin. */
#define BEGIN(entered)         \
    do {                       \
        int refused = entered; \
        if (refused)           \
            return refused;    \
    } while (0)

/* Hands on what an open proof wrote, behind an answer that stands where that succeeds. */
static int written(varisat *solver, int answer) {
    size_t size = solver->write ? caller_take_written(&solver->handle) : 0;
    for (size_t done = 0; done < size;) {
        uint8_t piece[PIECE];
        size_t count = caller_written_copy(&solver->handle, done, piece, sizeof piece);
        if (solver->write(solver->write_data, piece, count)) {
            solver->proof_failed = true;
            solver->write = NULL;
            return VARISAT_PROOF_IO;
        }
        done += count;
    }
    return answer;
}

/* Ends a call that changes the solver, by the library's number. */
static int changed(varisat *solver, int number) {
    return leave(solver, written(solver, -number));
}

/* Notes that these variables were named or returned. */
static void note(varisat *solver, const int32_t *literals, size_t count) {
    for (size_t i = 0; i < count; i++) {
        int64_t variable = literals[i] < 0 ? -(int64_t)literals[i] : literals[i];
        if (variable > solver->highest && variable <= HIGHEST_VARIABLE)
            solver->highest = (int32_t)variable;
    }
}

/* Ends a call that names these literals, as `changed` does. */
static int named(varisat *solver, const int32_t *literals, size_t count, int number) {
    if (number != -VARISAT_BAD_ARGUMENT)
        note(solver, literals, count);
    return changed(solver, number);
}

/* Ends a call that returns a variable, or an error. */
static int returned(varisat *solver, ptrdiff_t answer) {
    int32_t variable = (int32_t)answer;
    if (variable > 0)
        note(solver, &variable, 1);
    return leave(solver, written(solver, variable));
}

varisat *varisat_new(size_t heap_limit) {
    varisat *solver = calloc(1, sizeof *solver);
    last_error = VARISAT_OUT_OF_MEMORY;
    if (!solver)
        return NULL;
    set_limit(&solver->user, heap_limit);
    enter(solver, true);
    bool is_open = caller_open(&solver->handle);
    leave(solver, 0);
    if (is_open) {
        last_error = 0;
        return solver;
    }
    free(solver);
    return NULL;
}

int varisat_free(varisat *solver) {
    if (!solver)
        return 0;
    BEGIN(enter(solver, true));
    caller_close(&solver->handle);
    charged = solver->user.outer;
    free(solver);
    return 0;
}

int varisat_error(varisat *solver) { return solver ? solver->error : VARISAT_BAD_ARGUMENT; }

const char *varisat_error_text(varisat *solver) { return solver ? solver->text : varisat_strerror(VARISAT_BAD_ARGUMENT); }

int varisat_is_valid(varisat *solver) {
    BEGIN(enter(solver, true));
    return leave(solver, is_valid(solver));
}

/* Clauses. */

/* Whether so many members of this size can stand there: they cannot where the count was a negative number, as an error is. */
static bool is_slice(const void *at, size_t count, size_t size) { return at ? count <= PTRDIFF_MAX / size : !count; }

static bool are_numbers(const int32_t *numbers, size_t count) { return is_slice(numbers, count, sizeof *numbers); }

/* A slice that is never null. */
static const void *slice(const void *at) {
    static const int32_t none;
    return at ? at : &none;
}

int varisat_add_clause(varisat *solver, const int32_t *literals, size_t count) {
    BEGIN(enter_change(solver, are_numbers(literals, count)));
    return named(solver, literals, count, caller_add_clause(&solver->handle, slice(literals), count));
}

static bool are_clauses(const int32_t *numbers, size_t count) { return are_numbers(numbers, count) && (!count || !numbers[count - 1]); }

/* Gives the clauses one by one. */
static int add_each(uint8_t (*add)(struct handle *, const int32_t *, size_t), struct handle *handle, const int32_t *numbers, size_t count) {
    int number = 0;
    for (size_t from = 0, to = 0; to < count && !number; to++)
        if (!numbers[to]) {
            number = add(handle, numbers + from, to - from);
            from = to + 1;
        }
    return number;
}

int varisat_add_clauses(varisat *solver, const int32_t *numbers, size_t count) {
    BEGIN(enter_change(solver, are_clauses(numbers, count)));
    return named(solver, numbers, count, add_each(caller_add_clause, &solver->handle, numbers, count));
}

int varisat_add(varisat *solver, int32_t literal) {
    BEGIN(enter_change(solver, true));
    return named(solver, &literal, 1, caller_add(&solver->handle, literal));
}

int varisat_read_dimacs(varisat *solver, const char *piece, size_t size) {
    BEGIN(enter_change(solver, is_slice(piece, size, 1)));
    return changed(solver, caller_feed(&solver->handle, slice(piece), size));
}

int varisat_end_dimacs(varisat *solver) {
    BEGIN(enter_change(solver, true));
    return returned(solver, caller_end_text(&solver->handle));
}

/* Reads a piece, as read does, also where a signal comes first. */
static ssize_t read_piece(int fd, uint8_t *piece) {
    ssize_t size;
    do
        size = read(fd, piece, PIECE);
    while (size < 0 && errno == EINTR);
    return size;
}

int varisat_read_dimacs_fd(varisat *solver, int fd) {
    BEGIN(enter_change(solver, true));
    uint8_t piece[PIECE];
    ssize_t size;
    while ((size = read_piece(fd, piece)) > 0) {
        int answer = written(solver, -caller_feed(&solver->handle, piece, (size_t)size));
        if (answer)
            return leave(solver, answer);
    }
    int fault = errno;
    ptrdiff_t highest = caller_end_text(&solver->handle);
    int answer = returned(solver, size < 0 ? VARISAT_READ_FAILED : highest);
    errno = fault;
    return answer;
}

/* Searches. */

int varisat_assume(varisat *solver, const int32_t *literals, size_t count) {
    BEGIN(enter_change(solver, are_numbers(literals, count)));
    int number = caller_assume(&solver->handle, slice(literals), count);
    /* Under a proof that bars assumptions none are made, so that the empty list is assumed already. */
    return named(solver, literals, count, number == -VARISAT_PROOF_OPEN && !count ? 0 : number);
}

int varisat_solve(varisat *solver) { return varisat_solve_steps(solver, UINT64_MAX); }

int varisat_solve_steps(varisat *solver, uint64_t steps) {
    BEGIN(enter_change(solver, true));
    int answer = VARISAT_UNKNOWN;
    do {
        uint64_t round = steps < MOST_STEPS ? steps : MOST_STEPS;
        caller_limit_steps(&solver->handle, round);
        uint8_t number = caller_solve(&solver->handle);
        /* 1: the round is over */
        answer = written(solver, number == 10 || number == 20 ? number : number == 1 ? VARISAT_UNKNOWN : -number);
        steps -= steps == UINT64_MAX ? 0 : round;
    } while (answer == VARISAT_UNKNOWN && steps &&
             !atomic_load_explicit(&solver->interrupted, memory_order_relaxed) &&
             !(solver->terminate && solver->terminate(solver->terminate_data)));
    atomic_store_explicit(&solver->interrupted, 0, memory_order_relaxed);
    return leave(solver, answer);
}

int varisat_interrupt(varisat *solver) {
    if (!solver)
        return VARISAT_BAD_ARGUMENT;
    atomic_store_explicit(&solver->interrupted, 1, memory_order_relaxed);
    return 0;
}

int varisat_set_terminate(varisat *solver, int (*terminate)(void *data), void *data) {
    BEGIN(enter(solver, true));
    solver->terminate = terminate;
    solver->terminate_data = data;
    return leave(solver, 0);
}

/* Lists. */

/* Ends a call that returns a list, by the library's number. */
static int list(varisat *solver, int number, int32_t *numbers, size_t room) {
    int32_t none;
    if (number)
        return leave(solver, -number);
    size_t copied = caller_list_copy(&solver->handle, numbers ? numbers : &none, room);
    /* Variables come in increasing order, and those of a core were named. */
    if (copied)
        note(solver, &numbers[copied - 1], 1);
    return leave(solver, (int)caller_list_len(&solver->handle));
}

static int call_list(varisat *solver, uint8_t (*call)(struct handle *), int32_t *numbers, size_t room) {
    BEGIN(enter(solver, numbers || !room));
    return list(solver, solver->proof_failed ? -VARISAT_NOTHING : call(&solver->handle), numbers, room);
}

int varisat_model(varisat *solver, int32_t *literals, size_t room) { return call_list(solver, caller_model, literals, room); }
int varisat_failed_core(varisat *solver, int32_t *literals, size_t room) { return call_list(solver, caller_core, literals, room); }

int varisat_last_list(varisat *solver, int32_t *numbers, size_t room) {
    BEGIN(enter(solver, numbers || !room));
    return list(solver, 0, numbers, room);
}

int varisat_observe_internal_vars(varisat *solver, int32_t *variables, size_t room) {
    BEGIN(enter_change(solver, variables || !room));
    return list(solver, caller_observe(&solver->handle), variables, room);
}

/* 0 and 1 are answers. */
static int look_up(varisat *solver, uint8_t (*call)(struct handle *, int32_t), int32_t literal) {
    BEGIN(enter(solver, true));
    int number = solver->proof_failed ? -VARISAT_NOTHING : call(&solver->handle, literal);
    return leave(solver, number > 1 ? -number : number);
}

int varisat_value(varisat *solver, int32_t literal) { return look_up(solver, caller_value, literal); }

int32_t varisat_val(varisat *solver, int32_t literal) {
    int answer = varisat_value(solver, literal);
    last_error = answer < 0 ? answer : 0;
    return answer < 0 ? 0 : answer ? literal : -literal;
}

int varisat_is_failed(varisat *solver, int32_t literal) { return look_up(solver, caller_is_failed, literal); }

int varisat_fixed(varisat *solver, int32_t literal) {
    BEGIN(enter(solver, literal));
    return leave(solver, !solver->proof_failed && caller_is_fixed(&solver->handle, literal));
}

/* Variables. */

int varisat_new_var(varisat *solver) {
    BEGIN(enter_change(solver, true));
    return returned(solver, caller_new_var(&solver->handle));
}

static int set_mode(varisat *solver, int32_t variable, uint8_t mode) {
    BEGIN(enter_change(solver, true));
    return named(solver, &variable, 1, caller_set_mode(&solver->handle, variable, mode));
}

int varisat_sample_var(varisat *solver, int32_t variable) { return set_mode(solver, variable, 0); }
int varisat_witness_var(varisat *solver, int32_t variable) { return set_mode(solver, variable, 1); }
int varisat_hide_var(varisat *solver, int32_t variable) { return set_mode(solver, variable, 2); }

int varisat_set_phase(varisat *solver, int32_t literal) {
    BEGIN(enter_change(solver, literal));
    return leave(solver, -caller_set_phase(&solver->handle, literal));
}

int varisat_unset_phase(varisat *solver, int32_t variable) {
    BEGIN(enter_change(solver, variable > 0));
    return leave(solver, -caller_unset_phase(&solver->handle, variable));
}

int varisat_var_count(varisat *solver) {
    BEGIN(enter(solver, true));
    return leave(solver, solver->highest);
}

/* Settings and counters. */

static const char *const setting_names[] = {
    [VARISAT_VSIDS_DECAY] = "vsids_decay",
    [VARISAT_CLAUSE_ACTIVITY_DECAY] = "clause_activity_decay",
    [VARISAT_REDUCE_LOCALS_INTERVAL] = "reduce_locals_interval",
    [VARISAT_REDUCE_MIDS_INTERVAL] = "reduce_mids_interval",
    [VARISAT_LUBY_RESTART_INTERVAL_SCALE] = "luby_restart_interval_scale",
    [VARISAT_RESTART_GLUE] = "restart_glue",
};

const char *varisat_setting_name(int setting) {
    return setting >= 0 && setting <= VARISAT_RESTART_GLUE ? setting_names[setting] : NULL;
}

int varisat_set_named(varisat *solver, const char *name, uint64_t value) {
    int setting = 0;
    while (name && setting <= VARISAT_RESTART_GLUE && strcmp(name, setting_names[setting]))
        setting++;
    BEGIN(enter_change(solver, name && setting <= VARISAT_RESTART_GLUE));
    return leave(solver, -caller_config(&solver->handle, (uint8_t)setting, value));
}

int varisat_set(varisat *solver, enum varisat_setting setting, uint64_t value) {
    BEGIN(enter_change(solver, setting <= VARISAT_RESTART_GLUE));
    return leave(solver, -caller_config(&solver->handle, setting, value));
}

int varisat_set_for_file(varisat *solver) {
    BEGIN(varisat_set(solver, VARISAT_REDUCE_LOCALS_INTERVAL, 2000));
    BEGIN(varisat_set(solver, VARISAT_LUBY_RESTART_INTERVAL_SCALE, 1));
    return varisat_set(solver, VARISAT_RESTART_GLUE, 110);
}

uint64_t varisat_count(varisat *solver, enum varisat_counter counter) {
    last_error = enter(solver, counter <= VARISAT_BYTES);
    if (last_error)
        return 0;
    uint64_t count = counter == VARISAT_BYTES   ? sizeof *solver + solver->user.account.used
                     : counter == VARISAT_STEPS ? caller_steps(&solver->handle)
                                                : caller_counter(&solver->handle, (uint8_t)counter);
    leave(solver, 0);
    return count;
}

/* Proofs. */

int varisat_write_proof(varisat *solver, enum varisat_format format, int (*write)(void *, const void *, size_t), void *data) {
    BEGIN(enter_change(solver, write && format <= VARISAT_MARKED));
    int answer = -caller_open_proof(&solver->handle, format);
    if (!answer) {
        solver->write = write;
        solver->write_data = data;
    }
    return leave(solver, answer);
}

static int write_to_fd(void *data, const void *bytes, size_t size) {
    varisat *solver = data;
    const char *next = bytes;
    while (size) {
        ssize_t count = write(solver->fd, next, size);
        if (count < 0 && errno == EINTR)
            continue;
        if (count <= 0)
            return 1;
        next += count;
        size -= (size_t)count;
    }
    return 0;
}

int varisat_write_proof_fd(varisat *solver, enum varisat_format format, int fd) {
    int answer = varisat_write_proof(solver, format, write_to_fd, solver);
    if (!answer)
        solver->fd = fd;
    return answer;
}

int varisat_close_proof(varisat *solver) {
    BEGIN(enter_change(solver, true));
    int answer = written(solver, -caller_close_proof(&solver->handle));
    solver->write = NULL;
    return leave(solver, answer);
}

int varisat_self_check(varisat *solver) {
    BEGIN(enter_change(solver, true));
    return changed(solver, caller_self_check(&solver->handle));
}

int varisat_check_proof(enum varisat_format format, const char *text, size_t text_size, const void *proof, size_t proof_size, uint64_t *place) {
    uint64_t unused;
    if (!is_slice(text, text_size, 1) || !is_slice(proof, proof_size, 1) || format > VARISAT_MARKED)
        return VARISAT_BAD_ARGUMENT;
    struct account *before = charged;
    charged = NULL;
    uint8_t number = caller_check(format, slice(text), text_size, slice(proof), proof_size, place ? place : &unused);
    charged = before;
    return number == VARISAT_UNSATISFIABLE ? number : -number;
}

/* Simplifiers. */

struct varisat_simplifier {
    struct handle handle;
    struct user user;
};

static int enter_simplifier(varisat_simplifier *simplifier, bool is_right) {
    int refused = simplifier ? begin(&simplifier->user) : VARISAT_BAD_ARGUMENT;
    return refused || is_right ? refused : end(&simplifier->user, VARISAT_BAD_ARGUMENT);
}

varisat_simplifier *varisat_simplifier_new(size_t heap_limit) {
    varisat_simplifier *simplifier = calloc(1, sizeof *simplifier);
    last_error = VARISAT_OUT_OF_MEMORY;
    if (!simplifier)
        return NULL;
    set_limit(&simplifier->user, heap_limit);
    begin(&simplifier->user);
    if (end(&simplifier->user, simplifier_open(&simplifier->handle))) {
        last_error = 0;
        return simplifier;
    }
    free(simplifier);
    return NULL;
}

int varisat_simplifier_free(varisat_simplifier *simplifier) {
    if (!simplifier)
        return 0;
    BEGIN(enter_simplifier(simplifier, true));
    simplifier_close(&simplifier->handle);
    charged = simplifier->user.outer;
    free(simplifier);
    return 0;
}

int varisat_simplifier_add_clause(varisat_simplifier *simplifier, const int32_t *literals, size_t count) {
    BEGIN(enter_simplifier(simplifier, are_numbers(literals, count)));
    return end(&simplifier->user, -simplifier_add_clause(&simplifier->handle, slice(literals), count));
}

int varisat_simplifier_add_clauses(varisat_simplifier *simplifier, const int32_t *numbers, size_t count) {
    BEGIN(enter_simplifier(simplifier, are_clauses(numbers, count)));
    return end(&simplifier->user, -add_each(simplifier_add_clause, &simplifier->handle, numbers, count));
}

int varisat_simplifier_freeze(varisat_simplifier *simplifier, int32_t variable) {
    BEGIN(enter_simplifier(simplifier, true));
    return end(&simplifier->user, -simplifier_freeze(&simplifier->handle, variable));
}

int varisat_simplifier_simplify(varisat_simplifier *simplifier) {
    BEGIN(enter_simplifier(simplifier, true));
    return end(&simplifier->user, -simplifier_simplify(&simplifier->handle));
}

/* Ends a call that returns a list, by the library's number. */
static int listed(varisat_simplifier *simplifier, int number, int32_t *numbers, size_t room) {
    int32_t none;
    if (number)
        return end(&simplifier->user, -number);
    simplifier_list_copy(&simplifier->handle, numbers ? numbers : &none, room);
    size_t count = simplifier_list_len(&simplifier->handle);
    return end(&simplifier->user, count > INT_MAX ? VARISAT_OUT_OF_MEMORY : (int)count);
}

int varisat_simplifier_clauses(varisat_simplifier *simplifier, int32_t *numbers, size_t room) {
    BEGIN(enter_simplifier(simplifier, numbers || !room));
    return listed(simplifier, simplifier_clauses(&simplifier->handle), numbers, room);
}

int varisat_simplifier_extend(varisat_simplifier *simplifier, const int32_t *model, size_t count, int32_t *literals, size_t room) {
    BEGIN(enter_simplifier(simplifier, are_numbers(model, count) && (literals || !room)));
    return listed(simplifier, simplifier_extend(&simplifier->handle, slice(model), count), literals, room);
}
