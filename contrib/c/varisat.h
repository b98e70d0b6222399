/* varisat: an incremental SAT solver whose search, names, proofs and checker are proved.
 *
 * Literals are the numbers v and -v of variables v from 1 to 2^28. Names come into use up to the highest one, and each takes memory.
 *
 * Each call that returns an int returns 0 or more, or one of the errors below, which are negative. After an error the solver is as
 * before, but for clauses of a list or a text that came before it, unless varisat_is_valid says that it is invalid: then calls that
 * would change it return VARISAT_INVALID, it has no model and no core, and varisat_free is what is left to do.
 * A call that returns a list copies as many of its numbers as there is room for, and returns how many there are.
 *
 * Threads: solvers share nothing. One call at a time uses a solver, from whatever thread; a second one is refused as VARISAT_BUSY, and
 * so is a call from within a callback of that solver. A callback has to return: none may throw or jump out. varisat_interrupt alone may
 * be called at any time, also in a signal handler.
 * Nothing finds out a solver that was freed, or a pointer that has fewer members than its count says; an error as a count is refused. */
#ifndef VARISAT_H
#define VARISAT_H

#include <stddef.h>
#include <stdint.h>

#ifdef __cplusplus
extern "C" {
#endif

/* The version of this header. varisat_version returns that of the library. */
#define VARISAT_VERSION_MAJOR 2
#define VARISAT_VERSION_MINOR 0
#define VARISAT_VERSION_PATCH 0

typedef struct varisat varisat;

/* What varisat_solve found out. */
enum {
    VARISAT_UNKNOWN = 0,
    VARISAT_SATISFIABLE = 10,
    VARISAT_UNSATISFIABLE = 20
};

enum {
    VARISAT_PROOF_IO = -2,           /* what takes the proof failed; the solver is invalid */
    VARISAT_OUT_OF_MEMORY = -3,      /* memory or the limit of the heap; varisat_is_valid says whether the solver can go on */
    VARISAT_INVALID = -4,            /* a call after one that left the solver invalid */
    VARISAT_STORE_FULL = -5,         /* the store of clauses is full; the solver is invalid */
    VARISAT_WITNESS_VAR = -6,        /* a clause or an assumption names a witness */
    VARISAT_VARIABLE_LIMIT = -7,     /* a variable above 2^28 */
    VARISAT_ASSUMED_VAR = -8,        /* a mode or a hiding of an assumed variable */
    VARISAT_CLAUSE_AFTER_SOLVE = -9, /* a clause once varisat_solve was called under an open DRAT proof */
    VARISAT_PROOF_OPEN = -10,        /* a proof is open; an assumption under a DRAT proof */
    VARISAT_PROOF_TOO_LATE = -11,    /* something was accepted before the proof or the checker */
    VARISAT_OUT_OF_RANGE = -12,      /* a value out of its setting's range */
    VARISAT_DIMACS = -13,            /* a fault of a text; the clauses before it stay */
    VARISAT_BAD_ARGUMENT = -14,      /* no solver, no list, clauses that no 0 ends, no setting, the literal 0, no variable */
    VARISAT_NOTHING = -15,           /* there is no model, core or proof, or the model has no such variable */
    VARISAT_WRONG_PROOF = -16,       /* a line of a proof is wrong */
    VARISAT_OTHER_CLAUSE = -17,      /* a marked proof was given a clause that the text has not */
    VARISAT_BUSY = -18,              /* another call of this solver is under way */
    VARISAT_SIMPLIFIED = -19,        /* the simplifier has simplified its clauses */
    VARISAT_READ_FAILED = -20        /* a file cannot be read further, and errno says why; the clauses before stay */
};

/* An error in words, also one of a simplifier or of a check. Each number has a text, which lasts. varisat_error_text says more, such as
 * which line of a text or which variable it was. */
const char *varisat_strerror(int error);

/* The error of the last call in this thread of varisat_new, varisat_simplifier_new, varisat_val or varisat_count, which return none: 0 if
 * that call succeeded, or if there was none. */
int varisat_last_error(void);

/* The name, the version, and the commit of the sources from which the library was built: "varisat 2.0.0, commit 0123456789ab (2026-11-29)".
 * "modified" is added if a source differed from the commit, and "built without proofs" if the library is not proved. */
const char *varisat_version(void);

/* A new solver, which takes at most so many bytes of memory; 0 sets no limit. NULL where there is no memory. */
varisat *varisat_new(size_t heap_limit);

/* Ends the solver. Refused from within its callbacks. NULL is fine. */
int varisat_free(varisat *solver);

/* What went wrong last, as a number and as text; 0 and "" where nothing did. What left the solver invalid is returned from then on. The
 * text is the solver's, and lasts until its next call. */
int varisat_error(varisat *solver);
const char *varisat_error_text(varisat *solver);

/* Whether the solver can be used. */
int varisat_is_valid(varisat *solver);

/* Clauses. Once they are known to have no model each further clause is accepted, whatever variables it names. */

/* Accepts a clause of so many literals. */
int varisat_add_clause(varisat *solver, const int32_t *literals, size_t count);

/* Accepts clauses, each of which a 0 ends, up to the first that is refused. */
int varisat_add_clauses(varisat *solver, const int32_t *numbers, size_t count);

/* Puts a literal behind the clause that is being given, or accepts that clause at 0: no search counts it before. One of which a literal
 * found no memory is refused as a whole. */
int varisat_add(varisat *solver, int32_t literal);

/* Accepts the clauses that end in the next piece of a DIMACS CNF text. A fault ends the text. */
int varisat_read_dimacs(varisat *solver, const char *piece, size_t size);

/* Ends the text. Returns the highest variable of its header and its literals. */
int varisat_end_dimacs(varisat *solver);

/* Reads the rest of a text from the file that is open under this number, up to its end, ends the text, and returns as varisat_end_dimacs
 * does. The file stays open. Where it cannot be read further (VARISAT_READ_FAILED) the text is ended too. */
int varisat_read_dimacs_fd(varisat *solver, int fd);

/* Searches. */

/* Assumes these literals in all searches, until others replace them. Under a DRAT proof none can be assumed, and the empty list is 0. */
int varisat_assume(varisat *solver, const int32_t *literals, size_t count);

/* Are the clauses satisfiable under the assumptions? VARISAT_UNKNOWN where the search was interrupted: the next call goes on. */
int varisat_solve(varisat *solver);

/* The same, interrupted after so many steps. A step ends with a conflict or the answer. */
int varisat_solve_steps(varisat *solver, uint64_t steps);

/* Interrupts the search that is under way, or else the next one, within 1000 steps. */
int varisat_interrupt(varisat *solver);

/* Each 1000 steps a search asks the function, and is interrupted where it does not return 0. NULL asks none. */
int varisat_set_terminate(varisat *solver, int (*terminate)(void *data), void *data);

/* The variables in use with their values, in their order, if the last thing that was found out is that there is a model. */
int varisat_model(varisat *solver, int32_t *literals, size_t room);

/* Whether the literal is true in this model, 1 or 0. A variable that is not in use is VARISAT_NOTHING, which is not 0. */
int varisat_value(varisat *solver, int32_t literal);

/* The literal if it is true in this model, its opposite if it is false, and 0 if neither is known, as IPASIR's ipasir_val: there is no
 * model, it has no such variable, or the call is refused. varisat_last_error returns which error of varisat_value that was. */
int32_t varisat_val(varisat *solver, int32_t literal);

/* Some of the assumptions which fail together with the clauses, if the last thing that was found out is that they do. */
int varisat_failed_core(varisat *solver, int32_t *literals, size_t room);

/* Whether the literal is one of this core, 1 or 0. */
int varisat_is_failed(varisat *solver, int32_t literal);

/* Whether the literal is fixed, 1 or 0: 1 if its variable has this value whatever is decided, so that the clauses entail the literal. 0 if
 * no search and no clause of one literal has fixed it yet, if the variable is not in use, and once the solver is invalid. It takes no step,
 * and changes nothing. */
int varisat_fixed(varisat *solver, int32_t literal);

/* The list that was returned last once more, as for one that was longer than its room; none after one for which memory ran out. */
int varisat_last_list(varisat *solver, int32_t *numbers, size_t room);

/* Variables. */

/* Brings the least free variable into use, and returns it. */
int varisat_new_var(varisat *solver);

/* Makes it a witness, which no clause and no assumption names, or lets them name it again. */
int varisat_witness_var(varisat *solver, int32_t variable);
int varisat_sample_var(varisat *solver, int32_t variable);

/* Frees its name; the variable lives on in the clauses. From then on a check of an open proof may fail. */
int varisat_hide_var(varisat *solver, int32_t variable);

/* Brings hidden variables back as witnesses, and returns their new names; which variable has which is not promised. One whose value is
 * forced, or that no clause of several literals names, may stay hidden. Where a valid solver has no memory for that list they are back all
 * the same, and the next model lists them. */
int varisat_observe_internal_vars(varisat *solver, int32_t *variables, size_t room);

/* Sets the phase of the literal's variable: a search decides the variable first so that the literal is true. After that it decides the
 * variable as it was last assigned, and it begins anew at least each 1000 steps. The phase stays until another one is set, varisat_unset_phase
 * is called, or the variable is hidden; that of a variable which is not in use waits for it. No answer depends on it, except which model is
 * found. The call brings no variable into use, and a search takes time for each variable once a phase was set. */
int varisat_set_phase(varisat *solver, int32_t literal);
int varisat_unset_phase(varisat *solver, int32_t variable);

/* The highest variable that the calls of this solver named or returned, 0 if there is none. A call that was refused counts, unless as
 * VARISAT_BAD_ARGUMENT, VARISAT_INVALID or VARISAT_BUSY, and so does a list as far as there was room for it; a text counts once it ended
 * without a fault. */
int varisat_var_count(varisat *solver);

/* Settings and counters. */

enum varisat_setting {
    VARISAT_VSIDS_DECAY,                 /* 500 to 999, in thousandths; 950 */
    VARISAT_CLAUSE_ACTIVITY_DECAY,       /* 500 to 999, in thousandths; 999 */
    VARISAT_REDUCE_LOCALS_INTERVAL,      /* from 1; 15000 */
    VARISAT_REDUCE_MIDS_INTERVAL,        /* from 1; 10000 */
    VARISAT_LUBY_RESTART_INTERVAL_SCALE, /* from 1; 128 */
    VARISAT_RESTART_GLUE                 /* 0 to 1000, in hundredths; 0: each due restart is made */
};
int varisat_set(varisat *solver, enum varisat_setting setting, uint64_t value);

/* Sets the setting of this name, such as "vsids_decay". VARISAT_BAD_ARGUMENT if there is none. */
int varisat_set_named(varisat *solver, const char *name, uint64_t value);

/* The name of the setting with this number, and NULL if there is none: they are numbered from 0. No call returns a setting's value. */
const char *varisat_setting_name(int setting);

/* Settings for one formula as in a file: locals 2000, restarts 1, glue 110. */
int varisat_set_for_file(varisat *solver);

enum varisat_counter {
    VARISAT_CONFLICTS,
    VARISAT_DECISIONS,
    VARISAT_PROPAGATIONS,
    VARISAT_RESTARTS,
    VARISAT_LEARNED_LITERALS,
    VARISAT_DELETED_CLAUSES,
    VARISAT_COLLECTIONS,
    VARISAT_STEPS,
    VARISAT_BYTES /* of memory in use */
};
/* 0 also if there is no such counter, or the solver is busy: varisat_last_error then returns why. */
uint64_t varisat_count(varisat *solver, enum varisat_counter counter);

/* Proofs. */

enum varisat_format {
    VARISAT_DRAT,
    VARISAT_BINARY_DRAT,
    VARISAT_MARKED
};

/* Opens a proof, before anything is accepted. Its bytes go to the function at least each 1000 steps, and with each call that gives
 * clauses; the function returns 0 once it took them all. */
int varisat_write_proof(varisat *solver, enum varisat_format format, int (*write)(void *data, const void *bytes, size_t size), void *data);

/* The same into a file that is open under this number, which stays open. */
int varisat_write_proof_fd(varisat *solver, enum varisat_format format, int fd);

/* Ends the proof. VARISAT_NOTHING where none is open. */
int varisat_close_proof(varisat *solver);

/* Has a checker run inside, from before anything is accepted. It finds no step wrong: this is proved. If memory runs out in it, the
 * solver is invalid. */
int varisat_self_check(varisat *solver);

/* Checks a proof against a DIMACS CNF text: VARISAT_UNSATISFIABLE where it refutes the text's clauses, VARISAT_UNKNOWN where all its
 * lines are right and refute nothing. Else *place is the step or the byte of the proof, or the line of the text, that is wrong. DRAT may
 * be another solver's: a clause may be RAT on any of its literals, and a deletion that finds no clause, or one by which a literal is
 * implied, is passed over. */
int varisat_check_proof(enum varisat_format format, const char *text, size_t text_size, const void *proof, size_t proof_size, uint64_t *place);

/* Simplification. */

/* A simplifier makes clauses shorter before a solver takes them. Where one of its calls is refused nothing changes, but that the clauses
 * of a list which come before the one that is refused are taken. */
typedef struct varisat_simplifier varisat_simplifier;

/* A new simplifier, and its end, as those of a solver. */
varisat_simplifier *varisat_simplifier_new(size_t heap_limit);
int varisat_simplifier_free(varisat_simplifier *simplifier);

/* Takes a clause of so many literals, or clauses, each of which a 0 ends, up to the first that is refused. */
int varisat_simplifier_add_clause(varisat_simplifier *simplifier, const int32_t *literals, size_t count);
int varisat_simplifier_add_clauses(varisat_simplifier *simplifier, const int32_t *numbers, size_t count);

/* Freezes a variable that later clauses or assumptions name, or whose value is to stay: others may go. */
int varisat_simplifier_freeze(varisat_simplifier *simplifier, int32_t variable);

/* Simplifies all clauses, once. Behind that no clause and no frozen variable is taken. */
int varisat_simplifier_simplify(varisat_simplifier *simplifier);

/* The clauses that are left, each ended by a 0, as varisat_add_clauses takes them. VARISAT_NOTHING before the simplification. */
int varisat_simplifier_clauses(varisat_simplifier *simplifier, int32_t *numbers, size_t room);

/* Extends a model of the clauses that are left, in any order, to all variables up to the highest of the clauses that were given, in their
 * order. One that the model does not name is taken for false, and one above the highest is passed over. */
int varisat_simplifier_extend(varisat_simplifier *simplifier, const int32_t *model, size_t count, int32_t *literals, size_t room);

/* IPASIR, the ten functions of ipasir.h, is in the library too. Why a solver that ipasir_init returned does nothing and answers 0 from
 * some call on: an error above, or 0. */
int varisat_ipasir_error(void *solver);

/* Simplification inside the calls of ipasir.h. The clauses that were given since the last ipasir_solve are simplified by the next one if
 * they have enough literals. No answer depends on it. */

/* Changes a setting of that solver: 1, or 0 if the name or the value is none. "simplify" is how many literals the clauses have at least
 * that are simplified: 1000 at first, and 0 simplifies none. The environment's variable VARISAT_SIMPLIFY sets it for each new solver. */
int varisat_ipasir_set(void *solver, const char *name, int value);

/* Hints that later clauses or assumptions name the variable, and takes the hint back. Such a variable is not eliminated, which saves
 * restoring it. */
void varisat_ipasir_freeze(void *solver, int32_t number);
void varisat_ipasir_melt(void *solver, int32_t number);

/* How many variables were "eliminated" so far, or "restored", or how many "milliseconds" batches took to be simplified and stored, or -1
 * if the name is another. */
int64_t varisat_ipasir_counter(void *solver, const char *name);

#ifdef __cplusplus
}
#endif

#endif
