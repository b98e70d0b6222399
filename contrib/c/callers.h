/* The calls of crates/varisat_c, which are proved. A handle is a word; a slice is a pointer, never null, and a length. */
#ifndef CALLERS_H
#define CALLERS_H

#include <stdbool.h>
#include <stddef.h>
#include <stdint.h>

struct handle {
    void *word;
};
bool caller_open(struct handle *);
void caller_close(struct handle *);
uint8_t caller_add_clause(struct handle *, const int32_t *, size_t);
uint8_t caller_add(struct handle *, int32_t number);
uint8_t caller_feed(struct handle *, const uint8_t *, size_t);
ptrdiff_t caller_end_text(struct handle *);
uint8_t caller_assume(struct handle *, const int32_t *, size_t);
void caller_limit_steps(struct handle *, uint64_t steps);
uint8_t caller_solve(struct handle *);
ptrdiff_t caller_new_var(struct handle *);
uint8_t caller_set_mode(struct handle *, int32_t variable, uint8_t mode);
uint8_t caller_model(struct handle *);
uint8_t caller_core(struct handle *);
uint8_t caller_value(struct handle *, int32_t number);
uint8_t caller_is_failed(struct handle *, int32_t number);
uint8_t caller_observe(struct handle *);
uint8_t caller_config(struct handle *, uint8_t field, uint64_t value);
uint8_t caller_open_proof(struct handle *, uint8_t format);
uint8_t caller_close_proof(struct handle *);
uint8_t caller_self_check(struct handle *);
size_t caller_take_written(struct handle *);
size_t caller_written_copy(struct handle *, size_t from, uint8_t *, size_t);
uint64_t caller_steps(struct handle *);
uint64_t caller_counter(struct handle *, uint8_t number);
bool caller_is_valid(struct handle *);
uint8_t caller_is_fixed(struct handle *, int32_t number);
uint8_t caller_set_phase(struct handle *, int32_t number);
uint8_t caller_unset_phase(struct handle *, int32_t variable);
size_t caller_list_len(struct handle *);
size_t caller_list_copy(struct handle *, int32_t *, size_t);
size_t caller_refusal_copy(struct handle *, uint8_t *, size_t);
uint8_t caller_check(uint8_t format, const uint8_t *, size_t, const uint8_t *, size_t, uint64_t *place);

/* Those of its module client, for IPASIR: 10, 20, 0 where the steps of a call are spent, and 1 where calls are refused: since memory ran out
 * (1), a variable is past 2^28 (2), or the store of clauses is full (3). */
bool client_open(struct handle *);
void client_close(struct handle *);
void client_add(struct handle *, int32_t number);
void client_assume(struct handle *, int32_t number);
void client_limit_steps(struct handle *, uint64_t steps);
/* 0 literals simplify nothing. */
void client_simplify_from(struct handle *, uint32_t literals);
void client_freeze(struct handle *, int32_t number);
void client_melt(struct handle *, int32_t number);
uint64_t client_eliminations(struct handle *, bool restored);
void client_begin(struct handle *);
/* Whether a part was done. */
bool client_prepare(struct handle *);
uint8_t client_search(struct handle *);
int32_t client_value(struct handle *, int32_t number);
bool client_has_failed(struct handle *, int32_t number);
uint8_t client_refusal(struct handle *);

/* Those of its module simplifier. */
bool simplifier_open(struct handle *);
void simplifier_close(struct handle *);
uint8_t simplifier_add_clause(struct handle *, const int32_t *, size_t);
uint8_t simplifier_freeze(struct handle *, int32_t variable);
uint8_t simplifier_simplify(struct handle *);
uint8_t simplifier_clauses(struct handle *);
uint8_t simplifier_extend(struct handle *, const int32_t *, size_t);
size_t simplifier_list_len(struct handle *);
size_t simplifier_list_copy(struct handle *, int32_t *, size_t);

/* What memory is charged to, if anything is. */
struct account;
extern _Thread_local struct account *charged;

/* What the compiled library calls for memory: ok, or no room and p as it likes. */
struct tried {
    bool ok;
    void *p;
};
struct tried rattle_alloc(size_t size, size_t align);
struct tried rattle_realloc(void *old, size_t kept, size_t size, size_t align);
void rattle_dealloc(void *old);

#endif
