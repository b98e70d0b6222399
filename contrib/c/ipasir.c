/* IPASIR over the proved calls of clients, as ../ipasir/ipasir.h says. This file is not proved: it keeps the client's word, the callback,
 * whether a search is under way, and how long simplification took. */
#define _POSIX_C_SOURCE 200809L
#include "../ipasir/ipasir.h"

#include <stdlib.h>
#include <string.h>
#include <time.h>

#include "callers.h"
#include "varisat.h"

/* How many steps a search makes between two questions whether it is to end. */
static const uint64_t steps_between = 1000;

struct client {
    struct handle handle;
    void *data;
    int (*terminate)(void *data);
    bool is_solving;
    /* How long they were simplified and stored so far. */
    double milliseconds;
    /* Where a callback of varisat.h calls: what that call is charged to. */
    struct account *outer;
};

/* Begins a call that may take memory, which nothing limits: the client, or NULL where it is not there or its callback calls. */
static struct client *enter(void *solver) {
    struct client *client = solver;
    if (!client || client->is_solving)
        return NULL;
    client->outer = charged;
    charged = NULL;
    return client;
}

static void leave(struct client *client) {
    charged = client->outer;
}

const char *ipasir_signature(void) {
    return varisat_version();
}

/* VARISAT_SIMPLIFY is how many literals a batch of clauses has at least that is simplified, or 0 to simplify none. Another text than
 * such a number changes nothing. */
static void set_by_environment(struct client *client) {
    const char *text = getenv("VARISAT_SIMPLIFY");
    if (!text || *text < '0' || *text > '9')
        return;
    char *end;
    unsigned long number = strtoul(text, &end, 10);
    if (*end == '\0' && number <= UINT32_MAX)
        client_simplify_from(&client->handle, (uint32_t)number);
}

void *ipasir_init(void) {
    struct client *client = enter(calloc(1, sizeof *client));
    if (!client)
        return NULL;
    bool is_open = client_open(&client->handle);
    if (is_open)
        set_by_environment(client);
    leave(client);
    if (is_open)
        return client;
    free(client);
    return NULL;
}

void ipasir_release(void *solver) {
    struct client *client = enter(solver);
    if (!client)
        return;
    client_close(&client->handle);
    leave(client);
    free(client);
}

static void give(void *solver, void (*call)(struct handle *, int32_t), int32_t number) {
    struct client *client = enter(solver);
    if (!client)
        return;
    call(&client->handle, number);
    leave(client);
}

void ipasir_add(void *solver, int32_t number) { give(solver, client_add, number); }
void ipasir_assume(void *solver, int32_t number) { give(solver, client_assume, number); }

static double milliseconds(void) {
    struct timespec now;
    clock_gettime(CLOCK_MONOTONIC, &now);
    return (double)now.tv_sec * 1e3 + (double)now.tv_nsec / 1e6;
}

static void limit_steps(struct client *client) {
    client_limit_steps(&client->handle, client->terminate ? steps_between : UINT64_MAX);
}

static bool is_to_end(struct client *client) {
    return client->terminate && client->terminate(client->data);
}

/* Has the clauses simplified in parts, if they are enough, and then stored by a search that may make no step. The callback is asked after
 * each part, and once they are stored. Whether the search is to go on; `answer` is what it came to. */
static bool prepare(struct client *client, int *answer) {
    double began = milliseconds();
    bool is_batch = false, is_ended = false;
    while (!is_ended && client_prepare(&client->handle)) {
        is_batch = true;
        is_ended = is_to_end(client);
    }
    *answer = 0;
    if (is_batch && !is_ended) {
        client_limit_steps(&client->handle, 0);
        *answer = client_search(&client->handle);
        limit_steps(client);
        is_ended = *answer != 0 || is_to_end(client);
    }
    client->milliseconds += is_batch ? milliseconds() - began : 0;
    return !is_ended;
}

static int search(struct client *client) {
    int answer;
    client_begin(&client->handle);
    if (!prepare(client, &answer))
        return answer;
    do
        answer = client_search(&client->handle);
    /* Without a callback the steps are all that can be counted. */
    while (answer == 0 && client->terminate && !is_to_end(client));
    return answer;
}

int ipasir_solve(void *solver) {
    struct client *client = enter(solver);
    if (!client)
        return 0;
    client->is_solving = true;
    int answer = search(client);
    client->is_solving = false;
    leave(client);
    return answer == 1 ? 0 : answer;
}

int32_t ipasir_val(void *solver, int32_t number) {
    struct client *client = solver;
    return client ? client_value(&client->handle, number) : 0;
}

int ipasir_failed(void *solver, int32_t number) {
    struct client *client = solver;
    return client ? client_has_failed(&client->handle, number) : 0;
}

void ipasir_set_terminate(void *solver, void *data, int (*terminate)(void *data)) {
    struct client *client = enter(solver);
    if (!client)
        return;
    client->data = data;
    client->terminate = terminate;
    limit_steps(client);
    leave(client);
}

void ipasir_set_learn(void *solver, void *data, int max_length, void (*learn)(void *data, int32_t *clause)) {
    (void)solver, (void)data, (void)max_length, (void)learn;
}

int varisat_ipasir_set(void *solver, const char *name, int value) {
    struct client *client = enter(solver);
    if (!client)
        return 0;
    bool is_known = name && strcmp(name, "simplify") == 0 && value >= 0;
    if (is_known)
        client_simplify_from(&client->handle, (uint32_t)value);
    leave(client);
    return is_known;
}

void varisat_ipasir_freeze(void *solver, int32_t number) { give(solver, client_freeze, number); }
void varisat_ipasir_melt(void *solver, int32_t number) { give(solver, client_melt, number); }

int64_t varisat_ipasir_counter(void *solver, const char *name) {
    struct client *client = solver;
    if (!client || !name)
        return -1;
    if (strcmp(name, "milliseconds") == 0)
        return (int64_t)client->milliseconds;
    bool is_restored = strcmp(name, "restored") == 0;
    if (!is_restored && strcmp(name, "eliminated") != 0)
        return -1;
    uint64_t count = client_eliminations(&client->handle, is_restored);
    return count > INT64_MAX ? INT64_MAX : (int64_t)count;
}

int varisat_ipasir_error(void *solver) {
    static const int errors[] = {0, VARISAT_OUT_OF_MEMORY, VARISAT_VARIABLE_LIMIT, VARISAT_STORE_FULL};
    struct client *client = solver;
    return client ? errors[client_refusal(&client->handle)] : VARISAT_OUT_OF_MEMORY;
}
