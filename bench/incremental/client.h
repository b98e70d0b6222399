/* What the programs here have in common: random numbers with a fixed seed, times, and a message. */
#include "../../contrib/ipasir/ipasir.h"

#include <stdio.h>
#include <stdlib.h>
#include <time.h>

static unsigned long long seed = 88172645463325252ULL;

static int draw(int below) {
    seed ^= seed << 13, seed ^= seed >> 7, seed ^= seed << 17;
    return (int)((seed >> 33) % (unsigned)below);
}

static int draw_sign(int variable) {
    return draw(2) ? variable : -variable;
}

static double milliseconds(void) {
    struct timespec now;
    clock_gettime(CLOCK_PROCESS_CPUTIME_ID, &now);
    return (double)now.tv_sec * 1e3 + (double)now.tv_nsec / 1e6;
}

static void stop(const char *why) {
    fprintf(stderr, "%s: %s\n", ipasir_signature(), why);
    exit(2);
}
