/* decide FILE: decides a DIMACS file and prints the model, or the DRAT proof, which is checked. Ends with 10, or 20; with 1 if anything fails.
 * What builds for other machines print has to be the same. */
#include "../varisat.h"

#include <fcntl.h>
#include <stdio.h>
#include <stdlib.h>
#include <string.h>
#include <unistd.h>

static struct bytes {
    char *start;
    size_t size;
} text, proof;

static int append(void *data, const void *bytes, size_t size) {
    struct bytes *to = data;
    char *start = realloc(to->start, to->size + size + 1);
    if (!start)
        return -1;
    memcpy(start + to->size, bytes, size);
    to->start = start;
    to->size += size;
    return 0;
}

static int fail(const char *what, int error) { return fprintf(stderr, "%s: %s\n", what, varisat_strerror(error)), 1; }

int main(int count, char **words) {
    static char piece[1 << 16];
    int file = count == 2 ? open(words[1], O_RDONLY) : -1;
    ssize_t size;
    while ((size = read(file, piece, sizeof piece)) > 0)
        if (append(&text, piece, (size_t)size))
            return fail("text", VARISAT_OUT_OF_MEMORY);
    if (size < 0)
        return perror(words[0]), 1;
    varisat *solver = varisat_new(0);
    int error = solver ? varisat_set_for_file(solver) : varisat_last_error();
    if (error || (error = varisat_write_proof(solver, VARISAT_DRAT, append, &proof)) || (error = varisat_read_dimacs(solver, text.start, text.size)) ||
        (error = varisat_end_dimacs(solver)) < 0)
        return fail("before the search", error);
    int answer = varisat_solve(solver);
    if (answer == VARISAT_SATISFIABLE) {
        int known = varisat_model(solver, NULL, 0);
        int32_t *model = calloc((size_t)known + 1, sizeof *model);
        if (!model || varisat_model(solver, model, (size_t)known) != known)
            return fail("model", VARISAT_OUT_OF_MEMORY);
        for (int i = 0; i < known; i++) printf("%s%d", i ? " " : "", model[i]);
        free(model);
    } else if (answer == VARISAT_UNSATISFIABLE) {
        uint64_t place;
        if ((error = varisat_close_proof(solver)))
            return fail("proof", error);
        if ((error = varisat_check_proof(VARISAT_DRAT, text.start, text.size, proof.start, proof.size, &place)) != VARISAT_UNSATISFIABLE)
            return fail("check", error);
        fwrite(proof.start, 1, proof.size, stdout);
    } else {
        return fail("search", answer);
    }
    if (varisat_free(solver))
        return 1;
    free(text.start);
    free(proof.start);
    return fflush(stdout) ? 1 : answer;
}
