/* Reads calls, a line each: a clause, or `?` and assumptions. Prints an answer a question: 10, or 20 and the assumptions that failed. On
 * standard error: the seconds of a processor that the calls took. Through IPASIR, so that any solver that has it can be linked. */
#include "../ipasir/ipasir.h"

#include <stdio.h>
#include <stdlib.h>
#include <string.h>
#include <time.h>

int main(void) {
    static char line[1 << 20];
    void *solver = ipasir_init();
    clock_t took = 0;
    while (fgets(line, sizeof line, stdin)) {
        int numbers[1 << 14], count = 0;
        int is_question = *line == '?';
        for (char *at = strtok(line + is_question, " \n"); at; at = strtok(NULL, " \n")) numbers[count++] = atoi(at);
        clock_t before = clock();
        for (int i = 0; i < count; i++)
            if (is_question) ipasir_assume(solver, numbers[i]);
            else ipasir_add(solver, numbers[i]);
        int answer = is_question ? ipasir_solve(solver) : (ipasir_add(solver, 0), 0);
        took += clock() - before;
        if (!is_question) continue;
        printf("%d", answer);
        for (int i = 0; answer == 20 && i < count; i++)
            if (ipasir_failed(solver, numbers[i])) printf(" %d", numbers[i]);
        printf("\n");
    }
    fprintf(stderr, "%.2f\n", (double)took / CLOCKS_PER_SEC);
    ipasir_release(solver);
    return 0;
}
