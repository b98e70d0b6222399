/* What a program calls of the C in the kit, which has it as object files for x86-64 alone: for a program on another machine. It is not proved,
 * as that of the kit is not. crates/os and libc of the kit say what each function has to do. */
#include <errno.h>
#include <stddef.h>
#include <stdint.h>
#include <stdlib.h>
#include <sys/types.h>

/* Arguments. */

static size_t argument_count;
static char **arguments;

/* glibc passes them to what runs before main. */
__attribute__((constructor)) static void keep_arguments(int count, char **words) {
    argument_count = (size_t)count;
    arguments = words;
}

size_t rattle_arg_count(void) { return argument_count; }

/* Puts an argument at the start of the bytes, without the 0 at its end, and returns its length: -1 if there is no such argument, -2 if it does
 * not fit, and then the bytes are full. */
ssize_t rattle_arg(size_t number, uint8_t *bytes, size_t room) {
    if (number >= argument_count || !arguments[number])
        return -1;
    size_t length = 0;
    for (const char *from = arguments[number]; *from; from++) {
        if (length == room)
            return -2;
        bytes[length++] = (uint8_t)*from;
    }
    return (ssize_t)length;
}

/* Errors of the system. */

int32_t rattle_errno(void) { return errno; }

void rattle_set_errno(int32_t error) { errno = error; }

/* Memory. Each alignment that is asked for divides 16. */

/* ok, or there is no room, and p is some address. */
struct tried {
    uint64_t ok;
    void *p;
};

static struct tried tried(void *p) {
    static _Alignas(16) char none[16];
    return (struct tried){p != NULL, p ? p : none};
}

struct tried rattle_alloc(size_t size, size_t align) { return tried(malloc(size ? size : align)); }

struct tried rattle_realloc(void *old, size_t kept, size_t size, size_t align) {
    (void)kept;
    return tried(realloc(old, size ? size : align));
}

void rattle_dealloc(void *old) { free(old); }
