/* What the program needs of Linux beside its C library, for a processor that is not Rattle's: arguments, the error number, memory. */
#include <errno.h>
#include <stdint.h>
#include <stdlib.h>
#include <string.h>

static int argument_count;
static char **arguments;
__attribute__((constructor)) static void keep_arguments(int count, char **words) {
    argument_count = count;
    arguments = words;
}

/* Copies an argument without its end; returns its length, -1 if there is none, -2 if it is longer than `room`. */
int64_t rattle_arg(uint64_t number, char *to, uint64_t room) {
    if (number >= (uint64_t)argument_count) return -1;
    size_t length = strlen(arguments[number]);
    if (length > room) return -2;
    memcpy(to, arguments[number], length);
    return (int64_t)length;
}

int rattle_errno(void) { return errno; }
void rattle_set_errno(int number) { errno = number; }

/* Whether memory was given, and where; some address that isn't null if it wasn't. */
struct grant { uint64_t is_given; void *at; };

static struct grant granted(void *at) { return (struct grant){at != NULL, at != NULL ? at : &argument_count}; }

/* An allocation of no bytes takes as many as its alignment, which is never above malloc's own. */
struct grant rattle_alloc(uint64_t size, uint64_t alignment) { return granted(malloc(size ? size : alignment)); }

struct grant rattle_realloc(void *at, uint64_t old_size, uint64_t size, uint64_t alignment) {
    (void)old_size;
    return granted(realloc(at, size ? size : alignment));
}

void rattle_dealloc(void *at) { free(at); }
