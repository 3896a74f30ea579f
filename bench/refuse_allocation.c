// Refuses one allocation of a program: that whose number, from 1 on, is in the environment variable
// REFUSED. It then writes a line to standard error. Built as a library that is loaded first, for
// glibc.
#include <stddef.h>
#include <stdlib.h>
#include <unistd.h>

extern void *__libc_malloc(size_t size);
extern void *__libc_realloc(void *old, size_t size);

static int is_refused(void) {
    static unsigned long count, refused;
    if (count == 0) {
        const char *word = getenv("REFUSED");
        refused = word == NULL ? 0 : strtoul(word, NULL, 10);
    }
    count += 1;
    return count == refused && write(2, "refused\n", 8) == 8;
}

void *malloc(size_t size) {
    return is_refused() ? NULL : __libc_malloc(size);
}

void *realloc(void *old, size_t size) {
    return is_refused() ? NULL : __libc_realloc(old, size);
}
