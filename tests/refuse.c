/* A library for LD_PRELOAD that refuses one request for memory: number REFUSE, counted from 1. When it refuses, it writes a byte
   to the descriptor REFUSED. */
#include <errno.h>
#include <stdlib.h>
#include <unistd.h>

extern void *__libc_malloc(size_t);
extern void *__libc_realloc(void *, size_t);
extern void *__libc_calloc(size_t, size_t);

static long count;

static int refuses(void) {
    const char *number = getenv("REFUSE");
    const char *file = getenv("REFUSED");
    if (number == NULL || file == NULL || ++count != atol(number)) {
        return 0;
    }
    if (write(atoi(file), "x", 1) != 1) {
        _exit(99);
    }
    errno = ENOMEM;
    return 1;
}

void *malloc(size_t size) { return refuses() ? NULL : __libc_malloc(size); }
void *realloc(void *old, size_t size) { return refuses() ? NULL : __libc_realloc(old, size); }
void *calloc(size_t n, size_t size) { return refuses() ? NULL : __libc_calloc(n, size); }
