/* Preloaded beside a program, refuses its allocation of the number FAIL_AT, counted from 1; where that is below 0 it
   refuses none, and tells at the program's end, on standard error, how many there were. */
#include <errno.h>
#include <stdio.h>
#include <stdlib.h>

extern void *__libc_malloc(size_t);
extern void *__libc_calloc(size_t, size_t);
extern void *__libc_realloc(void *, size_t);
extern void *__libc_memalign(size_t, size_t);

static long count, refused;

__attribute__((constructor)) static void begin(void) {
    const char *number = getenv("FAIL_AT");
    refused = number ? atol(number) : 0;
}

__attribute__((destructor)) static void end(void) {
    if (refused < 0) fprintf(stderr, "%ld\n", count);
}

static int is_refused(void) {
    if (refused == 0 || ++count != refused) return 0;
    errno = ENOMEM;
    return 1;
}

void *malloc(size_t size) { return is_refused() ? NULL : __libc_malloc(size); }

void *calloc(size_t n, size_t size) { return is_refused() ? NULL : __libc_calloc(n, size); }

void *realloc(void *old, size_t size) { return is_refused() ? NULL : __libc_realloc(old, size); }

void *aligned_alloc(size_t align, size_t size) { return is_refused() ? NULL : __libc_memalign(align, size); }

int posix_memalign(void **place, size_t align, size_t size) {
    if (is_refused()) return ENOMEM;
    *place = __libc_memalign(align, size);
    return *place == NULL ? ENOMEM : 0;
}
