/* Preloaded into a process, refuses one allocation of a library's, within the calls that a host names. */
#define _GNU_SOURCE
#include <dlfcn.h>
#include <errno.h>
#include <stddef.h>

extern void *__libc_malloc(size_t);
extern void *__libc_realloc(void *, size_t);

static long left;
static void *library;

/* From now on: of the library that has this call, the allocation of this number, counted from 1, is refused. */
void refuse_after(long number, void *call) {
    Dl_info its;
    if (!dladdr(call, &its)) return;
    library = its.dli_fbase;
    left = number;
}

/* No more. Answers whether one was refused. */
int refuse_never(void) {
    int was_refused = left == 0;
    left = 0;
    return was_refused;
}

static int is_refused(void *caller) {
    Dl_info its;
    if (left == 0 || !dladdr(caller, &its) || its.dli_fbase != library || --left > 0) return 0;
    errno = ENOMEM;
    return 1;
}

void *malloc(size_t size) { return is_refused(__builtin_return_address(0)) ? NULL : __libc_malloc(size); }

void *realloc(void *old, size_t size) {
    return is_refused(__builtin_return_address(0)) ? NULL : __libc_realloc(old, size);
}
