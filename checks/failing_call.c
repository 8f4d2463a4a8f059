/* Preloaded beside a program, fails its read or write of the number FAIL_AT, counted from 1 over both, and reads at most
   READ_MOST bytes at a time. */
#include <errno.h>
#include <stdlib.h>
#include <sys/syscall.h>
#include <unistd.h>

static long count, failing;
static size_t most;

__attribute__((constructor)) static void begin(void) {
    const char *number = getenv("FAIL_AT"), *bytes = getenv("READ_MOST");
    failing = number ? atol(number) : 0;
    most = bytes ? (size_t)atol(bytes) : (size_t)-1;
}

static int fails(int file) {
    if (file > 1 || failing == 0 || ++count != failing) return 0;
    errno = EIO;
    return 1;
}

ssize_t read(int file, void *bytes, size_t size) {
    if (fails(file)) return -1;
    return syscall(SYS_read, file, bytes, file == 0 && size > most ? most : size);
}

ssize_t write(int file, const void *bytes, size_t size) {
    if (fails(file)) return -1;
    return syscall(SYS_write, file, bytes, size);
}
