// Loaded before the C library by bench/statuses.py. Each word in the environment makes one of its calls fail or give little:
// NO_SEED that for random bytes, NO_MEMORY those for memory, ONE_BYTE gives one byte a read, NO_END has a read fail where the
// input ends, WRITTEN has standard output take 7 bytes a write, and so many in all.
#define _GNU_SOURCE
#include <errno.h>
#include <stdlib.h>
#include <sys/syscall.h>
#include <unistd.h>

int getentropy(void *bytes, size_t count) {
    if (getenv("NO_SEED")) {
        errno = EIO;
        return -1;
    }
    return syscall(SYS_getrandom, bytes, count, 0) == (long)count ? 0 : -1;
}

ssize_t read(int file, void *bytes, size_t count) {
    ssize_t got = syscall(SYS_read, file, bytes, count > 1 && getenv("ONE_BYTE") ? 1 : count);
    if (got == 0 && getenv("NO_END")) {
        errno = EIO;
        return -1;
    }
    return got;
}

ssize_t write(int file, const void *bytes, size_t count) {
    static size_t written;
    const char *most = file == 1 ? getenv("WRITTEN") : NULL;
    if (!most)
        return syscall(SYS_write, file, bytes, count);
    size_t room = strtoul(most, NULL, 10) - written;
    if (room == 0 && count > 0) {
        errno = EIO;
        return -1;
    }
    size_t taken = count < room ? count : room;
    ssize_t put = syscall(SYS_write, file, bytes, taken < 7 ? taken : 7);
    written += put > 0 ? put : 0;
    return put;
}

extern void *__libc_malloc(size_t count);

void *malloc(size_t count) {
    return getenv("NO_MEMORY") ? NULL : __libc_malloc(count);
}
