// Makes a source slow: a call of malloc for SLOW_FROM to SLOW_TO bytes sleeps for SLOW_US microseconds first.
// A value of `fill` is the only memory of such a size that the server asks for, and it asks for it inside the source's call.
#include <stdlib.h>
#include <time.h>

static size_t from, to;
static long us;

void *__libc_malloc(size_t);

__attribute__((constructor)) static void read_settings(void) {
    const char *a = getenv("SLOW_FROM"), *b = getenv("SLOW_TO"), *c = getenv("SLOW_US");
    if (!a || !b || !c)
        abort();
    us = atol(c);
    from = strtoul(a, 0, 10);
    to = strtoul(b, 0, 10);
}

void *malloc(size_t size) {
    if (from <= size && size <= to && us) {
        struct timespec pause = {us / 1000000, us % 1000000 * 1000};
        while (nanosleep(&pause, &pause)) {
        }
    }
    return __libc_malloc(size);
}
