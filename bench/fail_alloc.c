/* For bench/faults.sh: preloaded, it lets the allocation with the number in FAIL_ALLOC fail, counted from 1, and then writes a
   byte to descriptor 9, so that the script sees whether there was such an allocation. */
#define _GNU_SOURCE
#include <dlfcn.h>
#include <errno.h>
#include <stdlib.h>
#include <unistd.h>

static long left = -1;

static int fails(void) {
    if (left < 0) {
        const char *text = getenv("FAIL_ALLOC");
        left = text ? atol(text) : 0;
    }
    if (left == 0 || --left > 0) {
        return 0;
    }
    if (write(9, "x", 1) != 1) {
        _exit(99);
    }
    errno = ENOMEM;
    return 1;
}

void *malloc(size_t size) {
    static void *(*real)(size_t);
    if (!real) {
        real = (void *(*)(size_t))dlsym(RTLD_NEXT, "malloc");
    }
    return fails() ? NULL : real(size);
}

void *realloc(void *old, size_t size) {
    static void *(*real)(void *, size_t);
    if (!real) {
        real = (void *(*)(void *, size_t))dlsym(RTLD_NEXT, "realloc");
    }
    return fails() ? NULL : real(old, size);
}
