// Refuses one call of a program: the Nth read of standard input, the Nth write, or the Nth allocation, counted from 1.
//
//     gcc -shared -fPIC -o /tmp/refuse.so bench/refuse.c -ldl
//     REFUSE_READ=2 LD_PRELOAD=/tmp/refuse.so bson_stream '{n:u32}' < dump.bson
//
// REFUSE_WRITE and REFUSE_MEMORY likewise. Allocations are counted from the first read on, so that those of the loader and of the start do not count.
#define _GNU_SOURCE
#include <dlfcn.h>
#include <errno.h>
#include <stddef.h>
#include <stdlib.h>
#include <unistd.h>

static long reads, writes, allocations, begun;

static long wanted(const char *name) {
    const char *text = getenv(name);
    return text ? atol(text) : -1;
}

ssize_t read(int fd, void *buffer, size_t size) {
    static ssize_t (*next)(int, void *, size_t);
    if (!next) next = dlsym(RTLD_NEXT, "read");
    if (fd == 0) {
        begun = 1;
        if (++reads == wanted("REFUSE_READ")) { errno = EIO; return -1; }
    }
    return next(fd, buffer, size);
}

ssize_t write(int fd, const void *buffer, size_t size) {
    static ssize_t (*next)(int, const void *, size_t);
    if (!next) next = dlsym(RTLD_NEXT, "write");
    if (++writes == wanted("REFUSE_WRITE")) { errno = EIO; return -1; }
    return next(fd, buffer, size);
}

static int refused(void) {
    return begun && ++allocations == wanted("REFUSE_MEMORY");
}

void *malloc(size_t size) {
    static void *(*next)(size_t);
    if (!next) next = dlsym(RTLD_NEXT, "malloc");
    return refused() ? NULL : next(size);
}

void *realloc(void *old, size_t size) {
    static void *(*next)(void *, size_t);
    if (!next) next = dlsym(RTLD_NEXT, "realloc");
    return refused() ? NULL : next(old, size);
}

void *aligned_alloc(size_t align, size_t size) {
    static void *(*next)(size_t, size_t);
    if (!next) next = dlsym(RTLD_NEXT, "aligned_alloc");
    return refused() ? NULL : next(align, size);
}

int posix_memalign(void **place, size_t align, size_t size) {
    static int (*next)(void **, size_t, size_t);
    if (!next) next = dlsym(RTLD_NEXT, "posix_memalign");
    return refused() ? ENOMEM : next(place, align, size);
}
