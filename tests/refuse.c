/* Refuses one call of the C library, for tests of the built program: loaded before it by LD_PRELOAD.
 *
 * REFUSE names the kind of call: `memory` (malloc and realloc fail), `drought` (so too, and all later ones), `open`, `read`,
 * `write` (fail with EIO), `interrupt` (a read or write fails with EINTR), `short` (a read or write moves one byte).
 * REFUSE_AT is the number of the call that is refused, from 1, or 0 for none. REFUSE_COUNT, where it is given, is a file to
 * which the number of calls of this kind is written when the program ends.
 *
 *     cc -shared -fPIC -O1 -o refuse.so refuse.c -ldl
 */
#define _GNU_SOURCE
#include <dlfcn.h>
#include <errno.h>
#include <fcntl.h>
#include <stdarg.h>
#include <stdio.h>
#include <stdlib.h>
#include <unistd.h>

extern void *__libc_malloc(size_t);
extern void *__libc_realloc(void *, size_t);

static char kind;
static unsigned long at, calls;

__attribute__((constructor)) static void begin(void) {
    const char *name = getenv("REFUSE"), *number = getenv("REFUSE_AT");
    calls = 0;
    at = number ? strtoul(number, NULL, 10) : 0;
    kind = name ? name[0] : 0;
}

__attribute__((destructor)) static void tell(void) {
    const char *path = getenv("REFUSE_COUNT");
    char text[32];
    unsigned long counted = calls;
    kind = 0;
    if (path) {
        FILE *out = fopen(path, "w");
        if (out) {
            snprintf(text, sizeof text, "%lu\n", counted);
            fputs(text, out);
            fclose(out);
        }
    }
}

static int refused(char of) {
    return kind == of && ++calls == at;
}

static int no_memory(void) {
    return refused('m') || (kind == 'd' && ++calls >= at && at);
}

void *malloc(size_t size) {
    if (no_memory()) {
        errno = ENOMEM;
        return NULL;
    }
    return __libc_malloc(size);
}

void *realloc(void *old, size_t size) {
    if (no_memory()) {
        errno = ENOMEM;
        return NULL;
    }
    return __libc_realloc(old, size);
}

int open(const char *path, int flags, ...) {
    static int (*real)(const char *, int, ...);
    va_list rest;
    int mode;
    va_start(rest, flags);
    mode = flags & O_CREAT ? va_arg(rest, int) : 0;
    va_end(rest);
    if (!real) real = (int (*)(const char *, int, ...))dlsym(RTLD_NEXT, "open");
    if (refused('o')) {
        errno = EIO;
        return -1;
    }
    return real(path, flags, mode);
}

ssize_t read(int file, void *into, size_t size) {
    static ssize_t (*real)(int, void *, size_t);
    if (!real) real = (ssize_t (*)(int, void *, size_t))dlsym(RTLD_NEXT, "read");
    if (refused('r')) {
        errno = EIO;
        return -1;
    }
    if (refused('i')) {
        errno = EINTR;
        return -1;
    }
    return real(file, into, size && refused('s') ? 1 : size);
}

ssize_t write(int file, const void *from, size_t size) {
    static ssize_t (*real)(int, const void *, size_t);
    if (!real) real = (ssize_t (*)(int, const void *, size_t))dlsym(RTLD_NEXT, "write");
    if (refused('w')) {
        errno = EIO;
        return -1;
    }
    if (refused('i')) {
        errno = EINTR;
        return -1;
    }
    return real(file, from, size && refused('s') ? 1 : size);
}

ssize_t __write(int file, const void *from, size_t size) {
    return write(file, from, size);
}
