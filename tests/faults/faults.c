/* Put before the C library, it makes one call of a program fail: of the calls of a KIND (memory, open, read, write, place) that of the number
   FAILS, or each from there on where LASTS is set; and it lets reads and writes take one byte at most where SINGLE is set, and all writes
   together MOST bytes where that is set. At the end it writes how many calls of the kind there were to the file COUNTED. Reads and
   writes of standard error do not count. */
#define _GNU_SOURCE
#include <dlfcn.h>
#include <errno.h>
#include <fcntl.h>
#include <stdarg.h>
#include <stdio.h>
#include <stdlib.h>
#include <string.h>
#include <sys/stat.h>
#include <unistd.h>

static long calls, written;

static const char *asked(const char *name) { return getenv(name); }
static long number(const char *name) { return asked(name) ? atol(asked(name)) : 0; }

/* Whether this call of a kind is one that fails. */
static int fails(const char *kind) {
    long at = number("FAILS");
    if (!asked("KIND") || strcmp(asked("KIND"), kind)) return 0;
    calls++;
    return at && (calls == at || (calls > at && asked("LASTS")));
}

void *malloc(size_t size) {
    static void *(*next)(size_t);
    if (!next) next = dlsym(RTLD_NEXT, "malloc");
    return fails("memory") ? NULL : next(size);
}

void *realloc(void *old, size_t size) {
    static void *(*next)(void *, size_t);
    if (!next) next = dlsym(RTLD_NEXT, "realloc");
    return fails("memory") ? NULL : next(old, size);
}

void *aligned_alloc(size_t align, size_t size) {
    static void *(*next)(size_t, size_t);
    if (!next) next = dlsym(RTLD_NEXT, "aligned_alloc");
    return fails("memory") ? NULL : next(align, size);
}

int posix_memalign(void **to, size_t align, size_t size) {
    static int (*next)(void **, size_t, size_t);
    if (!next) next = dlsym(RTLD_NEXT, "posix_memalign");
    return fails("memory") ? ENOMEM : next(to, align, size);
}

int open(const char *path, int flags, ...) {
    static int (*next)(const char *, int, ...);
    va_list rest;
    int mode;
    va_start(rest, flags);
    mode = va_arg(rest, int);
    va_end(rest);
    if (!next) next = dlsym(RTLD_NEXT, "open");
    if (fails("open")) {
        errno = EMFILE;
        return -1;
    }
    return next(path, flags, mode);
}

ssize_t read(int file, void *to, size_t size) {
    static ssize_t (*next)(int, void *, size_t);
    if (!next) next = dlsym(RTLD_NEXT, "read");
    if (fails("read")) {
        errno = EIO;
        return -1;
    }
    return next(file, to, size > 1 && asked("SINGLE") ? 1 : size);
}

ssize_t write(int file, const void *from, size_t size) {
    static ssize_t (*next)(int, const void *, size_t);
    ssize_t done;
    if (!next) next = dlsym(RTLD_NEXT, "write");
    if (file == 2) return next(file, from, size);
    if (asked("MOST") && written + (long)size > number("MOST")) size = number("MOST") - written;
    if (fails("write") || (asked("MOST") && size == 0)) {
        errno = ENOSPC;
        return -1;
    }
    done = next(file, from, size > 1 && asked("SINGLE") ? 1 : size);
    if (done > 0) written += done;
    return done;
}

/* Whether a call fails that gives a file its place once it is written: its permissions, its way to the disk, its name. */
static int fails_to_place(void) {
    if (fails("place")) {
        errno = EIO;
        return 1;
    }
    return 0;
}

int fchmod(int file, mode_t mode) {
    static int (*next)(int, mode_t);
    if (!next) next = dlsym(RTLD_NEXT, "fchmod");
    return fails_to_place() ? -1 : next(file, mode);
}

int fsync(int file) {
    static int (*next)(int);
    if (!next) next = dlsym(RTLD_NEXT, "fsync");
    return fails_to_place() ? -1 : next(file);
}

int rename(const char *from, const char *to) {
    static int (*next)(const char *, const char *);
    if (!next) next = dlsym(RTLD_NEXT, "rename");
    return fails_to_place() ? -1 : next(from, to);
}

__attribute__((destructor)) static void count(void) {
    long total = calls;
    FILE *file = asked("COUNTED") ? fopen(asked("COUNTED"), "w") : NULL;
    if (!file) return;
    fprintf(file, "%ld\n", total);
    fclose(file);
}
