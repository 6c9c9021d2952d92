// Makes one call of a program fail, by its number. The scripts load it before the C library (LD_PRELOAD).
//
// BINKIT_FAIL_ALLOCATION, BINKIT_FAIL_OPEN, BINKIT_FAIL_READ, BINKIT_FAIL_WRITE: which call of its kind fails, counted from 1.
// BINKIT_ALL_FROM: that call of malloc or realloc and all later ones fail.
// BINKIT_SHORT: each read and each write moves one byte at most.
// BINKIT_COUNTED: a file that gets the four counts when the program ends.
#define _GNU_SOURCE
#include <errno.h>
#include <fcntl.h>
#include <stdarg.h>
#include <stdio.h>
#include <stdlib.h>
#include <sys/syscall.h>
#include <unistd.h>

extern void *__libc_malloc(size_t size);
extern void *__libc_realloc(void *block, size_t size);

struct calls {
    unsigned long made, failing;
};

static struct calls allocations, opens, reads, writes;
static unsigned long all_from;
static int is_short;
static const char *counted;

static unsigned long number_of(const char *name) {
    const char *text = getenv(name);
    return text ? strtoul(text, NULL, 10) : 0;
}

__attribute__((constructor)) static void begin(void) {
    allocations = (struct calls){0, number_of("BINKIT_FAIL_ALLOCATION")};
    opens = (struct calls){0, number_of("BINKIT_FAIL_OPEN")};
    reads = (struct calls){0, number_of("BINKIT_FAIL_READ")};
    writes = (struct calls){0, number_of("BINKIT_FAIL_WRITE")};
    all_from = number_of("BINKIT_ALL_FROM");
    is_short = getenv("BINKIT_SHORT") != NULL;
    counted = getenv("BINKIT_COUNTED");
}

__attribute__((destructor)) static void end(void) {
    char text[100];
    if (counted == NULL)
        return;
    int length = snprintf(text, sizeof text, "%lu %lu %lu %lu\n", allocations.made, opens.made, reads.made, writes.made);
    int file = syscall(SYS_openat, AT_FDCWD, counted, O_WRONLY | O_CREAT | O_TRUNC, 0600);
    if (file >= 0)
        syscall(SYS_write, file, text, length);
}

static int fails(struct calls *kind) {
    return ++kind->made == kind->failing;
}

static int is_refused(void) {
    return fails(&allocations) || (all_from && allocations.made >= all_from);
}

void *malloc(size_t size) {
    return is_refused() ? NULL : __libc_malloc(size);
}

void *realloc(void *block, size_t size) {
    return is_refused() ? NULL : __libc_realloc(block, size);
}

int open(const char *name, int flags, ...) {
    va_list rest;
    va_start(rest, flags);
    int mode = va_arg(rest, int);
    va_end(rest);
    if (fails(&opens)) {
        errno = EACCES;
        return -1;
    }
    return syscall(SYS_openat, AT_FDCWD, name, flags, mode);
}

ssize_t read(int file, void *bytes, size_t count) {
    if (fails(&reads)) {
        errno = EIO;
        return -1;
    }
    return syscall(SYS_read, file, bytes, is_short && count ? 1 : count);
}

ssize_t write(int file, const void *bytes, size_t count) {
    if (fails(&writes)) {
        errno = EIO;
        return -1;
    }
    return syscall(SYS_write, file, bytes, is_short && count ? 1 : count);
}
