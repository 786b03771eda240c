/* A library to be preloaded: it refuses requests for memory, fails opens, reads, writes, syncs and renames, and cuts reads
 * and writes short.
 *
 * FAILING_CALL   which calls: memory, open, read, write, sync or rename
 * FAILING_AT     the first of them that is touched, counted from 1
 * FAILING_LAST   the last one; without it, all from the first on
 * FAILING_HOW    the number of the error that a call gives (memory has none); 0 where a read or write is cut short
 * FAILING_CUT    the greatest number of octets of a read or write that is cut short; each is cut by a number drawn anew
 * FAILING_SEED   from which these are drawn
 * FAILING_REPORT a descriptor to which these are written at the end: the numbers of calls, how many of the requests for
 *                memory came behind the first read of standard input, and how many calls were touched
 */
#define _GNU_SOURCE
#include <errno.h>
#include <fcntl.h>
#include <stdarg.h>
#include <stdio.h>
#include <stdlib.h>
#include <string.h>
#include <sys/syscall.h>
#include <unistd.h>

/* The C library's own, by names of which no other library stands in front. */
extern void *__libc_malloc(size_t size);
extern void *__libc_calloc(size_t count, size_t size);
extern void *__libc_realloc(void *old, size_t size);

enum call { MEMORY, OPEN, READ, WRITE, SYNC, RENAME, CALLS, NONE = CALLS };

static const char *const names[CALLS] = {"memory", "open", "read", "write", "sync", "rename"};
static unsigned long counts[CALLS], late, touched;
static enum call failing = NONE;
static unsigned long first = 1, last = -1UL, cut, drawn = 1;
static int how, report = -1, streaming;

static unsigned long number(const char *name, unsigned long otherwise)
{
    const char *text = getenv(name);
    return text ? strtoul(text, NULL, 10) : otherwise;
}

__attribute__((constructor)) static void begin(void)
{
    const char *call = getenv("FAILING_CALL");
    for (int each = 0; call && each < CALLS; each++)
        if (strcmp(call, names[each]) == 0)
            failing = each;
    first = number("FAILING_AT", 1);
    last = number("FAILING_LAST", -1UL);
    how = number("FAILING_HOW", 0);
    cut = number("FAILING_CUT", 0);
    drawn = number("FAILING_SEED", 1) * 2 + 1;
    report = number("FAILING_REPORT", -1UL);
}

__attribute__((destructor)) static void end(void)
{
    char text[128];
    int length = snprintf(text, sizeof text, "%lu %lu %lu %lu %lu %lu %lu %lu\n", counts[MEMORY], counts[OPEN],
                          counts[READ], counts[WRITE], counts[SYNC], counts[RENAME], late, touched);
    if (report >= 0 && syscall(SYS_write, report, text, length) != length)
        _exit(99);
}

/* Whether this call is one that is touched. */
static int is_touched(enum call call)
{
    unsigned long at = ++counts[call];
    late += call == MEMORY && streaming;
    if (call != failing || at < first || at > last)
        return 0;
    touched++;
    return 1;
}

/* How many octets are left of a call that is cut short. */
static size_t part(size_t size)
{
    drawn = drawn * 6364136223846793005UL + 1442695040888963407UL;
    size_t most = 1 + (drawn >> 33) % cut;
    return size < most ? size : most;
}

void *malloc(size_t size) { return is_touched(MEMORY) ? NULL : __libc_malloc(size); }

void *calloc(size_t count, size_t size) { return is_touched(MEMORY) ? NULL : __libc_calloc(count, size); }

void *realloc(void *old, size_t size) { return is_touched(MEMORY) ? NULL : __libc_realloc(old, size); }

int open(const char *path, int flags, ...)
{
    va_list rest;
    va_start(rest, flags);
    int mode = flags & O_CREAT ? va_arg(rest, int) : 0;
    va_end(rest);
    if (is_touched(OPEN)) {
        errno = how;
        return -1;
    }
    return syscall(SYS_openat, AT_FDCWD, path, flags, mode);
}

ssize_t read(int file, void *into, size_t size)
{
    streaming |= file == 0;
    if (is_touched(READ)) {
        if (how) {
            errno = how;
            return -1;
        }
        size = part(size);
    }
    return syscall(SYS_read, file, into, size);
}

static ssize_t written(int file, const void *from, size_t size)
{
    if (is_touched(WRITE)) {
        if (how) {
            errno = how;
            return -1;
        }
        size = part(size);
    }
    return syscall(SYS_write, file, from, size);
}

ssize_t write(int file, const void *from, size_t size) { return written(file, from, size); }

ssize_t __write(int file, const void *from, size_t size) { return written(file, from, size); }

int fsync(int file)
{
    if (is_touched(SYNC)) {
        errno = how;
        return -1;
    }
    return syscall(SYS_fsync, file);
}

int rename(const char *from, const char *to)
{
    if (is_touched(RENAME)) {
        errno = how;
        return -1;
    }
    return syscall(SYS_renameat2, AT_FDCWD, from, AT_FDCWD, to, 0);
}
