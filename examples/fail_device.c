/* Fails a device of the program that it is loaded into, once: the read of standard input, the write to standard output or the write to
 * standard error that comes after so many others, as the environment's READS, WRITES and SAYS give. A read brings 7 bytes at most. A copy of
 * one of the three that the program makes is that one. */
#define _GNU_SOURCE
#include <dlfcn.h>
#include <errno.h>
#include <fcntl.h>
#include <stdarg.h>
#include <stdlib.h>
#include <unistd.h>

/* Whether this call of the device fails. */
static int fails(const char *name, long *done) {
    const char *number = getenv(name);
    if (!number || (*done)++ != atol(number)) return 0;
    errno = EIO;
    return 1;
}

/* Of each copy, one more than what it is a copy of. */
static int copied[64];

static int device(int file) { return file >= 0 && file < 64 && copied[file] ? copied[file] - 1 : file; }

int fcntl(int file, int command, ...) {
    static int (*next)(int, int, ...);
    if (!next) next = (int (*)(int, int, ...))dlsym(RTLD_NEXT, "fcntl");
    va_list more;
    va_start(more, command);
    int done = next(file, command, va_arg(more, void *));
    va_end(more);
    if (command == F_DUPFD_CLOEXEC && done > 2 && done < 64 && device(file) <= 2) copied[done] = device(file) + 1;
    return done;
}

ssize_t read(int file, void *bytes, size_t count) {
    static ssize_t (*next)(int, void *, size_t);
    static long done;
    if (!next) next = (ssize_t(*)(int, void *, size_t))dlsym(RTLD_NEXT, "read");
    if (device(file) != 0) return next(file, bytes, count);
    return fails("READS", &done) ? -1 : next(file, bytes, count < 7 ? count : 7);
}

static ssize_t written(int file, const void *bytes, size_t count) {
    static ssize_t (*next)(int, const void *, size_t);
    static long outs, says;
    if (!next) next = (ssize_t(*)(int, const void *, size_t))dlsym(RTLD_NEXT, "write");
    if ((device(file) == 1 && fails("WRITES", &outs)) || (device(file) == 2 && fails("SAYS", &says))) return -1;
    return next(file, bytes, count);
}

ssize_t write(int file, const void *bytes, size_t count) { return written(file, bytes, count); }
ssize_t __write(int file, const void *bytes, size_t count) { return written(file, bytes, count); }
