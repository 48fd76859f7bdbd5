/* Stands in front of the C library's read and write, and fails one call, or all writes from one on, of
 * a program that is linked to the C library dynamically; and of its open, and lists what is opened.
 *
 *   FAILED_READ    the number of the read that fails, from 1 on; 0 or nothing fails none
 *   FAILED_WRITE   the number of the write to standard output that fails
 *   FAILED_WRITES  the number of the write to standard output from which on each fails
 *   FAILURE_MARK   a file that is made where the call came, with the path of what was read or written
 *   FAILURE        the number of the error that a call which fails says, EIO if there is none
 *   LONGEST_READ   the most bytes that a read gives
 *   LONGEST_WRITE  the most bytes that a write to standard output takes
 *   OPENED_FILES   a file that gets the path of each file that is opened, one a line
 *
 * A call that fails does nothing else. A read of no byte, which asks whether a file is open, is not
 * counted. */
#include <errno.h>
#include <fcntl.h>
#include <stdarg.h>
#include <stdio.h>
#include <stdlib.h>
#include <sys/syscall.h>
#include <unistd.h>

static long failed_read, failed_write, failed_writes, failure, longest_read, longest_write;
static long reads, writes;

static long number(const char *name) {
    const char *text = getenv(name);
    return text ? atol(text) : 0;
}

static ssize_t fail(int file) {
    char link[64], path[4096];
    int mark = open(getenv("FAILURE_MARK"), O_CREAT | O_TRUNC | O_WRONLY, 0600);
    snprintf(link, sizeof link, "/proc/self/fd/%d", file);
    ssize_t length = readlink(link, path, sizeof path);
    if (length > 0) syscall(SYS_write, mark, path, (size_t)length);
    close(mark);
    errno = failure > 0 ? (int)failure : EIO;
    return -1;
}

ssize_t read(int file, void *bytes, size_t count) {
    if (!count) return syscall(SYS_read, file, bytes, count);
    if (__atomic_add_fetch(&reads, 1, __ATOMIC_SEQ_CST) == failed_read) return fail(file);
    if (longest_read > 0 && count > (size_t)longest_read) count = (size_t)longest_read;
    return syscall(SYS_read, file, bytes, count);
}

ssize_t write(int file, const void *bytes, size_t count) {
    if (file != 1) return syscall(SYS_write, file, bytes, count);
    long call = __atomic_add_fetch(&writes, 1, __ATOMIC_SEQ_CST);
    if (call == failed_write || (failed_writes > 0 && call >= failed_writes)) return fail(file);
    if (longest_write > 0 && count > (size_t)longest_write) count = (size_t)longest_write;
    return syscall(SYS_write, file, bytes, count);
}

int open(const char *path, int flags, ...) {
    va_list rest;
    va_start(rest, flags);
    int mode = va_arg(rest, int);
    va_end(rest);
    const char *opened = getenv("OPENED_FILES");
    if (opened) {
        int list = (int)syscall(SYS_openat, AT_FDCWD, opened, O_CREAT | O_APPEND | O_WRONLY, 0600);
        dprintf(list, "%s\n", path);
        close(list);
    }
    return (int)syscall(SYS_openat, AT_FDCWD, path, flags, mode);
}

__attribute__((constructor)) static void begin(void) {
    failed_read = number("FAILED_READ");
    failed_write = number("FAILED_WRITE");
    failed_writes = number("FAILED_WRITES");
    failure = number("FAILURE");
    longest_read = number("LONGEST_READ");
    longest_write = number("LONGEST_WRITE");
}
