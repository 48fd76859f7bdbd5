/* Stands in front of the C library's malloc, calloc and realloc, and refuses one request of a program that is linked to the C
 * library dynamically.
 *
 *   REFUSED_REQUEST   the number of the request to refuse, from 1 on; 0 refuses none
 *   REFUSAL_MARK      a file that is made where the request came
 *   REQUESTS_COUNTED a file to which the number of requests so far is written at each write to
 *   standard output
 *
 * The requests of the loader, before the program, do not count. */
#include <errno.h>
#include <fcntl.h>
#include <stdio.h>
#include <stdlib.h>
#include <sys/syscall.h>
#include <unistd.h>

extern void *__libc_malloc(size_t size);
extern void *__libc_calloc(size_t count, size_t size);
extern void *__libc_realloc(void *block, size_t size);

static long refused_request = -1, requests;
static int counted = -1;

static int is_refused(void) {
    if (refused_request < 0 || __atomic_add_fetch(&requests, 1, __ATOMIC_SEQ_CST) != refused_request) return 0;
    open(getenv("REFUSAL_MARK"), O_CREAT | O_WRONLY, 0600);
    errno = ENOMEM;
    return 1;
}

void *malloc(size_t size) { return is_refused() ? NULL : __libc_malloc(size); }
void *calloc(size_t count, size_t size) { return is_refused() ? NULL : __libc_calloc(count, size); }
void *realloc(void *block, size_t size) { return is_refused() ? NULL : __libc_realloc(block, size); }

ssize_t write(int file, const void *bytes, size_t count) {
    if (file == 1 && counted >= 0) {
        char text[24];
        syscall(SYS_write, counted, text, (size_t)snprintf(text, sizeof text, "%ld\n", requests));
    }
    return syscall(SYS_write, file, bytes, count);
}

__attribute__((constructor)) static void begin(void) {
    const char *request = getenv("REFUSED_REQUEST"), *counts = getenv("REQUESTS_COUNTED");
    if (counts) counted = open(counts, O_CREAT | O_TRUNC | O_WRONLY, 0600);
    refused_request = request ? atol(request) : 0;
}
