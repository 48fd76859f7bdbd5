/* SPDX-License-Identifier: MIT OR Apache-2.0 */
/* Reads a listing whole, for latchsym_catalog_open. This stands apart from latchsym.h because it needs
 * files and malloc of the program that includes it, and latchsym.h nothing but the library. */
#ifndef LATCHSYM_READ_H
#define LATCHSYM_READ_H
#include <errno.h>
#include <fcntl.h>
#include <latchsym.h>
#include <stdlib.h>
#include <unistd.h>
#ifdef __cplusplus
extern "C" {
#endif

/* 0, and all bytes of a file from where it stands; or -1 with the reason in errno. What lies at
 * *bytes is to be freed in both cases. The size is not asked for, since that of a file of /proc is 0. */
static inline int latchsym_read_rest(int file, uint8_t **bytes, size_t *len) {
    size_t room = (size_t)1 << 20;
    uint8_t *more = (uint8_t *)malloc(room);
    ssize_t got;
    *bytes = more, *len = 0;
    while (more) {
        got = read(file, more + *len, room - *len);
        if (got < 0 && errno == EINTR) continue;
        if (got <= 0) return got < 0 ? -1 : 0;
        *len += (size_t)got;
        if (*len < room) continue;
        more = (uint8_t *)realloc(more, room *= 2);
        if (more) *bytes = more;
    }
    return -1;
}

/* 0, and where all bytes of the file lie, in memory for the caller to free, also where there is no
 * byte: `free((void *)place.at)`. Or -1 with the reason in errno, and nothing is written. */
static inline int latchsym_read_file(const char *path, struct latchsym_place *out) {
    const int file = open(path, O_RDONLY);
    uint8_t *bytes;
    size_t len;
    int failed, why;
    if (file < 0) return -1;
    failed = latchsym_read_rest(file, &bytes, &len);
    why = errno;
    close(file);
    if (failed) free(bytes);
    errno = why;
    if (failed) return -1;
    out->at = bytes;
    out->len = len;
    return 0;
}

#ifdef __cplusplus
}
#endif
#endif
