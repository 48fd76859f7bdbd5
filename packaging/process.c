/* SPDX-License-Identifier: MIT OR Apache-2.0 */
/* What the program calls of C beside glibc and heap.c, by the contracts in the kit's os/src/c.rt:
 * for processors for which the kit has no object of its own. It is trusted, as the kit's is. */
#include <errno.h>
#include <stddef.h>
#include <stdint.h>
#include <string.h>

static size_t count;
static char **words;

/* (glibc hands to each constructor what main gets) */
__attribute__((constructor)) static void keep(int argc, char **argv) {
    count = (size_t)argc;
    words = argv;
}

/* Puts argument i at the start of buf and answers its length, -1 where there is no such argument,
 * or -2 where it does not fit, and then buf is full. */
ptrdiff_t rattle_arg(size_t i, uint8_t *buf, size_t room) {
    if (i >= count || !words[i]) return -1;
    size_t len = strlen(words[i]);
    memcpy(buf, words[i], len < room ? len : room);
    return len <= room ? (ptrdiff_t)len : -2;
}

size_t rattle_arg_count(void) { return count; }

int rattle_errno(void) { return errno; }

void rattle_set_errno(int error) { errno = error; }
