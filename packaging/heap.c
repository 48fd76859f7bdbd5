/* SPDX-License-Identifier: MIT OR Apache-2.0 */
/* The three functions over malloc that the library and the program call, by their contracts in the
 * kit's libc/src/heap.rt: for processors for which the kit has no object of its own. They are
 * trusted, as the kit's are. */
#include <stddef.h>
#include <stdint.h>
#include <stdlib.h>

/* whether there is memory (a whole word, of which the caller may read all), and where; without any
 * it is some place that is not null, which nobody uses */
struct tried {
    uint64_t ok;
    void *at;
};

static struct tried tried(void *at) {
    static char nothing;
    return (struct tried){at != NULL, at ? at : &nothing};
}

/* No byte is asked for where the values have none: then it is memory all the same, so that no
 * answer is null and each may be freed. An alignment divides 16, as far as malloc aligns. */
struct tried rattle_alloc(size_t size, size_t align) { return tried(malloc(size ? size : align)); }

struct tried rattle_realloc(void *at, size_t kept, size_t size, size_t align) {
    (void)kept;
    return tried(realloc(at, size ? size : align));
}

void rattle_dealloc(void *at) { free(at); }
