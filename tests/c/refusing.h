/* Memory of which one request may be refused, and the count of the blocks that were not given back: for a program of
 * one file. */
#include <errno.h>
#include <stddef.h>

extern void *__libc_malloc(size_t size);
extern void *__libc_calloc(size_t count, size_t size);
extern void *__libc_realloc(void *block, size_t size);
extern void __libc_free(void *block);

/* refused_request is the number of the request that is refused, or 0; requests counts while there is one. */
static long refused_request, requests, blocks;

static int is_refused(void) {
    if (!refused_request || ++requests != refused_request) return 0;
    errno = ENOMEM;
    return 1;
}

void *malloc(size_t size) {
    void *block = is_refused() ? NULL : __libc_malloc(size);
    blocks += block != NULL;
    return block;
}
void *calloc(size_t count, size_t size) {
    void *block = is_refused() ? NULL : __libc_calloc(count, size);
    blocks += block != NULL;
    return block;
}
void *realloc(void *old, size_t size) {
    void *block = is_refused() ? NULL : __libc_realloc(old, size);
    blocks += block && !old;
    return block;
}
void free(void *block) {
    blocks -= block != NULL;
    __libc_free(block);
}
