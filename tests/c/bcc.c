/* Calls of libbcc, with the header that BCC_SYMS names: reads an address, `name NAME` or `refresh` from each line, and
 * prints what is told of it. */
#include BCC_SYMS
#include <inttypes.h>
#include <stdint.h>
#include <stdio.h>
#include <stdlib.h>
#include <string.h>

static void look_up(void *cache, uint64_t addr) {
    struct bcc_symbol found, plain;
    int answer = bcc_symcache_resolve(cache, addr, &found);
    memset(&plain, 0, sizeof plain);
    if (bcc_symcache_resolve_no_demangle(cache, addr, &plain) != answer) exit(1);
    if (answer) {
        if (found.name || found.module || found.offset || plain.name) exit(1);
        puts("-");
        return;
    }
    if (strcmp(found.name, plain.name) || found.offset != plain.offset) exit(1);
    if (strcmp(found.name, found.demangle_name)) exit(1);
    printf("0x%" PRIx64 " %s %s\n", found.offset, found.name, found.module);
    bcc_symbol_free_demangle_name(&found);
}

int main(void) {
    void *cache = bcc_symcache_new(-1, NULL);
    char line[1024];
    while (cache && fgets(line, sizeof line, stdin)) {
        uint64_t addr = 0;
        line[strcspn(line, "\n")] = 0;
        if (!strcmp(line, "refresh"))
            bcc_symcache_refresh(cache), puts("refreshed");
        else if (strncmp(line, "name ", 5))
            look_up(cache, strtoull(line, NULL, 16));
        else if (bcc_symcache_resolve_name(cache, NULL, line + 5, &addr))
            puts("-");
        else
            printf("0x%" PRIx64 "\n", addr);
        fflush(stdout);
    }
    bcc_free_symcache(cache, -1);
    return !cache;
}
