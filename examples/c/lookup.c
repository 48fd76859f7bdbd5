/* SPDX-License-Identifier: MIT OR Apache-2.0 */
/* Looks addresses up in listings: lookup MODULES KALLSYMS ADDRESS.., where `-` in place of MODULES takes modules from
 * KALLSYMS alone.
 * cc lookup.c $(pkg-config --cflags --libs latchsym) -o lookup */
#include <latchsym_read.h>
#include <stdio.h>
#include <stdlib.h>
#include <string.h>

static void read_file(const char *path, struct latchsym_place *place) {
    if (!latchsym_read_file(path, place)) return;
    fprintf(stderr, "lookup: %s: %s\n", path, strerror(errno));
    exit(1);
}

static void print_name(struct latchsym_place name) { fwrite(name.at, 1, name.len, stdout); }

static void print_symbol(struct latchsym_catalog *catalog, uint64_t addr) {
    struct latchsym_symbol found = LATCHSYM_SYMBOL_INIT;
    uint32_t answer = latchsym_catalog_find(catalog, addr, &found);
    printf("0x%llx ", (unsigned long long)addr);
    if (answer == LATCHSYM_DONE) {
        print_name(found.name);
        printf("+0x%llx/0x%llx", (unsigned long long)found.offset, (unsigned long long)found.size);
    } else {
        printf(answer == LATCHSYM_NO_SYMBOL && found.module_number ? "?" : "-");
    }
    if (found.module_number) {
        printf(" [");
        print_name(found.module);
        printf("]");
    }
    printf("\n");
}

int main(int argc, char **argv) {
    struct latchsym_catalog catalog = {0};
    struct latchsym_listings listings = LATCHSYM_LISTINGS_INIT;
    struct latchsym_counts counts;
    uint64_t bad_line;
    uint32_t refused;
    if (argc < 3) {
        fprintf(stderr, "usage: lookup MODULES KALLSYMS ADDRESS..\n");
        return 2;
    }
    listings.has_modules = strcmp(argv[1], "-") != 0;
    if (listings.has_modules) read_file(argv[1], &listings.modules);
    read_file(argv[2], &listings.kallsyms);
    refused = latchsym_catalog_open(&listings, &catalog, &counts, &bad_line);
    if (refused) fprintf(stderr, "lookup: %s\n", latchsym_text(refused));
    else if (counts.symbols_note != LATCHSYM_NOTHING)
        fprintf(stderr, "lookup: note: %s: %s\n", argv[2], latchsym_text(counts.symbols_note));
    for (int i = 3; !refused && i < argc; i++) print_symbol(&catalog, strtoull(argv[i], NULL, 0));
    latchsym_catalog_close(&catalog); /* and only now the bytes that it points into */
    if (listings.has_modules) free((void *)listings.modules.at);
    free((void *)listings.kallsyms.at);
    return refused != 0;
}
