/* SPDX-License-Identifier: MIT OR Apache-2.0 */
/* The calls of libbcc for symbols of the kernel, over latchsym: a program that calls bcc_symcache_new(-1, ..) includes
 * this in place of <bcc/bcc_syms.h>. It does what libbcc does, except that
 * - bcc_symcache_refresh reads /proc/kallsyms again. Where it has changed, names that were told before are gone; where
 *   something is noted of it that was not before, as where rights are lost, it is not taken;
 * - of the symbols of one address the one listed first is returned; libbcc returns one of the last;
 * - a symbol of data is told too, and an address outside the kernel and its modules has none;
 * - a cache is for one call at a time, and is of the kernel alone.
 * cc program.c $(pkg-config --cflags --libs latchsym) -o program */
#ifndef LATCHSYM_BCC_SYMS_H
#define LATCHSYM_BCC_SYMS_H
#include <latchsym_read.h>
#include <string.h>
#ifndef BCC_KALLSYMS
#define BCC_KALLSYMS "/proc/kallsyms"
#endif

struct bcc_symbol { const char *name, *demangle_name, *module; uint64_t offset; };
struct bcc_symbol_option;

/* A listing with its catalog, and a copy of its bytes in which a 0 ends each name. */
struct bcc_kernel { struct latchsym_catalog catalog; struct latchsym_place bytes; char *texts; uint32_t note; };

/* A copy of a listing in which each name ends with a 0, as strings of C do; or null. */
static inline char *bcc_texts_of(struct latchsym_place bytes) {
    char *texts = (char *)calloc(bytes.len + 1, 1);
    size_t i;
    for (i = 0; texts && i < bytes.len; i++) {
        const char it = (char)bytes.at[i];
        const int is_end = it == ' ' || it == '\t' || it == '\n';
        const int is_bracket = it == ']' && (i + 1 == bytes.len || bytes.at[i + 1] == '\n');
        texts[i] = is_end || is_bracket ? '\0' : it;
    }
    return texts;
}

static inline void bcc_clear(struct bcc_kernel *kernel) {
    latchsym_catalog_close(&kernel->catalog); /* and only now the bytes that it points into */
    free((void *)kernel->bytes.at);
    free(kernel->texts);
}

/* Whether a listing could be read and opened that is another than the one before, and no worse. */
static inline int bcc_read(const struct bcc_kernel *before, struct bcc_kernel *next) {
    struct latchsym_listings listings = LATCHSYM_LISTINGS_INIT;
    struct latchsym_counts counts;
    uint64_t line;
    if (latchsym_read_file(BCC_KALLSYMS, &next->bytes)) return 0;
    if (before->texts && before->bytes.len == next->bytes.len &&
        !memcmp(before->bytes.at, next->bytes.at, next->bytes.len))
        return 0;
    next->texts = bcc_texts_of(next->bytes);
    listings.kallsyms = next->bytes;
    if (!next->texts || latchsym_catalog_open(&listings, &next->catalog, &counts, &line)) return 0;
    next->note = counts.symbols_note;
    return !before->texts || next->note == LATCHSYM_NOTHING || next->note == before->note;
}

/* Reads the kernel's symbols again, and goes on with them where they have changed. */
static inline void bcc_symcache_refresh(void *symcache) {
    struct bcc_kernel *kernel = (struct bcc_kernel *)symcache;
    struct bcc_kernel next = { { { 0, NULL } }, { NULL, 0 }, NULL, 0 };
    const int is_taken = bcc_read(kernel, &next);
    bcc_clear(is_taken ? kernel : &next);
    if (is_taken) *kernel = next;
}

/* A cache of the kernel's symbols; or null, where the process is another than -1 or no memory is left. */
static inline void *bcc_symcache_new(int pid, struct bcc_symbol_option *option) {
    void *kernel = pid < 0 ? calloc(1, sizeof(struct bcc_kernel)) : NULL;
    (void)option;
    if (kernel) bcc_symcache_refresh(kernel);
    return kernel;
}

static inline void bcc_free_symcache(void *symcache, int pid) {
    (void)pid;
    if (symcache) bcc_clear((struct bcc_kernel *)symcache);
    free(symcache);
}

/* 0, and the symbol of an address; or -1, and nothing but zeros. */
static inline int bcc_symcache_resolve_no_demangle(void *symcache, uint64_t addr, struct bcc_symbol *sym) {
    struct bcc_kernel *kernel = (struct bcc_kernel *)symcache;
    struct latchsym_symbol found = LATCHSYM_SYMBOL_INIT;
    memset(sym, 0, sizeof *sym);
    if (latchsym_catalog_find(&kernel->catalog, addr, &found)) return -1;
    sym->name = kernel->texts + (found.name.at - kernel->bytes.at);
    sym->module = found.module_number ? kernel->texts + (found.module.at - kernel->bytes.at) : "kernel";
    sym->offset = found.offset;
    return 0;
}

/* The same: names of the kernel are told as they are listed. */
static inline int bcc_symcache_resolve(void *symcache, uint64_t addr, struct bcc_symbol *sym) {
    const int answer = bcc_symcache_resolve_no_demangle(symcache, addr, sym);
    sym->demangle_name = sym->name;
    return answer;
}

static inline void bcc_symbol_free_demangle_name(struct bcc_symbol *sym) { (void)sym; }

/* 0, and the address of the first symbol of a name, in whichever module; or -1. */
static inline int bcc_symcache_resolve_name(void *symcache, const char *module, const char *name, uint64_t *addr) {
    struct latchsym_catalog *catalog = &((struct bcc_kernel *)symcache)->catalog;
    const uint8_t *wanted = (const uint8_t *)name;
    struct latchsym_entry entry = LATCHSYM_ENTRY_INIT;
    uint64_t number, count;
    size_t place;
    (void)module;
    if (latchsym_catalog_modules(catalog, &count)) return -1;
    for (number = 0; number <= count; number++) {
        if (latchsym_catalog_place_of_name(catalog, number, wanted, strlen(name), 0, &place)) continue;
        if (latchsym_catalog_symbol(catalog, number, place, &entry)) continue;
        *addr = entry.addr;
        return 0;
    }
    return -1;
}
#endif
