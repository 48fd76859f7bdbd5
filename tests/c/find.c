/* What is found of addresses, beside a plain search of the same lines: over thousands of symbols in listings whose lines
 * are shuffled, by one call an address and by one call for all. */
#include <latchsym.h>
#include <stdio.h>
#include <stdlib.h>
#include <string.h>

#define CHECK(x) do { if (!(x)) { printf("find: line %d: %s\n", __LINE__, #x); exit(1); } } while (0)

enum { KERNEL = 12000, MODULES = 150, EACH = 40, SYMBOLS = KERNEL + MODULES * EACH, ADDRESSES = 200000, LINE = 80 };

static const uint64_t stext = 0xffffffff81000000, modules_start = 0xffffffffc0000000;

struct symbol { uint64_t addr, module; char name[16]; int line; };
struct region { uint64_t a, b, number; char name[16]; struct symbol *symbols; int count; };

static struct symbol symbols[SYMBOLS];
static struct region regions[MODULES + 1];
static char *kallsyms, *modules;
static size_t kallsyms_len, modules_len, owners_len;
static const char *owners; /* the listing that has the modules' names */
static uint64_t addresses[ADDRESSES];
static struct latchsym_told told[ADDRESSES];
static struct latchsym_catalog catalog;

static uint64_t next_random(void) {
    static uint64_t state = 7;
    state = state * 6364136223846793005 + 1442695040888963407;
    return state >> 33;
}

/* Symbols by rising address in each region; every tenth has the address of the one before it. */
static void make_symbols(void) {
    uint64_t addr = stext;
    int lines[SYMBOLS];
    for (int i = 0; i < SYMBOLS; i++) lines[i] = i;
    for (int i = SYMBOLS - 1; i > 0; i--) {
        int j = next_random() % (i + 1), line = lines[i];
        lines[i] = lines[j], lines[j] = line;
    }
    for (int i = 0, k = 0; k <= MODULES; k++) {
        struct region *r = &regions[k];
        r->number = k;
        r->a = k ? modules_start + 0x10000 * k : stext;
        r->symbols = &symbols[i];
        r->count = k ? EACH : KERNEL;
        snprintf(r->name, sizeof r->name, "module_%d", k);
        if (k) addr = r->a + 16;
        for (int n = 0; n < r->count; n++, i++) {
            if (n % 10 != 9 && n) addr += 1 + next_random() % 500;
            symbols[i] = (struct symbol){.addr = addr, .module = k, .line = lines[i]};
            snprintf(symbols[i].name, sizeof symbols[i].name, "s%d", i);
        }
        r->b = addr + 1 + next_random() % 500;
    }
    strcpy(symbols[0].name, "_stext");
}

static void make_listings(void) {
    static struct symbol *by_line[SYMBOLS];
    size_t room = (SYMBOLS + MODULES + 9) * LINE;
    kallsyms = malloc(room), modules = malloc(room);
    CHECK(kallsyms && modules);
    for (int i = 0; i < SYMBOLS; i++) by_line[symbols[i].line] = &symbols[i];
    for (int i = 0; i < SYMBOLS; i++) {
        const struct symbol *s = by_line[i];
        kallsyms_len += sprintf(kallsyms + kallsyms_len, "%llx t %s", (unsigned long long)s->addr, s->name);
        if (s->module) kallsyms_len += sprintf(kallsyms + kallsyms_len, "\t[%s]", regions[s->module].name);
        kallsyms[kallsyms_len++] = '\n';
    }
    kallsyms_len += sprintf(kallsyms + kallsyms_len, "%llx T _end\n", (unsigned long long)regions[0].b);
    for (int k = 1; k <= MODULES; k++)
        modules_len += sprintf(modules + modules_len, "%s %llu 1 - Live 0x%llx\n", regions[k].name,
                               (unsigned long long)(regions[k].b - regions[k].a), (unsigned long long)regions[k].a);
}

static void make_addresses(void) {
    for (int i = 0; i < ADDRESSES; i++) {
        const struct region *r = &regions[i % 3 ? 0 : next_random() % (MODULES + 1)];
        const struct symbol *s = &symbols[next_random() % SYMBOLS];
        addresses[i] = r->a - 8 + next_random() % (r->b - r->a + 16);
        if (i % 7 == 0) addresses[i] = s->addr + next_random() % 3 - 1;
        if (i % 7 == 1) addresses[i] = r->b - 100 + next_random() % 1000;
        if (i % 7 == 2) addresses[i] = r->a + next_random() % 32;
    }
    const uint64_t edges[] = {0, 1, UINT64_MAX, stext - 1, stext, regions[0].b - 1, regions[0].b};
    memcpy(addresses, edges, sizeof edges);
}

/* What is right of an address, by a plain search: the region, and in it the symbol of the greatest address at or below,
 * the first listed of several. */
struct right { uint32_t code; const struct region *region; const struct symbol *symbol; uint64_t offset, size; };

static struct right right_of(uint64_t addr) {
    struct right out = {LATCHSYM_NOTHING, NULL, NULL, 0, 0};
    uint64_t above = 0;
    for (int k = 0; k <= MODULES && !out.region; k++)
        if (regions[k].a <= addr && addr < regions[k].b) out.region = &regions[k];
    if (!out.region) return out;
    out.code = LATCHSYM_NO_SYMBOL, above = out.region->b;
    int low = 0, high = out.region->count;
    while (low < high) {
        int middle = (low + high) / 2;
        if (out.region->symbols[middle].addr <= addr) low = middle + 1; else high = middle;
    }
    if (low < out.region->count) above = out.region->symbols[low].addr;
    for (int i = low - 1; i >= 0 && out.region->symbols[i].addr == out.region->symbols[low - 1].addr; i--)
        if (!out.symbol || out.region->symbols[i].line < out.symbol->line) out.symbol = &out.region->symbols[i];
    if (!out.symbol) return out;
    out.code = LATCHSYM_DONE, out.offset = addr - out.symbol->addr, out.size = above - out.symbol->addr;
    return out;
}

/* The place is one of a listing, and has these bytes. */
static int is_at(struct latchsym_place place, const char *text, size_t len, const char *name) {
    return place.len == strlen(name) && !memcmp(place.at, name, place.len) && (const char *)place.at >= text
        && (const char *)place.at + place.len <= text + len;
}

static void check_symbol(uint32_t code, const struct latchsym_symbol *s, struct right want, uint64_t farther) {
    CHECK(code == want.code && s->module_number == (want.region ? want.region->number : 0));
    if (code == LATCHSYM_DONE) {
        CHECK(s->offset == want.offset + farther && s->size == want.size);
        CHECK(is_at(s->name, kallsyms, kallsyms_len, want.symbol->name));
    } else {
        CHECK(!s->offset && !s->size && !s->name.len);
    }
    if (s->module_number) CHECK(is_at(s->module, owners, owners_len, want.region->name));
    if (code == LATCHSYM_NOTHING) CHECK(!s->module.len);
}

static void each_alone(void) {
    int codes[64] = {0};
    struct latchsym_symbol found = LATCHSYM_SYMBOL_INIT;
    struct latchsym_answer answer;
    uint8_t name[64], module[64];
    for (int i = 0; i < ADDRESSES; i++) {
        struct right want = right_of(addresses[i]);
        check_symbol(latchsym_catalog_find(&catalog, addresses[i], &found), &found, want, 0);
        codes[want.code]++;
        CHECK(latchsym_catalog_name(&catalog, addresses[i], &answer, name, sizeof name, module, sizeof module) == want.code);
        CHECK(answer.module_number == found.module_number && answer.offset == found.offset && answer.size == found.size);
        CHECK(answer.name_len == found.name.len && !memcmp(name, found.name.at, found.name.len));
        CHECK(answer.module_len == found.module.len && !memcmp(module, found.module.at, found.module.len));
        want = addresses[i] ? right_of(addresses[i] - 1) : (struct right){.code = LATCHSYM_NOTHING};
        check_symbol(latchsym_catalog_find_caller(&catalog, addresses[i], &found), &found, want, 1);
    }
    printf("find: %d symbols, %d without one, %d nowhere\n", codes[LATCHSYM_DONE], codes[LATCHSYM_NO_SYMBOL],
           codes[LATCHSYM_NOTHING]);
    CHECK(codes[LATCHSYM_DONE] > 100000 && codes[LATCHSYM_NOTHING] > 1000);
    CHECK(owners == modules ? codes[LATCHSYM_NO_SYMBOL] > 1000 : !codes[LATCHSYM_NO_SYMBOL]);
}

static int compare(const void *x, const void *y) {
    uint64_t a = *(const uint64_t *)x, b = *(const uint64_t *)y;
    return (a > b) - (a < b);
}

static void all_in_one_call(size_t step) {
    memset(told, 0xff, sizeof told);
    for (size_t i = 0; i < ADDRESSES; i += step) {
        size_t n = ADDRESSES - i < step ? ADDRESSES - i : step;
        CHECK(!latchsym_catalog_find_many(&catalog, addresses + i, n, told + i, n));
    }
    for (int i = 0; i < ADDRESSES; i++) {
        struct latchsym_answer answer;
        uint8_t none[1];
        uint32_t code = latchsym_catalog_name(&catalog, addresses[i], &answer, none, 0, none, 0);
        CHECK(told[i].code == code && !memcmp(&told[i].answer, &answer, sizeof answer));
    }
}

/* Each region and each symbol by its number, in the order listed, and back from its name. */
static void by_number(int from_symbols) {
    struct latchsym_module module = LATCHSYM_MODULE_INIT;
    struct latchsym_region region = {1, 2, 3};
    struct latchsym_entry entry = LATCHSYM_ENTRY_INIT;
    uint64_t count;
    size_t place = 9;
    CHECK(!latchsym_catalog_modules(&catalog, &count) && count == MODULES);
    CHECK(latchsym_catalog_module(&catalog, MODULES + 1, &module) == LATCHSYM_NOTHING && !module.symbols);
    for (int k = 0; k <= MODULES; k++) {
        const struct region *r = &regions[k];
        int line = -1;
        CHECK(!latchsym_catalog_module(&catalog, r->number, &module));
        CHECK(module.regions == 1 && module.symbols == (size_t)r->count);
        CHECK(k ? is_at(module.name, owners, owners_len, r->name) : module.name.len == 1 && *module.name.at == '-');
        CHECK(latchsym_catalog_region(&catalog, r->number, 1, &region) == LATCHSYM_NOTHING);
        CHECK(!latchsym_catalog_region(&catalog, r->number, 0, &region));
        CHECK(region.a == r->a && region.b == r->b && !region.is_init);
        for (int n = 0; n < r->count; n++) {
            const struct symbol *s;
            CHECK(!latchsym_catalog_symbol(&catalog, r->number, n, &entry));
            s = entry.name.at[0] == '_' ? symbols : &symbols[atoi((const char *)entry.name.at + 1)];
            CHECK(is_at(entry.name, kallsyms, kallsyms_len, s->name) && entry.addr == s->addr && s->line > line);
            CHECK(s->module == (uint64_t)k);
            line = s->line;
            if (n % 97 && n != r->count - 1) continue;
            CHECK(!latchsym_catalog_place_of_name(&catalog, r->number, entry.name.at, entry.name.len, n % 2 ? n : 0, &place));
            CHECK(place == (size_t)n);
            CHECK(latchsym_catalog_place_of_name(&catalog, r->number, entry.name.at, entry.name.len, n + 1, &place) == LATCHSYM_NOTHING);
            CHECK(latchsym_catalog_place_of_name(&catalog, r->number, entry.name.at, entry.name.len - 1, 0, &place) != LATCHSYM_DONE
                  || place != (size_t)n);
        }
        CHECK(latchsym_catalog_symbol(&catalog, r->number, r->count, &entry) == LATCHSYM_NOTHING);
    }
    CHECK(latchsym_catalog_place_of_name(&catalog, 0, (const uint8_t *)"_end", 4, 0, &place) == LATCHSYM_NOTHING);
    CHECK(latchsym_catalog_place_of_name(&catalog, 0, (const uint8_t *)"_stext", 6, SIZE_MAX, &place) == LATCHSYM_NOTHING);
    CHECK(latchsym_catalog_symbol(&catalog, UINT64_MAX, 0, &entry) == LATCHSYM_NOTHING);
    printf("find: all by number%s\n", from_symbols ? ", from the symbols" : "");
}

static void refusals(void) {
    struct latchsym_catalog closed = {0};
    struct latchsym_module module = LATCHSYM_MODULE_INIT;
    struct latchsym_region region = {1, 2, 3};
    struct latchsym_entry entry = LATCHSYM_ENTRY_INIT;
    uint64_t count = 9;
    size_t place = 8;
    struct latchsym_symbol found = {1, 2, 3, LATCHSYM_PLACE_INIT, LATCHSYM_PLACE_INIT}, same = found;
    struct latchsym_told two[2] = {{{1, 2, 3, 4, 5}, 6}, {{7, 8, 9, 10, 11}, 12}}, as_before[2];
    memcpy(as_before, two, sizeof two);
    CHECK(latchsym_catalog_find(&closed, stext, &found) == LATCHSYM_BAD_HANDLE);
    CHECK(latchsym_catalog_find_caller(&closed, stext, &found) == LATCHSYM_BAD_HANDLE);
    CHECK(!memcmp(&found, &same, sizeof found));
    CHECK(latchsym_catalog_find_many(&closed, addresses, 2, two, 2) == LATCHSYM_BAD_HANDLE);
    CHECK(latchsym_catalog_modules(&closed, &count) == LATCHSYM_BAD_HANDLE && count == 9);
    CHECK(latchsym_catalog_module(&closed, 0, &module) == LATCHSYM_BAD_HANDLE && !module.symbols);
    CHECK(latchsym_catalog_region(&closed, 0, 0, &region) == LATCHSYM_BAD_HANDLE && region.b == 2);
    CHECK(latchsym_catalog_symbol(&closed, 0, 0, &entry) == LATCHSYM_BAD_HANDLE && !entry.addr);
    CHECK(latchsym_catalog_place_of_name(&closed, 0, found.name.at, 0, 0, &place) == LATCHSYM_BAD_HANDLE && place == 8);
    CHECK(latchsym_catalog_find_many(&catalog, addresses, 1, two, 2) == LATCHSYM_BAD_LENGTH);
    CHECK(latchsym_catalog_find_many(&catalog, addresses, 3, two, 2) == LATCHSYM_BAD_LENGTH);
    CHECK(latchsym_catalog_find_many(&catalog, addresses, 0, two, 0) == LATCHSYM_DONE);
    for (int i = 0; i < 2; i++)
        CHECK(two[i].code == as_before[i].code && !memcmp(&two[i].answer, &as_before[i].answer, sizeof two[i].answer));
}

static void all_ways(void) {
    make_addresses();
    each_alone();
    all_in_one_call(ADDRESSES);
    all_in_one_call(64);
    qsort(addresses, ADDRESSES, sizeof *addresses, compare);
    for (size_t step = 1; step < 40; step += 3) all_in_one_call(step);
    all_in_one_call(ADDRESSES);
    for (int i = 0; i < ADDRESSES; i++) addresses[i] = addresses[i / 100 * 7919 % (ADDRESSES / 100) * 100 + i % 100];
    all_in_one_call(ADDRESSES); /* runs that rise, each anywhere; some addresses stand there often */
}

/* From the symbols alone: a module reaches from its first symbol up to the end of the page of its last, and has its
 * number by the first line that names it. */
static void place_by_symbols(void) {
    int first[MODULES + 1];
    for (int k = 1; k <= MODULES; k++) {
        struct region *r = &regions[k];
        r->a = r->symbols[0].addr;
        r->b = (r->symbols[EACH - 1].addr | 4095) + 1;
        first[k] = r->symbols[0].line;
        for (int n = 1; n < EACH; n++) first[k] = r->symbols[n].line < first[k] ? r->symbols[n].line : first[k];
    }
    for (int k = 1; k <= MODULES; k++) {
        regions[k].number = 1;
        for (int other = 1; other <= MODULES; other++) regions[k].number += first[other] < first[k];
    }
}

static void both_openings(void) {
    struct latchsym_listings listings = LATCHSYM_LISTINGS_INIT;
    struct latchsym_counts counts;
    uint64_t bad_line = 9;
    listings.kallsyms = (struct latchsym_place){(uint8_t *)kallsyms, kallsyms_len};
    listings.modules = (struct latchsym_place){(uint8_t *)modules, modules_len};
    listings.has_modules = 1;
    owners = modules, owners_len = modules_len;
    CHECK(!latchsym_catalog_open(&listings, &catalog, &counts, &bad_line));
    CHECK(counts.modules == MODULES && !counts.regions && counts.symbols == SYMBOLS && counts.symbols_stray == 1);
    all_ways();
    by_number(0);
    refusals();
    CHECK(latchsym_catalog_open(&listings, &catalog, &counts, &bad_line) == LATCHSYM_BAD_HANDLE);
    latchsym_catalog_close(&catalog);
    listings.has_modules = 0;
    counts.modules = 77;
    CHECK(latchsym_catalog_open(&listings, &catalog, &counts, &bad_line) == LATCHSYM_BAD_LISTINGS);
    listings.modules.len = 0, listings.regions = listings.kallsyms;
    CHECK(latchsym_catalog_open(&listings, &catalog, &counts, &bad_line) == LATCHSYM_BAD_LISTINGS);
    listings.regions.len = 0, listings.size--;
    CHECK(latchsym_catalog_open(&listings, &catalog, &counts, &bad_line) == LATCHSYM_BAD_LISTINGS);
    CHECK(counts.modules == 77 && bad_line == 9 && !catalog.handle.at);
    listings.size++;
    place_by_symbols();
    owners = kallsyms, owners_len = kallsyms_len;
    CHECK(!latchsym_catalog_open(&listings, &catalog, &counts, &bad_line) && bad_line == 9);
    CHECK(counts.modules == MODULES && counts.regions == MODULES && counts.symbols == SYMBOLS);
    all_ways();
    by_number(1);
    latchsym_catalog_close(&catalog);
}

int main(void) {
    make_symbols();
    make_listings();
    both_openings();
    free(kallsyms);
    free(modules);
    puts("find: ok");
}
