/* A view of a catalog beside the catalog itself: the same of each address, found by 1, 2 and 4 threads at once in one view
 * and, once the catalog is closed, still. */
#include <latchsym.h>
#include <pthread.h>
#include <stdio.h>
#include <stdlib.h>
#include <string.h>

#define CHECK(x) do { if (!(x)) { printf("view: line %d: %s\n", __LINE__, #x); exit(1); } } while (0)

enum { SYMBOLS = 20000, MODULES = 60, ADDRESSES = 60000, LINE = 80, MOST_THREADS = 4 };

static const uint64_t stext = 0xffffffff81000000, modules_start = 0xffffffffc0000000;
static char kallsyms[(SYMBOLS + 9) * LINE], modules[MODULES * LINE], regions[MODULES * 2 * LINE];
static size_t kallsyms_len, modules_len, regions_len;
static uint64_t addresses[ADDRESSES];
static struct latchsym_symbol right[ADDRESSES], right_call[ADDRESSES];
static uint32_t codes[ADDRESSES], call_codes[ADDRESSES];

static uint64_t next_random(void) {
    static uint64_t state = 11;
    state = state * 6364136223846793005 + 1442695040888963407;
    return state >> 33;
}

/* Symbols in no order, many at one address; each module has two regions with a gap between them. */
static void make_listings(void) {
    kallsyms_len = (size_t)sprintf(kallsyms, "%llx T _stext\n%llx T _end\n", (unsigned long long)stext,
                                   (unsigned long long)stext + 0x400000);
    for (int i = 0; i < SYMBOLS; i++) {
        uint64_t module = next_random() % (MODULES * 2), addr = stext + next_random() % 0x10000 * 64;
        if (module < MODULES) addr = modules_start + module * 0x10000 + next_random() % 0xa00 * 16;
        kallsyms_len += (size_t)sprintf(kallsyms + kallsyms_len, "%llx t symbol_%d", (unsigned long long)addr, i);
        if (module < MODULES) kallsyms_len += (size_t)sprintf(kallsyms + kallsyms_len, "\t[module_%d]", (int)module);
        kallsyms[kallsyms_len++] = '\n';
    }
    regions_len = (size_t)sprintf(regions, "latchregions 1\n");
    for (int k = 0; k < MODULES; k++) {
        unsigned long long a = modules_start + (uint64_t)k * 0x10000;
        modules_len += (size_t)sprintf(modules + modules_len, "module_%d 40960 1 - Live 0x%llx\n", k, a);
        if (k % 3)
            regions_len += (size_t)sprintf(regions + regions_len, "module_%d core 0x%llx 12288\nmodule_%d init 0x%llx 12032\n",
                                           k, a + 0x5000, k, a + 0x100);
    }
    for (int i = 0; i < ADDRESSES; i++)
        addresses[i] = i % 2 ? stext - 64 + next_random() % 0x400080 : modules_start - 64 + next_random() % (MODULES * 0x10000);
    addresses[0] = 0, addresses[1] = UINT64_MAX;
}

static int is_same(struct latchsym_place x, struct latchsym_place y) {
    return x.len == y.len && (!x.len || x.at == y.at);
}

static int are_same(const struct latchsym_symbol *x, const struct latchsym_symbol *y) {
    return x->module_number == y->module_number && x->offset == y->offset && x->size == y->size
        && is_same(x->name, y->name) && is_same(x->module, y->module);
}

static void *look_up(void *argument) {
    const struct latchsym_view *view = argument;
    struct latchsym_symbol found = LATCHSYM_SYMBOL_INIT;
    for (int i = 0; i < ADDRESSES; i++) {
        CHECK(latchsym_view_find(view, addresses[i], &found) == codes[i] && are_same(&found, &right[i]));
        CHECK(latchsym_view_find_caller(view, addresses[i], &found) == call_codes[i] && are_same(&found, &right_call[i]));
    }
    return NULL;
}

static void on_threads(const struct latchsym_view *view, int count) {
    pthread_t threads[MOST_THREADS];
    for (int i = 0; i < count; i++) CHECK(!pthread_create(&threads[i], NULL, look_up, (void *)view));
    for (int i = 0; i < count; i++) CHECK(!pthread_join(threads[i], NULL));
}

static void find_by_catalog(struct latchsym_catalog *catalog) {
    const struct latchsym_symbol none = LATCHSYM_SYMBOL_INIT;
    int kinds[3] = {0};
    for (int i = 0; i < ADDRESSES; i++) {
        right[i] = right_call[i] = none;
        codes[i] = latchsym_catalog_find(catalog, addresses[i], &right[i]);
        call_codes[i] = latchsym_catalog_find_caller(catalog, addresses[i], &right_call[i]);
        kinds[codes[i] == LATCHSYM_DONE ? 0 : codes[i] == LATCHSYM_NO_SYMBOL ? 1 : 2]++;
    }
    printf("view: %d symbols, %d without one, %d nowhere\n", kinds[0], kinds[1], kinds[2]);
    CHECK(kinds[0] > 10000 && kinds[2] > 2);
}

static int are_filled(const void *room, size_t size) {
    const unsigned char *bytes = room;
    for (size_t i = 0; i < size; i++)
        if (bytes[i] != 0x5a) return 0;
    return 1;
}

/* Rows of each room short of one, and a closed catalog: nothing is written. */
static void refusals(struct latchsym_catalog *catalog, struct latchsym_sizes sizes, struct latchsym_view_region *rows,
                     struct latchsym_view_symbol *symbols, uint64_t *starts) {
    struct latchsym_view view = {rows, 77};
    struct latchsym_catalog closed = {0};
    struct latchsym_sizes same = {5, 6};
    memset(rows, 0x5a, sizes.regions * sizeof *rows);
    memset(symbols, 0x5a, sizes.symbols * sizeof *symbols);
    memset(starts, 0x5a, sizes.symbols * sizeof *starts);
    CHECK(latchsym_catalog_flatten(catalog, rows, sizes.regions - 1, symbols, sizes.symbols, starts, sizes.symbols, &view) == LATCHSYM_BAD_LENGTH);
    CHECK(latchsym_catalog_flatten(catalog, rows, sizes.regions, symbols, sizes.symbols - 1, starts, sizes.symbols, &view) == LATCHSYM_BAD_LENGTH);
    CHECK(latchsym_catalog_flatten(catalog, rows, sizes.regions, symbols, sizes.symbols, NULL, 0, &view) == LATCHSYM_BAD_LENGTH);
    CHECK(latchsym_catalog_flatten(catalog, rows, sizes.regions, symbols, sizes.symbols, starts, sizes.symbols - 1, &view) == LATCHSYM_BAD_LENGTH);
    CHECK(latchsym_catalog_flatten(&closed, rows, sizes.regions, symbols, sizes.symbols, starts, sizes.symbols, &view) == LATCHSYM_BAD_HANDLE);
    CHECK(view.regions == rows && view.regions_len == 77);
    CHECK(are_filled(rows, sizes.regions * sizeof *rows) && are_filled(symbols, sizes.symbols * sizeof *symbols));
    CHECK(are_filled(starts, sizes.symbols * sizeof *starts));
    CHECK(latchsym_catalog_sizes(&closed, &same) == LATCHSYM_BAD_HANDLE && same.regions == 5 && same.symbols == 6);
}

/* The same of the export, which the header's function calls only with rooms that fit. It takes rooms with rows in them. */
static void refusals_of_the_export(struct latchsym_catalog *catalog, struct latchsym_sizes sizes, struct latchsym_view_region *rows,
                                   struct latchsym_view_symbol *symbols, uint64_t *starts) {
    static const struct latchsym_view_symbol symbol = LATCHSYM_VIEW_SYMBOL_INIT;
    static const uint64_t start = 0;
    const size_t of_rows = sizes.regions * sizeof *rows, of_symbols = sizes.symbols * sizeof *symbols, of_starts = sizes.symbols * sizeof *starts;
    struct latchsym_view_region *same_rows = malloc(of_rows);
    struct latchsym_view_symbol *same_symbols = malloc(of_symbols);
    uint64_t *same_starts = malloc(of_starts);
    struct latchsym_view view = {rows, 0};
    struct latchsym_catalog closed = {0};
    CHECK(same_rows && same_symbols && same_starts);
    for (size_t i = 0; i < sizes.regions; i++) rows[i] = (struct latchsym_view_region){77 - i, 7, 7, LATCHSYM_PLACE_INIT, &symbol, 0, &start, 0};
    for (size_t i = 0; i < sizes.symbols; i++) symbols[i] = symbol, symbols[i].addr = starts[i] = 77 - i;
    memcpy(same_rows, rows, of_rows), memcpy(same_symbols, symbols, of_symbols), memcpy(same_starts, starts, of_starts);
    CHECK(latchsym_catalog_flatten_nonnull(catalog, rows, sizes.regions - 1, symbols, sizes.symbols, starts, sizes.symbols, &view) == LATCHSYM_BAD_LENGTH);
    CHECK(latchsym_catalog_flatten_nonnull(catalog, rows, sizes.regions, symbols, sizes.symbols - 1, starts, sizes.symbols, &view) == LATCHSYM_BAD_LENGTH);
    CHECK(latchsym_catalog_flatten_nonnull(catalog, rows, sizes.regions, symbols, sizes.symbols, starts, sizes.symbols - 1, &view) == LATCHSYM_BAD_LENGTH);
    CHECK(latchsym_catalog_flatten_nonnull(&closed, rows, sizes.regions, symbols, sizes.symbols, starts, sizes.symbols, &view) == LATCHSYM_BAD_HANDLE);
    CHECK(view.regions == rows && !view.regions_len);
    CHECK(!memcmp(rows, same_rows, of_rows) && !memcmp(symbols, same_symbols, of_symbols) && !memcmp(starts, same_starts, of_starts));
    free(same_rows), free(same_symbols), free(same_starts);
}

static void see(struct latchsym_listings listings) {
    struct latchsym_catalog catalog = {0};
    struct latchsym_counts counts;
    struct latchsym_sizes sizes;
    struct latchsym_view view, copy;
    uint64_t bad_line;
    CHECK(!latchsym_catalog_open(&listings, &catalog, &counts, &bad_line));
    CHECK(!latchsym_catalog_sizes(&catalog, &sizes) && sizes.symbols == counts.symbols);
    struct latchsym_view_region *rows = malloc(sizes.regions * sizeof *rows);
    struct latchsym_view_symbol *symbols = malloc(sizes.symbols * sizeof *symbols);
    uint64_t *starts = malloc(sizes.symbols * sizeof *starts);
    CHECK(rows && symbols && starts);
    refusals(&catalog, sizes, rows, symbols, starts);
    refusals_of_the_export(&catalog, sizes, rows, symbols, starts);
    CHECK(!latchsym_catalog_flatten(&catalog, rows, sizes.regions, symbols, sizes.symbols, starts, sizes.symbols, &view));
    CHECK(view.regions == rows && view.regions_len == sizes.regions);
    find_by_catalog(&catalog);
    on_threads(&view, 1);
    latchsym_catalog_close(&catalog);
    copy = view;
    on_threads(&copy, 2);
    on_threads(&view, 4);
    free(rows), free(symbols), free(starts);
}

/* Of no listing, where the rooms are null. */
static void see_nothing(void) {
    struct latchsym_listings none = LATCHSYM_LISTINGS_INIT;
    struct latchsym_catalog catalog = {0};
    struct latchsym_counts counts;
    struct latchsym_sizes sizes;
    struct latchsym_view view;
    struct latchsym_symbol found = {1, 2, 3, LATCHSYM_PLACE_INIT, LATCHSYM_PLACE_INIT};
    uint64_t bad_line;
    CHECK(!latchsym_catalog_open(&none, &catalog, &counts, &bad_line));
    CHECK(!latchsym_catalog_sizes(&catalog, &sizes) && !sizes.regions && !sizes.symbols);
    CHECK(!latchsym_catalog_flatten(&catalog, NULL, 0, NULL, 0, NULL, 0, &view));
    latchsym_catalog_close(&catalog);
    CHECK(!view.regions_len);
    CHECK(latchsym_view_find(&view, stext, &found) == LATCHSYM_NOTHING && !found.module_number && !found.offset && !found.size);
    CHECK(latchsym_view_find_caller(&view, 0, &found) == LATCHSYM_NOTHING && !found.name.len && !found.module.len);
}

int main(void) {
    struct latchsym_listings listings = LATCHSYM_LISTINGS_INIT;
    make_listings();
    see_nothing();
    listings.kallsyms = (struct latchsym_place){(uint8_t *)kallsyms, kallsyms_len};
    see(listings);
    listings.modules = (struct latchsym_place){(uint8_t *)modules, modules_len};
    listings.has_modules = 1;
    see(listings);
    listings.regions = (struct latchsym_place){(uint8_t *)regions, regions_len};
    see(listings);
    puts("view: ok");
}
