/* Which refusal comes first where several apply, and open handles that move between calls. */
#include <latchsym.h>
#include <stdio.h>
#include <stdlib.h>
#include <string.h>

#define CHECK(x) do { if (!(x)) { printf("order: line %d: %s\n", __LINE__, #x); exit(1); } } while (0)

static const char LISTING[] = "1000 T _stext\n1100 T do_one\n2000 T _end\n3000 t a_run\t[a]\n";
static const struct latchsym_item item = {0x1000, 0x2000, 1}, empty = {5, 5, 1}, over = {0x1800, 0x2800, 1}, far = {0x8000, 0x9000, 1};

static struct latchsym_writer writer;
static struct latchsym_reader readers[2];

static void finish(void) {
    uint64_t generation;
    CHECK(latchsym_writer_finish(&writer, &generation) == LATCHSYM_DONE);
}

static void without_handles(void) {
    struct latchsym_listings listings = LATCHSYM_LISTINGS_INIT;
    struct latchsym_catalog catalog = {{0, NULL}};
    struct latchsym_counts counts;
    struct latchsym_told told = LATCHSYM_TOLD_INIT;
    struct latchsym_item out;
    struct latchsym_view view;
    const uint64_t address = 0;
    uint64_t line;
    CHECK(latchsym_catalog_find_many(&catalog, &address, 1, &told, 0) == LATCHSYM_BAD_HANDLE);
    CHECK(latchsym_catalog_items(&catalog, &out, 1) == LATCHSYM_BAD_HANDLE);
    CHECK(latchsym_catalog_flatten(&catalog, NULL, 0, NULL, 0, NULL, 1, &view) == LATCHSYM_BAD_HANDLE);
    listings.kallsyms = (struct latchsym_place){(const uint8_t *)LISTING, sizeof LISTING - 1};
    CHECK(latchsym_catalog_open(&listings, &catalog, &counts, &line) == LATCHSYM_DONE);
    listings.size = 0;
    CHECK(latchsym_catalog_open(&listings, &catalog, &counts, &line) == LATCHSYM_BAD_HANDLE);
    latchsym_catalog_close(&catalog);
    CHECK(latchsym_writer_begin_insert(&writer, &empty) == LATCHSYM_BAD_HANDLE);
    CHECK(latchsym_table_enlarge(0, &writer, readers, 0) == LATCHSYM_BAD_HANDLE);
    CHECK(latchsym_table_open(2, &writer, readers, 2) == LATCHSYM_DONE);
    CHECK(latchsym_table_open(0, &writer, readers, 2) == LATCHSYM_BAD_HANDLE);
    CHECK(latchsym_table_enlarge(0, &writer, readers, 1) == LATCHSYM_BAD_HANDLE);
}

/* What is refused of each update, once with one pending and once without: the former is always the first reason. */
static void updates(void) {
    const struct latchsym_item falling[] = {far, item, empty}, with_empty[] = {empty, item}, three[] = {item, {0x2000, 0x3000, 1}, far};
    const struct latchsym_item bad[] = {empty, over}, overlapping[] = {over, far};
    const uint64_t none = 7;
    for (int pending = 1; pending >= 0; pending--) {
#define REFUSED(call, number) CHECK((call) == (uint32_t)(pending ? LATCHSYM_UPDATE_IN_HAND : (number)))
        if (pending) CHECK(latchsym_writer_begin_insert(&writer, &item) == LATCHSYM_DONE);
        REFUSED(latchsym_writer_begin_insert(&writer, &empty), LATCHSYM_BAD_ITEM);
        REFUSED(latchsym_writer_begin_insert(&writer, &over), LATCHSYM_OVERLAP);
        REFUSED(latchsym_writer_begin_erase(&writer, none), LATCHSYM_NO_SUCH_ITEM);
        REFUSED(latchsym_writer_begin_batch(&writer, &none, 1, bad, 2), LATCHSYM_BAD_ITEM);
        REFUSED(latchsym_writer_begin_batch(&writer, &none, 1, overlapping, 2), LATCHSYM_NO_SUCH_ITEM);
        REFUSED(latchsym_writer_begin_batch(&writer, NULL, 0, overlapping, 2), LATCHSYM_OVERLAP);
        REFUSED(latchsym_writer_begin_batch(&writer, NULL, 0, three + 1, 2), LATCHSYM_FULL);
        REFUSED(latchsym_writer_begin_replace(&writer, falling, 3), LATCHSYM_OVERLAP);
        REFUSED(latchsym_writer_begin_replace(&writer, with_empty, 2), LATCHSYM_BAD_ITEM);
        REFUSED(latchsym_writer_begin_replace(&writer, three, 3), LATCHSYM_FULL);
        REFUSED(latchsym_table_enlarge(1, &writer, readers, 2), LATCHSYM_BAD_CAPACITY);
        CHECK(latchsym_table_enlarge(0, &writer, readers, 2) == LATCHSYM_BAD_CAPACITY);
        CHECK(latchsym_table_enlarge(65537, &writer, readers, 2) == LATCHSYM_BAD_CAPACITY);
        finish();
    }
    CHECK(latchsym_writer_begin_insert(&writer, &far) == LATCHSYM_DONE);
    finish();
    CHECK(latchsym_writer_begin_insert(&writer, &empty) == LATCHSYM_BAD_ITEM); /* and the table is full */
    CHECK(latchsym_writer_begin_insert(&writer, &over) == LATCHSYM_OVERLAP);
    CHECK(latchsym_writer_begin_insert(&writer, &three[1]) == LATCHSYM_FULL);
}

/* Each handle lies elsewhere at each of its calls. */
static void moved(void) {
    struct latchsym_listings listings = LATCHSYM_LISTINGS_INIT;
    struct latchsym_catalog catalog = {{0, NULL}}, *catalogs = calloc(5, sizeof *catalogs);
    struct latchsym_writer writers[3] = {writer};
    struct latchsym_reader moving = readers[0];
    struct latchsym_symbol symbol = LATCHSYM_SYMBOL_INIT;
    struct latchsym_counts counts;
    struct latchsym_found found;
    uint64_t line, generation;
    CHECK(catalogs);
    listings.kallsyms = (struct latchsym_place){(const uint8_t *)LISTING, sizeof LISTING - 1};
    CHECK(latchsym_catalog_open(&listings, &catalog, &counts, &line) == LATCHSYM_DONE);
    catalogs[0] = catalog;
    for (int i = 0; i < 4; i++) {
        CHECK(latchsym_catalog_find(&catalogs[i], 0x1108, &symbol) == LATCHSYM_DONE && symbol.offset == 8);
        catalogs[i + 1] = catalogs[i];
        memset(&catalogs[i], 0, sizeof *catalogs);
    }
    latchsym_catalog_close(&catalogs[4]);
    free(catalogs);
    CHECK(latchsym_writer_begin_erase(&writers[0], item.a) == LATCHSYM_DONE);
    writers[1] = writers[0];
    CHECK(latchsym_writer_step(&writers[1]) != LATCHSYM_DONE);
    writers[2] = writers[1];
    CHECK(latchsym_writer_finish(&writers[2], &generation) == LATCHSYM_DONE);
    CHECK(latchsym_reader_try_find(&moving, item.a, &found) == LATCHSYM_NOTHING && found.generation == generation);
    readers[0] = moving;
    CHECK(latchsym_table_enlarge(9, &writers[2], readers, 2) == LATCHSYM_DONE);
    for (int i = 0; i < 2; i++) latchsym_reader_close(&readers[i]);
    latchsym_writer_close(&writers[2]);
}

int main(void) {
    without_handles();
    updates();
    moved();
    puts("order: ok");
    return 0;
}
