/* Null pointers: closed where a handle is, and with a length of 0 in each call that takes a length. */
#include <latchsym.h>
#include <stdio.h>
#include <stdlib.h>
#include <string.h>

#define CHECK(x) do { if (!(x)) { printf("nulls: line %d: %s\n", __LINE__, #x); exit(1); } } while (0)

static const char kallsyms[] = "1000 T _stext\n1010 t f\n2000 T _end\n";
static struct latchsym_catalog catalog;

static uint32_t open_of(struct latchsym_place text, uint32_t has_modules) {
    struct latchsym_listings listings;
    struct latchsym_counts counts;
    uint64_t bad_line;
    memset(&listings, 0, sizeof listings); /* all places but that of the symbols are null */
    listings.size = sizeof listings;
    listings.kallsyms = text;
    listings.has_modules = has_modules;
    return latchsym_catalog_open(&listings, &catalog, &counts, &bad_line);
}

static void listings(void) {
    struct latchsym_symbol found = LATCHSYM_SYMBOL_INIT;
    CHECK(!open_of((struct latchsym_place){NULL, 0}, 0));
    CHECK(latchsym_catalog_find(&catalog, 0x1018, &found) == LATCHSYM_NOTHING);
    latchsym_catalog_close(&catalog);
    for (uint32_t has_modules = 0; has_modules < 2; has_modules++) {
        if (has_modules) latchsym_catalog_close(&catalog);
        CHECK(!open_of((struct latchsym_place){(const uint8_t *)kallsyms, sizeof kallsyms - 1}, has_modules));
        CHECK(!latchsym_catalog_find(&catalog, 0x1018, &found) && found.offset == 8 && found.name.len == 1);
    }
}

static void lengths(void) {
    struct latchsym_answer answer;
    struct latchsym_told told;
    const uint64_t addr = 0x1018;
    uint8_t name[8];
    size_t place = 7;
    CHECK(!latchsym_catalog_name(&catalog, addr, &answer, NULL, 0, NULL, 0));
    CHECK(answer.offset == 8 && answer.name_len == 1 && answer.module_len == 1);
    CHECK(!latchsym_catalog_name(&catalog, addr, &answer, name, sizeof name, NULL, 0) && name[0] == 'f');
    CHECK(!latchsym_catalog_name(&catalog, addr, &answer, NULL, 0, name, sizeof name) && name[0] == '-');
    CHECK(!latchsym_catalog_find_many(&catalog, NULL, 0, NULL, 0));
    CHECK(latchsym_catalog_find_many(&catalog, &addr, 1, NULL, 0) == LATCHSYM_BAD_LENGTH);
    CHECK(latchsym_catalog_find_many(&catalog, NULL, 0, &told, 1) == LATCHSYM_BAD_LENGTH);
    CHECK(!latchsym_catalog_find_many(&catalog, &addr, 1, &told, 1) && !told.code && told.answer.offset == 8);
    CHECK(latchsym_catalog_place_of_name(&catalog, 0, NULL, 0, 0, &place) == LATCHSYM_NOTHING && place == 7);
    CHECK(!latchsym_catalog_place_of_name(&catalog, 0, (const uint8_t *)"f", 1, 0, &place) && place == 1);
}

static void tables(void) {
    struct latchsym_writer writer = {0};
    struct latchsym_reader reader = {0};
    struct latchsym_follower follower = {0};
    struct latchsym_code code;
    const struct latchsym_item item = {0x1000, 0x2000, 0};
    const uint64_t start = 0x1000;
    struct latchsym_found found;
    struct latchsym_answer answer;
    uint64_t generation;
    CHECK(latchsym_table_open(4, &writer, NULL, 0) == LATCHSYM_BAD_CAPACITY);
    CHECK(!latchsym_table_open(4, &writer, &reader, 1));
    CHECK(latchsym_table_enlarge(8, &writer, NULL, 0) == LATCHSYM_BAD_HANDLE);
    CHECK(!latchsym_table_enlarge(8, &writer, &reader, 1));
    CHECK(!latchsym_writer_begin_batch(&writer, NULL, 0, &item, 1) && !latchsym_writer_finish(&writer, &generation));
    CHECK(generation == 1);
    CHECK(!latchsym_reader_find_name(&reader, &catalog, 0x1018, &found, &answer, NULL, 0, NULL, 0));
    CHECK(found.a == 0x1000 && answer.offset == 8 && answer.name_len == 1);
    CHECK(!latchsym_writer_begin_batch(&writer, &start, 1, NULL, 0) && !latchsym_writer_finish(&writer, &generation));
    CHECK(latchsym_reader_try_find(&reader, 0x1018, &found) == LATCHSYM_NOTHING && found.generation == 2);
    CHECK(!latchsym_writer_begin_replace(&writer, &item, 1) && !latchsym_writer_finish(&writer, &generation));
    CHECK(!latchsym_writer_begin_replace(&writer, NULL, 0) && !latchsym_writer_finish(&writer, &generation));
    CHECK(latchsym_reader_try_find(&reader, 0x1018, &found) == LATCHSYM_NOTHING && found.generation == 4);
    CHECK(latchsym_catalog_items(&catalog, NULL, 0) == LATCHSYM_BAD_LENGTH);
    latchsym_writer_begin_batch(&writer, NULL, 0, NULL, 0);
    latchsym_writer_close(&writer);
    latchsym_reader_close(&reader);
    CHECK(latchsym_follower_open(4, &follower, NULL, 0) == LATCHSYM_BAD_CAPACITY);
    CHECK(latchsym_follower_enlarge(8, &follower, NULL, 0) == LATCHSYM_BAD_HANDLE);
    memset(&code, 0, sizeof code); /* both names are null */
    CHECK(!latchsym_follower_open(4, &follower, &reader, 1));
    CHECK(!latchsym_follower_note(&follower, &code, 0, &generation) && generation == 1);
    CHECK(latchsym_follower_close(&follower, &generation) == LATCHSYM_NOTHING);
    latchsym_reader_close(&reader);
}

int main(void) {
    latchsym_catalog_close(NULL);
    latchsym_writer_close(NULL);
    latchsym_reader_close(NULL);
    listings();
    lengths();
    tables();
    latchsym_catalog_close(&catalog);
    puts("nulls: ok");
}
