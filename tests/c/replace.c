/* The items of a table replaced by others as one update: at each stop of its writer a reader finds what the table had
 * before or what it has after, an item of both is never missing, long lists are not refused, and the items are those of a
 * catalog. */
#include <latchsym.h>
#include <stdint.h>
#include <stdio.h>
#include <stdlib.h>
#include <string.h>

#define CHECK(so) ((so) ? (void)0 : (fprintf(stderr, "replace.c:%d: not so: %s\n", __LINE__, #so), exit(1)))

enum { PLACES = 200, DIFFERENT = 5, LONG = 40000 };

static struct latchsym_writer writer;
static struct latchsym_reader reader;

static struct latchsym_item item(uint64_t place, uint64_t tag) {
    return (struct latchsym_item){0x10000 + 0x1000 * place, 0x10800 + 0x1000 * place, tag};
}

/* Whether the reader finds at each place what these items have there. */
static int finds(const struct latchsym_item *items, uint64_t generation) {
    struct latchsym_found found;
    for (int place = 0; place < PLACES; place++) {
        uint32_t answer = latchsym_reader_try_find(&reader, items[place].a + 0x10, &found);
        if (answer || found.tag != items[place].tag || found.generation != generation) return 0;
    }
    return 1;
}

static void steps_of_a_replacement(void) {
    struct latchsym_item before[PLACES], after[PLACES];
    uint64_t generation;
    int steps = 0;
    for (int place = 0; place < PLACES; place++) {
        before[place] = item(place, place);
        after[place] = item(place, place % (PLACES / DIFFERENT) ? place : 1000 + place);
    }
    CHECK(!latchsym_writer_begin_replace(&writer, before, PLACES) && !latchsym_writer_finish(&writer, &generation));
    CHECK(generation == 1 && finds(before, 1));
    CHECK(!latchsym_writer_begin_replace(&writer, after, PLACES));
    for (uint32_t step; (step = latchsym_writer_step(&writer)); steps++) CHECK(finds(before, 1) || finds(after, 2));
    CHECK(finds(after, 2));
    /* two flips, and for each of both copies at most 22 links, and three words, of each item that differs */
    CHECK(steps <= 2 + DIFFERENT * (2 * 22 + 3));
    /* what the table has already: the flips alone */
    CHECK(!latchsym_writer_begin_replace(&writer, after, PLACES));
    for (steps = 0; latchsym_writer_step(&writer);) steps++;
    CHECK(steps == 2 && finds(after, 3));
}

static void refusals(void) {
    struct latchsym_item two[] = {item(3, 0), item(1, 0)}, empty = {5, 5, 0};
    uint64_t generation;
    CHECK(latchsym_writer_begin_replace(&writer, two, 2) == LATCHSYM_OVERLAP);
    two[0] = two[1];
    CHECK(latchsym_writer_begin_replace(&writer, two, 2) == LATCHSYM_OVERLAP);
    CHECK(latchsym_writer_begin_replace(&writer, &empty, 1) == LATCHSYM_BAD_ITEM);
    CHECK(!latchsym_writer_begin_erase(&writer, item(0, 0).a));
    CHECK(latchsym_writer_begin_replace(&writer, two, 1) == LATCHSYM_UPDATE_IN_HAND);
    CHECK(!latchsym_writer_finish(&writer, &generation) && generation == 4);
}

/* Long lists: memory is there, so that none is refused. */
static void long_lists(void) {
    static struct latchsym_item items[LONG];
    struct latchsym_writer writer = {0};
    struct latchsym_reader reader = {0};
    struct latchsym_found found;
    uint64_t generation;
    for (int place = 0; place < LONG; place++) items[place] = item(place, place);
    CHECK(!latchsym_table_open(LONG, &writer, &reader, 1));
    for (int count = 1; count < 2 * LONG; count *= 2) {
        int length = count < LONG ? count : LONG;
        CHECK(!latchsym_writer_begin_replace(&writer, items, length) && !latchsym_writer_finish(&writer, &generation));
        CHECK(!latchsym_reader_try_find(&reader, items[length - 1].a, &found) && found.tag == items[length - 1].tag);
        CHECK(length == LONG || latchsym_reader_try_find(&reader, items[length].a, &found) == LATCHSYM_NOTHING);
    }
    latchsym_writer_close(&writer);
    latchsym_reader_close(&reader);
}

static int open_catalog(struct latchsym_catalog *catalog, const char *text) {
    struct latchsym_listings listings = LATCHSYM_LISTINGS_INIT;
    struct latchsym_counts counts;
    uint64_t line;
    listings.kallsyms = (struct latchsym_place){(const uint8_t *)text, strlen(text)};
    return latchsym_catalog_open(&listings, catalog, &counts, &line);
}

static void items_of_a_catalog(void) {
    struct latchsym_catalog catalog = {0}, closed = {0};
    struct latchsym_item items[4], same[4];
    struct latchsym_sizes sizes;
    struct latchsym_module module = LATCHSYM_MODULE_INIT;
    struct latchsym_region region;
    memset(items, 0x5a, sizeof items), memcpy(same, items, sizeof items);
    CHECK(!open_catalog(&catalog, "ffffffffc0008000 t later\t[b]\nffffffffc0000000 t first\t[a]\nffffffff81000000 T _stext\n"
                                  "ffffffff81002000 T _end\n"));
    CHECK(!latchsym_catalog_sizes(&catalog, &sizes) && sizes.regions == 3);
    CHECK(latchsym_catalog_items(&catalog, items, 2) == LATCHSYM_BAD_LENGTH);
    CHECK(latchsym_catalog_items(&catalog, items, 4) == LATCHSYM_BAD_LENGTH);
    CHECK(latchsym_catalog_items(&closed, items, 3) == LATCHSYM_BAD_HANDLE && !memcmp(items, same, sizeof items));
    CHECK(!latchsym_catalog_items(&catalog, items, 3) && !memcmp(items + 3, same, sizeof *items));
    for (int place = 0; place < 3; place++) {
        CHECK(!place || items[place - 1].b <= items[place].a);
        CHECK(!latchsym_catalog_region(&catalog, items[place].tag, 0, &region));
        CHECK(region.a == items[place].a && region.b == items[place].b);
    }
    CHECK(items[0].tag == 0 && !latchsym_catalog_module(&catalog, items[1].tag, &module) && *module.name.at == 'a');
    CHECK(!latchsym_writer_begin_replace(&writer, items, 3));
    latchsym_catalog_close(&catalog);
}

int main(void) {
    CHECK(!latchsym_table_open(2 * PLACES, &writer, &reader, 1));
    steps_of_a_replacement();
    refusals();
    long_lists();
    items_of_a_catalog();
    latchsym_writer_close(&writer);
    latchsym_reader_close(&reader);
    puts("replace: ok");
}
