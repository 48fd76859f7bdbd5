/* Refuses each request for memory of each call in turn: the call does without, or answers
 * LATCHSYM_OUT_OF_MEMORY and changes nothing; and all memory is given back at the end. */
#include <latchsym.h>
#include <stdio.h>
#include <stdlib.h>
#include <string.h>

#include "refusing.h"

#define CHECK(x) do { if (!(x)) { printf("refused: line %d: %s\n", __LINE__, #x); exit(1); } } while (0)

static const char modules[] = "ext4 8192 1 - Live 0xffffffffc0000000\n";
static const char kallsyms[] = "ffffffff81000000 T _stext\nffffffff81002000 T _end\nffffffffc0000010 t ext4_a\t[ext4]\n";
static const char regions[] = "latchregions 1\next4 core 0xffffffffc0000000 8192\n";

static struct latchsym_catalog catalog, other;
static struct latchsym_writer writer;
static struct latchsym_reader readers[3], added;
static struct latchsym_pool pool;
static struct latchsym_follower follower;
static uint64_t shown, since;
static const struct latchsym_item items[] = {{0x1000, 0x2000, 1}, {0x2000, 0x3000, 1}};
static const uint64_t starts[] = {0x1000};

static int with_modules;

static uint32_t open_catalog(void) {
    struct latchsym_listings listings = LATCHSYM_LISTINGS_INIT;
    struct latchsym_counts counts;
    uint64_t bad_line;
    listings.kallsyms = (struct latchsym_place){(const uint8_t *)kallsyms, strlen(kallsyms)};
    if (with_modules) {
        listings.modules = (struct latchsym_place){(const uint8_t *)modules, strlen(modules)};
        listings.regions = (struct latchsym_place){(const uint8_t *)regions, strlen(regions)};
        listings.has_modules = 1;
    }
    return latchsym_catalog_open(&listings, &catalog, &counts, &bad_line);
}
static uint32_t change(void) {
    static const char text[] = "gone xfs\nffffffffc0000020 t ext4_b\t[ext4]\n";
    struct latchsym_listings listings = LATCHSYM_LISTINGS_INIT;
    uint64_t bad_line;
    listings.kallsyms = (struct latchsym_place){(const uint8_t *)text, strlen(text)};
    return latchsym_catalog_change(&catalog, &listings, &other, &bad_line);
}
static uint32_t share(void) { return latchsym_catalog_share(&catalog, &other); }
static uint32_t open_table(void) { return latchsym_table_open(4, &writer, readers, 3); }
static uint32_t enlarge(void) { return latchsym_table_enlarge(8, &writer, readers, 3); }
static uint32_t add(void) { return latchsym_writer_add_reader(&writer, &added); }
static uint32_t open_pool(void) { return latchsym_pool_open(4, 3, &writer, &pool); }
static uint32_t insert(void) { return latchsym_writer_begin_insert(&writer, &items[0]); }
static uint32_t replace(void) { return latchsym_writer_begin_replace(&writer, items, 2); }
static uint32_t batch(void) { return latchsym_writer_begin_batch(&writer, starts, 1, items, 2); }

static uint32_t open_follower(void) { return latchsym_follower_open(4, &follower, readers, 3); }
static uint32_t add_following(void) { return latchsym_follower_add_reader(&follower, &added); }
static uint32_t enlarge_following(void) { return latchsym_follower_enlarge(8, &follower, readers, 3); }
static uint32_t note(void) {
    struct latchsym_code code = LATCHSYM_CODE_INIT;
    code.addr = 0x1000, code.len = 1;
    return latchsym_follower_note(&follower, &code, since, &shown);
}
static uint32_t note_gone(void) { return latchsym_follower_note_gone(&follower, 0x1000, since, &shown); }
static uint32_t open_followed(void) { return latchsym_pool_follow(4, 3, &follower, &pool); }
static uint32_t show(void) { return latchsym_follower_show(&follower, &catalog, since, since, &shown); }
static uint32_t find_name(void) {
    uint64_t number = 7;
    size_t place = 7;
    uint32_t answer = latchsym_catalog_find_name(&catalog, (const uint8_t *)"ext4_a", 6, 0, &number, &place);
    CHECK(answer ? number == 7 && place == 7 : number == 1 && place == 0);
    return answer;
}

/* All handles, as they lie in memory. */
static void handles(unsigned char *to) {
    memcpy(to, &catalog, sizeof catalog), to += sizeof catalog;
    memcpy(to, &other, sizeof other), to += sizeof other;
    memcpy(to, &writer, sizeof writer), to += sizeof writer;
    memcpy(to, readers, sizeof readers), to += sizeof readers;
    memcpy(to, &added, sizeof added), to += sizeof added;
    memcpy(to, &follower, sizeof follower);
}

static void close_catalog(void) { latchsym_catalog_close(&catalog); }
static void take_added(void) { CHECK(!latchsym_writer_take_reader(&writer, &added)); }
static void close_other(void) { latchsym_catalog_close(&other); }
static void close_table(void) {
    latchsym_writer_close(&writer);
    for (int i = 0; i < 3; i++) latchsym_reader_close(&readers[i]);
}
static void close_pool(void) {
    CHECK(!latchsym_pool_close(&pool));
    latchsym_writer_close(&writer);
}
/* Whether it is refused or not, each reader is there and free. */
static uint32_t enlarge_pool(void) {
    uint32_t answer = latchsym_pool_enlarge(8, &writer, &pool);
    for (int i = 0; i < 3; i++) CHECK(pool.slots[i].reader.handle.at && pool.slots[i].claims % 2 == 0);
    return answer;
}
static void leave(void) {}
static void finish(void) {
    uint64_t generation;
    CHECK(!latchsym_writer_finish(&writer, &generation));
}
static void erase_first(void) {
    refused_request = 0;
    finish();
    CHECK(!latchsym_writer_begin_erase(&writer, 0x1000));
    finish();
}
static void batch_back(void) {
    const uint64_t both[] = {0x1000, 0x2000};
    refused_request = 0;
    finish();
    CHECK(!latchsym_writer_begin_batch(&writer, both, 2, items, 1));
    finish();
}

static void close_follower(void) {
    uint64_t tag;
    while (!latchsym_follower_close(&follower, &tag)) CHECK(tag <= since);
    for (int i = 0; i < 3; i++) latchsym_reader_close(&readers[i]);
}
static void close_followed(void) {
    CHECK(!latchsym_pool_close(&pool));
    close_follower();
}
static uint32_t enlarge_followed(void) {
    uint32_t answer = latchsym_pool_enlarge_follower(8, &follower, &pool);
    for (int i = 0; i < 3; i++) CHECK(pool.slots[i].reader.handle.at && pool.slots[i].claims % 2 == 0);
    return answer;
}
/* The next catalog, for the next request. */
static void reopen_catalog(void) {
    refused_request = 0;
    since++;
    CHECK(!open_catalog());
}
static void close_added(void) { latchsym_reader_close(&added); }
static void close_found(void) {
    refused_request = 0;
    latchsym_catalog_close(&catalog);
    CHECK(!open_catalog());
}

static void replace_back(void) {
    refused_request = 0;
    finish();
    CHECK(!latchsym_writer_begin_replace(&writer, items + 1, 1));
    finish();
}

static void each_request(const char *name, uint32_t (*call)(void), void (*undo)(void)) {
    unsigned char before[8 * sizeof writer], after[8 * sizeof writer];
    long refused = 0;
    for (long request = 1;; request++) {
        long had = blocks;
        requests = 0;
        handles(before);
        refused_request = request;
        uint32_t answer = call();
        if (answer == LATCHSYM_DONE && requests < request) break;
        if (answer == LATCHSYM_DONE) {
            undo();
            continue;
        }
        refused_request = 0;
        handles(after);
        CHECK(answer == LATCHSYM_OUT_OF_MEMORY);
        CHECK(blocks >= had && !memcmp(before, after, sizeof before));
        refused++;
    }
    refused_request = 0;
    printf("refused: %s: %ld requests\n", name, refused);
}

int main(void) {
    struct latchsym_found found;
    setvbuf(stdout, NULL, _IONBF, 0);
    long had = blocks;
    each_request("catalog_open from the symbols", open_catalog, close_catalog);
    each_request("catalog_change", change, close_other);
    latchsym_catalog_close(&other);
    each_request("catalog_share of such", share, close_other);
    latchsym_catalog_close(&other);
    latchsym_catalog_close(&catalog);
    CHECK(blocks == had);
    with_modules = 1;
    each_request("catalog_open", open_catalog, close_catalog);
    each_request("catalog_share", share, close_other);
    latchsym_catalog_close(&catalog);
    latchsym_catalog_close(&other);
    CHECK(blocks == had);
    each_request("table_open", open_table, close_table);
    each_request("begin_insert", insert, erase_first);
    finish();
    each_request("begin_batch", batch, batch_back);
    finish();
    CHECK(!latchsym_reader_try_find(&readers[2], 0x2800, &found) && found.a == 0x2000);
    CHECK(!latchsym_writer_begin_replace(&writer, items + 1, 1));
    finish();
    each_request("begin_replace", replace, replace_back);
    finish();
    each_request("table_enlarge", enlarge, leave);
    CHECK(!latchsym_reader_try_find(&readers[2], 0x2800, &found) && found.a == 0x2000);
    each_request("add_reader", add, take_added);
    CHECK(!latchsym_reader_try_find(&added, 0x2800, &found) && found.a == 0x2000);
    take_added();
    CHECK(!enlarge());
    close_table();
    CHECK(blocks == had);
    each_request("pool_open", open_pool, close_pool);
    CHECK(!insert());
    finish();
    each_request("pool_enlarge", enlarge_pool, leave);
    CHECK(!latchsym_pool_try_find(&pool, 0x1800, &found) && found.a == 0x1000);
    close_pool();
    CHECK(blocks == had);
    each_request("follower_open", open_follower, close_follower);
    reopen_catalog();
    each_request("catalog_find_name", find_name, close_found);
    each_request("follower_show", show, reopen_catalog);
    CHECK(!latchsym_reader_try_find(&readers[2], 0xffffffffc0000018, &found) && found.generation == shown);
    each_request("follower_enlarge", enlarge_following, leave);
    CHECK(!latchsym_reader_try_find(&readers[2], 0xffffffffc0000018, &found) && found.generation == shown);
    each_request("follower_note", note, leave);
    each_request("follower_note_gone", note_gone, leave);
    each_request("follower_add_reader", add_following, close_added);
    close_added();
    close_follower();
    CHECK(blocks == had);
    each_request("pool_follow", open_followed, close_followed);
    each_request("pool_enlarge_follower", enlarge_followed, leave);
    close_followed();
    CHECK(blocks == had);
    puts("refused: ok");
}
