/* SPDX-License-Identifier: MIT OR Apache-2.0 */
/* Code that is noted to a follower, and gone again, between listings: each address of a moment, by generation and by
 * time, as it is and as a return address, has the name that this file's own account of notes and listings has. So a
 * program of 10,000 bytes has its name on its last one, and one that lived between two times has it between them.
 * What is refused changes nothing. */
#include <latchsym.h>
#include <stdio.h>
#include <stdlib.h>
#include <string.h>

#define CHECK(x) do { if (!(x)) { printf("noted: line %d: %s\n", __LINE__, #x); exit(1); } } while (0)
enum { TURNS = 3000, STEPS = 60, CODES = 2 * TURNS };
static const uint64_t page = 0xffffffffc0000000;

/* What was noted, in its order, and when it was so and gone; 0 of a generation: never. */
struct noted { struct latchsym_code code; char name[16]; uint64_t begun[2], gone[2]; };
/* A listing: the generation and the time from which on it is current. */
struct shown { char text[128], name[16]; uint64_t begun[2]; };
static struct noted *codes;
static struct shown listings[TURNS + 1];
static size_t codes_len, listings_len;
static struct latchsym_follower follower;
static uint64_t generation, now, seed = 1;

static uint64_t any(uint64_t below) {
    seed = seed * 6364136223846793005u + 1442695040888963407u;
    return (seed >> 33) % below;
}

static void show(void) {
    struct shown *it = &listings[listings_len++];
    struct latchsym_listings given = LATCHSYM_LISTINGS_INIT;
    struct latchsym_catalog catalog = {0};
    struct latchsym_counts counts;
    uint64_t line, before = generation;
    sprintf(it->name, "listed%u", (unsigned)listings_len);
    sprintf(it->text, "%llx t listed%u\t[m]\n", (unsigned long long)page + 4096 * any(4) + 16, (unsigned)listings_len);
    given.kallsyms = (struct latchsym_place){(const uint8_t *)it->text, strlen(it->text)};
    CHECK(!latchsym_catalog_open(&given, &catalog, &counts, &line));
    CHECK(!latchsym_follower_show(&follower, &catalog, now, listings_len, &generation) && generation == before + 1);
    it->begun[0] = generation, it->begun[1] = now;
}

static void note(void) {
    struct noted *it = &codes[codes_len];
    uint64_t before = generation, since = now - any(now < 20 ? 1 : 20);
    CHECK(codes_len < CODES);
    sprintf(it->name, "code%u", (unsigned)codes_len++);
    it->code = (struct latchsym_code)LATCHSYM_CODE_INIT;
    it->code.addr = any(30) ? page + 64 * any(200) : UINT64_MAX - any(100);
    it->code.len = any(10) ? 1 + any(5000) : any(2) ? 0 : UINT64_MAX - any(3);
    if (any(8)) it->code.name = (struct latchsym_place){(const uint8_t *)it->name, strlen(it->name)};
    else it->code.name.at = NULL, *it->name = 0;
    if (any(2)) it->code.module = (struct latchsym_place){(const uint8_t *)"bpf", 3};
    CHECK(!latchsym_follower_note(&follower, &it->code, since, &generation) && generation == before + 1);
    it->begun[0] = generation, it->begun[1] = since;
}

static void end(void) {
    uint64_t addr = any(4) && codes_len ? codes[any(codes_len)].code.addr : page + 1, before = generation, since = now - any(now < 20 ? 1 : 20);
    size_t place = codes_len;
    uint32_t answer = latchsym_follower_note_gone(&follower, addr, since, &generation);
    while (place && (codes[place - 1].code.addr != addr || codes[place - 1].gone[0])) place--;
    if (!place) CHECK(answer == LATCHSYM_NOTHING && generation == before);
    else {
        CHECK(!answer && generation == before + 1);
        codes[place - 1].gone[0] = generation, codes[place - 1].gone[1] = since;
    }
}

/* Asks for an address at a moment, by generation if `clock` is 0 and by time if it is 1. */
static void ask(int clock, uint64_t moment, uint64_t addr, int is_caller) {
    uint32_t (*const finds[])(struct latchsym_follower *, uint64_t, uint64_t, struct latchsym_symbol *) = {
        latchsym_follower_find, latchsym_follower_find_since, latchsym_follower_find_caller, latchsym_follower_find_caller_since };
    struct latchsym_symbol found = LATCHSYM_SYMBOL_INIT;
    const uint32_t answer = finds[2 * is_caller + clock](&follower, moment, addr, &found);
    const struct noted *it = NULL;
    const struct shown *listing = NULL;
    for (size_t i = codes_len; i > 0 && !it && (addr || !is_caller); i--) {
        const uint64_t at = addr - (uint64_t)is_caller;
        if (codes[i - 1].begun[clock] <= moment && !(codes[i - 1].gone[0] && codes[i - 1].gone[clock] <= moment) &&
            at >= codes[i - 1].code.addr && at - codes[i - 1].code.addr < codes[i - 1].code.len)
            it = &codes[i - 1];
    }
    for (size_t i = 0; i < listings_len; i++)
        if (listings[i].begun[clock] <= moment) listing = &listings[i];
    if (it) {
        CHECK(!answer && found.offset == addr - it->code.addr && found.size == it->code.len && found.module_number == UINT64_MAX);
        CHECK(found.name.len == strlen(it->name) && !memcmp(found.name.at, it->name, found.name.len));
        CHECK(found.module.len == it->code.module.len && !memcmp(found.module.at, "bpf", found.module.len));
    } else if (!listing) CHECK(answer == LATCHSYM_FORGOTTEN && !found.name.len);
    else if (!answer) CHECK(found.name.len == strlen(listing->name) && !memcmp(found.name.at, listing->name, found.name.len));
    else CHECK(answer == LATCHSYM_NOTHING || answer == LATCHSYM_NO_SYMBOL);
}

static void at_random(void) {
    struct latchsym_reader reader = {0};
    struct latchsym_found item;
    long asked = 0;
    uint64_t tag = 0;
    CHECK(!latchsym_follower_open(16, &follower, &reader, 1));
    for (int turn = 0; turn < TURNS; turn++) {
        now += any(5);
        switch (any(8)) {
        case 0: show(); break;
        case 1: case 2: case 3: note(); break;
        default: end();
        }
        CHECK(latchsym_reader_try_find(&reader, page, &item) <= LATCHSYM_NOTHING && item.generation == generation);
        for (int step = 0; step < STEPS; step++, asked++) {
            const int clock = (int)any(2);
            const uint64_t newest = clock ? now + 2 : generation + 2;
            ask(clock, newest - any(newest < 40 ? newest + 1 : 40), any(20) ? page + any(16000) : any(3) ? UINT64_MAX - any(9) : 0, (int)any(2));
        }
    }
    while (!latchsym_follower_close(&follower, &tag)) {}
    latchsym_reader_close(&reader);
    printf("noted: %zu pieces of code and %zu listings, %ld questions\n", codes_len, listings_len, asked);
}

/* What was gone by a moment is forgotten with it, by either clock, and nothing else. */
static void forgotten(void) {
    static char names[4][8] = {"first", "second", "third", "fourth"};
    for (int clock = 0; clock < 2; clock++) {
        struct latchsym_reader reader = {0};
        struct latchsym_symbol found = LATCHSYM_SYMBOL_INIT;
        uint64_t shown, tag = 9;
        CHECK(!latchsym_follower_open(16, &follower, &reader, 1));
        for (uint64_t i = 0; i < 4; i++) {
            struct latchsym_code code = LATCHSYM_CODE_INIT;
            code.addr = page, code.len = 10000;
            code.name = (struct latchsym_place){(const uint8_t *)names[i], strlen(names[i])};
            CHECK(!latchsym_follower_note(&follower, &code, 2 * i + 1, &shown) && shown == 2 * i + 1);
            CHECK(!latchsym_follower_note_gone(&follower, page, 2 * i + 2, &shown) && shown == 2 * i + 2);
            CHECK(latchsym_follower_note_gone(&follower, page, 2 * i + 2, &shown) == LATCHSYM_NOTHING);
        }
        uint32_t (*const find)(struct latchsym_follower *, uint64_t, uint64_t, struct latchsym_symbol *) =
            clock ? latchsym_follower_find_since : latchsym_follower_find;
        CHECK(!find(&follower, 3, page + 9999, &found) && found.name.len == 6 && found.offset == 9999 && found.size == 10000);
        CHECK(find(&follower, 3, page + 10000, &found) == LATCHSYM_FORGOTTEN && find(&follower, 4, page, &found) == LATCHSYM_FORGOTTEN);
        CHECK((clock ? latchsym_follower_forget_since : latchsym_follower_forget)(&follower, 4, &tag) == LATCHSYM_NOTHING && tag == 9);
        memset(names[0], 0, 8), memset(names[1], 0, 8); /* which nobody reads any more */
        CHECK(find(&follower, 1, page, &found) == LATCHSYM_FORGOTTEN && find(&follower, 3, page, &found) == LATCHSYM_FORGOTTEN);
        CHECK(!find(&follower, 5, page, &found) && !memcmp(found.name.at, "third", 5));
        CHECK(!find(&follower, 7, page, &found) && !memcmp(found.name.at, "fourth", 6));
        strcpy(names[0], "first"), strcpy(names[1], "second");
        CHECK(latchsym_follower_close(&follower, &tag) == LATCHSYM_NOTHING);
        latchsym_reader_close(&reader);
    }
}

static void refusals(void) {
    struct latchsym_follower closed = {0};
    struct latchsym_writer writer = {0};
    struct latchsym_reader reader = {0};
    struct latchsym_code code = LATCHSYM_CODE_INIT;
    uint64_t shown = 7;
    CHECK(latchsym_follower_note(&closed, &code, 1, &shown) == LATCHSYM_BAD_HANDLE && shown == 7);
    CHECK(latchsym_follower_note_gone(&closed, 1, 1, &shown) == LATCHSYM_BAD_HANDLE && shown == 7);
    CHECK(!latchsym_table_open(4, &writer, &reader, 1));
    CHECK(latchsym_follower_note((struct latchsym_follower *)(void *)&writer, &code, 1, &shown) == LATCHSYM_BAD_HANDLE);
    latchsym_writer_close(&writer);
    latchsym_reader_close(&reader);
}

int main(void) {
    codes = calloc(CODES, sizeof *codes);
    CHECK(codes);
    refusals();
    forgotten();
    at_random();
    free(codes);
    return 0;
}
