/* SPDX-License-Identifier: MIT OR Apache-2.0 */
/* A follower whose table is too small for the next listing: it is refused by LATCHSYM_FULL, the table is enlarged with
 * all its readers, or with a pool that a signal handler and a thread search meanwhile, and the same catalog is shown.
 * Each listing keeps the names of its generation and of its time. What is refused leaves all handles as they were. */
#define _GNU_SOURCE
#include <latchsym.h>
#include <pthread.h>
#include <signal.h>
#include <stdatomic.h>
#include <stdio.h>
#include <stdlib.h>
#include <string.h>
#include <sys/time.h>

#define CHECK(x) do { if (!(x)) { printf("outgrown: line %d: %s\n", __LINE__, #x); exit(1); } } while (0)
enum { TURNS = 40, MODULES = 3, TEXT = 64 * (MODULES + 1) };
static const uint64_t page = 0xffffffffc0000000;
static char texts[TURNS + 2][TEXT * 16];
static struct latchsym_follower follower;
static struct latchsym_pool pool;
static atomic_long answers, gave, falls;
static atomic_int ended;

/* A listing of so many modules, each with one symbol, which names the turn. */
static void open_catalog(uint64_t turn, int modules, struct latchsym_catalog *catalog) {
    struct latchsym_listings listings = LATCHSYM_LISTINGS_INIT;
    struct latchsym_counts counts;
    uint64_t line;
    int len = 0;
    for (int i = 0; i < modules; i++)
        len += sprintf(texts[turn] + len, "%llx t turn%llu\t[m%d]\n",
                       (unsigned long long)page + 0x200000 * (unsigned)i + 16, (unsigned long long)turn, i);
    listings.kallsyms = (struct latchsym_place){(const uint8_t *)texts[turn], (size_t)len};
    CHECK(!latchsym_catalog_open(&listings, catalog, &counts, &line));
}

/* Whether a search told this turn's name. */
static int is_named(uint32_t answer, const struct latchsym_symbol *found, uint64_t turn) {
    char name[24];
    snprintf(name, sizeof name, "turn%llu", (unsigned long long)turn);
    return !answer && found->name.len == strlen(name) && !memcmp(found->name.at, name, found->name.len);
}

/* All turns from 1 on, by generation and by time. */
static void name_all(uint64_t newest) {
    struct latchsym_symbol found = LATCHSYM_SYMBOL_INIT;
    for (uint64_t turn = 1; turn <= newest; turn++) {
        CHECK(is_named(latchsym_follower_find(&follower, turn, page + 24, &found), &found, turn));
        CHECK(is_named(latchsym_follower_find_since(&follower, 10 * turn + 9, page + 24, &found), &found, turn));
    }
    CHECK(latchsym_follower_find(&follower, 0, page + 24, &found) == LATCHSYM_FORGOTTEN);
}

static void close_follower(uint64_t newest) {
    uint64_t tag = 0, last = 0;
    while (!latchsym_follower_close(&follower, &tag)) CHECK(tag == ++last);
    CHECK(last == newest);
}

/* With the readers in an array. */
static void with_readers(void) {
    struct latchsym_reader readers[3] = {0}, others[2] = {0};
    struct latchsym_writer writer = {0};
    struct latchsym_follower had;
    struct latchsym_catalog catalog = {0}, before;
    struct latchsym_found found;
    uint64_t generation = 0;
    CHECK(latchsym_follower_enlarge(8, &follower, readers, 0) == LATCHSYM_BAD_HANDLE);
    CHECK(!latchsym_follower_open(MODULES, &follower, readers, 2));
    open_catalog(1, MODULES, &catalog);
    CHECK(!latchsym_follower_show(&follower, &catalog, 10, 1, &generation) && generation == 1);
    open_catalog(2, MODULES + 1, &catalog);
    before = catalog, had = follower;
    CHECK(latchsym_follower_show(&follower, &catalog, 20, 2, &generation) == LATCHSYM_FULL);
    CHECK(!memcmp(&before, &catalog, sizeof before) && generation == 1);
    CHECK(latchsym_follower_enlarge(0, &follower, readers, 2) == LATCHSYM_BAD_CAPACITY);
    CHECK(latchsym_follower_enlarge(65537, &follower, readers, 2) == LATCHSYM_BAD_CAPACITY);
    CHECK(latchsym_follower_enlarge(MODULES - 1, &follower, readers, 2) == LATCHSYM_BAD_CAPACITY);
    CHECK(latchsym_follower_enlarge(8, &follower, readers, 1) == LATCHSYM_BAD_HANDLE);
    CHECK(latchsym_follower_enlarge(8, &follower, readers, 3) == LATCHSYM_BAD_HANDLE);
    CHECK(latchsym_follower_enlarge(8, &follower, NULL, 0) == LATCHSYM_BAD_HANDLE);
    CHECK(!memcmp(&had, &follower, sizeof had));
    /* of each other kind neither */
    CHECK(!latchsym_table_open(4, &writer, others, 2));
    CHECK(latchsym_table_enlarge(8, (struct latchsym_writer *)(void *)&follower, readers, 2) == LATCHSYM_BAD_HANDLE);
    CHECK(latchsym_follower_enlarge(8, (struct latchsym_follower *)(void *)&writer, others, 2) == LATCHSYM_BAD_HANDLE);
    CHECK(!latchsym_follower_enlarge(2 * MODULES + 1, &follower, readers, 2));
    for (int i = 0; i < 2; i++)
        CHECK(!latchsym_reader_try_find(&readers[i], page + 24, &found) && found.generation == 1 && found.tag == 1);
    name_all(1);
    CHECK(!latchsym_follower_show(&follower, &catalog, 20, 2, &generation) && generation == 2);
    for (int i = 0; i < 2; i++)
        CHECK(!latchsym_reader_try_find(&readers[i], page + 0x200000 * MODULES + 24, &found) && found.generation == 2);
    name_all(2);
    /* one that was added counts, and a closed one is refused */
    CHECK(!latchsym_follower_add_reader(&follower, &readers[2]));
    CHECK(latchsym_follower_enlarge(9, &follower, readers, 2) == LATCHSYM_BAD_HANDLE);
    CHECK(!latchsym_follower_enlarge(9, &follower, readers, 3));
    CHECK(!latchsym_reader_try_find(&readers[2], page + 24, &found) && found.generation == 2);
    latchsym_reader_close(&readers[1]);
    CHECK(latchsym_follower_enlarge(10, &follower, readers, 3) == LATCHSYM_BAD_HANDLE);
    for (int i = 0; i < 3; i++) latchsym_reader_close(&readers[i]);
    for (int i = 0; i < 2; i++) latchsym_reader_close(&others[i]);
    latchsym_writer_close(&writer);
    close_follower(2);
}

static _Thread_local volatile uint64_t seen;

/* A lookup, also inside of another one, whose generation is not below that of one which ended before it began, nor
 * below what the follower's calls had given then. */
static void look(int number) {
    struct latchsym_found found;
    const uint64_t shown = (uint64_t)atomic_load(&gave), before = seen;
    const uint32_t answer = latchsym_pool_try_find(&pool, page + 24, &found);
    (void)number;
    if (answer == LATCHSYM_BUSY || answer == LATCHSYM_RETRY) return;
    if (answer || found.generation < before || found.generation < shown) atomic_fetch_add(&falls, 1);
    if (found.generation > seen) seen = found.generation;
    atomic_fetch_add(&answers, 1);
}
static void *work(void *none) {
    while (!atomic_load(&ended)) look(0);
    return none;
}

/* With a pool, which a thread and a handler on this thread search at any time. */
static void with_pool(void) {
    struct latchsym_follower second = {0};
    struct latchsym_pool closed = {0};
    struct latchsym_catalog catalog = {0};
    struct sigaction action = {.sa_handler = look, .sa_flags = SA_RESTART};
    struct itimerval each = {{0, 300}, {0, 300}}, never = {{0, 0}, {0, 0}};
    struct latchsym_found found;
    uint64_t generation, nodes = MODULES;
    pthread_t thread;
    CHECK(latchsym_pool_follow(4, 0, &follower, &pool) == LATCHSYM_BAD_CAPACITY);
    CHECK(latchsym_pool_follow(4, 65, &follower, &pool) == LATCHSYM_BAD_CAPACITY);
    CHECK(latchsym_pool_follow(0, 4, &follower, &pool) == LATCHSYM_BAD_CAPACITY && !pool.slots_len && !follower.handle.at);
    CHECK(latchsym_pool_enlarge_follower(8, &follower, &pool) == LATCHSYM_BAD_HANDLE);
    CHECK(!latchsym_pool_follow(MODULES, 4, &follower, &pool));
    CHECK(latchsym_pool_follow(4, 4, &second, &pool) == LATCHSYM_BAD_HANDLE && !second.handle.at);
    CHECK(latchsym_pool_follow(4, 4, &follower, &closed) == LATCHSYM_BAD_HANDLE && !closed.slots_len);
    CHECK(latchsym_pool_try_find(&pool, page + 24, &found) == LATCHSYM_NOTHING && !found.generation);
    open_catalog(1, 1, &catalog);
    CHECK(!latchsym_follower_show(&follower, &catalog, 10, 1, &generation));
    sigaction(SIGPROF, &action, NULL);
    setitimer(ITIMER_PROF, &each, NULL);
    CHECK(!pthread_create(&thread, NULL, work, NULL));
    for (uint64_t turn = 2; turn <= TURNS; turn++) {
        uint32_t answer;
        open_catalog(turn, 1 + (int)turn % (2 * MODULES), &catalog);
        while ((answer = latchsym_follower_show(&follower, &catalog, 10 * turn, turn, &generation)) == LATCHSYM_FULL) {
            CHECK(catalog.handle.kind);
            while ((answer = latchsym_pool_enlarge_follower((uint32_t)++nodes, &follower, &pool)) == LATCHSYM_BUSY) nodes--;
            CHECK(!answer);
        }
        CHECK(!answer && generation == turn);
        atomic_store(&gave, (long)turn);
        name_all(turn);
        for (const long had = atomic_load(&answers); atomic_load(&answers) < had + 20;) {}
    }
    setitimer(ITIMER_PROF, &never, NULL);
    atomic_store(&ended, 1);
    pthread_join(thread, NULL);
    CHECK(nodes > MODULES && !atomic_load(&falls));
    CHECK(latchsym_pool_enlarge_follower(1, &follower, &pool) == LATCHSYM_BAD_CAPACITY);
    for (int i = 0; i < 4; i++) CHECK(pool.slots[i].claims % 2 == 0 && pool.slots[i].reader.handle.at);
    CHECK(!latchsym_pool_close(&pool));
    close_follower(TURNS);
    printf("outgrown: %llu nodes after %d listings, %ld lookups beside\n", (unsigned long long)nodes, TURNS, atomic_load(&answers));
}

int main(void) {
    with_readers();
    with_pool();
    return 0;
}
