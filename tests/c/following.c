/* SPDX-License-Identifier: MIT OR Apache-2.0 */
/* A thousand listings shown one after the other, while handlers on three threads look an address up, and while each
 * catalog is forgotten at its turn. Each sample has to get the name that the listing had which stood at its generation,
 * and by its time the name of the last listing that was shown at or before it, by this file's own account. Each tag is
 * told once, in order. A refusal keeps both handles as they were. */
#define _GNU_SOURCE
#include <latchsym.h>
#include <pthread.h>
#include <signal.h>
#include <stdatomic.h>
#include <stdio.h>
#include <stdlib.h>
#include <string.h>
#include <sys/time.h>
#include <time.h>

#define CHECK(x) do { if (!(x)) { printf("following: line %d: %s\n", __LINE__, #x); exit(1); } } while (0)
enum { THREADS = 3, SHOWN = 1000, KEPT = 40, ROOM = 1 << 16, ADDR = 24 };
static const uint64_t page = 0xffffffffc0000000;

struct sample { uint64_t generation, at; };
struct thread {
    pthread_t id;
    struct latchsym_reader reader;
    struct sample ring[ROOM];
    atomic_size_t put;
    size_t taken;
};
static struct thread threads[THREADS];
static struct latchsym_follower follower;
static char texts[SHOWN + 1][80];
static uint64_t since[SHOWN + 2];
static uint64_t oldest = 1, forgotten;
static long named_by_time;
static atomic_int ended;
static _Thread_local struct thread *self;

static uint64_t now(void) {
    struct timespec at;
    clock_gettime(CLOCK_MONOTONIC, &at);
    return (uint64_t)at.tv_sec * 1000000000u + (uint64_t)at.tv_nsec;
}

static void sample(int number) {
    struct latchsym_found found;
    (void)number;
    if (!self || atomic_load(&self->put) - self->taken == ROOM) return;
    if (latchsym_reader_try_find(&self->reader, page + ADDR, &found) == LATCHSYM_RETRY) return;
    self->ring[self->put % ROOM] = (struct sample){found.generation, now()};
    atomic_fetch_add(&self->put, 1);
}

static void *work(void *thread) {
    self = thread;
    while (!atomic_load(&ended)) {}
    self = NULL;
    return NULL;
}

static void open_catalog(uint64_t load, struct latchsym_catalog *catalog) {
    struct latchsym_listings listings = LATCHSYM_LISTINGS_INIT;
    struct latchsym_counts counts;
    uint64_t line;
    int len = snprintf(texts[load], sizeof texts[load], "%llx t load%llu\t[m]\n%llx t next\t[other]\n",
                       (unsigned long long)page + 16, (unsigned long long)load,
                       (unsigned long long)page + 0x10000 * (1 + load % 7));
    listings.kallsyms = (struct latchsym_place){(const uint8_t *)texts[load], (size_t)len};
    CHECK(!latchsym_catalog_open(&listings, catalog, &counts, &line));
}

static void show(uint64_t load) {
    struct latchsym_catalog catalog = {0}, before;
    struct latchsym_follower had = follower;
    uint64_t generation = 0;
    open_catalog(load, &catalog);
    before = catalog;
    since[load] = now();
    if (load > 1) {
        CHECK(latchsym_follower_show(&follower, &catalog, since[load - 1] - 1, 7, &generation) == LATCHSYM_BAD_STAMP);
        CHECK(!memcmp(&before, &catalog, sizeof before) && !memcmp(&had, &follower, sizeof had) && !generation);
    }
    CHECK(!latchsym_follower_show(&follower, &catalog, since[load], load, &generation));
    CHECK(generation == load && !catalog.handle.kind);
    CHECK(latchsym_follower_show(&follower, &catalog, since[load], load, &generation) == LATCHSYM_BAD_HANDLE);
}

/* Whether a search told this load's name, or that its listing is gone. */
static int is_named(uint32_t answer, const struct latchsym_symbol *found, uint64_t load) {
    char name[24];
    if (load < oldest) return answer == LATCHSYM_FORGOTTEN;
    snprintf(name, sizeof name, "load%llu", (unsigned long long)load);
    return !answer && found->name.len == strlen(name) && !memcmp(found->name.at, name, found->name.len) &&
           found->offset == 8;
}

static void name_samples(struct thread *thread, uint64_t newest) {
    struct latchsym_symbol found = LATCHSYM_SYMBOL_INIT;
    for (size_t put = atomic_load(&thread->put); thread->taken != put; thread->taken++) {
        const struct sample *it = &thread->ring[thread->taken % ROOM];
        uint64_t load = newest;
        CHECK(is_named(latchsym_follower_find(&follower, it->generation, page + ADDR, &found), &found, it->generation));
        while (since[load] > it->at) load--;
        CHECK(is_named(latchsym_follower_find_since(&follower, it->at, page + ADDR, &found), &found, load));
        named_by_time++;
    }
}

/* How many samples there are, with those that have no name yet. */
static long samples(void) {
    long count = named_by_time;
    for (int i = 0; i < THREADS; i++) count += (long)(atomic_load(&threads[i].put) - threads[i].taken);
    return count;
}

static void forget(uint64_t newest) {
    struct latchsym_symbol found = LATCHSYM_SYMBOL_INIT;
    uint64_t tag = 0, upto = newest > KEPT ? newest - KEPT : 0;
    while (!(newest % 2 ? latchsym_follower_forget(&follower, upto, &tag)
                        : latchsym_follower_forget_since(&follower, upto ? since[upto] : 0, &tag))) {
        CHECK(tag == ++forgotten && tag < upto);
        memset(texts[tag], 0, sizeof texts[tag]);
        oldest = tag + 1;
    }
    CHECK(oldest == (upto > 1 ? upto : 1));
    for (uint64_t load = oldest > 2 ? oldest - 2 : 1; load <= newest; load += newest - load < 3 ? 1 : 7)
        CHECK(is_named(latchsym_follower_find(&follower, load, page + ADDR, &found), &found, load));
}

int main(void) {
    struct latchsym_reader readers[THREADS] = {0};
    struct sigaction action = {.sa_handler = sample, .sa_flags = SA_RESTART};
    struct itimerval each = {{0, 200}, {0, 200}}, never = {{0, 0}, {0, 0}};
    uint64_t tag = 0;
    CHECK(!latchsym_follower_open(64, &follower, readers, THREADS));
    show(1);
    sigaction(SIGPROF, &action, NULL);
    for (int i = 0; i < THREADS; i++) {
        threads[i].reader = readers[i];
        CHECK(!pthread_create(&threads[i].id, NULL, work, &threads[i]));
    }
    setitimer(ITIMER_PROF, &each, NULL);
    for (uint64_t load = 2; load <= SHOWN; load++) {
        /* (on a busy machine a listing stands longer, as there are fewer samples) */
        const uint64_t start = now();
        while (now() < start + 300000 || (samples() * SHOWN < 200 * (long)load && now() < start + 20000000)) {}
        show(load);
        forget(load);
        for (int i = 0; i < THREADS; i++) name_samples(&threads[i], load);
    }
    setitimer(ITIMER_PROF, &never, NULL);
    atomic_store(&ended, 1);
    for (int i = 0; i < THREADS; i++) pthread_join(threads[i].id, NULL);
    for (int i = 0; i < THREADS; i++) name_samples(&threads[i], SHOWN), latchsym_reader_close(&threads[i].reader);
    while (!latchsym_follower_close(&follower, &tag)) CHECK(tag == ++forgotten);
    CHECK(forgotten == SHOWN && !follower.handle.kind);
    CHECK(latchsym_follower_close(&follower, &tag) == LATCHSYM_BAD_HANDLE && named_by_time > 100);
    printf("following: %d listings, %ld samples by generation and by time\n", SHOWN, named_by_time);
    return 0;
}
