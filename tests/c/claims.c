/* What the claims of the header's pool of readers order, by threads over a stand-in for the reader: two lookups, two closes and
 * an enlarging beside each other, again and again. Under -fsanitize=thread a claim that orders too little is a data race, and
 * so is a plain read of what a close writes. Also that claims rise past 2^32, and where slots lie. placements.c tries each
 * order of the steps. Argument: the seconds that it takes at least. */
#define _GNU_SOURCE
#include <latchsym.h>
#include <pthread.h>
#include <sched.h>
#include <stdatomic.h>
#include <stdlib.h>
#include <time.h>
static void stop(void) {}
static void observe(uint64_t number) { (void)number; }
#include "stand_in.h"

enum { SLOTS = 2, THREADS = 5, ENLARGINGS = 50, LOOKUPS = 20, ROUNDS = 100, MOST_LATE = 1000 };

static pthread_barrier_t barrier;
static int is_over;
static long found_before;
static atomic_long found, busy, grown, is_closed;

/* What counts is relaxed, so that it orders nothing. */
static long value_of(atomic_long *of) { return atomic_load_explicit(of, memory_order_relaxed); }
static void add(atomic_long *of, long more) { atomic_fetch_add_explicit(of, more, memory_order_relaxed); }

/* Claims rise, so that two rounds with one sum met the same claims. */
static void claims_rise(void) {
    struct latchsym_found out;
    open_pool(1);
    pool.slots[0].claims = UINT32_MAX - 1ull;
    CHECK(latchsym_pool_try_find(&pool, 7, &out) == LATCHSYM_DONE && pool.slots[0].claims == UINT32_MAX + 1ull);
}

/* No two slots lie in one line of the cache, nor one beside what all calls read. */
static void slots_lie_apart(void) {
    CHECK(sizeof(struct latchsym_pool_slot) == 64 && sizeof pool == 65 * 64);
    CHECK(_Alignof(struct latchsym_pool) == 64 && offsetof(struct latchsym_pool, slots) == 64);
}

static void look_up_until_closed(void) {
    struct latchsym_found out;
    long late = 0;
    for (uint32_t answer = 0; answer != LATCHSYM_BAD_HANDLE;) {
        answer = latchsym_pool_try_find(&pool, 7, &out);
        add(&found, answer == LATCHSYM_DONE);
        add(&busy, answer == LATCHSYM_BUSY);
        CHECK((late += value_of(&is_closed)) < MOST_LATE);
        if (value_of(&found) % 512 == 0) sched_yield();
    }
}

static void enlarge_until_closed(void) {
    int done = 0;
    for (uint32_t answer = 0; done < ENLARGINGS && answer != LATCHSYM_BAD_HANDLE; done += answer == LATCHSYM_DONE) {
        answer = latchsym_pool_enlarge(8, &writer, &pool);
        CHECK(answer == LATCHSYM_DONE || answer == LATCHSYM_BUSY || answer == LATCHSYM_BAD_HANDLE);
    }
    add(&grown, done);
}

/* Closes the pool after some lookups, as another thread does too. */
static void close_it(void) {
    uint32_t answer;
    while (value_of(&found) - found_before < LOOKUPS) sched_yield();
    while ((answer = latchsym_pool_close(&pool)) == LATCHSYM_BUSY) {}
    CHECK(answer == LATCHSYM_DONE);
    atomic_store_explicit(&is_closed, 1, memory_order_relaxed);
}

static void *take_part(void *body) {
    for (;;) {
        pthread_barrier_wait(&barrier);
        if (is_over) return NULL;
        (*(void (**)(void))body)();
        pthread_barrier_wait(&barrier);
    }
}

static double now(void) {
    struct timespec time;
    clock_gettime(CLOCK_MONOTONIC, &time);
    return time.tv_sec + 1e-9 * time.tv_nsec;
}

int main(int argc, char **argv) {
    void (*bodies[THREADS])(void) = {look_up_until_closed, look_up_until_closed, close_it, close_it, enlarge_until_closed};
    const double seconds = argc > 1 ? atof(argv[1]) : 0.3;
    pthread_t threads[THREADS];
    long rounds = 0;
    slots_lie_apart();
    claims_rise();
    CHECK(!pthread_barrier_init(&barrier, NULL, THREADS + 1));
    for (int i = 0; i < THREADS; i++) CHECK(!pthread_create(&threads[i], NULL, take_part, &bodies[i]));
    for (double end = now() + seconds; now() < end || rounds < ROUNDS; rounds++) {
        open_pool(SLOTS);
        found_before = found;
        is_closed = 0;
        pthread_barrier_wait(&barrier);
        pthread_barrier_wait(&barrier);
        CHECK(!pool.slots_len);
        check_rest(SLOTS);
    }
    is_over = 1;
    pthread_barrier_wait(&barrier);
    for (int i = 0; i < THREADS; i++) pthread_join(threads[i], NULL);
    printf("claims: %ld pools, %ld lookups, %ld told busy; grew %ld times\n", rounds, (long)found, (long)busy, (long)grown);
    CHECK(grown > 0);
    puts("claims: ok");
}
