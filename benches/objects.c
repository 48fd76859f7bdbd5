/* objects ROUNDS OBJECT..: the lookup of the object that holds an address, for these shared objects, which it loads: by
 * glibc's _dl_find_object, by a reader, by a pool of readers, by a sorted array under liburcu (with -DWITH_URCU) and by
 * one under a read lock. Addresses lie anywhere in the objects, or nine of ten in the object before. It prints
 *
 * - nanoseconds of a lookup while nothing changes, of one thread, and of the busiest of four at once, which have a reader
 *   each, or share the pool: the least of the rounds, and the ratio to the first way;
 * - the latency of a lookup beside updates, 1,000 and 100,000 a second if the way has so many: of which half the lookups
 *   take no more (p50), 99 of 100, 999 of 1,000, and the greatest; and how many updates a second there were. An update
 *   takes an object out or puts it in again: glibc's by dlclose and dlopen. Times are of the wall clock, so a thread that
 *   is not run waits too; `nothing` is what the clock takes itself, beside a thread that updates nothing. */
#define _GNU_SOURCE
#include <dlfcn.h>
#include <latchsym.h>
#include <link.h>
#include <pthread.h>
#include <stdio.h>
#include <stdlib.h>
#include <string.h>
#include <time.h>
#ifdef WITH_URCU
#define _LGPL_SOURCE
#define URCU_INLINE_SMALL_FUNCTIONS
#include <urcu/urcu-memb.h>
#endif

enum { LOOKUPS = 1 << 20, TIMED_LOOKUPS = 1 << 18, MOST_OBJECTS = 1024, SLOTS = 8, THREADS = 4, MOST_ROUNDS = 99 };
static const uint64_t SECOND = 1000000000;

struct array { size_t len; uint64_t starts[MOST_OBJECTS]; struct { uint64_t end, tag; } rests[MOST_OBJECTS]; };
struct object { struct dl_find_object found; const char *name; void *handle; };

static struct object loaded[MOST_OBJECTS];
static struct array objects, locked;
static uint64_t addresses[LOOKUPS];
static uint32_t latencies[MOST_ROUNDS * TIMED_LOOKUPS];
static volatile uint64_t sum;
static struct latchsym_writer writer;
/* (a call writes to its handle, so each lies in a line of the cache of its own) */
static struct { _Alignas(64) struct latchsym_reader handle; } readers[THREADS];
static struct latchsym_pool pool;
static pthread_rwlock_t lock = PTHREAD_RWLOCK_INITIALIZER;
static _Thread_local struct latchsym_reader *own = &readers[0].handle;

static void must(int failed) {
    if (failed) exit(1);
}

static uint64_t nanoseconds(clockid_t clock) {
    struct timespec time;
    clock_gettime(clock, &time);
    return (uint64_t)time.tv_sec * SECOND + (uint64_t)time.tv_nsec;
}

/* The tag of the range that holds an address, or 0. */
static inline uint64_t tag_in(const struct array *in, uint64_t addr) {
    const uint64_t *first = in->starts;
    for (size_t len = in->len, half; len > 1; len -= half) {
        half = len / 2;
        first = first[half] <= addr ? first + half : first;
    }
    size_t place = (size_t)(first - in->starts);
    return in->starts[place] <= addr && addr < in->rests[place].end ? in->rests[place].tag : 0;
}

/* ---- the ways to look up, and to take the last object out or put it in again ---- */

static inline uint64_t by_nothing(uint64_t addr) { return addr; }

static void update_nothing(int is_in) { (void)is_in; }

static inline uint64_t by_glibc(uint64_t addr) {
    struct dl_find_object found;
    return _dl_find_object((void *)(uintptr_t)addr, &found) ? 0 : (uint64_t)(uintptr_t)found.dlfo_map_start;
}

static void update_glibc(int is_in) {
    struct object *last = &loaded[objects.len - 1];
    if (is_in) must(dlclose(last->handle));
    else must(!(last->handle = dlopen(last->name, RTLD_NOW)));
}

static inline uint64_t by_reader(uint64_t addr) {
    struct latchsym_found found = {0, 0, 0, 0};
    while (latchsym_reader_try_find(own, addr, &found) == LATCHSYM_RETRY) {}
    return found.tag;
}

static inline uint64_t by_pool(uint64_t addr) {
    struct latchsym_found found = {0, 0, 0, 0};
    while (latchsym_pool_try_find(&pool, addr, &found) == LATCHSYM_RETRY) {}
    return found.tag;
}

static void update_table(int is_in) {
    size_t last = objects.len - 1;
    struct latchsym_item item = {objects.starts[last], objects.rests[last].end, objects.rests[last].tag};
    uint64_t generation;
    must((int)(is_in ? latchsym_writer_begin_erase(&writer, item.a) : latchsym_writer_begin_insert(&writer, &item)));
    must((int)latchsym_writer_finish(&writer, &generation));
}

#ifdef WITH_URCU
static struct array *shared;

static inline uint64_t by_rcu(uint64_t addr) {
    urcu_memb_read_lock();
    uint64_t tag = tag_in(rcu_dereference(shared), addr);
    urcu_memb_read_unlock();
    return tag;
}

static void update_rcu(int is_in) {
    struct array *old = shared, *new = malloc(sizeof *new);
    must(!new);
    *new = *old;
    new->len = objects.len - (size_t)is_in;
    rcu_assign_pointer(shared, new);
    urcu_memb_synchronize_rcu();
    free(old);
}
#else
static void urcu_memb_register_thread(void) {}
static void urcu_memb_unregister_thread(void) {}
#endif

static inline uint64_t by_lock(uint64_t addr) {
    pthread_rwlock_rdlock(&lock);
    uint64_t tag = tag_in(&locked, addr);
    pthread_rwlock_unlock(&lock);
    return tag;
}

static void update_locked(int is_in) {
    pthread_rwlock_wrlock(&lock);
    locked.len = objects.len - (size_t)is_in;
    pthread_rwlock_unlock(&lock);
}

/* Of each way: nanoseconds of a lookup, and the latency of each of several lookups. */
#define MEASURED(way)                                                                   \
    static double mean_##way(void) {                                                    \
        uint64_t start = nanoseconds(CLOCK_THREAD_CPUTIME_ID), total = 0;               \
        for (size_t i = 0; i < LOOKUPS; i++) total += way(addresses[i]);                \
        sum = sum + total;                                                              \
        return (double)(nanoseconds(CLOCK_THREAD_CPUTIME_ID) - start) / LOOKUPS;        \
    }                                                                                   \
    static void each_##way(size_t from, uint32_t *out) {                                \
        uint64_t total = 0;                                                             \
        for (size_t i = 0; i < TIMED_LOOKUPS; i++) {                                    \
            uint64_t start = nanoseconds(CLOCK_MONOTONIC);                              \
            total += way(addresses[(from + i) % LOOKUPS]);                              \
            uint64_t took = nanoseconds(CLOCK_MONOTONIC) - start;                       \
            out[i] = took < UINT32_MAX ? (uint32_t)took : UINT32_MAX;                   \
        }                                                                               \
        sum = sum + total;                                                              \
    }
MEASURED(by_nothing)
MEASURED(by_glibc)
MEASURED(by_reader)
MEASURED(by_pool)
#ifdef WITH_URCU
MEASURED(by_rcu)
#endif
MEASURED(by_lock)

struct way {
    const char *name;
    double (*mean)(void);
    void (*each)(size_t from, uint32_t *out);
    void (*update)(int is_in);
};
static const struct way WAYS[] = {
    {"_dl_find_object", mean_by_glibc, each_by_glibc, update_glibc},
    {"a reader", mean_by_reader, each_by_reader, update_table},
    {"a pool", mean_by_pool, each_by_pool, update_table},
#ifdef WITH_URCU
    {"liburcu", mean_by_rcu, each_by_rcu, update_rcu},
#endif
    {"a read lock", mean_by_lock, each_by_lock, update_locked},
    {"nothing", mean_by_nothing, each_by_nothing, update_nothing},
};
enum { COUNT = sizeof WAYS / sizeof *WAYS };

/* ---- while nothing changes ---- */

struct thread { pthread_t id; const struct way *way; struct latchsym_reader *reader; double time; };

static void *look_up(void *argument) {
    struct thread *self = argument;
    own = self->reader;
    urcu_memb_register_thread();
    self->time = self->way->mean();
    urcu_memb_unregister_thread();
    return NULL;
}

/* What a lookup takes of the processor time of the busiest of so many threads. */
static double on_threads(const struct way *way, int count) {
    struct thread threads[THREADS];
    double most = 0;
    for (int i = 0; i < count; i++) {
        threads[i] = (struct thread){.way = way, .reader = &readers[i].handle};
        must(pthread_create(&threads[i].id, NULL, look_up, &threads[i]));
    }
    for (int i = 0; i < count; i++) {
        pthread_join(threads[i].id, NULL);
        if (threads[i].time > most) most = threads[i].time;
    }
    return most;
}

static void measure(int rounds, const char *what, int count) {
    double least[COUNT] = {0};
    for (int round = 0; round < rounds; round++)
        for (int way = 0; way < COUNT - 1; way++) { /* not nothing */
            double time = on_threads(&WAYS[way], count);
            if (!round || time < least[way]) least[way] = time;
        }
    for (int way = 0; way < COUNT - 1; way++)
        printf("%-28s %d thread%s %-15s %6.1f ns %5.2f\n", what, count, count > 1 ? "s" : " ", WAYS[way].name, least[way],
               least[way] / least[0]);
}

/* ---- beside updates ---- */

static const struct way *updated;
static uint64_t updates_a_second, updates;
static int is_resting;

/* Updates what one way looks in, so many times a second or as often as that can be, until the lookups rest. */
static void *update(void *unused) {
    const uint64_t pause = SECOND / updates_a_second;
    uint64_t due = nanoseconds(CLOCK_MONOTONIC), now;
    int is_in = 1;
    (void)unused;
    for (updates = 0; !__atomic_load_n(&is_resting, __ATOMIC_RELAXED) || !is_in; updates++) {
        updated->update(is_in);
        is_in = !is_in;
        due += pause;
        while ((now = nanoseconds(CLOCK_MONOTONIC)) < due)
            if (due - now > 200000) clock_nanosleep(CLOCK_MONOTONIC, 0, &(struct timespec){0, (long)(due - now - 100000)}, NULL);
        if (now > due + pause) due = now; /* what is late is not made up for */
    }
    return NULL;
}

static int by_size(const void *x, const void *y) {
    return (*(const uint32_t *)x > *(const uint32_t *)y) - (*(const uint32_t *)x < *(const uint32_t *)y);
}

static void measure_beside(int rounds, const char *what, uint64_t asked) {
    const size_t len = (size_t)rounds * TIMED_LOOKUPS;
    for (const struct way *way = WAYS; way < WAYS + COUNT; way++) {
        pthread_t thread;
        uint64_t start = nanoseconds(CLOCK_MONOTONIC), took;
        updated = way, updates_a_second = asked, is_resting = 0;
        must(pthread_create(&thread, NULL, update, NULL));
        urcu_memb_register_thread();
        for (int round = 0; round < rounds; round++)
            way->each((size_t)round * TIMED_LOOKUPS, latencies + (size_t)round * TIMED_LOOKUPS);
        urcu_memb_unregister_thread();
        __atomic_store_n(&is_resting, 1, __ATOMIC_RELAXED);
        pthread_join(thread, NULL);
        took = nanoseconds(CLOCK_MONOTONIC) - start;
        qsort(latencies, len, sizeof *latencies, by_size);
        printf("%-28s updates   %-15s %6.0f of %6d a second, p50 %4u p99 %5u p99.9 %6u greatest %8u ns\n", what, way->name,
               (double)updates * 1e9 / (double)took, (int)asked, latencies[len / 2], latencies[len - len / 100],
               latencies[len - len / 1000], latencies[len - 1]);
    }
}

/* ---- the objects ---- */

/* Addresses in the objects: anywhere, or nine of ten in the object before. */
static void choose(int is_hot) {
    uint64_t seed = 1, place = 0;
    for (size_t i = 0; i < LOOKUPS; i++) {
        seed = seed * 6364136223846793005 + 1442695040888963407;
        if (!is_hot || (seed >> 33) % 10 == 0) place = (seed >> 40) % objects.len;
        uint64_t length = objects.rests[place].end - objects.starts[place];
        addresses[i] = objects.starts[place] + (seed >> 20) % length;
    }
}

static int by_start(const void *x, const void *y) {
    const struct object *a = x, *b = y;
    return (a->found.dlfo_map_start > b->found.dlfo_map_start) - (a->found.dlfo_map_start < b->found.dlfo_map_start);
}

static void load(char **names, int count) {
    for (int i = 0; i < count; i++) {
        void *handle = dlopen(names[i], RTLD_NOW), *inside = handle ? dlsym(handle, "inside") : NULL;
        loaded[i].name = names[i], loaded[i].handle = handle;
        must(!inside || _dl_find_object(inside, &loaded[i].found));
    }
    qsort(loaded, (size_t)count, sizeof *loaded, by_start);
    for (int i = 0; i < count; i++) {
        objects.starts[i] = (uint64_t)(uintptr_t)loaded[i].found.dlfo_map_start;
        objects.rests[i].end = (uint64_t)(uintptr_t)loaded[i].found.dlfo_map_end;
        objects.rests[i].tag = (uint64_t)i + 1;
    }
    objects.len = (size_t)count;
}

static void open_tables(void) {
    uint64_t generation;
    must((int)latchsym_pool_open(MOST_OBJECTS, SLOTS, &writer, &pool));
    for (int i = 0; i < THREADS; i++) must((int)latchsym_writer_add_reader(&writer, &readers[i].handle));
    for (size_t i = 0; i < objects.len; i++) {
        struct latchsym_item item = {objects.starts[i], objects.rests[i].end, objects.rests[i].tag};
        must(latchsym_writer_begin_insert(&writer, &item) || latchsym_writer_finish(&writer, &generation));
    }
    locked = objects;
#ifdef WITH_URCU
    must(!(shared = malloc(sizeof *shared)));
    *shared = objects;
#endif
}

int main(int argc, char **argv) {
    int rounds = argc > 2 ? atoi(argv[1]) : 0;
    char what[80];
    if (rounds < 1 || rounds > MOST_ROUNDS || argc - 2 > MOST_OBJECTS) return 2;
    load(argv + 2, argc - 2);
    open_tables();
    for (int is_hot = 0; is_hot < 2; is_hot++) {
        choose(is_hot);
        snprintf(what, sizeof what, "%d objects%s", argc - 2, is_hot ? ", 9 in 10 again" : "");
        measure(rounds, what, 1);
        measure(rounds, what, THREADS);
        measure_beside(rounds, what, 1000);
        measure_beside(rounds, what, 100000);
    }
    return 0;
}
