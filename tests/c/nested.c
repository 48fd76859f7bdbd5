/* Calls inside calls with one handle: at each instruction of a call a handler makes the same call, and others, with the
 * very handle; then at moments that a thread chooses, for as many seconds as are given; and so does a forked child with the
 * handles of threads that are in calls. Each returns LATCHSYM_BAD_HANDLE, or rightly where the handle was at rest. */
#define _GNU_SOURCE
#include <latchsym.h>
#include <pthread.h>
#include <signal.h>
#include <stdatomic.h>
#include <stdio.h>
#include <stdlib.h>
#include <string.h>
#include <sys/wait.h>
#include <time.h>
#include <unistd.h>

#define CHECK(x) do { if (!(x)) { dprintf(1, "nested: line %d: %s\n", __LINE__, #x); _exit(1); } } while (0)

enum { ITEMS = 40, THREADS = 3, FORKS = 1000, HANDLER_CALLS = 4, CALLS = 5 };

static const char LISTING[] = "1000 T _stext\n1100 T do_one\n2000 T _end\n3000 t a_run\t[a]\n3010 t a_end\t[a]\n";

static struct latchsym_catalog catalog;
static struct latchsym_writer writer;
static struct latchsym_reader readers[THREADS + 1];
/* What the search for a name returns at each item, by a call that nothing interrupts. */
static uint32_t named[ITEMS];
/* How many calls inside calls met a closed handle, and how many one at rest. */
static atomic_ulong closed, answered;

/* Counts what a call inside another came to; it was right. */
static void count(uint32_t code) {
    atomic_fetch_add(code == LATCHSYM_BAD_HANDLE ? &closed : &answered, 1);
}

static uint64_t key(unsigned seed) { return 32 * (seed % ITEMS) + seed % 16; }

static uint32_t by_reader(struct latchsym_reader *reader, unsigned seed) {
    struct latchsym_found found = {7, 7, 7, 7};
    uint32_t code = latchsym_reader_try_find(reader, key(seed), &found);
    if (code == LATCHSYM_BAD_HANDLE) CHECK(found.a == 7 && found.generation == 7);
    else CHECK(code == LATCHSYM_DONE && found.tag == seed % ITEMS && found.generation == ITEMS);
    return code;
}

static uint32_t by_writer(unsigned seed) {
    struct latchsym_found found = {7, 7, 7, 7};
    uint32_t code = latchsym_writer_find(&writer, key(seed), &found);
    CHECK(code == LATCHSYM_DONE && found.tag == seed % ITEMS && found.generation == ITEMS);
    return code;
}

static uint32_t by_catalog(unsigned seed) {
    struct latchsym_symbol found = LATCHSYM_SYMBOL_INIT;
    uint32_t code = latchsym_catalog_find(&catalog, seed % 2 ? 0x1108 : 0x3008, &found);
    if (code == LATCHSYM_BAD_HANDLE) CHECK(found.name.len == 0);
    else CHECK(code == LATCHSYM_DONE && found.offset == 8 && !memcmp(found.name.at, seed % 2 ? "do_one" : "a_run", found.name.len));
    return code;
}

static uint32_t by_name(unsigned seed) {
    struct latchsym_found item = {7, 7, 7, 7};
    struct latchsym_answer found = {7, 7, 7, 7, 7};
    uint8_t name[16], module[16];
    uint32_t code = latchsym_reader_find_name(&readers[0], &catalog, key(seed), &item, &found, name, sizeof name, module, sizeof module);
    if (!named[seed % ITEMS]) named[seed % ITEMS] = code;
    CHECK(code == LATCHSYM_BAD_HANDLE || code == named[seed % ITEMS]);
    return code;
}

static uint32_t by_step(void) {
    uint32_t code = latchsym_writer_step(&writer);
    CHECK(code == LATCHSYM_BAD_HANDLE || code == LATCHSYM_DONE);
    return code;
}

/* The calls, those for handlers first. */
static uint32_t call(int which, unsigned seed) {
    switch (which) {
    case 0: return by_reader(&readers[0], seed);
    case 1: return by_catalog(seed);
    case 2: return by_name(seed);
    case 3: return by_step();
    default: return by_writer(seed);
    }
}

static void all_inside(int signal) {
    static unsigned seed;
    (void)signal;
    for (int which = 0; which < HANDLER_CALLS; which++) count(call(which, seed++));
}

/* Each instruction of each call, while the trap flag is set, is followed by a signal. */
static void at_each_instruction(void) {
#if defined(__x86_64__)
    signal(SIGTRAP, all_inside);
    for (int which = 0; which < CALLS; which++)
        for (unsigned seed = 0; seed < 5; seed++) {
            unsigned long before = closed;
            __asm__ volatile("pushfq; orq $0x100, (%%rsp); popfq" ::: "memory", "cc");
            uint32_t code = call(which, seed);
            __asm__ volatile("pushfq; andq $~0x100, (%%rsp); popfq" ::: "memory", "cc");
            CHECK(code != LATCHSYM_BAD_HANDLE && closed > before);
        }
#endif
}

static pthread_t main_thread;
static atomic_int is_over;

static void *interrupt(void *unused) {
    while (!is_over) {
        pthread_kill(main_thread, SIGUSR1);
        for (volatile int i = 0; i < 2000; i++) {}
    }
    return unused;
}

static void at_random_moments(double seconds) {
    pthread_t thread;
    struct timespec begin, now;
    signal(SIGUSR1, all_inside);
    main_thread = pthread_self();
    CHECK(!pthread_create(&thread, NULL, interrupt, NULL));
    clock_gettime(CLOCK_MONOTONIC, &begin);
    for (unsigned seed = 0;; seed++) {
        CHECK(call(seed % CALLS, seed) != LATCHSYM_BAD_HANDLE);
        clock_gettime(CLOCK_MONOTONIC, &now);
        if (now.tv_sec - begin.tv_sec + 1e-9 * (now.tv_nsec - begin.tv_nsec) > seconds) break;
    }
    is_over = 1;
    pthread_join(thread, NULL);
}

static void *read_on(void *reader) {
    for (unsigned seed = 0; is_over != 2; seed++) by_reader(reader, seed);
    return NULL;
}

/* A forked child makes calls with handles that threads of its parent are in calls with. */
static void in_children(void) {
    pthread_t threads[THREADS];
    for (int i = 0; i < THREADS; i++) CHECK(!pthread_create(&threads[i], NULL, read_on, &readers[i + 1]));
    for (int i = 0; i < FORKS; i++) {
        int status;
        pid_t child = fork();
        CHECK(child >= 0);
        if (!child) {
            int refused = 0;
            for (int at = 1; at <= THREADS; at++) refused += by_reader(&readers[at], i) == LATCHSYM_BAD_HANDLE;
            _exit(refused ? 3 : 0);
        }
        CHECK(waitpid(child, &status, 0) == child && WIFEXITED(status) && (WEXITSTATUS(status) == 0 || WEXITSTATUS(status) == 3));
        count(WEXITSTATUS(status) ? LATCHSYM_BAD_HANDLE : LATCHSYM_DONE);
    }
    is_over = 2;
    for (int i = 0; i < THREADS; i++) pthread_join(threads[i], NULL);
}

int main(int argc, char **argv) {
    struct latchsym_listings listings = LATCHSYM_LISTINGS_INIT;
    struct latchsym_counts counts;
    uint64_t bad_line;
    listings.kallsyms = (struct latchsym_place){(const uint8_t *)LISTING, sizeof LISTING - 1};
    CHECK(latchsym_catalog_open(&listings, &catalog, &counts, &bad_line) == LATCHSYM_DONE);
    CHECK(latchsym_table_open(ITEMS, &writer, readers, THREADS + 1) == LATCHSYM_DONE);
    for (uint64_t i = 0; i < ITEMS; i++) {
        struct latchsym_item item = {32 * i, 32 * i + 16, i};
        CHECK(latchsym_writer_begin_insert(&writer, &item) == LATCHSYM_DONE);
        while (latchsym_writer_step(&writer) != LATCHSYM_DONE) {}
    }
    for (unsigned seed = 0; seed < ITEMS; seed++) CHECK(by_name(seed) != LATCHSYM_BAD_HANDLE);
    at_each_instruction();
    unsigned long stepped = closed;
    at_random_moments(argc > 1 ? atof(argv[1]) : 1);
    unsigned long interrupted = closed;
    in_children();
    printf("nested: of the calls inside calls %lu, %lu and %lu met a closed handle, %lu one at rest\n", stepped, interrupted - stepped,
           closed - interrupted, answered);
    return 0;
}
