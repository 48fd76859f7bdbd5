/* A pool of readers: what it refuses and in which order, that each call has a reader of its own and gives it back, that it
 * is told busy just where all are claimed, on threads, in handlers, inside calls and in a forked child, and a table that
 * grows meanwhile, also beside threads that never rest, or is closed by two at once. Arguments: the seconds of each part with threads, and `threads` for no handler and no child. */
#define _GNU_SOURCE
#include <latchsym.h>
#include <pthread.h>
#include <signal.h>
#include <stdatomic.h>
#include <stdio.h>
#include <stdlib.h>
#include <string.h>
#include <sys/wait.h>
#include <time.h>
#include <unistd.h>

#define CHECK(x) do { if (!(x)) { dprintf(1, "pool: line %d: %s\n", __LINE__, #x); _exit(1); } } while (0)

enum { THREADS = 4, MOST = LATCHSYM_POOL_MOST, FORKS = 200, CLOSES = 20, GROWTHS = 10, MOST_REFUSALS = 100000 };

static struct latchsym_pool pool;
static struct latchsym_writer writer;
/* The item is there where the generation is odd; the first one always is. */
static const struct latchsym_item first = {0x1000, 0x2000, 1}, item = {0x2000, 0x3000, 7};
static double seconds = 0.3;
static atomic_int is_over, may_be_busy;
static atomic_long answers, busy, grown;

static int is_untouched(const struct latchsym_found *found) {
    return found->a == 9 && found->b == 9 && found->tag == 9 && found->generation == 9;
}

static uint32_t find(uint64_t addr) {
    struct latchsym_found found = {9, 9, 9, 9};
    uint32_t answer = latchsym_pool_try_find(&pool, addr, &found);
    CHECK(is_untouched(&found) == (answer != LATCHSYM_DONE && answer != LATCHSYM_NOTHING));
    return answer;
}

static void insert(const struct latchsym_item *added) {
    uint64_t generation;
    CHECK(latchsym_writer_begin_insert(&writer, added) == LATCHSYM_DONE);
    CHECK(latchsym_writer_finish(&writer, &generation) == LATCHSYM_DONE);
}

static void erase(const struct latchsym_item *erased) {
    uint64_t generation;
    CHECK(latchsym_writer_begin_erase(&writer, erased->a) == LATCHSYM_DONE);
    CHECK(latchsym_writer_finish(&writer, &generation) == LATCHSYM_DONE);
}

static void open_pool(uint32_t nodes, size_t slots) {
    CHECK(latchsym_pool_open(nodes, slots, &writer, &pool) == LATCHSYM_DONE);
    insert(&first);
}

static void close_all(void) {
    CHECK(latchsym_pool_close(&pool) == LATCHSYM_DONE && find(first.a) == LATCHSYM_BAD_HANDLE);
    CHECK(latchsym_pool_close(&pool) == LATCHSYM_DONE && latchsym_pool_close(NULL) == LATCHSYM_DONE);
    latchsym_writer_close(&writer);
}

static void refusals(void) {
    struct latchsym_writer other = {{0, NULL}};
    struct latchsym_pool second = {0};
    CHECK(find(first.a) == LATCHSYM_BAD_HANDLE);
    CHECK(latchsym_pool_enlarge(8, &writer, &pool) == LATCHSYM_BAD_HANDLE);
    const struct { uint32_t nodes; size_t slots; } wrong[] = {{0, 4}, {65537, 4}, {8, 0}, {8, MOST + 1}, {8, SIZE_MAX}};
    for (size_t i = 0; i < sizeof wrong / sizeof *wrong; i++) {
        CHECK(latchsym_pool_open(wrong[i].nodes, wrong[i].slots, &writer, &pool) == LATCHSYM_BAD_CAPACITY);
        CHECK(!writer.handle.at && find(first.a) == LATCHSYM_BAD_HANDLE);
    }
    open_pool(8, 4);
    for (size_t slots = 4; slots <= MOST + 1; slots += MOST - 3) {
        CHECK(latchsym_pool_open(8, slots, &other, &pool) == LATCHSYM_BAD_HANDLE && !other.handle.at);
        CHECK(latchsym_pool_open(8, slots, &writer, &second) == LATCHSYM_BAD_HANDLE && !second.slots_len);
    }
    CHECK(latchsym_pool_enlarge(8, &other, &pool) == LATCHSYM_BAD_HANDLE && find(first.a) == LATCHSYM_DONE);
    close_all();
}

/* Claims as many slots as there are, each once, and no more. */
static void claim_each(struct latchsym_pool_slot **claimed, size_t count) {
    for (size_t i = 0; i < count; i++) {
        claimed[i] = latchsym_pool_claim(&pool);
        CHECK(claimed[i]);
        for (size_t j = 0; j < i; j++) CHECK(claimed[j] != claimed[i]);
    }
    CHECK(!latchsym_pool_claim(&pool));
}

static void give_back_each(struct latchsym_pool_slot **claimed, size_t count) {
    for (size_t i = 0; i < count; i++) latchsym_pool_give_back(claimed[i]);
}

static int are_free(size_t count) {
    struct latchsym_pool_slot *claimed[MOST];
    claim_each(claimed, count);
    give_back_each(claimed, count);
    return 1;
}

/* Busy is told where all slots are claimed, whichever is free it is not, and nothing is kept. */
static void busy_or_not(size_t count) {
    struct latchsym_pool_slot *claimed[MOST];
    open_pool(1, count);
    CHECK(are_free(count));
    claim_each(claimed, count);
    CHECK(find(first.a) == LATCHSYM_BUSY && latchsym_pool_close(&pool) == LATCHSYM_BUSY);
    for (size_t i = 0; i < count; i++) {
        latchsym_pool_give_back(claimed[i]);
        for (int again = 0; again < 3; again++) CHECK(find(first.a) == LATCHSYM_DONE && find(item.a) == LATCHSYM_NOTHING);
        CHECK(latchsym_pool_claim(&pool) == claimed[i] && find(first.a) == LATCHSYM_BUSY);
    }
    give_back_each(claimed, count);
    CHECK(are_free(count));
    for (size_t i = 0; i < count; i++) {
        CHECK(latchsym_pool_claim_slot(&pool.slots[i]) && !latchsym_pool_claim_slot(&pool.slots[i]));
        CHECK(latchsym_pool_enlarge(2, &writer, &pool) == LATCHSYM_BUSY && latchsym_pool_close(&pool) == LATCHSYM_BUSY);
        CHECK(latchsym_writer_begin_insert(&writer, &item) == LATCHSYM_FULL); /* there is one node, as before */
        latchsym_pool_give_back(&pool.slots[i]);
        CHECK(are_free(count));
    }
    close_all();
}

/* An enlarging that is refused changes nothing; after one that is not each reader finds what was put in since. */
static void in_new_words(size_t count) {
    struct latchsym_pool_slot *claimed[MOST];
    struct latchsym_found found;
    open_pool(2, count);
    CHECK(latchsym_pool_enlarge(0, &writer, &pool) == LATCHSYM_BAD_CAPACITY && are_free(count));
    CHECK(latchsym_pool_enlarge(65537, &writer, &pool) == LATCHSYM_BAD_CAPACITY && are_free(count));
    CHECK(latchsym_pool_enlarge(1, &writer, &pool) == LATCHSYM_BAD_CAPACITY && are_free(count));
    CHECK(latchsym_writer_begin_insert(&writer, &item) == LATCHSYM_DONE);
    CHECK(latchsym_pool_enlarge(65537, &writer, &pool) == LATCHSYM_BAD_CAPACITY);
    CHECK(latchsym_pool_enlarge(1, &writer, &pool) == LATCHSYM_UPDATE_IN_HAND && are_free(count));
    CHECK(latchsym_writer_finish(&writer, &found.generation) == LATCHSYM_DONE);
    CHECK(latchsym_pool_enlarge(3, &writer, &pool) == LATCHSYM_DONE && are_free(count));
    insert(&(struct latchsym_item){0x3000, 0x4000, 8});
    claim_each(claimed, count);
    for (size_t i = 0; i < count; i++)
        CHECK(latchsym_reader_try_find(&claimed[i]->reader, 0x3fff, &found) == LATCHSYM_DONE && found.tag == 8 && found.generation == 3);
    give_back_each(claimed, count);
    close_all();
}

/* A reader more than those of the pool is one too many, until it is taken back. */
static void with_an_added_reader(void) {
    struct latchsym_reader added = {{0, NULL}};
    open_pool(2, 3);
    CHECK(latchsym_writer_add_reader(&writer, &added) == LATCHSYM_DONE);
    CHECK(latchsym_pool_enlarge(4, &writer, &pool) == LATCHSYM_BAD_HANDLE && are_free(3));
    CHECK(latchsym_writer_take_reader(&writer, &added) == LATCHSYM_DONE && !added.handle.at);
    CHECK(latchsym_pool_enlarge(4, &writer, &pool) == LATCHSYM_DONE && are_free(3));
    close_all();
}

/* One call of this thread, which knows that generation or a later one. Returns the generation that it then knows. */
static uint64_t look_up(uint64_t known) {
    struct latchsym_found found = {9, 9, 9, 9};
    uint32_t answer = latchsym_pool_try_find(&pool, item.a + 5, &found);
    if (answer == LATCHSYM_BUSY || answer == LATCHSYM_RETRY) {
        CHECK(is_untouched(&found) && (answer == LATCHSYM_RETRY || may_be_busy));
        busy += answer == LATCHSYM_BUSY;
        return known;
    }
    CHECK(answer == (found.generation % 2 ? LATCHSYM_NOTHING : LATCHSYM_DONE));
    CHECK(found.tag == (found.generation % 2 ? 0 : item.tag) && found.generation >= known);
    return found.generation;
}

static void *look_up_on(void *unused) {
    uint64_t known = 0;
    long calls = 0;
    for (; !is_over; calls++) known = look_up(known);
    answers += calls;
    return unused;
}

static double now(void) {
    struct timespec time;
    clock_gettime(CLOCK_MONOTONIC, &time);
    return time.tv_sec + 1e-9 * time.tv_nsec;
}

/* Changes the table for a while, and between two updates does what is to be done, until it is done once. */
static void change_on(void (*between)(void)) {
    for (double end = now() + seconds; now() < end || (between && !grown);) {
        insert(&item);
        erase(&item);
        if (between) between();
    }
}

static void start(pthread_t *threads, int count) {
    is_over = 0;
    answers = busy = 0;
    for (int i = 0; i < count; i++) CHECK(!pthread_create(&threads[i], NULL, look_up_on, NULL));
}

static void join(pthread_t *threads, int count) {
    is_over = 1;
    for (int i = 0; i < count; i++) pthread_join(threads[i], NULL);
}

static void grow(void) {
    uint32_t answer = latchsym_pool_enlarge(grown < 4080 ? 16 + (uint32_t)grown : 4096, &writer, &pool);
    CHECK(answer == LATCHSYM_DONE || answer == LATCHSYM_BUSY);
    grown += answer == LATCHSYM_DONE;
}

/* With a slot for each thread none is ever told busy. With fewer some are, and the others find as ever; so they do while
 * the table grows, which it does in the end. */
static void on_threads(size_t slots, int may, void (*between)(void)) {
    pthread_t threads[THREADS];
    open_pool(16, slots);
    may_be_busy = may;
    grown = 0;
    start(threads, THREADS);
    change_on(between);
    join(threads, THREADS);
    printf("pool: %d threads, %zu slots: %ld calls, of which %ld were told busy; grew %ld times\n", THREADS, slots, (long)answers, (long)busy,
           (long)grown);
    CHECK(answers > 0 && (may || !busy) && (!between || grown > 0) && are_free(slots));
    close_all();
}

/* Twice as many threads as processors may be, each with a slot that it has nearly always: enlarging is refused now and
 * then, and not a hundred thousand times for each that is done, as where it gives up at each slot that it finds claimed. */
static void beside_threads_that_never_rest(void) {
    pthread_t threads[2 * THREADS];
    long refused = 0;
    open_pool(16, 2 * THREADS);
    may_be_busy = 1;
    start(threads, 2 * THREADS);
    for (int done = 0; done < GROWTHS;) {
        const uint32_t answer = latchsym_pool_enlarge(16, &writer, &pool);
        CHECK(answer == LATCHSYM_DONE || answer == LATCHSYM_BUSY);
        done += answer == LATCHSYM_DONE;
        CHECK((refused += answer == LATCHSYM_BUSY) < MOST_REFUSALS);
        if (answer == LATCHSYM_DONE) usleep(1000);
    }
    join(threads, 2 * THREADS);
    printf("pool: %d enlargings beside %d threads that never rest, refused %ld times\n", GROWTHS, 2 * THREADS, refused);
    CHECK(are_free(2 * THREADS));
    close_all();
}

static void *look_up_until_closed(void *unused) {
    for (uint32_t answer = 0; answer != LATCHSYM_BAD_HANDLE;) {
        answer = find(first.a);
        CHECK(answer == LATCHSYM_DONE || answer == LATCHSYM_BUSY || answer == LATCHSYM_BAD_HANDLE);
    }
    return unused;
}

static void *close_pool(void *unused) {
    uint32_t answer;
    while ((answer = latchsym_pool_close(&pool)) == LATCHSYM_BUSY) {}
    CHECK(answer == LATCHSYM_DONE && find(first.a) == LATCHSYM_BAD_HANDLE);
    return unused;
}

/* Two close one pool beside lookups and an enlarging: all are told so, and no slot stays claimed. */
static void closed_beside_calls(void) {
    pthread_t threads[THREADS];
    for (int round = 0; round < CLOSES; round++) {
        open_pool(16, 2);
        for (int i = 0; i < THREADS; i++)
            CHECK(!pthread_create(&threads[i], NULL, i < 2 ? look_up_until_closed : close_pool, NULL));
        for (uint32_t answer = 0; answer != LATCHSYM_BAD_HANDLE;) {
            answer = latchsym_pool_enlarge(16, &writer, &pool);
            CHECK(answer == LATCHSYM_DONE || answer == LATCHSYM_BUSY || answer == LATCHSYM_BAD_HANDLE);
        }
        for (int i = 0; i < THREADS; i++) pthread_join(threads[i], NULL);
        for (size_t i = 0; i < 2; i++) CHECK(pool.slots[i].claims % 2 == 0 && !pool.slots[i].reader.handle.at);
        close_all();
    }
}

static _Thread_local int depth;

/* A call inside the call that it interrupts, and once more inside that. */
static void inside(int signal) {
    (void)signal;
    if (depth == 2) return;
    depth++;
    look_up(0);
    answers++;
    depth--;
}

/* Each thread has at most three calls at once. */
static void in_handlers(void) {
    struct sigaction action = {.sa_handler = inside, .sa_flags = SA_NODEFER | SA_RESTART};
    pthread_t threads[THREADS];
    sigaction(SIGUSR1, &action, NULL);
    open_pool(16, 3 * THREADS);
    may_be_busy = 0;
    start(threads, THREADS);
    for (double end = now() + seconds; now() < end;) {
        for (int i = 0; i < THREADS; i++) pthread_kill(threads[i], SIGUSR1);
        insert(&item);
        erase(&item);
    }
    join(threads, THREADS);
    CHECK(!busy && are_free(3 * THREADS));
    printf("pool: %ld calls with those of handlers\n", (long)answers);
    close_all();
}

#if defined(__x86_64__)
static long inner_busy, inner_found;

/* A call inside another: it finds, or is told busy since the other has the last slot, or wants all. */
static void inside_of_one(int signal) {
    uint32_t answer = find(first.a);
    (void)signal;
    CHECK(answer == LATCHSYM_DONE || (answer == LATCHSYM_BUSY && (pool.is_wanted || pool.slots[pool.slots_len - 1].claims % 2)));
    inner_busy += answer == LATCHSYM_BUSY;
    inner_found += answer == LATCHSYM_DONE;
}

/* A call, or one that enlarges the table, of which each instruction is followed by a call in a handler. */
static uint32_t stepped(int is_to_enlarge) {
    __asm__ volatile("pushfq; orq $0x100, (%%rsp); popfq" ::: "memory", "cc");
    uint32_t answer = is_to_enlarge ? latchsym_pool_enlarge(16, &writer, &pool) : find(first.a);
    __asm__ volatile("pushfq; andq $~0x100, (%%rsp); popfq" ::: "memory", "cc");
    return answer;
}

static struct latchsym_pool_slot *held;

/* What claims one of two slots goes over to the other now and then, if that is free. */
static void change_over(int signal) {
    static uint32_t seed;
    struct latchsym_pool_slot *other = &pool.slots[held == &pool.slots[0]];
    (void)signal;
    seed = seed * 1664525 + 1013904223;
    if (seed >> 31) return;
    latchsym_pool_give_back(held);
    if (latchsym_pool_claim_slot(other)) held = other;
    else CHECK(latchsym_pool_claim_slot(held));
}

/* One of two slots is free at each instruction of a call, though now this one and now that: it is never told busy. */
static void beside_one_that_changes_over(void) {
    signal(SIGTRAP, change_over);
    open_pool(16, 2);
    held = latchsym_pool_claim(&pool);
    for (int i = 0; i < 200; i++) CHECK(stepped(0) == LATCHSYM_DONE);
    latchsym_pool_give_back(held);
    CHECK(are_free(2));
    close_all();
}

static int steps_left;

/* One of two slots is given back at last; what wants both has kept the other meanwhile. */
static void give_back_at_last(int signal) {
    (void)signal;
    if (--steps_left) return;
    CHECK(pool.slots[held == &pool.slots[0]].claims % 2);
    latchsym_pool_give_back(held);
}

static void beside_one_that_gives_back(void) {
    signal(SIGTRAP, give_back_at_last);
    for (int after = 2000; after < 2060; after++) {
        open_pool(16, 2);
        held = &pool.slots[after % 2];
        steps_left = after;
        CHECK(latchsym_pool_claim_slot(held));
        CHECK(stepped(1) == LATCHSYM_DONE && steps_left < 0 && are_free(2));
        close_all();
    }
}

static void at_each_instruction(void) {
    beside_one_that_changes_over();
    beside_one_that_gives_back();
    signal(SIGTRAP, inside_of_one);
    for (size_t slots = 1; slots <= 2; slots++) {
        open_pool(16, slots);
        inner_busy = inner_found = 0;
        CHECK(stepped(0) == LATCHSYM_DONE && are_free(slots));
        CHECK(inner_found > 0 && !inner_busy == (slots > 1));
        CHECK(stepped(1) == LATCHSYM_DONE && are_free(slots));
        printf("pool: inside calls on %zu slots, at each instruction: %ld found, %ld told busy\n", slots, inner_found, inner_busy);
        close_all();
    }
}
#else
static void at_each_instruction(void) {}
#endif

/* In a child all slots stay claimed that calls of the parent's other threads had; one is left. */
static void in_children(void) {
    pthread_t threads[THREADS];
    open_pool(16, THREADS + 1);
    may_be_busy = 0;
    start(threads, THREADS);
    for (int i = 0; i < FORKS; i++) {
        int status;
        pid_t child = fork();
        CHECK(child >= 0);
        if (!child) {
            for (int call = 0; call < 10; call++) CHECK(find(first.a) == LATCHSYM_DONE);
            _exit(0);
        }
        CHECK(waitpid(child, &status, 0) == child && WIFEXITED(status) && !WEXITSTATUS(status));
    }
    join(threads, THREADS);
    CHECK(!busy && are_free(THREADS + 1));
    close_all();
}

int main(int argc, char **argv) {
    if (argc > 1) seconds = atof(argv[1]);
    refusals();
    const size_t counts[] = {1, 2, 3, 7, MOST};
    for (size_t i = 0; i < sizeof counts / sizeof *counts; i++) {
        busy_or_not(counts[i]);
        in_new_words(counts[i]);
    }
    with_an_added_reader();
    on_threads(THREADS, 0, NULL);
    on_threads(2, 1, NULL);
    on_threads(THREADS + 2, 1, grow);
    beside_threads_that_never_rest();
    closed_beside_calls();
    if (argc <= 2) {
        in_handlers();
        at_each_instruction();
        in_children();
    }
    puts("pool: ok");
    return 0;
}
