/* The table by its calls: an update step by step, three readers on threads beside the writer, a batch, a larger
 * table, closed handles and those of other kinds, and a timer's signal that looks up between the writer's calls and inside them. */
#define _GNU_SOURCE
#include <latchsym.h>
#include <pthread.h>
#include <signal.h>
#include <stdio.h>
#include <stdlib.h>
#include <string.h>
#include <sys/time.h>

#define CHECK(x) do { if (!(x)) { printf("table: line %d: %s\n", __LINE__, #x); exit(1); } } while (0)

enum { READERS = 4, ANSWERS = 1000000 };

static struct latchsym_writer writer;
static struct latchsym_reader readers[READERS];
static const struct latchsym_item first = {0x1000, 0x2000, 7};

/* Of update k, counted from 1, the item is there where k is odd: the plain table of a generation. */
static int is_right(uint32_t answer, const struct latchsym_found *found) {
    if (found->generation % 2 == 0) return answer == LATCHSYM_NOTHING && !found->a && !found->b && !found->tag;
    return answer == LATCHSYM_DONE && found->a == first.a && found->b == first.b && found->tag == first.tag;
}

static void update(int k) {
    uint64_t generation;
    uint32_t begun = k % 2 ? latchsym_writer_begin_insert(&writer, &first) : latchsym_writer_begin_erase(&writer, first.a);
    CHECK(begun == LATCHSYM_DONE);
    CHECK(latchsym_writer_finish(&writer, &generation) == LATCHSYM_DONE && generation == (uint64_t)k);
}

static void closed_handles(void) {
    struct latchsym_found found = {1, 2, 3, 4};
    struct latchsym_reader none = {0};
    uint64_t generation = 9;
    CHECK(latchsym_writer_step(&writer) == LATCHSYM_BAD_HANDLE);
    CHECK(latchsym_writer_finish(&writer, &generation) == LATCHSYM_BAD_HANDLE && generation == 9);
    CHECK(latchsym_writer_begin_insert(&writer, &first) == LATCHSYM_BAD_HANDLE);
    CHECK(latchsym_writer_begin_erase(&writer, 1) == LATCHSYM_BAD_HANDLE);
    CHECK(latchsym_writer_begin_batch(&writer, &generation, 0, &first, 1) == LATCHSYM_BAD_HANDLE);
    CHECK(latchsym_writer_begin_replace(&writer, &first, 1) == LATCHSYM_BAD_HANDLE);
    CHECK(latchsym_writer_find(&writer, 1, &found) == LATCHSYM_BAD_HANDLE && found.a == 1);
    CHECK(latchsym_reader_try_find(&none, 1, &found) == LATCHSYM_BAD_HANDLE && found.generation == 4);
    latchsym_reader_close(&none);
    latchsym_writer_close(&writer);
}

/* An open handle of another kind, past a cast: refused, and nothing is written. */
static void handles_of_other_kinds(void) {
    struct latchsym_found found = {1, 2, 3, 4};
    struct latchsym_answer symbol = {1, 2, 3, 4, 5};
    struct latchsym_handle both[2] = {writer.handle, readers[0].handle};
    struct latchsym_writer *no_writer = (struct latchsym_writer *)&readers[0];
    struct latchsym_reader *no_reader = (struct latchsym_reader *)&writer;
    struct latchsym_catalog *no_catalog = (struct latchsym_catalog *)&writer;
    struct latchsym_catalog closed = {0};
    uint64_t generation = 9;
    uint8_t name[1] = {7}, module[1] = {8};
    CHECK(latchsym_writer_step(no_writer) == LATCHSYM_BAD_HANDLE);
    CHECK(latchsym_writer_finish(no_writer, &generation) == LATCHSYM_BAD_HANDLE && generation == 9);
    CHECK(latchsym_writer_begin_insert(no_writer, &first) == LATCHSYM_BAD_HANDLE);
    CHECK(latchsym_writer_begin_erase(no_writer, 1) == LATCHSYM_BAD_HANDLE);
    CHECK(latchsym_writer_begin_batch(no_writer, &generation, 0, &first, 1) == LATCHSYM_BAD_HANDLE);
    CHECK(latchsym_writer_begin_replace(no_writer, &first, 1) == LATCHSYM_BAD_HANDLE);
    CHECK(latchsym_writer_find(no_writer, 1, &found) == LATCHSYM_BAD_HANDLE && found.a == 1);
    CHECK(latchsym_reader_try_find(no_reader, 1, &found) == LATCHSYM_BAD_HANDLE && found.a == 1);
    CHECK(latchsym_table_enlarge(8, no_writer, no_reader, 1) == LATCHSYM_BAD_HANDLE);
    CHECK(latchsym_catalog_name(no_catalog, 1, &symbol, name, 1, module, 1) == LATCHSYM_BAD_HANDLE);
    CHECK(latchsym_reader_find_name(&readers[0], no_catalog, 1, &found, &symbol, name, 1, module, 1) == LATCHSYM_BAD_HANDLE);
    CHECK(found.a == 1 && symbol.offset == 2 && name[0] == 7 && module[0] == 8);
    CHECK(latchsym_catalog_share(no_catalog, &closed) == LATCHSYM_BAD_HANDLE && !closed.handle.at);
    CHECK(!memcmp(&both[0], &writer, sizeof writer) && !memcmp(&both[1], &readers[0], sizeof readers[0]));
}

static void an_update_by_its_steps(void) {
    struct latchsym_found found;
    const struct latchsym_item empty = {5, 5, 0}, over = {0x1800, 0x2800, 9};
    int flips = 0;
    CHECK(latchsym_writer_begin_insert(&writer, &empty) == LATCHSYM_BAD_ITEM);
    CHECK(latchsym_writer_begin_erase(&writer, 1) == LATCHSYM_NO_SUCH_ITEM);
    CHECK(latchsym_writer_begin_insert(&writer, &first) == LATCHSYM_DONE);
    CHECK(latchsym_writer_begin_insert(&writer, &over) == LATCHSYM_UPDATE_IN_HAND);
    for (uint32_t did; (did = latchsym_writer_step(&writer)) != LATCHSYM_DONE;) {
        flips += did == LATCHSYM_FLIP;
        CHECK(is_right(latchsym_reader_try_find(&readers[0], 0x1fff, &found), &found));
        CHECK(found.generation == (flips == 2));
        CHECK(is_right(latchsym_writer_find(&writer, 0x1000, &found), &found));
    }
    CHECK(flips == 2);
    CHECK(latchsym_writer_begin_insert(&writer, &over) == LATCHSYM_OVERLAP);
    update(2);
}

static void *read_on(void *reader) {
    struct latchsym_found found;
    uint64_t last = 0;
    for (long answers = 0; answers < ANSWERS / 3;) {
        uint32_t answer = latchsym_reader_try_find(reader, 0x1800, &found);
        if (answer == LATCHSYM_RETRY) continue;
        if (!is_right(answer, &found) || found.generation < last) return reader;
        last = found.generation;
        answers++;
    }
    return NULL;
}

static int beside_threads(int k) {
    pthread_t threads[3];
    void *wrong;
    for (int i = 0; i < 3; i++) CHECK(!pthread_create(&threads[i], NULL, read_on, &readers[i]));
    for (int end = k + 100000; k < end; k++) update(k);
    for (int i = 0; i < 3; i++) CHECK(!pthread_join(threads[i], &wrong) && !wrong);
    return k;
}

static volatile sig_atomic_t in_call;
static volatile long fired, inside, wrong;

static void look(int signal) {
    struct latchsym_found found;
    uint32_t answer = latchsym_reader_try_find(&readers[3], 0x1800, &found);
    (void)signal;
    fired++;
    inside += in_call;
    wrong += answer == LATCHSYM_RETRY || !is_right(answer, &found);
}

/* Updates until the signal has come so often between two calls, or so often inside one. */
static int beside_signals(int k, int between, long count) {
    struct sigaction action = {.sa_handler = look};
    struct itimerval every = {{0, 20}, {0, 20}}, never = {{0, 0}, {0, 0}};
    sigset_t alarm;
    fired = inside = wrong = 0;
    sigemptyset(&alarm);
    sigaddset(&alarm, SIGALRM);
    sigaction(SIGALRM, &action, NULL);
    setitimer(ITIMER_REAL, &every, NULL);
    for (; (between ? fired : inside) < count; k++) {
        uint32_t did = LATCHSYM_FLIP;
        if (between) sigprocmask(SIG_BLOCK, &alarm, NULL);
        in_call = 1;
        CHECK(!(k % 2 ? latchsym_writer_begin_insert(&writer, &first) : latchsym_writer_begin_erase(&writer, first.a)));
        in_call = 0;
        while (did != LATCHSYM_DONE) {
            if (between) sigprocmask(SIG_UNBLOCK, &alarm, NULL), sigprocmask(SIG_BLOCK, &alarm, NULL);
            in_call = 1;
            did = latchsym_writer_step(&writer);
            in_call = 0;
        }
        if (between) sigprocmask(SIG_UNBLOCK, &alarm, NULL);
    }
    setitimer(ITIMER_REAL, &never, NULL);
    signal(SIGALRM, SIG_IGN);
    printf("table: %s: %ld signals, %ld inside a call, %ld wrong\n", between ? "between calls" : "anywhere", fired, inside, wrong);
    CHECK(!wrong && (!between || !inside));
    return k;
}

static void a_batch(int k) {
    const struct latchsym_item items[] = {{0x1000, 0x2000, 1}, {0x2000, 0x3000, 2}};
    const uint64_t starts[] = {0x1000, 0x2000};
    struct latchsym_found found;
    uint64_t generation;
    if (k % 2 == 0) update(k++);
    CHECK(!latchsym_writer_begin_batch(&writer, starts, 0, items, 2) && !latchsym_writer_finish(&writer, &generation));
    CHECK(!latchsym_reader_try_find(&readers[0], 0x2fff, &found) && found.tag == 2 && found.generation == (uint64_t)k);
    CHECK(latchsym_writer_begin_batch(&writer, starts, 2, items, 0) == 0 && !latchsym_writer_finish(&writer, &generation));
    CHECK(latchsym_reader_try_find(&readers[0], 0x2fff, &found) == LATCHSYM_NOTHING);
}

/* A full table takes one more item once it is larger; readers go on, and a refusal changes nothing. */
static void a_larger_table(void) {
    const struct latchsym_item items[] = {{0x1000, 0x2000, 1}, {0x2000, 0x3000, 2}, {0x3000, 0x4000, 3}};
    struct latchsym_writer small = {0};
    struct latchsym_reader its[2] = {{{0}}}, one = {{0}};
    struct latchsym_found found;
    uint64_t generation;
    CHECK(latchsym_table_enlarge(4, &small, its, 2) == LATCHSYM_BAD_HANDLE);
    CHECK(latchsym_table_open(2, &small, its, 2) == LATCHSYM_DONE);
    CHECK(!latchsym_writer_begin_batch(&small, &generation, 0, items, 2));
    CHECK(latchsym_table_enlarge(4, &small, its, 2) == LATCHSYM_UPDATE_IN_HAND);
    CHECK(!latchsym_writer_finish(&small, &generation) && generation == 1);
    CHECK(latchsym_writer_begin_insert(&small, &items[2]) == LATCHSYM_FULL);
    CHECK(latchsym_table_enlarge(0, &small, its, 2) == LATCHSYM_BAD_CAPACITY);
    CHECK(latchsym_table_enlarge(1, &small, its, 2) == LATCHSYM_BAD_CAPACITY);
    CHECK(latchsym_table_enlarge(65537, &small, its, 2) == LATCHSYM_BAD_CAPACITY);
    CHECK(latchsym_table_enlarge(4, &small, its, 1) == LATCHSYM_BAD_HANDLE);
    CHECK(latchsym_table_enlarge(4, &small, &one, 1) == LATCHSYM_BAD_HANDLE);
    CHECK(!latchsym_reader_try_find(&its[1], 0x2fff, &found) && found.tag == 2 && found.generation == 1);
    CHECK(latchsym_table_enlarge(4, &small, its, 2) == LATCHSYM_DONE);
    for (int i = 0; i < 2; i++)
        CHECK(!latchsym_reader_try_find(&its[i], 0x2fff, &found) && found.tag == 2 && found.generation == 1);
    CHECK(!latchsym_writer_begin_insert(&small, &items[2]) && !latchsym_writer_finish(&small, &generation));
    for (int i = 0; i < 2; i++)
        CHECK(!latchsym_reader_try_find(&its[i], 0x3000, &found) && found.tag == 3 && found.generation == 2);
    CHECK(!latchsym_writer_find(&small, 0x1000, &found) && found.tag == 1 && found.generation == 2);
    latchsym_reader_close(&its[0]);
    CHECK(latchsym_table_enlarge(8, &small, its, 2) == LATCHSYM_BAD_HANDLE);
    latchsym_writer_close(&small);
    CHECK(latchsym_table_enlarge(8, &small, its, 2) == LATCHSYM_BAD_HANDLE);
    CHECK(!latchsym_reader_try_find(&its[1], 0x3000, &found) && found.tag == 3);
    latchsym_reader_close(&its[1]);
}

int main(int argc, char **argv) {
    long signals = argc > 1 ? atol(argv[1]) : 10000;
    closed_handles();
    CHECK(latchsym_table_open(0, &writer, readers, READERS) == LATCHSYM_BAD_CAPACITY);
    CHECK(latchsym_table_open(8, &writer, readers, 0) == LATCHSYM_BAD_CAPACITY);
    CHECK(latchsym_table_open(8, &writer, readers, READERS) == LATCHSYM_DONE);
    CHECK(latchsym_table_open(8, &writer, readers, READERS) == LATCHSYM_BAD_HANDLE);
    handles_of_other_kinds();
    an_update_by_its_steps();
    int k = beside_threads(3);
    if (signals) k = beside_signals(beside_signals(k, 1, signals), 0, signals);
    a_batch(k);
    a_larger_table();
    latchsym_writer_close(&writer);
    for (int i = 0; i < READERS; i++) latchsym_reader_close(&readers[i]), latchsym_reader_close(&readers[i]);
    puts("table: ok");
}
