/* The table at each stop of 64 insertions, 32 erasures and ten batches; readers and nodes of each number that there may
 * be; and how long an attempt takes beside a writer that stands still. */
#define _GNU_SOURCE
#include <latchsym.h>
#include <stdatomic.h>
#include <stdio.h>
#include <stdlib.h>
#include <time.h>

#define CHECK(x) do { if (!(x)) { printf("stops: line %d: %s\n", __LINE__, #x); exit(1); } } while (0)

enum { NODES = 64, READERS = 64, MOST_LOADS = 51, ATTEMPTS = 16, ROUNDS = 32, NONE = -1 };

static struct latchsym_writer writer;
static struct latchsym_reader readers[READERS];

/* What an update changes: an address, its place before and after, and a place that stays. */
struct change { uint64_t key; long before, after, stays; };

static struct latchsym_item item(uint64_t place) {
    struct latchsym_item one = {16 * place, 16 * place + 16, place};
    return one;
}

/* Both find this place, in the table of this generation. */
static void both_find(uint64_t key, long place, uint64_t generation) {
    struct latchsym_found by_writer, by_reader;
    uint32_t answer = place == NONE ? LATCHSYM_NOTHING : LATCHSYM_DONE;
    CHECK(latchsym_writer_find(&writer, key, &by_writer) == answer && by_writer.generation == generation);
    CHECK(latchsym_reader_try_find(&readers[0], key, &by_reader) == answer && by_reader.generation == generation);
    CHECK(place == NONE || (by_writer.tag == (uint64_t)place && by_reader.tag == (uint64_t)place));
}

/* The update that is begun, from the table of this generation to the next: the writer looks up from within it, as an
 * interrupt does that stopped it, and a reader beside it. */
static void step_through(struct change change, uint64_t before) {
    int flips = 0;
    for (uint32_t did = LATCHSYM_STORE; did != LATCHSYM_DONE;) {
        uint64_t generation = before + (flips == 2);
        both_find(change.key, flips == 2 ? change.after : change.before, generation);
        both_find(0x1000, NONE, generation);
        if (change.stays != NONE) both_find(item(change.stays).a, change.stays, generation);
        did = latchsym_writer_step(&writer);
        flips += did == LATCHSYM_FLIP;
    }
    CHECK(flips == 2);
}

static void open_table(uint32_t nodes, uint32_t count) {
    CHECK(latchsym_table_open(nodes, &writer, readers, count) == LATCHSYM_DONE);
}

static void close_table(uint32_t count) {
    for (uint32_t i = 0; i < count; i++) latchsym_reader_close(&readers[i]);
    latchsym_writer_close(&writer);
}

static void lookups_at_each_stop(void) {
    open_table(NODES, 1);
    for (long i = 0; i < 64; i++) {
        struct latchsym_item one = item(37 * i % 64);
        struct change change = {one.a, NONE, 37 * i % 64, i ? 0 : NONE};
        CHECK(latchsym_writer_begin_insert(&writer, &one) == LATCHSYM_DONE);
        step_through(change, i);
    }
    for (long i = 0; i < 32; i++) {
        struct change change = {item(74 * i % 64).a, 74 * i % 64, NONE, 63};
        CHECK(latchsym_writer_begin_erase(&writer, change.key) == LATCHSYM_DONE);
        step_through(change, 64 + i);
    }
    for (long i = 0; i < 10; i++) {
        uint64_t starts[] = {item(6 * i + 1).a, item(6 * i + 3).a, item(6 * i + 5).a};
        struct latchsym_item items[] = {item(6 * i), item(6 * i + 2), item(6 * i + 4)};
        struct change in = {items[1].a, NONE, 6 * i + 2, 63}, out = {starts[1], 6 * i + 3, NONE, 63};
        CHECK(latchsym_writer_begin_batch(&writer, starts, 3, items, 3) == LATCHSYM_DONE);
        step_through(i % 2 ? in : out, 96 + i);
    }
    close_table(1);
}

static void insert(uint64_t place) {
    struct latchsym_item one = item(place);
    uint64_t generation;
    CHECK(!latchsym_writer_begin_insert(&writer, &one) && !latchsym_writer_finish(&writer, &generation));
}

/* No number of readers that an opening may have is refused, and no number of nodes. */
static void each_number_of_readers_and_nodes(void) {
    static const uint32_t nodes[] = {2, 3, 7, 8, 64, 100, 1000, 4096, 65535, 65536};
    struct latchsym_found found;
    for (uint32_t count = 1; count <= READERS; count++) {
        open_table(2, count);
        insert(1);
        for (uint32_t i = 0; i < count; i++) CHECK(!latchsym_reader_try_find(&readers[i], 16, &found) && found.tag == 1);
        close_table(count);
    }
    for (size_t i = 0; i < sizeof nodes / sizeof *nodes; i++) {
        open_table(1, 2);
        insert(1);
        CHECK(latchsym_table_enlarge(nodes[i], &writer, readers, 2) == LATCHSYM_DONE);
        insert(2);
        for (int reader = 0; reader < 2; reader++)
            CHECK(!latchsym_reader_try_find(&readers[reader], 32, &found) && found.tag == 2 && found.generation == 2);
        close_table(2);
    }
}

static uint64_t now(void) {
    struct timespec time;
    clock_gettime(CLOCK_MONOTONIC, &time);
    return time.tv_sec * 1000000000ull + time.tv_nsec;
}

/* The shortest time of so many attempts, each of which answers with this generation. */
static uint64_t time_of_attempts(uint64_t generation) {
    uint64_t shortest = UINT64_MAX, begun = now();
    for (int round = 0; round < ROUNDS && now() - begun < 1000000000; round++) {
        uint64_t start = now();
        for (uint64_t place = 0; place < ATTEMPTS; place++) {
            struct latchsym_found found;
            CHECK(!latchsym_reader_try_find(&readers[0], 16 * place, &found) && found.tag == place && found.generation == generation);
        }
        uint64_t took = now() - start;
        if (took < shortest) shortest = took;
    }
    return shortest;
}

/* The shortest time of the loads that so many attempts make at most. */
static uint64_t time_of_loads(void) {
    static _Atomic uint64_t words[MOST_LOADS];
    uint64_t shortest = UINT64_MAX, sum = 0;
    for (int round = 0; round < ROUNDS; round++) {
        uint64_t start = now();
        for (int i = 0; i < ATTEMPTS * MOST_LOADS; i++) sum += atomic_load(&words[i % MOST_LOADS]);
        uint64_t took = now() - start;
        if (took < shortest) shortest = took;
    }
    CHECK(sum == 0);
    return shortest;
}

/* At rest, in the first half of an update, and in the second: a call that waited for the writer would take as long. */
static void attempts_beside_a_writer_that_stands_still(void) {
    open_table(NODES, 1);
    for (uint64_t place = 0; place < NODES - 1; place++) insert(place);
    uint64_t loads = time_of_loads(), resting = time_of_attempts(NODES - 1);
    CHECK(resting < 50 * (loads + 1));
    struct latchsym_item one = item(100);
    CHECK(latchsym_writer_begin_insert(&writer, &one) == LATCHSYM_DONE);
    for (uint64_t generation = NODES - 1; generation <= NODES; generation++) {
        while (latchsym_writer_step(&writer) != LATCHSYM_FLIP) continue;
        CHECK(time_of_attempts(generation) < 50 * (resting + 1));
    }
    close_table(1);
}

int main(void) {
    lookups_at_each_stop();
    each_number_of_readers_and_nodes();
    attempts_beside_a_writer_that_stands_still();
    puts("stops: ok");
}
