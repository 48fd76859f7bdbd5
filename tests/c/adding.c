/* Readers that are added to a table and taken back: at each step of an update, up to the most, beside threads that look up,
 * and in a table that grows. */
#include <latchsym.h>
#include <pthread.h>
#include <stdatomic.h>
#include <stdio.h>
#include <stdlib.h>
#include <string.h>

#define CHECK(x) do { if (!(x)) { printf("adding: line %d: %s\n", __LINE__, #x); exit(1); } } while (0)

enum { MOST = 65536, UPDATES = 20000, THREADS = 4 };

static struct latchsym_writer writer;
static struct latchsym_reader readers[MOST + 1];
static const struct latchsym_item item = {0x1000, 0x2000, 7};
static atomic_int is_over;
static atomic_long answers;

/* The item is there where the generation is odd. */
static int is_right(uint32_t answer, const struct latchsym_found *found) {
    if (found->generation % 2 == 0) return answer == LATCHSYM_NOTHING && !found->tag;
    return answer == LATCHSYM_DONE && found->a == item.a && found->b == item.b && found->tag == item.tag;
}

static void handles_that_are_not_so(void) {
    struct latchsym_reader *no_reader = (struct latchsym_reader *)&writer;
    struct latchsym_writer *no_writer = (struct latchsym_writer *)&readers[0];
    struct latchsym_handle before;
    CHECK(latchsym_writer_add_reader(&writer, &readers[0]) == LATCHSYM_BAD_HANDLE && !readers[0].handle.at);
    CHECK(latchsym_table_open(8, &writer, readers, 1) == LATCHSYM_DONE);
    before = readers[0].handle;
    CHECK(latchsym_writer_add_reader(&writer, &readers[0]) == LATCHSYM_BAD_HANDLE);
    CHECK(latchsym_writer_add_reader(&writer, no_reader) == LATCHSYM_BAD_HANDLE);
    CHECK(latchsym_writer_add_reader(no_writer, &readers[1]) == LATCHSYM_BAD_HANDLE && !readers[1].handle.at);
    CHECK(latchsym_writer_take_reader(&writer, no_reader) == LATCHSYM_BAD_HANDLE);
    CHECK(latchsym_writer_take_reader(&writer, &readers[1]) == LATCHSYM_BAD_HANDLE);
    CHECK(latchsym_writer_take_reader(no_writer, &readers[0]) == LATCHSYM_BAD_HANDLE);
    CHECK(!memcmp(&before, &readers[0].handle, sizeof before));
}

/* Readers are taken back until the table has none, and one of another table then is one too many. */
static void taken_back_to_the_last(void) {
    struct latchsym_writer other = {{0, NULL}};
    struct latchsym_reader of_other = {{0, NULL}};
    struct latchsym_handle before;
    CHECK(latchsym_table_open(8, &other, readers, 2) == LATCHSYM_DONE);
    CHECK(latchsym_writer_take_reader(&other, &readers[0]) == LATCHSYM_DONE && !readers[0].handle.at);
    CHECK(latchsym_writer_take_reader(&other, &readers[0]) == LATCHSYM_BAD_HANDLE);
    CHECK(latchsym_writer_take_reader(&other, &readers[1]) == LATCHSYM_DONE);
    CHECK(latchsym_table_open(8, &writer, &of_other, 1) == LATCHSYM_DONE);
    before = of_other.handle;
    CHECK(latchsym_writer_take_reader(&other, &of_other) == LATCHSYM_BAD_CAPACITY);
    CHECK(!memcmp(&before, &of_other.handle, sizeof before));
    CHECK(latchsym_writer_add_reader(&other, &readers[0]) == LATCHSYM_DONE);
    CHECK(latchsym_table_enlarge(9, &other, readers, 1) == LATCHSYM_DONE);
    latchsym_reader_close(&readers[0]);
    latchsym_writer_close(&other);
    latchsym_reader_close(&of_other);
    latchsym_writer_close(&writer);
}

/* A reader that is added at a step finds what a reader from the opening finds there. Returns how many there are. */
static int at_each_step(void) {
    struct latchsym_found found, same;
    int count = 1, flips = 0;
    CHECK(latchsym_writer_begin_insert(&writer, &item) == LATCHSYM_DONE);
    for (uint32_t did = LATCHSYM_STORE; did != LATCHSYM_DONE; count++) {
        CHECK(latchsym_writer_add_reader(&writer, &readers[count]) == LATCHSYM_DONE);
        uint32_t answer = latchsym_reader_try_find(&readers[count], 0x1fff, &found);
        CHECK(answer == (flips == 2 ? LATCHSYM_DONE : LATCHSYM_NOTHING) && found.generation == (flips == 2));
        CHECK(latchsym_reader_try_find(&readers[0], 0x1fff, &same) == answer && !memcmp(&found, &same, sizeof found));
        did = latchsym_writer_step(&writer);
        flips += did == LATCHSYM_FLIP;
    }
    CHECK(flips == 2 && count > 5);
    return count;
}

/* A larger table takes all of its readers, those that were added among them. */
static void enlarged(int count, uint32_t nodes) {
    CHECK(latchsym_table_enlarge(nodes, &writer, readers, count - 1) == LATCHSYM_BAD_HANDLE);
    CHECK(latchsym_table_enlarge(nodes, &writer, readers, count + 1) == LATCHSYM_BAD_HANDLE);
    CHECK(latchsym_table_enlarge(nodes, &writer, readers, count) == LATCHSYM_DONE);
    for (int i = 0; i < count; i++) {
        struct latchsym_found found;
        CHECK(latchsym_reader_try_find(&readers[i], 0x1000, &found) == LATCHSYM_DONE && found.generation == 1);
    }
}

static void *look_up(void *reader) {
    uint64_t last = 0;
    long right = 0;
    while (!atomic_load(&is_over)) {
        struct latchsym_found found;
        uint32_t answer = latchsym_reader_try_find(reader, 0x1800, &found);
        if (answer == LATCHSYM_RETRY) continue;
        CHECK(is_right(answer, &found) && found.generation >= last);
        last = found.generation;
        right++;
    }
    answers += right;
    return NULL;
}

static void beside_threads(void) {
    pthread_t threads[THREADS];
    uint64_t generation;
    int count = 1;
    CHECK(latchsym_table_open(8, &writer, readers, 1) == LATCHSYM_DONE);
    CHECK(!pthread_create(&threads[0], NULL, look_up, &readers[0]));
    for (uint64_t k = 1; k <= UPDATES; k++) {
        CHECK(!(k % 2 ? latchsym_writer_begin_insert(&writer, &item) : latchsym_writer_begin_erase(&writer, item.a)));
        latchsym_writer_step(&writer);
        if (k % 4000 == 100 && count < THREADS) {
            CHECK(latchsym_writer_add_reader(&writer, &readers[count]) == LATCHSYM_DONE);
            CHECK(!pthread_create(&threads[count], NULL, look_up, &readers[count]));
            count++;
        }
        CHECK(latchsym_writer_finish(&writer, &generation) == LATCHSYM_DONE && generation == k);
    }
    atomic_store(&is_over, 1);
    for (int i = 0; i < count; i++) pthread_join(threads[i], NULL);
    CHECK(count == THREADS);
    printf("adding: %ld answers of %d threads\n", (long)answers, count);
}

static void close_all(int count) {
    for (int i = 0; i < count; i++) latchsym_reader_close(&readers[i]);
    latchsym_writer_close(&writer);
}

int main(void) {
    taken_back_to_the_last();
    handles_that_are_not_so();
    int count = at_each_step();
    enlarged(count, 16);
    for (; count < MOST; count++) CHECK(latchsym_writer_add_reader(&writer, &readers[count]) == LATCHSYM_DONE);
    CHECK(latchsym_writer_add_reader(&writer, &readers[MOST]) == LATCHSYM_BAD_CAPACITY && !readers[MOST].handle.at);
    CHECK(latchsym_writer_take_reader(&writer, &readers[5]) == LATCHSYM_DONE && !readers[5].handle.at);
    CHECK(latchsym_writer_add_reader(&writer, &readers[5]) == LATCHSYM_DONE);
    enlarged(MOST, 17);
    latchsym_reader_close(&readers[5]); /* which frees no place */
    CHECK(latchsym_writer_add_reader(&writer, &readers[5]) == LATCHSYM_BAD_CAPACITY);
    close_all(MOST);
    beside_threads();
    close_all(THREADS);
    puts("adding: ok");
}
