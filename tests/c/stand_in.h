/* A stand-in for the library under the header's pool of readers, so that wrong claims are seen: each reader has a plain word,
 * which a call writes and then still finds as it wrote it. Enlarging gives each reader another word, and the old one is gone.
 *
 *     slot 0  reader -> word 0 (gone)  word 2
 *     slot 1  reader -> word 1 (gone)  word 3
 *
 * Who includes this has defined `stop`, between two steps of a call, and `observe`, what a call has read. */
#include <stdio.h>
#include <string.h>
#include <unistd.h>

#define CHECK(x) do { if (!(x)) { dprintf(1, "%s: line %d: %s\n", __FILE__, __LINE__, #x); _exit(1); } } while (0)

enum { MOST_WORDS = 1 << 16 };

struct word { long calls; int is_gone; };

static struct word words[MOST_WORDS];
static int words_len;
static struct latchsym_pool pool;
static struct latchsym_writer writer;

static struct word *word_of(const struct latchsym_reader *reader) { return reader->handle.at; }

/* The number of a reader's word, from 1 on, and 0 of a closed one. */
static uint64_t number_of(const struct latchsym_reader *reader) {
    return word_of(reader) ? (uint64_t)(word_of(reader) - words) + 1 : 0;
}

static void give_word(struct latchsym_reader *reader) {
    CHECK(words_len < MOST_WORDS);
    words[words_len] = (struct word){0, 0};
    reader->handle.at = &words[words_len++];
}

/* One call on a reader: no other has it meanwhile, and its word is there. */
static void use(struct latchsym_reader *reader) {
    struct word *word = word_of(reader);
    CHECK(word && !word->is_gone);
    const long calls = ++word->calls;
    stop();
    CHECK(word_of(reader) == word && !word->is_gone && word->calls == calls);
}

uint32_t latchsym_reader_try_find(struct latchsym_reader *reader, uint64_t addr, struct latchsym_found *out) {
    observe(number_of(reader));
    if (!word_of(reader)) return LATCHSYM_BAD_HANDLE;
    use(reader);
    *out = (struct latchsym_found){addr, addr, 0, 0};
    return LATCHSYM_DONE;
}

void latchsym_reader_close_nonnull(struct latchsym_reader *reader) {
    observe(number_of(reader));
    if (!word_of(reader)) return;
    use(reader);
    word_of(reader)->is_gone = 1;
    reader->handle.at = NULL;
}

/* (One call at a time has the writer, so that the words may be counted plainly.) */
uint32_t latchsym_table_enlarge_nonnull(uint32_t nodes, struct latchsym_writer *of, struct latchsym_reader *readers,
                                        size_t count) {
    CHECK(nodes && of == &writer);
    for (size_t i = 0; i < count; i++) observe(number_of(&readers[i]));
    for (size_t i = 0; i < count; i++) {
        use(&readers[i]);
        word_of(&readers[i])->is_gone = 1;
        give_word(&readers[i]);
    }
    return LATCHSYM_DONE;
}

static void open_pool(size_t slots) {
    struct latchsym_reader readers[LATCHSYM_POOL_MOST];
    memset(&pool, 0, sizeof pool);
    words_len = 0;
    for (size_t i = 0; i < slots; i++) give_word(&readers[i]);
    CHECK(latchsym_pool_fill(&pool, readers, slots) == LATCHSYM_DONE);
}

/* No slot stays claimed, and each reader is open if and only if the pool is. */
static void check_rest(size_t slots) {
    CHECK((pool.slots_len == slots || !pool.slots_len) && !pool.is_wanted);
    for (size_t i = 0; i < slots; i++) {
        const struct word *word = word_of(&pool.slots[i].reader);
        CHECK(pool.slots[i].claims % 2 == 0 && !word == !pool.slots_len && (!word || !word->is_gone));
    }
}
