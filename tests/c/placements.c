/* Every placement of calls on a pool of readers beside each other: each order of their atomic steps, and of those between
 * which they have a reader. Two closes, a close beside an enlarging, and a lookup beside these: no reader is in two calls or
 * used once it is closed, none stays claimed, and of two calls that want all slots one gets them.
 *
 * A call runs on a stack of its own, and stops before each step. A placement is a list of which call goes on:
 *
 *     start --A--> --A--> --B--> ..      each state with its ways on is looked at once: a state is the pool, and
 *              \--B--> --A--> ..         what each call has read so far, which shows where in its code it is
 *
 * Claims and gives are those of the header, in the order of their steps (sequentially consistent): claims.c shows whether
 * weaker orders suffice. With an argument it also tries a lookup beside two others on two slots, in a minute. */
#define _GNU_SOURCE
#include <stddef.h>
#include <stdint.h>

static void stop(void);
static uint64_t observe(uint64_t value);
#define __atomic_load_n(at, order) (stop(), observe(__atomic_load_n(at, order)))
#define __atomic_fetch_or(at, bits, order) (stop(), observe(__atomic_fetch_or(at, bits, order)))
#define __atomic_exchange_n(at, value, order) (stop(), observe(__atomic_exchange_n(at, value, order)))
#define __atomic_store_n(at, value, order) (stop(), __atomic_store_n(at, value, order))
#define LATCHSYM_POOL_LOOKS 2
#include <latchsym.h>
#include "stand_in.h"
#include <stdlib.h>
#include <ucontext.h>

enum { MOST_CALLS = 3, MOST_STEPS = 400, MOST_STATES = 1 << 21, STACK = 1 << 16 };

/* A call: what it does, where it stopped, what it has read and how often it stopped, and what it returned. */
struct call {
    uint32_t (*body)(void);
    ucontext_t at;
    uint64_t seen;
    int steps, is_over;
    uint32_t answer;
};

static struct call calls[MOST_CALLS];
static char stacks[MOST_CALLS][STACK] __attribute__((aligned(16)));
static int calls_len, running = -1;
static size_t slots;
static ucontext_t scheduler;
static int order[MOST_STEPS];
static struct { uint64_t key; double ways; } states[MOST_STATES];
static long states_len;

static void stop(void) {
    if (running < 0) return;
    calls[running].steps++;
    CHECK(!swapcontext(&calls[running].at, &scheduler));
}

static uint64_t mixed(uint64_t sum, uint64_t value) {
    sum = (sum ^ value) * 0x9e3779b97f4a7c15;
    return sum ^ sum >> 29;
}

static uint64_t observe(uint64_t value) {
    if (running >= 0) calls[running].seen = mixed(calls[running].seen, value);
    return value;
}

static void begin(void) {
    struct call *call = &calls[running];
    call->answer = call->body();
    call->is_over = 1;
}

/* One step of a call. */
static void step(int number) {
    running = number;
    CHECK(!swapcontext(&scheduler, &calls[number].at));
    running = -1;
}

/* From the start, the steps of the calls in this order. */
static void replay(int depth) {
    open_pool(slots);
    pool.shift = 32; /* lookups begin at the first slot, wherever their stacks lie */
    for (int i = 0; i < calls_len; i++) {
        struct call *call = &calls[i];
        *call = (struct call){.body = call->body};
        CHECK(!getcontext(&call->at));
        call->at.uc_stack.ss_sp = stacks[i];
        call->at.uc_stack.ss_size = STACK;
        call->at.uc_link = &scheduler;
        makecontext(&call->at, begin, 0);
        step(i); /* up to its first step */
    }
    for (int i = 0; i < depth; i++) step(order[i]);
}

static uint64_t key_of_state(void) {
    uint64_t key = mixed(mixed(1, pool.slots_len), pool.is_wanted);
    for (size_t i = 0; i < slots; i++)
        key = mixed(mixed(key, pool.slots[i].claims), number_of(&pool.slots[i].reader));
    for (int i = 0; i < words_len; i++) key = mixed(key, (uint64_t)(2 * words[i].calls + words[i].is_gone));
    for (int i = 0; i < calls_len; i++)
        key = mixed(mixed(mixed(key, calls[i].seen), (uint64_t)calls[i].steps), (uint64_t)calls[i].is_over);
    return key ? key : 1;
}

static uint32_t close_it(void) { return latchsym_pool_close(&pool); }
static uint32_t enlarge_it(void) { return latchsym_pool_enlarge(8, &writer, &pool); }
static uint32_t find_in_it(void) {
    struct latchsym_found found;
    return latchsym_pool_try_find(&pool, 7, &found);
}

/* What holds when all calls have returned. */
static void check_end(void) {
    int want_all = 0, busy = 0, closed = 0, lookups = 0;
    for (int i = 0; i < calls_len; i++) {
        const uint32_t answer = calls[i].answer;
        const int is_lookup = calls[i].body == find_in_it, is_close = calls[i].body == close_it;
        CHECK(answer == LATCHSYM_DONE || answer == LATCHSYM_BUSY || (answer == LATCHSYM_BAD_HANDLE && !is_close));
        lookups += is_lookup;
        want_all += !is_lookup;
        busy += !is_lookup && answer == LATCHSYM_BUSY;
        closed += is_close && answer == LATCHSYM_DONE;
        CHECK(answer != LATCHSYM_BAD_HANDLE || !pool.slots_len);
    }
    check_rest(slots);
    CHECK(!closed == !!pool.slots_len);
    CHECK(lookups || busy < want_all);
}

/* The number of placements that go on from the state to which this order leads, each of which ends right. */
static double ways(int depth) {
    int is_over[MOST_CALLS], left = 0;
    double sum = 0;
    CHECK(depth < MOST_STEPS);
    replay(depth);
    for (int i = 0; i < calls_len; i++) left += !(is_over[i] = calls[i].is_over);
    if (!left) return check_end(), 1;
    const uint64_t key = key_of_state();
    uint64_t place = key % MOST_STATES;
    for (; states[place].key; place = (place + 1) % MOST_STATES)
        if (states[place].key == key) return states[place].ways;
    for (int i = 0; i < calls_len; i++) {
        if (is_over[i]) continue;
        order[depth] = i;
        sum += ways(depth + 1);
    }
    /* (the place may be another's by now) */
    for (place = key % MOST_STATES; states[place].key; place = (place + 1) % MOST_STATES) {}
    CHECK(++states_len < MOST_STATES / 2);
    states[place].key = key;
    states[place].ways = sum;
    return sum;
}

static void all_of(const char *name, size_t on, int count, uint32_t (*const *bodies)(void)) {
    calls_len = count;
    slots = on;
    for (int i = 0; i < count; i++) calls[i].body = bodies[i];
    memset(states, 0, sizeof states);
    states_len = 0;
    const double placements = ways(0);
    printf("placements: %s, %zu slots: %.0f placements over %ld states\n", name, on, placements, states_len);
    CHECK(placements > 1);
}

#define ALL_OF(name, slots, ...) all_of(name, slots, sizeof BODIES(__VA_ARGS__) / sizeof(void *), BODIES(__VA_ARGS__))
#define BODIES(...) (uint32_t (*[])(void)){__VA_ARGS__}

int main(int argc, char **argv) {
    (void)argv;
    for (size_t on = 1; on <= 2; on++) {
        ALL_OF("two closes", on, close_it, close_it);
        ALL_OF("a close beside an enlarging", on, close_it, enlarge_it);
        ALL_OF("a close beside a lookup", on, close_it, find_in_it);
        ALL_OF("an enlarging beside a lookup", on, enlarge_it, find_in_it);
    }
    ALL_OF("a close, an enlarging and a lookup", 1, close_it, enlarge_it, find_in_it);
    ALL_OF("two closes and an enlarging", 2, close_it, close_it, enlarge_it);
    if (argc > 1) {
        ALL_OF("a close, an enlarging and a lookup", 2, close_it, enlarge_it, find_in_it);
        ALL_OF("two closes and a lookup", 2, close_it, close_it, find_in_it);
    }
    puts("placements: ok");
}
