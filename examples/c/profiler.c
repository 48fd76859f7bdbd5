/* SPDX-License-Identifier: MIT OR Apache-2.0 */
/* A profiler of code that comes and goes. Three threads run code whose ranges the main thread loads into a table and
 * takes out again, while SIGPROF samples them. The handler finds the range that the thread was in, by a pool of readers
 * that all threads share, and counts the sample for what the range's tag points to. That is freed once no handler can
 * find it any more. The table grows as it is full, while the handlers go on.
 * cc profiler.c $(pkg-config --cflags --libs latchsym) -lpthread -o profiler */
#define _GNU_SOURCE
#include <latchsym.h>
#include <pthread.h>
#include <sched.h>
#include <signal.h>
#include <stdatomic.h>
#include <stdio.h>
#include <stdlib.h>
#include <sys/time.h>
#include <ucontext.h>
#include <unistd.h>

enum { THREADS = 3, PARTS = 3, ROUNDS = 60, MOST_TRIES = 1000000 };

/* Code in a range of its own, as a compiler at run time or a loader of plugins has it: the linker marks the bounds. */
#define PART(name)                                                                                                     \
    __attribute__((noinline, section("part_" #name))) static unsigned name(unsigned x) {                               \
        for (int i = 0; i < 20000; i++) x = x * 1664525 + 1013904223;                                                  \
        return x;                                                                                                      \
    }                                                                                                                  \
    extern const char __start_part_##name[], __stop_part_##name[];
PART(parse)
PART(sort)
PART(write_out)
#define BOUNDS(name) {#name, name, (uintptr_t)__start_part_##name, (uintptr_t)__stop_part_##name}

struct part { const char *name; unsigned (*run)(unsigned); uint64_t start, end; };

/* What the tag of a range points to while the range is in the table. */
struct loaded { const struct part *part; atomic_long samples; uint64_t gone; struct loaded *next; };

/* Each thread says how far its handler has come. */
struct thread {
    pthread_t id;
    atomic_long round;     /* the round that it works in */
    atomic_ullong passed;  /* the generation of its last sample, once what was found is no longer used */
    atomic_long outside, unnamed, given_up;
};

static const struct part *parts;
static struct thread threads[THREADS];
static struct latchsym_writer writer;
static struct latchsym_pool pool;
static uint32_t nodes = 1;
static atomic_long current_round;
static struct loaded *retired;
static long samples, freed;
static _Thread_local struct thread *self;

static uint64_t pc_of(void *context) {
#if defined(__x86_64__)
    return ((ucontext_t *)context)->uc_mcontext.gregs[REG_RIP];
#else
    return ((ucontext_t *)context)->uc_mcontext.pc;
#endif
}

static int is_of_a_part(uint64_t pc) {
    for (int i = 0; i < PARTS; i++)
        if (parts[i].start <= pc && pc < parts[i].end) return 1;
    return 0;
}

/* The handler. It asks again only where the writer flipped meanwhile, or the table just grows; it takes no memory, and
 * waits for no other handler: there is a slot for each thread. */
static void sample(int number, siginfo_t *info, void *context) {
    struct latchsym_found found;
    uint64_t pc = pc_of(context);
    uint32_t answer;
    int tries = 0;
    (void)number, (void)info;
    do answer = latchsym_pool_try_find(&pool, pc, &found);
    while ((answer == LATCHSYM_RETRY || answer == LATCHSYM_BUSY) && ++tries < MOST_TRIES);
    if (tries == MOST_TRIES) {
        atomic_fetch_add(&self->given_up, 1);
        return;
    }
    if (answer == LATCHSYM_DONE)
        atomic_fetch_add(&((struct loaded *)(uintptr_t)found.tag)->samples, 1);
    else
        atomic_fetch_add(is_of_a_part(pc) ? &self->unnamed : &self->outside, 1);
    atomic_store(&self->passed, found.generation);
}

static void *work(void *thread) {
    sigset_t prof;
    unsigned x = 1;
    self = thread;
    sigemptyset(&prof);
    sigaddset(&prof, SIGPROF);
    pthread_sigmask(SIG_UNBLOCK, &prof, NULL); /* the main thread has it blocked */
    for (long round; (round = atomic_load(&current_round)) >= 0;) {
        atomic_store(&self->round, round);
        x = parts[round % PARTS].run(x);
    }
    pthread_sigmask(SIG_BLOCK, &prof, NULL);
    return (void *)(uintptr_t)x;
}

static void must(uint32_t answer) {
    if (answer == LATCHSYM_DONE) return;
    fprintf(stderr, "profiler: %s\n", latchsym_text(answer));
    exit(1);
}

/* One node more, as soon as no handler is in a call. */
static void grow(void) {
    uint32_t answer;
    while ((answer = latchsym_pool_enlarge(nodes + 1, &writer, &pool)) == LATCHSYM_BUSY) sched_yield();
    must(answer);
    nodes++;
}

static struct loaded *load(const struct part *part) {
    struct loaded *new = calloc(1, sizeof *new);
    uint32_t answer;
    if (!new) must(LATCHSYM_OUT_OF_MEMORY);
    new->part = part;
    struct latchsym_item item = {part->start, part->end, (uintptr_t)new};
    while ((answer = latchsym_writer_begin_insert(&writer, &item)) == LATCHSYM_FULL) grow();
    must(answer);
    must(latchsym_writer_finish(&writer, &(uint64_t){0}));
    return new;
}

/* Takes a range out. What its tag points to is still there for handlers that found it before. */
static void unload(struct loaded *old) {
    must(latchsym_writer_begin_erase(&writer, old->part->start));
    must(latchsym_writer_finish(&writer, &old->gone));
    old->next = retired;
    retired = old;
}

/* The generations of a thread's samples never fall. So once each thread has had that of an erasure, or a later one, no
 * handler finds what was erased; and those that found it before have used it. */
static void free_what_all_passed(void) {
    uint64_t passed = UINT64_MAX;
    for (int i = 0; i < THREADS; i++) {
        uint64_t its = atomic_load(&threads[i].passed);
        if (its < passed) passed = its;
    }
    for (struct loaded **at = &retired, *old; (old = *at);) {
        if (old->gone > passed) {
            at = &old->next;
            continue;
        }
        *at = old->next;
        samples += old->samples;
        freed++;
        free(old);
    }
}

static void wait_for(long round) {
    for (int i = 0; i < THREADS; i++)
        while (atomic_load(&threads[i].round) != round) usleep(100);
}

static void run_rounds(void) {
    struct loaded *old = load(&parts[0]), *new;
    for (int i = 0; i < THREADS; i++)
        if (pthread_create(&threads[i].id, NULL, work, &threads[i])) exit(1);
    for (long round = 1; round <= ROUNDS; round++) {
        usleep(5000);
        new = load(&parts[round % PARTS]);
        atomic_store(&current_round, round);
        wait_for(round); /* no thread runs the old code any more */
        unload(old);
        free_what_all_passed();
        old = new;
    }
    atomic_store(&current_round, -1);
    for (int i = 0; i < THREADS; i++) pthread_join(threads[i].id, NULL);
    unload(old);
}

int main(void) {
    const struct part all[PARTS] = {BOUNDS(parse), BOUNDS(sort), BOUNDS(write_out)};
    struct sigaction action = {.sa_sigaction = sample, .sa_flags = SA_SIGINFO | SA_RESTART};
    struct itimerval each_ms = {{0, 1000}, {0, 1000}}, never = {{0, 0}, {0, 0}};
    long outside = 0, unnamed = 0, given_up = 0, early;
    sigset_t prof;
    sigemptyset(&prof);
    sigaddset(&prof, SIGPROF);
    pthread_sigmask(SIG_BLOCK, &prof, NULL);
    parts = all;
    must(latchsym_pool_open(nodes, THREADS, &writer, &pool));
    sigaction(SIGPROF, &action, NULL);
    setitimer(ITIMER_PROF, &each_ms, NULL);
    run_rounds();
    setitimer(ITIMER_PROF, &never, NULL);
    early = freed;
    must(latchsym_pool_close(&pool)); /* all threads have ended: no handler finds anything any more */
    for (int i = 0; i < THREADS; i++) {
        atomic_store(&threads[i].passed, UINT64_MAX);
        outside += threads[i].outside, unnamed += threads[i].unnamed, given_up += threads[i].given_up;
    }
    latchsym_writer_close(&writer);
    free_what_all_passed();
    printf("profiler: %ld samples of code that came %ld times, of which %ld were freed while it ran\n", samples, freed, early);
    printf("profiler: %ld samples of other code, %ld given up, %ld without a name\n", outside, given_up, unnamed);
    return !samples || unnamed;
}
