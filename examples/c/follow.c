/* SPDX-License-Identifier: MIT OR Apache-2.0 */
/* A profiler that follows a listing: `follow KALLSYMS MODULES [WATCHED]` (an empty name of MODULES: modules come from the
 * symbols). One thread polls the files by latchsym_follow.h each second, and when a line says so. WATCHED is in the form of
 * /proc/modules: while it says the same, no listing is read again for a minute. It is /proc/modules where KALLSYMS is
 * /proc/kallsyms. A listing that cannot be read, or of which something is noted that is not noted of the one shown, is
 * told of and not taken.
 *
 * SIGPROF samples other threads, which look an address up in the handler (drawn here, as there is no kernel below) and
 * keep it with the generation of the answer. The main thread names each sample by the listing that stood then, and
 * frees those that no sample can need any more.  cc follow.c $(pkg-config --cflags --libs latchsym) -lpthread */
#define _GNU_SOURCE
#include <inttypes.h>
#include <latchsym_follow.h>
#include <poll.h>
#include <pthread.h>
#include <signal.h>
#include <stdatomic.h>
#include <stdio.h>
#include <stdlib.h>
#include <string.h>
#include <sys/time.h>
#include <time.h>
#include <unistd.h>

enum { THREADS = 3, NODES = 4096, ROOM = 4096, MOST_TRIES = 1000, SECOND = 1000 };

struct sample { uint64_t addr, generation; };

/* Each thread has a reader for its handler, which puts samples into the ring at `put`; the main thread takes them out at
 * `taken`, the last one of the generation `passed`. */
struct thread {
    pthread_t id;
    struct latchsym_reader reader;
    uint64_t drawn, passed;
    struct sample ring[ROOM];
    atomic_size_t put, taken;
    atomic_ullong lost;
};

static struct latchsym_followed files = LATCHSYM_FOLLOWED_INIT;
static struct thread threads[THREADS];
static struct latchsym_follower follower;
static pthread_mutex_t following = PTHREAD_MUTEX_INITIALIZER; /* one call on the follower at a time */
static atomic_ullong first_addr, span = 1;
static atomic_int ended;
static _Thread_local struct thread *self;

static void must(uint32_t answer) {
    if (answer) fprintf(stderr, "follow: %s\n", latchsym_text(answer)), exit(1);
}

/* The handler: no lock, no memory. A reader asks again only where the writer flipped meanwhile. */
static void sample(int number) {
    struct latchsym_found found;
    uint32_t answer = LATCHSYM_RETRY;
    (void)number;
    if (!self) return; /* the signal came to another thread */
    self->drawn ^= self->drawn << 13, self->drawn ^= self->drawn >> 7, self->drawn ^= self->drawn << 17;
    uint64_t addr = atomic_load(&first_addr) + self->drawn % atomic_load(&span);
    size_t put = atomic_load(&self->put);
    for (int tries = 0; answer == LATCHSYM_RETRY && tries < MOST_TRIES; tries++)
        answer = latchsym_reader_try_find(&self->reader, addr, &found);
    if (answer == LATCHSYM_RETRY || put - atomic_load(&self->taken) == ROOM) {
        atomic_fetch_add(&self->lost, 1);
    } else {
        self->ring[put % ROOM] = (struct sample){addr, found.generation};
        atomic_store(&self->put, put + 1);
    }
}

static void *work(void *thread) {
    volatile unsigned x = 1;
    self = thread;
    while (!atomic_load(&ended)) x = x * 1664525 + 1013904223;
    return self = NULL;
}

static uint64_t now(void) {
    struct timespec time;
    clock_gettime(CLOCK_MONOTONIC, &time);
    return (uint64_t)time.tv_sec * 1000000000u + (uint64_t)time.tv_nsec;
}

/* Shows the listing that was read to all readers, in one update. */
static void show(void) {
    static struct latchsym_item items[NODES];
    const size_t bytes = files.read->bytes[0].len;
    struct latchsym_sizes sizes;
    uint64_t generation;
    must(latchsym_catalog_sizes(&files.catalog, &sizes));
    if (sizes.regions > NODES) must(LATCHSYM_FULL);
    must(latchsym_catalog_items(&files.catalog, items, sizes.regions));
    pthread_mutex_lock(&following);
    must(latchsym_followed_show(&files, &follower, now(), &generation));
    pthread_mutex_unlock(&following);
    if (sizes.regions) /* where addresses are drawn from */
        atomic_store(&first_addr, items[0].a), atomic_store(&span, items[sizes.regions - 1].b - items[0].a);
    printf("listing %" PRIu64 ": %zu regions of %zu bytes\n", generation, sizes.regions, bytes);
    fflush(stdout);
}

static void note(const char *name, uint32_t number) {
    if (number != LATCHSYM_NOTHING) fprintf(stderr, "follow: note: %s: %s\n", name, latchsym_text(number));
}

/* Polls, without the lock while the files are read, and tells of a listing that is not taken. */
static void poll_files(void) {
    const int answer = latchsym_followed_read(&files, now());
    if (answer < 0) {
        fprintf(stderr, "follow: %s: %s\n", files.at_fault, strerror(errno));
    } else if (files.at_fault) {
        note(files.at_fault, (uint32_t)answer);
    } else if (answer != LATCHSYM_NOTHING) {
        must((uint32_t)answer);
        if (!files.shown) note(files.kallsyms, files.read->notes[0]), note(files.modules, files.read->notes[1]);
        show();
    }
}

/* Polls each time that a line says so, and each second. */
static void *watch(void *unused) {
    struct pollfd told = {STDIN_FILENO, POLLIN, 0};
    char bytes[256];
    while (poll(&told, 1, SECOND) <= 0 || read(STDIN_FILENO, bytes, sizeof bytes) > 0) poll_files();
    return atomic_store(&ended, 1), unused;
}

static void name_sample(const struct sample *it) {
    struct latchsym_symbol symbol = LATCHSYM_SYMBOL_INIT;
    pthread_mutex_lock(&following);
    uint32_t answer = latchsym_follower_find(&follower, it->generation, it->addr, &symbol);
    pthread_mutex_unlock(&following);
    printf("%" PRIu64 " 0x%" PRIx64 " ", it->generation, it->addr);
    if (answer) printf(symbol.module_number ? "?" : "-");
    else printf("%.*s+0x%" PRIx64, (int)symbol.name.len, (const char *)symbol.name.at, symbol.offset);
    if (symbol.module_number) printf(" [%.*s]", (int)symbol.module.len, (const char *)symbol.module.at);
    putchar('\n');
}

/* Names the samples of all threads, and frees each listing whose successor every thread has passed: a reader's
 * generations never fall, so no sample before that of the last one comes any more. */
static uint64_t name_samples(void) {
    uint64_t passed = UINT64_MAX, named = 0;
    for (struct thread *thread = threads; thread < threads + THREADS; thread++) {
        for (size_t put = atomic_load(&thread->put); thread->taken != put; atomic_fetch_add(&thread->taken, 1), named++) {
            name_sample(&thread->ring[thread->taken % ROOM]);
            thread->passed = thread->ring[thread->taken % ROOM].generation;
        }
        if (thread->passed < passed) passed = thread->passed;
    }
    pthread_mutex_lock(&following);
    latchsym_followed_forget(&follower, passed);
    pthread_mutex_unlock(&following);
    return named;
}

int main(int count, char **words) {
    struct latchsym_reader readers[THREADS] = {0};
    struct sigaction action = {.sa_handler = sample, .sa_flags = SA_RESTART};
    struct itimerval each_ms = {{0, 1000}, {0, 1000}}, never = {0};
    pthread_t watcher;
    uint64_t named = 0, lost = 0;
    if (count != 3 && count != 4) return fprintf(stderr, "usage: follow KALLSYMS MODULES [WATCHED]\n"), 2;
    if (strcmp(words[1], files.kallsyms)) files.kallsyms = words[1], files.watched = NULL;
    if (*words[2]) files.modules = words[2];
    if (count == 4) files.watched = words[3];
    must(latchsym_follower_open(NODES, &follower, readers, THREADS));
    if (poll_files(), !files.shown) return 1;
    sigaction(SIGPROF, &action, NULL);
    for (int i = 0; i < THREADS; i++) {
        threads[i].reader = readers[i], threads[i].drawn = 88172645463325252u + (uint64_t)i, threads[i].passed = 1;
        if (pthread_create(&threads[i].id, NULL, work, &threads[i])) return 1;
    }
    if (pthread_create(&watcher, NULL, watch, NULL)) return 1;
    setitimer(ITIMER_PROF, &each_ms, NULL);
    while (!atomic_load(&ended)) usleep(20000), named += name_samples();
    setitimer(ITIMER_PROF, &never, NULL);
    pthread_join(watcher, NULL);
    for (int i = 0; i < THREADS; i++)
        pthread_join(threads[i].id, NULL), lost += threads[i].lost, latchsym_reader_close(&threads[i].reader);
    named += name_samples();
    latchsym_followed_close(&files, &follower);
    fprintf(stderr, "follow: %" PRIu64 " samples named, %" PRIu64 " lost\n", named, lost);
    return 0;
}
