/* A table that follows a listing beside libbcc's cache under a lock, in one program:
 *
 *     follow ONE OTHER SECONDS
 *
 * Two listings in the form of /proc/kallsyms are shown by turns, ONE being what /proc/kallsyms has. Prints how long it
 * takes to read one, to open its catalog and to make the update; how many addresses a reader finds in a second alone
 * and beside replacements that never rest; and the same of libbcc, whose cache of the kernel is never read again and so
 * is made anew under a lock that its reader takes too. */
#define _GNU_SOURCE
#include <bcc/bcc_syms.h>
#include <latchsym.h>
#include <pthread.h>
#include <stdatomic.h>
#include <stdio.h>
#include <stdlib.h>
#include <time.h>
#include <unistd.h>

enum { NODES = 1024, TURNS = 50, MOST_REGIONS = 512, FINDS = 4096 };

struct listing { uint8_t *bytes; size_t len; struct latchsym_catalog catalog; };

static struct latchsym_writer writer;
static struct latchsym_reader reader;
static struct latchsym_item items[MOST_REGIONS];
static struct latchsym_sizes sizes;
static atomic_int ended;
static atomic_long finds, replacements;
static pthread_mutex_t lock = PTHREAD_MUTEX_INITIALIZER;
static void *cache;
static double seconds;
static uint64_t first_addr, span; /* of the listing shown last; set before a thread draws */

static double now(void) {
    struct timespec t;
    clock_gettime(CLOCK_MONOTONIC, &t);
    return t.tv_sec + t.tv_nsec / 1e9;
}

static void must(uint32_t answer) {
    if (answer != LATCHSYM_DONE) fprintf(stderr, "follow: %s\n", latchsym_text(answer)), exit(1);
}

static double read_listing(const char *name, struct listing *to) {
    double start = now();
    FILE *file = fopen(name, "rb");
    if (!file) perror(name), exit(1);
    fseek(file, 0, SEEK_END);
    to->len = ftell(file);
    rewind(file);
    to->bytes = malloc(to->len);
    if (fread(to->bytes, 1, to->len, file) != to->len) exit(1);
    fclose(file);
    return now() - start;
}

static double open_catalog(struct listing *of) {
    struct latchsym_listings given = LATCHSYM_LISTINGS_INIT;
    struct latchsym_counts counts;
    uint64_t line;
    double start = now();
    given.kallsyms = (struct latchsym_place){of->bytes, of->len};
    must(latchsym_catalog_open(&given, &of->catalog, &counts, &line));
    return now() - start;
}

static double replace(struct listing *by) {
    uint64_t generation;
    must(latchsym_catalog_sizes(&by->catalog, &sizes));
    if (sizes.regions > MOST_REGIONS) exit(1);
    must(latchsym_catalog_items(&by->catalog, items, sizes.regions));
    double start = now();
    must(latchsym_writer_begin_replace(&writer, items, sizes.regions));
    must(latchsym_writer_finish(&writer, &generation));
    return now() - start;
}

static uint64_t draw(uint64_t *state) {
    *state = *state * 6364136223846793005 + 1442695040888963407;
    return first_addr + (*state >> 16) % span;
}

static void *find_ours(void *unused) {
    struct latchsym_found found;
    uint64_t state = 7;
    while (!atomic_load(&ended)) {
        for (int i = 0; i < FINDS; i++) while (latchsym_reader_try_find(&reader, draw(&state), &found) == LATCHSYM_RETRY) {}
        atomic_fetch_add(&finds, FINDS);
    }
    return unused;
}

static void *find_theirs(void *unused) {
    struct bcc_symbol found;
    uint64_t state = 7;
    while (!atomic_load(&ended)) {
        for (int i = 0; i < FINDS && !atomic_load(&ended); i++) {
            uint64_t addr = draw(&state);
            pthread_mutex_lock(&lock);
            bcc_symcache_resolve_no_demangle(cache, addr, &found);
            pthread_mutex_unlock(&lock);
            atomic_fetch_add(&finds, 1);
        }
    }
    return unused;
}

static double renew_theirs(void) {
    struct bcc_symbol found;
    double start = now();
    pthread_mutex_lock(&lock);
    if (cache) bcc_free_symcache(cache, -1);
    cache = bcc_symcache_new(-1, 0);
    bcc_symcache_resolve_no_demangle(cache, first_addr, &found); /* it reads at its first */
    pthread_mutex_unlock(&lock);
    return now() - start;
}

/* How many finds a second a thread makes, beside replacements that never rest or beside none. */
static double rate(void *(*find)(void *), struct listing *both, int renews) {
    pthread_t thread;
    double start = now();
    atomic_store(&finds, 0), atomic_store(&replacements, 0), atomic_store(&ended, 0);
    if (pthread_create(&thread, NULL, find, NULL)) exit(1);
    while (now() - start < seconds) {
        if (renews && both) replace(&both[atomic_fetch_add(&replacements, 1) % 2]);
        else if (renews) renew_theirs(), atomic_fetch_add(&replacements, 1);
        else usleep(1000);
    }
    atomic_store(&ended, 1);
    pthread_join(thread, NULL);
    return finds / (now() - start);
}

int main(int argc, char **argv) {
    struct listing both[2] = {{0}};
    double reading = 0, opening = 0, update = 1, theirs = 0;
    if (argc != 4) return 2;
    seconds = atof(argv[3]);
    must(latchsym_table_open(NODES, &writer, &reader, 1));
    for (int i = 0; i < 2; i++) reading += read_listing(argv[1 + i], &both[i]) / 2, opening += open_catalog(&both[i]) / 2;
    for (int i = 0; i < TURNS; i++) {
        double time = replace(&both[i % 2]);
        if (i && time < update) update = time;
    }
    first_addr = items[0].a, span = items[sizes.regions - 1].b - items[0].a;
    theirs = renew_theirs();
    printf("%zu regions: %.1f ms to read, %.1f ms to open, %.1f us the update; libbcc anew %.1f ms\n", sizes.regions,
           1e3 * reading, 1e3 * opening, 1e6 * update, 1e3 * theirs);
    double alone = rate(find_ours, both, 0), beside = rate(find_ours, both, 1);
    printf("finds a second: %.1f million alone, %.1f (%.2f) beside %.0f replacements a second\n", alone / 1e6, beside / 1e6,
           beside / alone, replacements / seconds);
    alone = rate(find_theirs, NULL, 0), beside = rate(find_theirs, NULL, 1);
    printf("libbcc under a lock: %.1f million alone, %.2f (%.2f) beside %.0f a second\n", alone / 1e6, beside / 1e6,
           beside / alone, replacements / seconds);
}
