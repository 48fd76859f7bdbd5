/* view FOLDER ROUNDS: nanoseconds of a find by a catalog and by a view of it, and how many times the finds of one thread two
 * and four threads make over one view: by the clock, and by the processor time of the busiest thread, which other programs
 * on the machine change less. FOLDER has kallsyms.txt and addr.100000. Prints the medians of the rounds. */
#define _GNU_SOURCE
#include <latchsym.h>
#include <pthread.h>
#include <stdio.h>
#include <stdlib.h>
#include <time.h>

enum { MOST_ADDRESSES = 100000, MOST_ROUNDS = 99, MOST_THREADS = 4 };

static uint64_t addresses[MOST_ADDRESSES];
static size_t count;
static struct latchsym_view view;
static volatile uint64_t sum;

static double seconds(clockid_t clock) {
    struct timespec time;
    clock_gettime(clock, &time);
    return (double)time.tv_sec + (double)time.tv_nsec / 1e9;
}

static double now(void) { return seconds(CLOCK_MONOTONIC); }

struct times { double clock, processor; };
struct finder { size_t from; double processor; };

static uint8_t *read_file(const char *folder, const char *name, size_t *len) {
    char path[4096];
    FILE *file;
    uint8_t *bytes;
    snprintf(path, sizeof path, "%s/%s", folder, name);
    file = fopen(path, "rb");
    if (!file || fseek(file, 0, SEEK_END)) exit(1);
    *len = (size_t)ftell(file);
    rewind(file);
    bytes = malloc(*len + 1);
    if (!bytes || fread(bytes, 1, *len, file) != *len) exit(1);
    bytes[*len] = 0;
    fclose(file);
    return bytes;
}

/* The finds of one thread: all addresses, each thread from another on. */
static void *find_all(void *argument) {
    struct finder *self = argument;
    double start = seconds(CLOCK_THREAD_CPUTIME_ID);
    struct latchsym_symbol found = LATCHSYM_SYMBOL_INIT;
    uint64_t total = 0;
    for (size_t i = 0; i < count; i++)
        if (!latchsym_view_find(&view, addresses[(i + self->from) % count], &found)) total += found.offset + found.name.len;
    sum = sum + total;
    self->processor = seconds(CLOCK_THREAD_CPUTIME_ID) - start;
    return NULL;
}

static struct times on_threads(size_t threads) {
    pthread_t all[MOST_THREADS];
    struct finder finders[MOST_THREADS];
    struct times times = {0, 0};
    double start = now();
    for (size_t i = 0; i < threads; i++) {
        finders[i].from = i * 7919;
        if (pthread_create(&all[i], NULL, find_all, &finders[i])) exit(1);
    }
    for (size_t i = 0; i < threads; i++) {
        pthread_join(all[i], NULL);
        if (finders[i].processor > times.processor) times.processor = finders[i].processor;
    }
    times.clock = now() - start;
    return times;
}

static double by_catalog(struct latchsym_catalog *catalog) {
    struct latchsym_symbol found = LATCHSYM_SYMBOL_INIT;
    uint64_t total = 0;
    double start = seconds(CLOCK_THREAD_CPUTIME_ID);
    for (size_t i = 0; i < count; i++)
        if (!latchsym_catalog_find(catalog, addresses[i], &found)) total += found.offset + found.name.len;
    sum = sum + total;
    return seconds(CLOCK_THREAD_CPUTIME_ID) - start;
}

static int by_size(const void *x, const void *y) {
    return (*(const double *)x > *(const double *)y) - (*(const double *)x < *(const double *)y);
}

static double median(double *all, int rounds) {
    qsort(all, (size_t)rounds, sizeof *all, by_size);
    return all[rounds / 2];
}

int main(int argc, char **argv) {
    struct latchsym_listings listings = LATCHSYM_LISTINGS_INIT;
    struct latchsym_catalog catalog = {0};
    struct latchsym_counts counts;
    struct latchsym_sizes sizes;
    uint64_t bad_line;
    double alone[MOST_ROUNDS], one[MOST_ROUNDS], two[2][MOST_ROUNDS], four[2][MOST_ROUNDS], start;
    int rounds = argc == 3 ? atoi(argv[2]) : 0;
    char *word;
    size_t len;
    if (rounds < 1 || rounds > MOST_ROUNDS) return 2;
    word = (char *)read_file(argv[1], "addr.100000", &len);
    while (count < MOST_ADDRESSES && *word) {
        addresses[count++] = strtoull(word, &word, 16);
        while (*word == '\n') word++;
    }
    listings.kallsyms.at = read_file(argv[1], "kallsyms.txt", &listings.kallsyms.len);
    if (latchsym_catalog_open(&listings, &catalog, &counts, &bad_line)) return 1;
    start = now();
    if (latchsym_catalog_sizes(&catalog, &sizes)) return 1;
    struct latchsym_view_region *regions = malloc((sizes.regions + 1) * sizeof *regions);
    struct latchsym_view_symbol *symbols = malloc((sizes.symbols + 1) * sizeof *symbols);
    uint64_t *starts = malloc((sizes.symbols + 1) * sizeof *starts);
    if (!regions || !symbols || !starts) return 1;
    if (latchsym_catalog_flatten(&catalog, regions, sizes.regions, symbols, sizes.symbols, starts, sizes.symbols, &view)) return 1;
    printf("%zu symbols in a view after %.2f s\n", sizes.symbols, now() - start);
    for (int i = 0; i < rounds; i++) {
        alone[i] = by_catalog(&catalog) / (double)count;
        struct times first = on_threads(1), second = on_threads(2), fourth = on_threads(4);
        one[i] = first.processor / (double)count;
        two[0][i] = 2 * first.clock / second.clock, two[1][i] = 2 * first.processor / second.processor;
        four[0][i] = 4 * first.clock / fourth.clock, four[1][i] = 4 * first.processor / fourth.processor;
    }
    printf("a find by the catalog %.0f ns, by the view %.0f; two threads make %.2f times the finds of one, four %.2f; by their "
           "processor time %.2f and %.2f\n", 1e9 * median(alone, rounds), 1e9 * median(one, rounds), median(two[0], rounds),
           median(four[0], rounds), median(two[1], rounds), median(four[1], rounds));
    latchsym_catalog_close(&catalog);
    return 0;
}
