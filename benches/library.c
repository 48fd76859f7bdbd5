/* The library for C beside libbcc in one program, over one pair of listings:
 *
 *     library FOLDER ROUNDS
 *
 * FOLDER has modules.txt, kallsyms.txt and addr.100000. libbcc reads /proc/kallsyms, so that has to
 * be the folder's (library.sh binds it in a mount namespace of its own). Each round opens the
 * listings with both, ours over the mapped files, and looks all addresses up with both, by turns:
 * with the names copied into the caller's room by both, and without copies; and then 1,000,000
 * addresses near these, unsorted and sorted, in one call of ours and in a loop of theirs. Prints the
 * medians of the rounds' ratios. */
#define _GNU_SOURCE
#include <bcc/bcc_syms.h>
#include <fcntl.h>
#include <latchsym.h>
#include <stdio.h>
#include <stdlib.h>
#include <string.h>
#include <sys/mman.h>
#include <sys/stat.h>
#include <time.h>
#include <unistd.h>

enum { MOST_ADDRESSES = 100000, MANY = 1000000, MOST_ROUNDS = 101, NAME = 4096, MODULE = 256 };

static uint64_t addresses[MOST_ADDRESSES];
static size_t count;
static uint64_t unsorted[MANY], sorted[MANY];
static uint8_t name[NAME], module[MODULE];
static volatile uint64_t sum;

static double now(void) {
    struct timespec t;
    clock_gettime(CLOCK_MONOTONIC, &t);
    return t.tv_sec + t.tv_nsec / 1e9;
}

/* The bytes of a file, which stay in memory as they lie in the system's; of an empty one nothing. */
static uint8_t *map_file(const char *folder, const char *file, size_t *len) {
    char path[4096];
    snprintf(path, sizeof path, "%s/%s", folder, file);
    struct stat about;
    int f = open(path, O_RDONLY);
    if (f < 0 || fstat(f, &about)) { perror(path); exit(1); }
    *len = about.st_size;
    uint8_t *bytes = *len ? mmap(NULL, *len, PROT_READ, MAP_PRIVATE, f, 0) : NULL;
    if (bytes == MAP_FAILED) { perror(path); exit(1); }
    close(f);
    return bytes;
}

static void read_addresses(const char *folder) {
    char path[4096], line[64];
    snprintf(path, sizeof path, "%s/addr.100000", folder);
    FILE *f = fopen(path, "r");
    if (!f) { perror(path); exit(1); }
    while (count < MOST_ADDRESSES && fgets(line, sizeof line, f))
        addresses[count++] = strtoull(line, NULL, 16);
    fclose(f);
}

/* What ours find, with copies of the names: the offset and the length, so that no call can be left
 * out. */
static double copy_ours(struct latchsym_catalog *catalog) {
    double start = now();
    uint64_t total = 0;
    for (size_t i = 0; i < count; i++) {
        struct latchsym_answer found;
        if (!latchsym_catalog_name(catalog, addresses[i], &found, name, NAME, module, MODULE))
            total += found.offset + found.name_len;
    }
    sum += total;
    return now() - start;
}

/* The same, with the places of the names. */
static double find_ours(struct latchsym_catalog *catalog) {
    double start = now();
    struct latchsym_symbol found = LATCHSYM_SYMBOL_INIT;
    uint64_t total = 0;
    for (size_t i = 0; i < count; i++)
        if (!latchsym_catalog_find(catalog, addresses[i], &found))
            total += found.offset + found.name.len;
    sum += total;
    return now() - start;
}

/* Many addresses in one call, without names. */
static double find_many_ours(struct latchsym_catalog *catalog, const uint64_t *many) {
    static struct latchsym_told told[MANY];
    double start = now();
    if (latchsym_catalog_find_many(catalog, many, MANY, told, MANY)) exit(1);
    double time = now() - start;
    for (size_t i = 0; i < MANY; i++) sum += told[i].answer.offset;
    return time;
}

static size_t copied(uint8_t *room, size_t most, const char *text) {
    size_t len = strlen(text);
    memcpy(room, text, len < most ? len : most);
    return len;
}

static double find_theirs(void *cache, int with_names) {
    double start = now();
    uint64_t total = 0;
    for (size_t i = 0; i < count; i++) {
        struct bcc_symbol found;
        if (bcc_symcache_resolve_no_demangle(cache, addresses[i], &found)) continue;
        total += found.offset;
        if (!with_names) continue;
        total += copied(name, NAME, found.name) + copied(module, MODULE, found.module);
    }
    sum += total;
    return now() - start;
}

static double find_many_theirs(void *cache, const uint64_t *many) {
    double start = now();
    uint64_t total = 0;
    for (size_t i = 0; i < MANY; i++) {
        struct bcc_symbol found;
        if (!bcc_symcache_resolve_no_demangle(cache, many[i], &found)) total += found.offset;
    }
    sum += total;
    return now() - start;
}

static int by_address(const void *x, const void *y) {
    uint64_t a = *(const uint64_t *)x, b = *(const uint64_t *)y;
    return (a > b) - (a < b);
}

/* Each lies at most 32 KiB from one of the file. */
static void make_many(void) {
    uint64_t state = 7;
    for (size_t i = 0; i < MANY; i++) {
        state = state * 6364136223846793005 + 1442695040888963407;
        unsorted[i] = addresses[i % count] + (state >> 48) - 32768;
    }
    memcpy(sorted, unsorted, sizeof sorted);
    qsort(sorted, MANY, sizeof *sorted, by_address);
}

static int by_size(const void *x, const void *y) {
    double a = *(const double *)x, b = *(const double *)y;
    return (a > b) - (a < b);
}

static double median(double *all, int rounds) {
    qsort(all, rounds, sizeof *all, by_size);
    return all[rounds / 2];
}

int main(int argc, char **argv) {
    static double opened[MOST_ROUNDS], copies[MOST_ROUNDS], plain[MOST_ROUNDS];
    static double many[MOST_ROUNDS], rising[MOST_ROUNDS];
    int rounds = argc > 2 ? atoi(argv[2]) : 0;
    if (rounds < 1 || rounds > MOST_ROUNDS) return 2;
    read_addresses(argv[1]);
    if (!count) return 2;
    make_many();
    for (int round = 0; round < rounds; round++) {
        size_t modules_len, kallsyms_len;
        struct latchsym_catalog catalog = {0};
        struct latchsym_listings listings = LATCHSYM_LISTINGS_INIT;
        struct latchsym_counts counts;
        uint64_t bad_line;
        double start = now();
        uint8_t *modules = map_file(argv[1], "modules.txt", &modules_len);
        uint8_t *kallsyms = map_file(argv[1], "kallsyms.txt", &kallsyms_len);
        listings.modules = (struct latchsym_place){modules, modules_len};
        listings.kallsyms = (struct latchsym_place){kallsyms, kallsyms_len};
        listings.has_modules = 1;
        if (latchsym_catalog_open(&listings, &catalog, &counts, &bad_line)) return 1;
        double ours = now() - start;
        start = now();
        void *cache = bcc_symcache_new(-1, 0);
        struct bcc_symbol first;
        bcc_symcache_resolve_no_demangle(cache, addresses[0], &first); /* it reads at its first */
        opened[round] = ours / (now() - start);
        double mine = copy_ours(&catalog);
        copies[round] = mine / find_theirs(cache, 1);
        mine = find_ours(&catalog);
        double theirs = find_theirs(cache, 0);
        plain[round] = mine / theirs;
        double all = find_many_ours(&catalog, unsorted), in_order = find_many_ours(&catalog, sorted);
        many[round] = all / find_many_theirs(cache, unsorted);
        rising[round] = in_order / find_many_theirs(cache, sorted);
        fprintf(stderr, "round %d: %.0f ns a find, beside %.0f; of many %.0f ns each, sorted %.0f\n", round,
                1e9 * mine / count, 1e9 * theirs / count, 1e9 * all / MANY, 1e9 * in_order / MANY);
        bcc_free_symcache(cache, -1);
        latchsym_catalog_close(&catalog);
        munmap(modules, modules_len);
        munmap(kallsyms, kallsyms_len);
    }
    printf("open %.2f, find with copies %.2f, without %.2f, many in one call %.2f, sorted %.2f "
           "times libbcc's time\n",
           median(opened, rounds), median(copies, rounds), median(plain, rounds),
           median(many, rounds), median(rising, rounds));
}
