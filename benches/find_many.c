/* find_many KALLSYMS ADDRESSES ROUNDS: the median seconds of one latchsym_catalog_find_many of all
 * addresses of a file, 8 bytes each, with the memory for what is told. */
#include <latchsym.h>
#include <stdio.h>
#include <stdlib.h>
#include <time.h>

static uint8_t *read_file(const char *path, size_t *len) {
    FILE *file = fopen(path, "rb");
    uint8_t *bytes;
    if (!file || fseek(file, 0, SEEK_END)) exit(1);
    *len = (size_t)ftell(file);
    rewind(file);
    bytes = malloc(*len + 1);
    if (!bytes || fread(bytes, 1, *len, file) != *len) exit(1);
    fclose(file);
    return bytes;
}

static double now(void) {
    struct timespec time;
    clock_gettime(CLOCK_MONOTONIC, &time);
    return (double)time.tv_sec + (double)time.tv_nsec / 1e9;
}

static int order(const void *a, const void *b) {
    return (*(const double *)a > *(const double *)b) - (*(const double *)a < *(const double *)b);
}

int main(int argc, char **argv) {
    struct latchsym_listings listings = LATCHSYM_LISTINGS_INIT;
    struct latchsym_catalog catalog = {0};
    struct latchsym_counts counts;
    uint64_t bad_line;
    size_t len;
    int rounds = argc == 4 ? atoi(argv[3]) : 0;
    double times[99];
    if (rounds < 1 || rounds > 99) return 2;
    listings.kallsyms.at = read_file(argv[1], &listings.kallsyms.len);
    uint64_t *addresses = (uint64_t *)(void *)read_file(argv[2], &len);
    if (latchsym_catalog_open(&listings, &catalog, &counts, &bad_line)) return 1;
    len /= sizeof *addresses;
    for (int i = 0; i < rounds; i++) {
        double begin = now();
        struct latchsym_told *told = malloc(len * sizeof *told);
        if (!told || latchsym_catalog_find_many(&catalog, addresses, len, told, len)) return 1;
        free(told);
        times[i] = now() - begin;
    }
    qsort(times, (size_t)rounds, sizeof *times, order);
    printf("%.6f\n", times[rounds / 2]);
    latchsym_catalog_close(&catalog);
    return 0;
}
