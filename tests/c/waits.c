/* waits FILE: uses the shared library, reads the file to its end, and uses the library further. */
#include <latchsym.h>
#include <stdio.h>

int main(int argc, char **argv) {
    const struct latchsym_item item = {0x1000, 0x2000, 7};
    struct latchsym_writer writer = {0};
    struct latchsym_reader reader = {0};
    struct latchsym_found found;
    uint64_t generation;
    if (argc != 2 || latchsym_table_open(4, &writer, &reader, 1)) return 1;
    FILE *file = fopen(argv[1], "rb");
    if (!file) return 1;
    while (getc(file) != EOF) continue;
    fclose(file);
    if (latchsym_writer_begin_insert(&writer, &item)) return 1;
    if (latchsym_writer_finish(&writer, &generation) || generation != 1) return 1;
    if (latchsym_reader_try_find(&reader, 0x1fff, &found) || found.tag != 7) return 1;
    latchsym_reader_close(&reader);
    latchsym_writer_close(&writer);
    return 0;
}
