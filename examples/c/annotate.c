/* SPDX-License-Identifier: MIT OR Apache-2.0 */
/* Writes a log with the symbol after each address, as `latchsym annotate` does:
 * annotate KALLSYMS [MODULES] <LOG, where modules come from KALLSYMS alone unless a file is given.
 * cc annotate.c $(pkg-config --cflags --libs latchsym) -o annotate */
#define _POSIX_C_SOURCE 200809L
#include <ctype.h>
#include <latchsym_read.h>
#include <stdio.h>
#include <stdlib.h>
#include <string.h>

static void read_file(const char *path, struct latchsym_place *place) {
    if (!latchsym_read_file(path, place)) return;
    fprintf(stderr, "annotate: %s: %s\n", path, strerror(errno));
    exit(1);
}

static int is_of_word(char c) { return isalnum((unsigned char)c) || c == '_'; }

/* whether one - joins the word in these places of a line to another one, as in a range */
static int is_joined(const char *line, size_t len, size_t at, size_t end) {
    return (at > 1 && line[at - 1] == '-' && is_of_word(line[at - 2])) ||
           (end + 1 < len && line[end] == '-' && is_of_word(line[end + 1]));
}

/* whether a word is an address: 0x and 9 to 16 hexadecimal digits, or 16 of them */
static int is_address(const char *word, size_t len, uint64_t *addr) {
    int has_head = len > 2 && word[0] == '0' && (word[1] | 32) == 'x';
    size_t i = has_head ? 2 : 0;
    if (len - i > 16 || len - i < (has_head ? 9 : 16)) return 0;
    for (*addr = 0; i < len; i++) {
        if (!isxdigit((unsigned char)word[i])) return 0;
        *addr <<= 4;
        *addr += (uint64_t)(word[i] <= '9' ? word[i] - '0' : (word[i] | 32) - 'a' + 10);
    }
    return 1;
}

/* writes the text of an address, or nothing where it is in no symbol and no module */
static void write_text(FILE *out, struct latchsym_catalog *catalog, uint64_t addr) {
    struct latchsym_symbol found = LATCHSYM_SYMBOL_INIT;
    uint32_t answer = latchsym_catalog_find(catalog, addr, &found);
    if (answer == LATCHSYM_DONE) {
        fputc(' ', out);
        fwrite(found.name.at, 1, found.name.len, out);
        fprintf(out, "+0x%llx/0x%llx", (unsigned long long)found.offset,
                (unsigned long long)found.size);
    } else if (found.module_number) {
        fputs(" ?", out);
    }
    if (found.module_number) {
        fputs(" [", out);
        fwrite(found.module.at, 1, found.module.len, out);
        fputc(']', out);
    }
}

/* whether the rest of a line says the text itself: perhaps behind a ? or a (, and with a build id */
static int says_itself(const char *rest, size_t len, const char *text, size_t text_len) {
    static const char *const heads[] = {" ", " ? ", " ("};
    size_t said = text_len - 1 - (text[text_len - 1] == ']');
    for (size_t i = 0; i < sizeof heads / sizeof *heads; i++) {
        size_t head = strlen(heads[i]);
        if (len >= head + said && !memcmp(rest, heads[i], head) &&
            !memcmp(rest + head, text + 1, said))
            return 1;
    }
    return 0;
}

int main(int argc, char **argv) {
    struct latchsym_listings listings = LATCHSYM_LISTINGS_INIT;
    struct latchsym_catalog catalog = {0};
    struct latchsym_counts counts;
    uint64_t bad_line, addr;
    char *line = NULL, *text = NULL;
    size_t room = 0, text_len = 0;
    FILE *texts = open_memstream(&text, &text_len);
    if (argc < 2 || argc > 3 || !texts)
        return fprintf(stderr, "usage: annotate KALLSYMS [MODULES] <LOG\n"), 2;
    read_file(argv[1], &listings.kallsyms);
    listings.has_modules = argc == 3;
    if (listings.has_modules) read_file(argv[2], &listings.modules);
    uint32_t refused = latchsym_catalog_open(&listings, &catalog, &counts, &bad_line);
    if (refused) return fprintf(stderr, "annotate: %s\n", latchsym_text(refused)), 1;
    if (counts.symbols_note != LATCHSYM_NOTHING)
        fprintf(stderr, "annotate: note: %s: %s\n", argv[1], latchsym_text(counts.symbols_note));
    for (ssize_t got; (got = getline(&line, &room, stdin)) > 0; fflush(stdout)) {
        size_t len = (size_t)got, end;
        for (size_t at = 0; at < len; at = end) {
            for (end = at; end < len; end++)
                if (!is_of_word(line[end])) break;
            int is_one = is_address(line + at, end - at, &addr) && !is_joined(line, len, at, end);
            if (end == at) end++;
            while (is_one && end < len && memchr(">])", line[end], 3)) end++;
            fwrite(line + at, 1, end - at, stdout);
            if (!is_one) continue;
            rewind(texts);
            write_text(texts, &catalog, addr);
            fflush(texts);
            if (text_len && !says_itself(line + end, len - end, text, text_len))
                fwrite(text, 1, text_len, stdout);
        }
    }
    latchsym_catalog_close(&catalog); /* and only now the bytes that it points into */
    free((void *)listings.kallsyms.at);
    if (listings.has_modules) free((void *)listings.modules.at);
    fclose(texts);
    free(text);
    free(line);
    return ferror(stdin) || ferror(stdout);
}
