/* Catalogs of what changes leave of a listing: names before and after, the lines that are not understood, handles that
 * are no such catalogs, a follower that is shown each; and over 200 modules the memory of a change of one, at most a
 * tenth of that of opening its listing. */
#include <latchsym.h>
#include <malloc.h>
#include <stdio.h>
#include <stdlib.h>
#include <string.h>

#define CHECK(x) do { if (!(x)) { printf("changing: line %d: %s\n", __LINE__, #x); exit(1); } } while (0)

enum { KERNEL = 90000, MODULES = 200, EACH = 160, LINE = 64 };

static const char kernel[] = "ffffffff81000000 T _stext\nffffffff81002000 T _end\n";
static const uint64_t ext4 = 0xffffffffc0000010, xfs = 0xffffffffc0004000;

static struct latchsym_listings listing_of(const char *text) {
    struct latchsym_listings listings = LATCHSYM_LISTINGS_INIT;
    listings.kallsyms = (struct latchsym_place){(const uint8_t *)text, strlen(text)};
    return listings;
}

static void open_in(const struct latchsym_listings *listings, struct latchsym_catalog *out) {
    struct latchsym_counts counts;
    uint64_t bad_line;
    CHECK(!latchsym_catalog_open(listings, out, &counts, &bad_line));
}

static uint32_t change(struct latchsym_catalog *catalog, const char *text, struct latchsym_catalog *out) {
    const struct latchsym_listings listings = listing_of(text);
    uint64_t bad_line = 77;
    const uint32_t answer = latchsym_catalog_change(catalog, &listings, out, &bad_line);
    CHECK(answer == LATCHSYM_BAD_LINE || bad_line == 77);
    return answer;
}

static int is_named(struct latchsym_catalog *catalog, uint64_t addr, const char *name) {
    struct latchsym_symbol found = LATCHSYM_SYMBOL_INIT;
    if (latchsym_catalog_find(catalog, addr, &found)) return !name;
    return name && found.name.len == strlen(name) && !memcmp(found.name.at, name, found.name.len);
}

static void names(void) {
    static char listed[512];
    struct latchsym_catalog first = {0}, second = {0}, third = {0}, same = {0};
    struct latchsym_listings given;
    snprintf(listed, sizeof listed, "%sffffffffc0000010 t ext4_a\t[ext4]\nffffffffc0008000 t nf_a\t[nf]\n", kernel);
    given = listing_of(listed);
    open_in(&given, &first);
    CHECK(!change(&first, "gone ext4\nffffffffc0004000 t xfs_a\t[xfs]\n", &second));
    CHECK(is_named(&first, ext4, "ext4_a") && is_named(&first, xfs, NULL));
    CHECK(is_named(&second, ext4, NULL) && is_named(&second, xfs, "xfs_a"));
    latchsym_catalog_close(&first); /* and the second one has what both share */
    CHECK(is_named(&second, 0xffffffffc0008000, "nf_a") && is_named(&second, 0xffffffff81000010, "_stext"));
    CHECK(!change(&second, "ffffffffc0004000 t xfs_b\t[xfs]\n", &third) && is_named(&third, xfs, "xfs_b"));
    CHECK(!change(&third, "", &same) && is_named(&same, xfs, "xfs_b") && is_named(&same, 0xffffffffc0008000, "nf_a"));
    latchsym_catalog_close(&second);
    latchsym_catalog_close(&third);
    latchsym_catalog_close(&same);
}

static void refusals(void) {
    struct latchsym_catalog catalog = {0}, out = {0}, shared = {0};
    struct latchsym_listings given = listing_of(kernel), text = listing_of("gone ext4\n");
    uint64_t bad_line = 0;
    CHECK(change(&catalog, "", &out) == LATCHSYM_BAD_HANDLE);
    given.modules = (struct latchsym_place){(const uint8_t *)"", 0};
    given.has_modules = 1;
    open_in(&given, &catalog);
    CHECK(change(&catalog, "", &out) == LATCHSYM_BAD_HANDLE && !out.handle.at);
    latchsym_catalog_close(&catalog);
    given.has_modules = 0;
    open_in(&given, &catalog);
    CHECK(!latchsym_catalog_share(&catalog, &shared) && !change(&shared, "", &out)); /* a share has the listing, too */
    CHECK(change(&catalog, "", &out) == LATCHSYM_BAD_HANDLE); /* which is open */
    latchsym_catalog_close(&out);
    text.has_modules = 1;
    CHECK(latchsym_catalog_change(&catalog, &text, &out, &bad_line) == LATCHSYM_BAD_LISTINGS && !bad_line);
    text.has_modules = 0;
    text.size--;
    CHECK(latchsym_catalog_change(&catalog, &text, &out, &bad_line) == LATCHSYM_BAD_LISTINGS && !bad_line);
    const char *const not_understood[] = {"gone a\nffffffff81000010 T of_the_kernel\n", "gone a\nchange 1.5\n", "gone a\ngone b c\n"};
    for (int i = 0; i < 3; i++) {
        text = listing_of(not_understood[i]);
        CHECK(latchsym_catalog_change(&catalog, &text, &out, &bad_line) == LATCHSYM_BAD_LINE && bad_line == 2);
        CHECK(!out.handle.at);
    }
    CHECK(!change(&catalog, "no line of a listing\n", &out)); /* as in a listing, it is skipped */
    latchsym_catalog_close(&out);
    latchsym_catalog_close(&catalog);
    latchsym_catalog_close(&shared);
}

/* A follower names each sample by the catalog of its time, whichever was made of which. */
static void followed(void) {
    struct latchsym_catalog catalog = {0}, next = {0};
    struct latchsym_follower follower = {0};
    struct latchsym_reader reader = {0};
    struct latchsym_symbol found = LATCHSYM_SYMBOL_INIT;
    struct latchsym_listings given = listing_of(kernel);
    uint64_t generation, tag;
    CHECK(!latchsym_follower_open(64, &follower, &reader, 1));
    open_in(&given, &catalog);
    CHECK(!change(&catalog, "ffffffffc0000010 t ext4_a\t[ext4]\n", &next));
    CHECK(!latchsym_follower_show(&follower, &catalog, 10, 1, &generation));
    CHECK(!change(&next, "", &catalog) && !latchsym_follower_show(&follower, &next, 20, 2, &generation));
    CHECK(!change(&catalog, "gone ext4\n", &next) && !latchsym_follower_show(&follower, &next, 30, 3, &generation));
    CHECK(latchsym_follower_find_since(&follower, 15, ext4, &found) == LATCHSYM_NOTHING);
    CHECK(!latchsym_follower_find_since(&follower, 25, ext4, &found) && found.name.len == 6);
    CHECK(latchsym_follower_find_since(&follower, 35, ext4, &found) == LATCHSYM_NOTHING);
    latchsym_catalog_close(&catalog);
    latchsym_reader_close(&reader);
    while (!latchsym_follower_close(&follower, &tag)) {}
}

static size_t in_use(void) {
    const struct mallinfo2 now = mallinfo2();
    return now.uordblks + now.hblkhd;
}

static void put_module(char *to, int number, uint64_t base) {
    size_t len = 0;
    for (int i = 0; i < EACH; i++) /* in no order, as in a symbol table */
        len += sprintf(to + len, "%016llx t m%d_%d\t[module_%d]\n", (unsigned long long)(base + 16 * (i * 67 % EACH)), number, i, number);
}

static void memory(void) {
    char *text = malloc((size_t)LINE * (KERNEL + MODULES * EACH)), *changed = malloc(LINE * EACH);
    struct latchsym_catalog first = {0}, next = {0};
    struct latchsym_listings given;
    size_t before, opened, len = sprintf(text, "ffffffff81000000 T _stext\n");
    for (int i = 1; i < KERNEL; i++) len += sprintf(text + len, "%016llx t f%d\n", 0xffffffff81000000 + 64ull * i, i);
    len += sprintf(text + len, "%016llx T _end\n", 0xffffffff81000000 + 64ull * KERNEL);
    for (int i = 0; i < MODULES; i++) {
        put_module(text + len, i, 0xffffffffc0000000 + 0x4000ull * i);
        len += strlen(text + len);
    }
    put_module(changed, 100, 0xffffffffc0000000 + 0x4000ull * MODULES);
    before = in_use();
    given = listing_of(text);
    open_in(&given, &first);
    opened = in_use() - before;
    before = in_use();
    CHECK(!change(&first, changed, &next));
    CHECK((in_use() - before + strlen(changed)) * 10 <= opened + len);
    CHECK(is_named(&next, 0xffffffffc0000000 + 0x4000ull * MODULES, "m100_0") && is_named(&first, 0xffffffffc0000000 + 0x4000ull * 100, "m100_0"));
    CHECK(is_named(&next, 0xffffffffc0000000 + 0x4000ull * 100, NULL) && is_named(&next, 0xffffffffc0000000 + 0x4000ull * 199, "m199_0"));
    latchsym_catalog_close(&first);
    latchsym_catalog_close(&next);
    free(text);
    free(changed);
}

int main(void) {
    names();
    refusals();
    followed();
    memory();
    puts("changing: ok");
}
