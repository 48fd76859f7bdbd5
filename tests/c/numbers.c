/* The version, and the text of each number: those that the header names have texts of their own. */
#include <latchsym.h>
#include <stdio.h>
#include <stdlib.h>
#include <string.h>

#define CHECK(x) do { if (!(x)) { printf("numbers: line %d: %s\n", __LINE__, #x); exit(1); } } while (0)

static const struct { uint32_t number; const char *text; } texts[] = {
    /* made of include/latchsym.h by bindings/write.py */
    {LATCHSYM_DONE, "done"},
    {LATCHSYM_BAD_ITEM, "the item is empty"},
    {LATCHSYM_OVERLAP, "the item overlaps one of the table"},
    {LATCHSYM_NO_SUCH_ITEM, "no item of the table begins there"},
    {LATCHSYM_FULL, "the table has as many items as nodes"},
    {LATCHSYM_UPDATE_IN_HAND, "an update is pending"},
    {LATCHSYM_SEQUENCE_SPENT, "the sequence is spent"},
    {LATCHSYM_OUT_OF_MEMORY, "out of memory"},
    {LATCHSYM_BAD_CAPACITY, "the number of nodes or of readers is out of its range"},
    {LATCHSYM_TOO_MANY_REGIONS, "more than 7 region lines have one name"},
    {LATCHSYM_BAD_LINE, "a line of the listing of regions is not one"},
    {LATCHSYM_NO_SYMBOL, "no symbol of the region is at or below the address"},
    {LATCHSYM_NOTHING, "nothing is there"},
    {LATCHSYM_RETRY, "the writer flipped meanwhile: try again"},
    {LATCHSYM_BUSY, "other calls have all readers of the pool: try again"},
    {LATCHSYM_FORGOTTEN, "the follower has no listing of that moment"},
    {LATCHSYM_FLIP, "a flip of the sequence"},
    {LATCHSYM_STORE, "a store of a word"},
    {LATCHSYM_NOTE_GZIP, "is compressed by gzip; unpack it first"},
    {LATCHSYM_NOTE_HIDDEN, "every address is 0; read it as root (kernel.kptr_restrict)"},
    {LATCHSYM_NOTE_LIKE_SYMBOLS, "looks like a listing of symbols"},
    {LATCHSYM_NOTE_LIKE_MODULES, "looks like a listing of modules"},
    {LATCHSYM_NOTE_CR_LF, "lines end in CR LF"},
    {LATCHSYM_NOTE_NO_START, "has no symbol at the kernel's first address"},
    {LATCHSYM_NOTE_NO_END, "has no symbol at the kernel's end; try the end _einittext"},
    {LATCHSYM_NOTE_OTHER_BOOT, "no symbol lies in a listed module; are both listings of one boot?"},
    {LATCHSYM_NOTE_NO_MODULE_LINE, "no line is of the form of /proc/modules"},
    {LATCHSYM_NOTE_NO_SYMBOL_LINE, "no line is of the form of /proc/kallsyms"},
    {LATCHSYM_NOTE_MODULES_OVERLAP, "modules overlap, as sizes do from Linux 6.4 on; leave their listing out"},
    {LATCHSYM_NOTE_EMPTY, "is empty"},
    {LATCHSYM_NOTE_UTF_16, "is UTF-16; convert it first"},
    {LATCHSYM_NOTE_UNLISTED_OWNER, "lists no module of some symbols, which are left out; give no modules"},
    {LATCHSYM_BAD_HANDLE, "the handle does not fit the call"},
    {LATCHSYM_BAD_LENGTH, "an array has another length than is needed"},
    {LATCHSYM_BAD_LISTINGS, "the listings are not as this version has them"},
    {LATCHSYM_BAD_STAMP, "the stamp lies below that of a listing shown before"},
};

enum { TEXTS = sizeof texts / sizeof *texts };

int main(void) {
    const char *none = latchsym_text(UINT32_MAX);
    struct latchsym_place place = LATCHSYM_PLACE_INIT;
    int others = 0;
    CHECK(latchsym_version() == LATCHSYM_VERSION && LATCHSYM_VERSION == 10300);
    CHECK(!strcmp(none, "no number of this library"));
    for (int i = 0; i < TEXTS; i++) {
        CHECK(!strcmp(latchsym_text(texts[i].number), texts[i].text));
        latchsym_place_of_text(texts[i].number, &place);
        CHECK(place.len == strlen(texts[i].text) + 1 && !memcmp(place.at, texts[i].text, place.len));
        for (int j = 0; j < i; j++) CHECK(texts[j].number != texts[i].number);
    }
    for (uint32_t number = 0; number < 100000; number++) others += strcmp(latchsym_text(number), none) != 0;
    printf("numbers: %d named ones, %d texts in all\n", TEXTS, others);
    CHECK(others == TEXTS + 6); /* 8, 9, 11, 12, 13 and 17 are refusals of the crates below alone */
    puts("numbers: ok");
}
