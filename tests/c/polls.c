/* SPDX-License-Identifier: MIT OR Apache-2.0 */
/* Polls of latchsym_follow.h over files that stand in memory: which of them read the listing, where the watched file
 * stays, changes or is missing, and where modules come and go while the listing is read; which listings are not taken;
 * and each request for memory refused in turn, after which the next poll shows what there is. In the end no memory is
 * left. */
#include <latchsym_read.h>
#include <stdio.h>
#include <string.h>

#include "refusing.h"

#define CHECK(x) do { if (!(x)) { printf("polls: line %d: %s\n", __LINE__, #x); exit(1); } } while (0)
enum { ROOM = 4096, MINUTE = 60 };

/* A file: its text, the reason why it cannot be read, or 0, and how often it was read. */
struct file { const char *name; char text[ROOM]; int why; long reads; };
static struct file symbols = {"kallsyms", "", 0, 0}, listed = {"listed", "", 0, 0}, watched = {"watched", "", 0, 0};
static void (*meanwhile)(void); /* what happens once the symbols are read */

static int read_file(const char *path, struct latchsym_place *out) {
    struct file *const files[] = {&symbols, &listed, &watched};
    for (int i = 0; i < 3; i++) {
        struct file *file = files[i];
        uint8_t *bytes;
        if (strcmp(file->name, path)) continue;
        file->reads++;
        if (file->why) return errno = file->why, -1;
        if (!(bytes = malloc(strlen(file->text) + 1))) return errno = ENOMEM, -1;
        memcpy(bytes, file->text, strlen(file->text));
        *out = (struct latchsym_place){bytes, strlen(file->text)};
        if (file == &symbols && meanwhile) meanwhile(), meanwhile = NULL;
        return 0;
    }
    return errno = EACCES, -1;
}
#define latchsym_read_file read_file
#include <latchsym_follow.h>

static const uint64_t page = 0xffffffffc0000000;
static struct latchsym_followed files;
static struct latchsym_follower follower;
static struct latchsym_reader reader;
static uint64_t now, generation;

/* Lists these modules, which a blank parts, in the watched file. */
static void list_as(const char *names, const char *users) {
    size_t len = 0;
    char word[64];
    for (int at = 0, step; sscanf(names + at, "%63s%n", word, &step) == 1; at += step)
        len += (size_t)sprintf(watched.text + len, "%s 4096 %s Live 0xffffffffc0000000\n", word, users);
    watched.text[len] = 0;
}
static void list(const char *names) { list_as(names, "0 -"); }

/* Gives each of these modules a symbol of its name, in a page of its own, and the kernel itself enough of them. */
static void show(const char *names) {
    char word[64];
    size_t len = (size_t)sprintf(symbols.text, "ffffffff81000000 T _stext\n");
    for (int i = 1; i <= 40; i++) len += (size_t)sprintf(symbols.text + len, "ffffffff810000%02x T of_the_kernel_%d\n", i, i);
    len += (size_t)sprintf(symbols.text + len, "ffffffff81000200 T _end\n");
    for (int at = 0, place = 0, step; sscanf(names + at, "%63s%n", word, &step) == 1; at += step, place++)
        len += (size_t)sprintf(symbols.text + len, "%llx t %s\t[%s]\n", (unsigned long long)page + 4096u * (unsigned)place, word, word);
}
static void load(const char *names) { list(names), show(names); }

static void load_both(void) { load("first second"); }
static void show_first(void) { show("first"); }
static void show_both(void) { show("first second"); }
static void move(void) { strcpy(watched.text, "first 4096 0 - Live 0xffffffffc0001000\n"); }

static int poll_once(void) { return latchsym_followed_poll(&files, &follower, now, &generation); }

/* How many of ten polls read the listing. */
static long reads(void) {
    const long before = symbols.reads;
    for (int i = 0; i < 10; i++) poll_once();
    return symbols.reads - before;
}

/* The names of the modules that are found now, with a blank behind each. */
static const char *names(void) {
    static char out[256];
    size_t len = 0;
    for (unsigned i = 0; i < 3; i++) {
        struct latchsym_symbol symbol = LATCHSYM_SYMBOL_INIT;
        struct latchsym_found found;
        const uint32_t item = latchsym_reader_try_find(&reader, page + 4096u * i, &found);
        const uint32_t answer = latchsym_follower_find(&follower, found.generation, page + 4096u * i, &symbol);
        CHECK(item == answer);
        if (!answer) len += (size_t)sprintf(out + len, "%.*s ", (int)symbol.name.len, (const char *)symbol.name.at);
    }
    out[len] = 0;
    return out;
}
static int shows(const char *wanted) { return !strcmp(names(), wanted); }

static void begin(const char *watches) {
    static const struct latchsym_followed none = LATCHSYM_FOLLOWED_INIT;
    files = none;
    files.kallsyms = "kallsyms", files.watched = watches, files.every = MINUTE;
    CHECK(!latchsym_follower_open(64, &follower, &reader, 1));
}
static void end(void) {
    latchsym_followed_close(&files, &follower);
    latchsym_reader_close(&reader);
}

static void polls_of_modules(void) {
    load("first");
    begin("watched");
    CHECK(poll_once() == LATCHSYM_DONE && generation == 1 && shows("first "));
    show("first bpf");
    CHECK(!reads() && shows("first "));
    list_as("first", "3 second,third,");
    CHECK(!reads());
    load("first second");
    CHECK(poll_once() == LATCHSYM_DONE && generation == 2 && !reads() && shows("first second "));
    strcpy(watched.text, "first 4096 0 - Live 0xffffffffc0009000\nsecond 4096 0 - Live 0xffffffffc0000000\n");
    CHECK(reads() == 1);
    strcpy(watched.text, "first 8192 0 - Live 0xffffffffc0009000\nsecond 4096 0 - Live 0xffffffffc0000000\n");
    CHECK(reads() == 1);
    end();
}

/* Whether the listing that is shown was opened whole. */
static int is_whole(void) { return !files.shown->before; }

static void polls_of_changes(void) {
    load("first second");
    begin("watched");
    CHECK(!poll_once() && is_whole());
    load("first third");
    CHECK(!poll_once() && !is_whole() && shows("first third "));
    CHECK(files.shown->bytes[0].len == strlen("gone second\nffffffffc0001000 t third\t[third]\n"));
    load("third first"); /* each at the other's place */
    CHECK(!poll_once() && !is_whole() && shows("third first "));
    load("");
    CHECK(!poll_once() && is_whole() && shows("")); /* without a module there is nothing to compare */
    load("first second first"); /* whose lines do not lie side by side */
    CHECK(!poll_once() && is_whole());
    load("first second");
    CHECK(!poll_once() && is_whole());
    load("first"), memcpy(strstr(symbols.text, "of_the"), "OF", 2); /* a kernel of another boot */
    CHECK(!poll_once() && is_whole() && shows("first "));
    load("second"), strcat(symbols.text, "no line of a module\n");
    CHECK(!poll_once() && is_whole() && shows("second "));
    load("first second");
    CHECK(!poll_once() && is_whole());
    symbols.text[strlen(symbols.text) - 1] = 0, now += MINUTE; /* without the end of its last line */
    CHECK(!poll_once() && is_whole() && shows("first second "));
    load("first");
    CHECK(!poll_once() && is_whole());
    for (int i = 0, whole = 0; i < 100; i++, whole += is_whole()) { /* and often anew */
        load(i % 2 ? "first second" : "first third");
        CHECK(!poll_once() && (i < 99 || (whole > 5 && whole < 50)));
    }
    end();
}

static void polls_of_time(void) {
    load("first");
    begin("watched");
    CHECK(!poll_once());
    show("first bpf");
    now += MINUTE - 1;
    CHECK(!reads());
    now += 1;
    CHECK(!poll_once() && !reads() && shows("first bpf "));
    now += MINUTE;
    CHECK(reads() == 1);
    files.every = 0;
    CHECK(reads() == 10);
    end();
}

static void polls_beside_modules(void) {
    load("first");
    begin("watched");
    meanwhile = load_both; /* comes while the listing is read */
    CHECK(!poll_once() && shows("first ") && !poll_once() && !reads() && shows("first second "));
    end();
    list("first"), show("first second"), meanwhile = show_first; /* was there only then */
    begin("watched");
    CHECK(!poll_once() && shows("first second ") && !poll_once() && !reads() && shows("first "));
    end();
    list("first second"), show("first"), meanwhile = show_both; /* was gone only then */
    begin("watched");
    CHECK(!poll_once() && shows("first ") && !poll_once() && !reads() && shows("first second "));
    list("first"), meanwhile = show_first; /* goes, and was back while the listing was read */
    CHECK(poll_once() == LATCHSYM_NOTHING && !poll_once() && !reads() && shows("first "));
    list("first silent"); /* and one without symbols */
    CHECK(reads() == 2);
    list("other"), show("first"); /* as many, and others */
    CHECK(reads() == 2);
    load("first second");
    CHECK(!poll_once());
    list("second first"); /* in another order */
    CHECK(reads() == 1);
    load("first"), strstr(symbols.text, "c0000000")[4] = '1', meanwhile = move; /* elsewhere only while it was read */
    CHECK(!poll_once());
    load("first");
    CHECK(!poll_once() && !reads() && shows("first "));
    show("first bpf __builtin__ftrace");
    now += MINUTE, list("first");
    CHECK(!poll_once() && !reads());
    end();
}

static void polls_that_take_nothing(void) {
    load("first");
    begin("watched");
    CHECK(!poll_once());
    list("first second"), strcpy(symbols.text, "0000000000000000 T _stext\n");
    for (int i = 0; i < 2; i++)
        CHECK(poll_once() == LATCHSYM_NOTE_HIDDEN && !strcmp(files.at_fault, "kallsyms") && shows("first "));
    symbols.why = EIO;
    CHECK(poll_once() == -1 && errno == EIO && !strcmp(files.at_fault, "kallsyms"));
    symbols.why = 0, show("first second");
    CHECK(!poll_once() && !files.at_fault && shows("first second ") && !reads());
    symbols.why = EIO, now += MINUTE; /* which the watched file says nothing of */
    CHECK(poll_once() == -1);
    symbols.why = 0, show("first second bpf");
    CHECK(!poll_once() && shows("first second bpf ") && !reads());
    end();
    /* a note of the first listing refuses nothing, and none that stays */
    strcpy(symbols.text, "ffffffff81000000 T _stext\n");
    list("");
    begin("watched");
    CHECK(latchsym_followed_read(&files, now) == LATCHSYM_DONE && files.read->notes[0] == LATCHSYM_NOTE_NO_END);
    CHECK(!latchsym_followed_show(&files, &follower, now, &generation));
    CHECK(latchsym_followed_show(&files, &follower, now, &generation) == LATCHSYM_NOTHING);
    strcat(symbols.text, "ffffffff81000001 T two\n"), list("first");
    CHECK(!poll_once());
    end();
}

static void polls_of_other_files(void) {
    load("first");
    begin(NULL);
    CHECK(reads() == 10);
    end();
    begin("watched"); /* a file that is missing says that there is no module, and one that cannot be read nothing */
    watched.why = ENOENT, show("");
    CHECK(reads() == 1);
    watched.why = EISDIR;
    CHECK(reads() == 10);
    watched.why = 0;
    end();
    /* with a listing of modules, and of a table that has too few nodes */
    strcpy(listed.text, "first 4096 0 - Live 0xffffffffc0000000\n"), load("first");
    begin("watched");
    files.modules = "listed";
    CHECK(!poll_once() && !reads() && shows("first "));
    strcpy(listed.text, "first 4096 0 - Live 0x0000000000000000\n"), list("");
    CHECK(poll_once() == LATCHSYM_NOTE_HIDDEN && !strcmp(files.at_fault, "listed"));
    listed.why = EACCES;
    CHECK(poll_once() == -1 && errno == EACCES && !strcmp(files.at_fault, "listed"));
    listed.why = 0;
    end();
    load("first");
    begin("watched");
    latchsym_reader_close(&reader);
    while (latchsym_follower_close(&follower, &generation) == LATCHSYM_DONE) {}
    CHECK(!latchsym_follower_open(2, &follower, &reader, 1) && !poll_once());
    load("first a b c");
    strcat(symbols.text, "ffffffffd0000000 t d\t[d]\n");
    CHECK(poll_once() == LATCHSYM_FULL && poll_once() == LATCHSYM_FULL && shows("first "));
    load("first");
    strcat(symbols.text, "ffffffffc0000010 t e\t[first]\n"), now += MINUTE;
    CHECK(!poll_once());
    end();
}

static void forgotten(void) {
    const long had = blocks;
    struct latchsym_symbol symbol = LATCHSYM_SYMBOL_INIT;
    load("first");
    begin("watched");
    for (int i = 0; i < 100; i++) {
        load(i % 2 ? "first second" : "first third");
        now++;
        CHECK(!poll_once());
        if (i == 49) {
            CHECK(!latchsym_follower_find(&follower, 1, page, &symbol));
            latchsym_followed_forget(&follower, generation);
            CHECK(latchsym_follower_find(&follower, generation - 1, page, &symbol) == LATCHSYM_FORGOTTEN);
        }
    }
    const long before = blocks;
    latchsym_followed_forget_since(&follower, now);
    CHECK(blocks < before - 200 && shows("first second "));
    end();
    CHECK(blocks == had);
}

/* Returns whether a poll that is refused this request for memory shows nothing, and the next one what there is; or that
 * no request was refused. */
static int is_refused_at(long request) {
    int answer;
    load("first");
    begin("watched");
    CHECK(!poll_once());
    load("first second");
    requests = 0, refused_request = request;
    answer = poll_once();
    refused_request = 0;
    if (requests < request) CHECK(!answer);
    /* (where the watched file is not read, the listing is) */
    else if (answer) CHECK((answer == -1 ? errno == ENOMEM : answer == LATCHSYM_OUT_OF_MEMORY) && shows("first ") && !poll_once());
    CHECK(shows("first second ") && reads() <= 1 && !reads());
    end();
    return requests >= request;
}

int main(void) {
    long request = 1;
    setvbuf(stdout, NULL, _IONBF, 0);
    const long had = blocks;
    polls_of_modules();
    polls_of_changes();
    polls_of_time();
    polls_beside_modules();
    polls_that_take_nothing();
    polls_of_other_files();
    forgotten();
    while (request < 1000 && is_refused_at(request)) request++;
    CHECK(request > 10 && request < 1000 && blocks == had);
    printf("polls: ok, and %ld requests for memory refused in turn\n", request - 1);
}
