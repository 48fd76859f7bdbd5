/* SPDX-License-Identifier: MIT OR Apache-2.0 */
/* Follows the files of a kernel's listings with a follower of latchsym.h: reads them again if they
 * may have changed, and shows the follower those that have. Since 1.3. This stands apart from
 * latchsym.h because it needs files and malloc of the program that includes it.
 *
 *     struct latchsym_followed files = LATCHSYM_FOLLOWED_INIT;      (/proc/kallsyms)
 *     latchsym_follower_open(4096, &follower, readers, 1);
 *     latchsym_followed_poll(&files, &follower, now, &generation);  (now and then)
 *
 * A poll first reads the watched file, /proc/modules, which takes 0.1 ms. If that says of each
 * module what it said at the last reading, the poll reads nothing else, until `every` has passed
 * since: for BPF programs and trampolines, which stand in /proc/kallsyms alone, and for a module
 * that was loaded anew with the same size at the same address. A reading takes 0.1 s.
 *
 * A listing in which modules alone have changed is shown as latchsym_catalog_change makes it of the
 * one before: of both only the lines of these modules are kept. So the first listing takes some 15
 * MB, and one after it 0.1 MB. Of two modules with symbols at one address, which no kernel has, it
 * may name another one than the listing read whole.
 *
 * A module that comes or goes while the listing is read may stand in one of the two files alone. So
 * the watched file is read again behind the listing. Unless it says what it said before, and has
 * the modules that own symbols of the listing, the next poll reads the listing again.
 *
 * What is proved, and what is not: latchsym_follower_.. names each sample by the catalog that was
 * current at its moment, as latchsym.h says, and that is proved. What this header does is only
 * tested: when it reads, that it compares the bytes, and that it frees a listing once the follower
 * gives its tag back. No poll sees a module that came and went between two readings.
 *
 * If a poll returns LATCHSYM_FULL, call latchsym_follower_enlarge with twice the nodes, and poll
 * again.
 *
 * No call here is for signal handlers, and none locks: one call at a time with one struct, and one
 * at a time with one follower. latchsym_followed_read takes the time of a poll and no follower, so
 * beside it another thread may name samples. */
#ifndef LATCHSYM_FOLLOW_H
#define LATCHSYM_FOLLOW_H
#include <latchsym_read.h>
#include <string.h>
#ifdef __cplusplus
extern "C" {
#endif

/* A listing that is shown, or is to be: the bytes of the file of symbols, or a change of those before,
 * and of the file of modules, which its catalog points into, and what is noted of each; the modules
 * that own symbols, and what the watched file said before it was read, if that is known; and whether
 * a poll may be content with the watched file. Of a change also the listing that it was made of,
 * whose bytes the catalog points into, too, and how many bytes of changes there are up to it. `whole`
 * has the bytes of the file of symbols until the next listing is shown. */
struct latchsym_followed_listing {
    struct latchsym_place bytes[2];
    uint32_t notes[2];
    struct latchsym_place owners, seen;
    int is_settled;
    struct latchsym_followed_listing *before;
    size_t holders; /* 1, and one for each listing that was made of it and is kept */
    size_t changed;
    struct latchsym_place whole;
};

/* The files, which the caller gives, and what is known of them, which the calls write. Initialise it
 * with LATCHSYM_FOLLOWED_INIT, and close it by latchsym_followed_close. Times are nanoseconds of a
 * clock whose times do not fall, as CLOCK_MONOTONIC. */
struct latchsym_followed {
    const char *kallsyms; /* the file of symbols */
    const char *modules;  /* that of modules; null: modules come from the symbols */
    const char *watched;  /* in the form of /proc/modules; null: each poll reads the listings */
    uint64_t every;       /* after so long a poll reads them, whatever the watched file says */

    const char *at_fault;                    /* the file that the last answer is about, or null */
    struct latchsym_followed_listing *shown; /* the one that was shown last, or null */
    struct latchsym_followed_listing *read;  /* one that is to be shown, or null: its catalog is */
    struct latchsym_catalog catalog;         /* open */
    struct latchsym_catalog current;         /* the one that was shown last, or closed */
    uint64_t read_at;                        /* when the listings were read last */
};
#define LATCHSYM_FOLLOWED_INIT                                                                     \
    { "/proc/kallsyms", NULL, "/proc/modules", (uint64_t)60000000000, NULL, NULL, NULL,            \
      { { 0, NULL } }, { { 0, NULL } }, 0 }

/* Frees the bytes of a listing whose tag a follower has given back, once none is kept that was made
 * of it. */
static inline void latchsym_followed_free(uint64_t tag) {
    struct latchsym_followed_listing *old = (struct latchsym_followed_listing *)(uintptr_t)tag;
    while (old && !--old->holders) {
        struct latchsym_followed_listing *const before = old->before;
        if (before) free((void *)(uintptr_t)old->whole.at);
        free((void *)(uintptr_t)old->bytes[0].at);
        free((void *)(uintptr_t)old->bytes[1].at);
        free((void *)(uintptr_t)old->owners.at);
        free((void *)(uintptr_t)old->seen.at);
        free(old);
        old = before;
    }
}

/* Frees a listing that was read and is not shown, if there is one. */
static inline void latchsym_followed_drop(struct latchsym_followed *files) {
    latchsym_catalog_close(&files->catalog); /* and only then the bytes that it points into */
    if (files->read) latchsym_followed_free((uintptr_t)files->read);
    files->read = NULL;
}

/* Whether two places have the same bytes. */
static inline int latchsym_followed_is_same(struct latchsym_place one, struct latchsym_place two) {
    return one.len == two.len && !memcmp(one.at, two.at, one.len);
}

/* Whether a text has a line from `at` on: its first word, and where the line behind it begins. */
static inline int latchsym_followed_next(struct latchsym_place text, size_t *at,
                                         struct latchsym_place *word) {
    size_t end = *at;
    if (*at >= text.len) return 0;
    while (end < text.len && text.at[end] != ' ' && text.at[end] != '\n') end++;
    word->at = text.at + *at;
    word->len = end - *at;
    while (end < text.len && text.at[end] != '\n') end++;
    *at = end + 1;
    return 1;
}

/* What the watched file says of each module, in memory to be freed; of none if the file is missing,
 * since then the kernel loads none. Each line loses its third and fourth word, how many use the
 * module and which: they change while it stays loaded. Returns whether that is known. */
static inline int latchsym_followed_watch(const char *path, struct latchsym_place *out) {
    size_t from, to = 0, word = 0;
    uint8_t *text;
    if (!path) return 0;
    if (latchsym_read_file(path, out)) {
        if (errno != ENOENT) return 0;
        out->at = (const uint8_t *)malloc(1);
        out->len = 0;
        return out->at != NULL;
    }
    text = (uint8_t *)(uintptr_t)out->at;
    for (from = 0; from < out->len; from++) {
        const uint8_t byte = text[from];
        if (byte == '\n' || word < 2 || word > 3) text[to++] = byte;
        word = byte == '\n' ? 0 : word + (byte == ' ');
    }
    out->len = to;
    return 1;
}

/* Whether a module of this name owns symbols and is none that /proc/modules has. */
static inline int latchsym_followed_is_unlisted(struct latchsym_place name) {
    const char *const names[] = { "bpf", "__builtin__ftrace", "__builtin__kprobes" };
    int i, is_one = 0;
    for (i = 0; i < 3; i++)
        is_one = is_one || (strlen(names[i]) == name.len && !memcmp(names[i], name.at, name.len));
    return is_one;
}

/* Writes the names of the modules that own symbols of a catalog, a line each, but those that no
 * listing of modules has, if there is room; returns their length. */
static inline size_t latchsym_followed_owners(struct latchsym_catalog *catalog, uint8_t *out) {
    uint64_t number, count = 0;
    size_t len = 0;
    latchsym_catalog_modules(catalog, &count);
    for (number = 1; number <= count; number++) {
        struct latchsym_module module = LATCHSYM_MODULE_INIT;
        latchsym_catalog_module(catalog, number, &module);
        if (!module.symbols || latchsym_followed_is_unlisted(module.name)) continue;
        if (out) memcpy(out + len, module.name.at, module.name.len);
        len += module.name.len;
        if (out) out[len] = '\n';
        len++;
    }
    return len;
}

/* Whether the modules that own symbols are those that the watched file has. */
static inline int latchsym_followed_agree(const struct latchsym_followed_listing *listing) {
    struct latchsym_place owner, listed;
    size_t at = 0, place = 0, owners = 0, others = 0;
    for (; latchsym_followed_next(listing->owners, &at, &owner); owners++) {
        int turn, is_listed = 0;
        for (turn = 0; turn < 2 && !is_listed; turn++) { /* mostly the next one is it */
            if (turn) place = 0;
            while (!is_listed && latchsym_followed_next(listing->seen, &place, &listed))
                is_listed = latchsym_followed_is_same(owner, listed);
        }
        if (!is_listed) return 0;
    }
    for (at = 0; latchsym_followed_next(listing->seen, &at, &listed); others++) {}
    return owners == others;
}

/* Whether polls may be content with the watched file now that a listing has been read: it says what
 * it said before, and has the modules that own symbols. If this reading was as the one before, a
 * module that the watched file alone has is one without symbols. */
static inline int latchsym_followed_settles(const struct latchsym_followed *files,
                                            const struct latchsym_followed_listing *listing,
                                            int is_again) {
    struct latchsym_place now;
    int is_same;
    if (!listing->seen.at || !latchsym_followed_watch(files->watched, &now)) return 0;
    is_same = latchsym_followed_is_same(now, listing->seen);
    free((void *)(uintptr_t)now.at);
    return is_same && (is_again || latchsym_followed_agree(listing));
}

/* Lines of one module that lie side by side, and its name. */
struct latchsym_followed_run {
    struct latchsym_place name, lines;
};

/* The module of the line that begins at `at` of a text of whole lines, if it ends in one; and where
 * the line behind it begins. */
static inline int latchsym_followed_module(struct latchsym_place text, size_t at, size_t *next,
                                           struct latchsym_place *name) {
    const uint8_t *const line = text.at + at;
    const uint8_t *const end = (const uint8_t *)memchr(line, '\n', text.len - at);
    const uint8_t *tab = end;
    *next = (size_t)(end - text.at) + 1;
    if (end == line || end[-1] != ']') return 0;
    while (tab > line && *tab != '\t') tab--;
    if (*tab != '\t' || tab[1] != '[' || tab + 3 > end) return 0;
    name->at = tab + 2;
    name->len = (size_t)(end - tab) - 3;
    return 1;
}

/* How many bytes of a listing are before its first line with a tab: those of the kernel itself. */
static inline size_t latchsym_followed_kernel(struct latchsym_place text) {
    const uint8_t *at = text.len ? (const uint8_t *)memchr(text.at, '\t', text.len) : NULL;
    if (!at) return text.len;
    while (at > text.at && at[-1] != '\n') at--;
    return (size_t)(at - text.at);
}

/* The runs of the lines from `at` on, in memory to be freed, if each line is a module's and no module
 * has two; and their number. */
static inline struct latchsym_followed_run *latchsym_followed_runs(struct latchsym_place text,
                                                                   size_t at, size_t *count) {
    struct latchsym_followed_run *runs = NULL, *more;
    struct latchsym_place name;
    size_t room = 0, i, next;
    *count = 0;
    if (!text.len || text.at[text.len - 1] != '\n') return NULL;
    for (; at < text.len; at = next) {
        if (!latchsym_followed_module(text, at, &next, &name)) break;
        if (!*count || !latchsym_followed_is_same(name, runs[*count - 1].name)) {
            for (i = 0; i < *count && !latchsym_followed_is_same(name, runs[i].name); i++) {}
            if (i < *count) break;
            if (*count == room) {
                room = 2 * room + 64;
                more = (struct latchsym_followed_run *)realloc(runs, room * sizeof *runs);
                if (!more) break;
                runs = more;
            }
            runs[*count].name = name;
            runs[*count].lines.at = text.at + at;
            runs[(*count)++].lines.len = 0;
        }
        runs[*count - 1].lines.len += next - at;
    }
    if (at < text.len || !runs) {
        free(runs);
        return NULL;
    }
    return runs;
}

/* The run of a module, if there is one. The place `near` is tried first. */
static inline const struct latchsym_followed_run *
latchsym_followed_run_of(const struct latchsym_followed_run *runs, size_t count, size_t near,
                         struct latchsym_place name) {
    size_t i;
    if (near < count && latchsym_followed_is_same(runs[near].name, name)) return &runs[near];
    for (i = 0; i < count; i++)
        if (latchsym_followed_is_same(runs[i].name, name)) return &runs[i];
    return NULL;
}

/* Writes what changes the old runs to the new ones, if there is room; returns its length. */
static inline size_t latchsym_followed_difference(const struct latchsym_followed_run *old, size_t olds,
                                                  const struct latchsym_followed_run *runs,
                                                  size_t count, uint8_t *out) {
    const char gone[] = "gone ";
    size_t i, len = 0;
    for (i = 0; i < olds; i++) {
        if (latchsym_followed_run_of(runs, count, i, old[i].name)) continue;
        if (out) {
            memcpy(out + len, gone, 5);
            memcpy(out + len + 5, old[i].name.at, old[i].name.len);
            out[len + 5 + old[i].name.len] = '\n';
        }
        len += old[i].name.len + 6;
    }
    for (i = 0; i < count; i++) {
        const struct latchsym_followed_run *was =
            latchsym_followed_run_of(old, olds, i, runs[i].name);
        if (was && latchsym_followed_is_same(was->lines, runs[i].lines)) continue;
        if (out) memcpy(out + len, runs[i].lines.at, runs[i].lines.len);
        len += runs[i].lines.len;
    }
    return len;
}

/* What changes one listing of symbols to another, in memory to be freed, if modules alone differ. */
static inline int latchsym_followed_change_of(struct latchsym_place old, struct latchsym_place text,
                                              struct latchsym_place *change) {
    const size_t kernel = latchsym_followed_kernel(text);
    struct latchsym_followed_run *olds, *runs = NULL;
    size_t old_count, count;
    uint8_t *out = NULL;
    if (kernel != latchsym_followed_kernel(old) || memcmp(old.at, text.at, kernel)) return 0;
    olds = latchsym_followed_runs(old, kernel, &old_count);
    if (olds) runs = latchsym_followed_runs(text, kernel, &count);
    if (runs) {
        change->len = latchsym_followed_difference(olds, old_count, runs, count, NULL);
        out = (uint8_t *)malloc(change->len + 1);
        if (out) latchsym_followed_difference(olds, old_count, runs, count, out);
        change->at = out;
    }
    free(olds);
    free(runs);
    return out != NULL;
}

/* Opens the catalog of the bytes that were read by the change of those before, if modules alone have
 * changed, and not much since a listing was opened whole. Returns whether it is open. */
static inline int latchsym_followed_changes(struct latchsym_followed *files,
                                            struct latchsym_followed_listing *listing) {
    struct latchsym_followed_listing *const old = files->shown;
    struct latchsym_listings given = LATCHSYM_LISTINGS_INIT;
    struct latchsym_place change;
    uint64_t line;
    if (!old || files->modules || !latchsym_followed_change_of(old->whole, listing->whole, &change))
        return 0;
    given.kallsyms = change;
    if (old->changed + change.len > listing->whole.len / 4 ||
        latchsym_catalog_change(&files->current, &given, &files->catalog, &line)) {
        free((void *)(uintptr_t)change.at);
        return 0;
    }
    listing->bytes[0] = change;
    listing->changed = old->changed + change.len;
    listing->notes[0] = old->notes[0];
    listing->notes[1] = old->notes[1];
    listing->before = old;
    old->holders++;
    return 1;
}

/* Writes which modules own symbols of the catalog that is open. Returns 0 or LATCHSYM_OUT_OF_MEMORY. */
static inline uint32_t latchsym_followed_list(struct latchsym_followed *files,
                                              struct latchsym_followed_listing *listing) {
    uint8_t *owners;
    listing->owners.len = latchsym_followed_owners(&files->catalog, NULL);
    owners = (uint8_t *)malloc(listing->owners.len + 1);
    if (!owners) return LATCHSYM_OUT_OF_MEMORY;
    latchsym_followed_owners(&files->catalog, owners);
    listing->owners.at = owners;
    return LATCHSYM_DONE;
}

/* Opens the catalog of the bytes that were read. Returns 0, what latchsym_catalog_open refuses, or
 * the first note of a file that was not noted of the listing shown. */
static inline uint32_t latchsym_followed_open(struct latchsym_followed *files,
                                              struct latchsym_followed_listing *listing) {
    const char *const paths[2] = { files->kallsyms, files->modules };
    struct latchsym_listings given = LATCHSYM_LISTINGS_INIT;
    struct latchsym_counts counts;
    uint64_t line;
    uint32_t answer;
    int i;
    if (latchsym_followed_changes(files, listing)) return latchsym_followed_list(files, listing);
    given.kallsyms = listing->bytes[0];
    given.modules = listing->bytes[1];
    given.has_modules = files->modules != NULL;
    answer = latchsym_catalog_open(&given, &files->catalog, &counts, &line);
    if (answer) return answer;
    listing->notes[0] = counts.symbols_note;
    listing->notes[1] = counts.modules_note;
    for (i = 0; files->shown && i < 2; i++) {
        const uint32_t note = listing->notes[i];
        if (note == LATCHSYM_NOTHING || note == files->shown->notes[i]) continue;
        files->at_fault = paths[i];
        return note;
    }
    return latchsym_followed_list(files, listing);
}

/* Reads the files if they may have changed, and takes a listing that is to be shown: the first one,
 * and each that has other bytes than the one shown. Its catalog is then open in `catalog`.
 *
 * Returns 0; LATCHSYM_NOTHING if none is to be shown; LATCHSYM_OUT_OF_MEMORY; LATCHSYM_NOTE_.. if
 * that is noted of a file and was not noted of the listing shown, as of one read without rights; or
 * -1, with the reason in errno, if a file cannot be read. With a note and with -1, `at_fault` names
 * the file. Unless it is 0 no listing is taken: the one shown stays, and the next poll reads again,
 * except after LATCHSYM_NOTHING. (What is noted of the first listing is in `read->notes`. Nothing is
 * noted of one that is cut after _etext.) */
static inline int latchsym_followed_read(struct latchsym_followed *files, uint64_t now) {
    const char *const paths[2] = { files->kallsyms, files->modules };
    struct latchsym_followed_listing *old = files->shown, *one;
    int i, why, is_as_seen, is_same = old != NULL;
    uint32_t answer;
    latchsym_followed_drop(files);
    files->at_fault = NULL;
    one = (struct latchsym_followed_listing *)calloc(1, sizeof *one);
    if (!one) return LATCHSYM_OUT_OF_MEMORY;
    one->holders = 1;
    if (!latchsym_followed_watch(files->watched, &one->seen)) one->seen.at = NULL;
    is_as_seen = old && one->seen.at && old->seen.at &&
                 latchsym_followed_is_same(one->seen, old->seen);
    if (is_as_seen && old->is_settled && now - files->read_at < files->every) {
        latchsym_followed_free((uintptr_t)one);
        return LATCHSYM_NOTHING;
    }
    if (old) {
        free((void *)(uintptr_t)old->seen.at);
        old->seen.at = NULL; /* so the next poll reads again, unless this one settles it */
    }
    files->read_at = now;
    for (i = 0; i < 2 && paths[i]; i++) {
        if (latchsym_read_file(paths[i], &one->bytes[i])) {
            why = errno;
            latchsym_followed_free((uintptr_t)one);
            files->at_fault = paths[i];
            errno = why;
            return -1;
        }
        is_same = is_same &&
                  latchsym_followed_is_same(one->bytes[i], i ? old->bytes[i] : old->whole);
    }
    one->whole = one->bytes[0];
    if (is_same) {
        old->seen = one->seen;
        one->seen.at = NULL;
        old->is_settled = latchsym_followed_settles(files, old, is_as_seen);
        latchsym_followed_free((uintptr_t)one);
        return LATCHSYM_NOTHING;
    }
    files->read = one;
    answer = latchsym_followed_open(files, one);
    if (answer) latchsym_followed_drop(files);
    else one->is_settled = latchsym_followed_settles(files, one, 0);
    return (int)answer;
}

/* Shows the follower the listing that latchsym_followed_read took, with the time `now` as its stamp.
 * Returns 0; LATCHSYM_NOTHING if none was taken; or what latchsym_follower_show refuses: the next
 * poll reads again. */
static inline uint32_t latchsym_followed_show(struct latchsym_followed *files,
                                              struct latchsym_follower *follower, uint64_t now,
                                              uint64_t *generation) {
    struct latchsym_catalog next = { { 0, NULL } };
    uint32_t answer;
    if (!files->read) return LATCHSYM_NOTHING;
    answer = latchsym_catalog_share(&files->catalog, &next);
    if (!answer)
        answer = latchsym_follower_show(follower, &files->catalog, now, (uintptr_t)files->read,
                                        generation);
    if (answer) {
        latchsym_catalog_close(&next);
        return answer;
    }
    latchsym_catalog_close(&files->current);
    files->current = next;
    if (files->shown && files->shown->before) {
        free((void *)(uintptr_t)files->shown->whole.at);
        files->shown->whole.at = NULL;
    }
    files->shown = files->read;
    files->read = NULL;
    return answer;
}

/* Reads the files if they may have changed, and shows the follower a listing that is another one.
 * Returns 0, with the generation from which on it is current, or what the two calls above return. */
static inline int latchsym_followed_poll(struct latchsym_followed *files,
                                         struct latchsym_follower *follower, uint64_t now,
                                         uint64_t *generation) {
    const int answer = latchsym_followed_read(files, now);
    return answer ? answer : (int)latchsym_followed_show(files, follower, now, generation);
}

/* Forgets and frees each listing that no sample of this generation, or stamp, or a later one needs.
 * Every catalog of the follower was shown by the calls above. */
static inline void latchsym_followed_forget(struct latchsym_follower *follower,
                                            uint64_t generation) {
    uint64_t tag;
    while (latchsym_follower_forget(follower, generation, &tag) == LATCHSYM_DONE)
        latchsym_followed_free(tag);
}
static inline void latchsym_followed_forget_since(struct latchsym_follower *follower, uint64_t at) {
    uint64_t tag;
    while (latchsym_follower_forget_since(follower, at, &tag) == LATCHSYM_DONE)
        latchsym_followed_free(tag);
}

/* Closes the follower, and frees all listings. The paths stay, and the files may be followed again
 * by another follower. */
static inline void latchsym_followed_close(struct latchsym_followed *files,
                                           struct latchsym_follower *follower) {
    uint64_t tag;
    latchsym_followed_drop(files);
    latchsym_catalog_close(&files->current);
    while (latchsym_follower_close(follower, &tag) == LATCHSYM_DONE) latchsym_followed_free(tag);
    files->shown = NULL;
}

#ifdef __cplusplus
}
#endif
#endif
