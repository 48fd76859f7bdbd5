/* SPDX-License-Identifier: MIT OR Apache-2.0 */
/* latchsym: the names of a kernel's addresses, and a latched table of address ranges, which
 * readers search without waiting while one writer changes it.
 *
 * Link with `pkg-config --cflags --libs latchsym`. docs/C_LIBRARY.md has a program to begin with,
 * and says what is proved of each call. What follows is up to the caller: nothing checks it.
 *
 * Handles. A catalog, a writer, a reader and a follower are structs of the caller's, each a
 * handle.
 * - Initialise a handle with `= {0}`, which is a closed one. From then on only the library writes
 *   to it. Never use two copies of one; between two calls its bytes may be moved.
 * - Pass a handle to one call at a time, and only once to a call. (A pool of readers goes to any
 *   number of calls at once.)
 * - Between two calls a handle may go to another thread by a lock, by the start or the join of a
 *   thread, or by a sequentially consistent atomic.
 *
 * Memory.
 * - Keep the bytes of the listings where they are, unchanged, until the last handle of their
 *   catalog is closed: names are places in them.
 * - A pointer may be null only if the length beside it is 0, or in a call that closes a handle.
 *   What it points to is alive, aligned, and initialised if the call reads it. Arguments do not
 *   overlap.
 * - malloc, realloc and free belong to one allocator, and align as C says.
 *
 * Results. Most calls return a number of the list below, of which latchsym_text gives the text.
 * - 0 (LATCHSYM_DONE) is success. A refused call changes nothing, except as its comment says.
 * - LATCHSYM_BAD_HANDLE: a handle is closed that should be open, or open that should be closed, or
 *   of another kind (past a cast). To close a closed handle does nothing.
 * - If several refusals apply, LATCHSYM_BAD_HANDLE comes first, then the others in the order in
 *   which the call lists them, and LATCHSYM_OUT_OF_MEMORY last. But opening a catalog and
 *   beginning a batch or a replacement take memory before all is checked.
 *
 * Signal handlers, and children by fork.
 * - A signal handler may make only the calls marked "handler". They take no memory.
 * - In a handler, a handle that the interrupted call is using counts as closed. In a forked child,
 *   so does every handle that another thread was using at the fork, for good.
 * - That these calls give the right answers is proved if the signal comes between two calls on the
 *   table: block it during the writer's calls. A handler inside a running call is only tested, and
 *   so is a forked child, on x86-64.
 * - The forked child of a process with threads may make only the calls marked "handler", too. It
 *   opens no handle, and goes on to exec. It has a copy of each table, in which it does not see
 *   what the parent's writer does.
 * - A writer whose thread ended inside a call stays closed. Its readers go on.
 */
#ifndef LATCHSYM_H
#define LATCHSYM_H
#include <assert.h>
#include <sched.h>
#include <stddef.h>
#include <stdint.h>
#ifdef __cplusplus
extern "C" {
#endif

/* What a handle holds is the library's own. The library has one type of handle; its names here let
 * the compiler tell a catalog, a writer, a reader and a follower apart. */
struct latchsym_handle { uint32_t kind; void *at; };
struct latchsym_catalog { struct latchsym_handle handle; };
struct latchsym_writer { struct latchsym_handle handle; };
struct latchsym_reader { struct latchsym_handle handle; };
struct latchsym_follower { struct latchsym_handle handle; };
#if (defined(__cplusplus) ? __cplusplus >= 201103L : __STDC_VERSION__ >= 201112L)
static_assert(sizeof(struct latchsym_catalog) == sizeof(struct latchsym_handle), "one handle");
static_assert(sizeof(struct latchsym_writer) == sizeof(struct latchsym_handle), "one handle");
static_assert(sizeof(struct latchsym_reader) == sizeof(struct latchsym_handle), "one handle");
static_assert(sizeof(struct latchsym_follower) == sizeof(struct latchsym_handle), "one handle");
#endif

/* The version of this header: 10000 times the major, 100 times the minor and once the patch
 * number. Each later minor version gives what a program of the same major version was compiled
 * with. */
#define LATCHSYM_VERSION 10300

/* What calls return. A number means the same, whichever call returns it. Those below 20 are
 * refusals, with the numbers that the program prints. Each comment begins with the number's text,
 * up to its first full stop. */
enum {
    LATCHSYM_DONE = 0,     /* done. Of a search: found; of a step: no update is pending */
    LATCHSYM_BAD_ITEM = 1, /* the item is empty */
    LATCHSYM_OVERLAP = 2,  /* the item overlaps one of the table */
    LATCHSYM_NO_SUCH_ITEM = 3,   /* no item of the table begins there */
    LATCHSYM_FULL = 4,           /* the table has as many items as nodes */
    LATCHSYM_UPDATE_IN_HAND = 5, /* an update is pending. It has begun and is not at its end */
    LATCHSYM_SEQUENCE_SPENT = 6, /* the sequence is spent. The table has had 2^63 - 1 updates */
    LATCHSYM_OUT_OF_MEMORY = 7,  /* out of memory */
    LATCHSYM_BAD_CAPACITY = 10,  /* the number of nodes or of readers is out of its range */
    LATCHSYM_TOO_MANY_REGIONS = 14, /* more than 7 region lines have one name */
    LATCHSYM_BAD_LINE = 15, /* a line of the listing of regions is not one. Its number is given */
    LATCHSYM_NO_SYMBOL = 21, /* no symbol of the region is at or below the address */
    LATCHSYM_NOTHING = 22,   /* nothing is there */
    LATCHSYM_RETRY = 23,     /* the writer flipped meanwhile: try again */
    LATCHSYM_BUSY = 24,      /* other calls have all readers of the pool: try again */
    LATCHSYM_FORGOTTEN = 25, /* the follower has no listing of that moment */
    LATCHSYM_FLIP = 31,      /* a flip of the sequence. The second of an update shows it */
    LATCHSYM_STORE = 32,     /* a store of a word */
    LATCHSYM_NOTE_GZIP = 41, /* is compressed by gzip; unpack it first. Up to 54: a listing's */
    LATCHSYM_NOTE_HIDDEN = 42,        /* every address is 0; read it as root (kernel.kptr_restrict) */
    LATCHSYM_NOTE_LIKE_SYMBOLS = 43,  /* looks like a listing of symbols. Noted of modules */
    LATCHSYM_NOTE_LIKE_MODULES = 44,  /* looks like a listing of modules. Noted of symbols */
    LATCHSYM_NOTE_CR_LF = 45,         /* lines end in CR LF */
    LATCHSYM_NOTE_NO_START = 46,      /* has no symbol at the kernel's first address */
    LATCHSYM_NOTE_NO_END = 47,        /* has no symbol at the kernel's end; try the end _einittext */
    LATCHSYM_NOTE_OTHER_BOOT = 48,    /* no symbol lies in a listed module; are both listings of one
                                       * boot? */
    LATCHSYM_NOTE_NO_MODULE_LINE = 49, /* no line is of the form of /proc/modules */
    LATCHSYM_NOTE_NO_SYMBOL_LINE = 50, /* no line is of the form of /proc/kallsyms */
    LATCHSYM_NOTE_MODULES_OVERLAP = 51, /* modules overlap, as sizes do from Linux 6.4 on; leave
                                         * their listing out. A symbol names one that is left out */
    LATCHSYM_NOTE_EMPTY = 52,  /* is empty. Noted of symbols where modules are not given */
    LATCHSYM_NOTE_UTF_16 = 53, /* is UTF-16; convert it first */
    LATCHSYM_NOTE_UNLISTED_OWNER = 54, /* lists no module of some symbols, which are left out; give
                                        * no modules. They are of bpf, __builtin__ftrace or
                                        * __builtin__kprobes */
    LATCHSYM_BAD_HANDLE = 101, /* the handle does not fit the call. It is closed and should be open,
                                * or open and should be closed, or of another kind */
    LATCHSYM_BAD_LENGTH = 102, /* an array has another length than is needed */
    LATCHSYM_BAD_LISTINGS = 103, /* the listings are not as this version has them. Or there are bytes
                                  * of modules or of regions, and has_modules is 0 */
    LATCHSYM_BAD_STAMP = 104     /* the stamp lies below that of a listing shown before */
};

/* How many lines of each listing were used or skipped, and why, as `latchsym lookup` prints them;
 * but mapping symbols are stray beside a listing of modules too, and the kernel's bounds are those
 * given below. Without a listing of modules: how many modules the symbols name, and how many
 * regions these have; the other counts of modules and regions are 0.
 *
 * The two notes say why a listing was of no use: LATCHSYM_NOTE_.., or LATCHSYM_NOTHING. They are
 * what `latchsym lookup` would note by these counts. Print the file's name and then
 * latchsym_text(note). */
struct latchsym_counts {
    uint64_t modules, modules_hidden, modules_empty, modules_wraps, modules_overlap, modules_double,
        modules_long, modules_malformed;
    uint64_t symbols, symbols_hidden, symbols_stray, symbols_long, symbols_malformed;
    uint64_t regions, regions_stray;
    uint32_t modules_note, symbols_note;
};

/* A place: where bytes are, and how many. `at` may be null in an argument without a byte. A place
 * that a call writes must not have null in `at` before, either: initialise a struct with places by
 * its LATCHSYM_.._INIT, and again once the memory that a place points to is freed. */
struct latchsym_place { const uint8_t *at; size_t len; };
#define LATCHSYM_PLACE_INIT { (const uint8_t *)"", 0 }

/* What is known of an address: the module's number (0 is the kernel itself, named `-`), the
 * distance from the symbol to the address and the symbol's size, both in bytes, and the two names.
 * The names are places in the caller's listings, without a 0 byte at the end. */
struct latchsym_symbol {
    uint64_t module_number, offset, size;
    struct latchsym_place name, module;
};
#define LATCHSYM_SYMBOL_INIT { 0, 0, 0, LATCHSYM_PLACE_INIT, LATCHSYM_PLACE_INIT }

/* The same with the lengths of the names alone. They are those of the whole names, of which less
 * may have been copied. */
struct latchsym_answer {
    uint64_t module_number, offset, size;
    size_t name_len, module_len;
};

/* The answer for one of several addresses, and the number that a search for it alone returns. */
struct latchsym_told { struct latchsym_answer answer; uint32_t code; };
#define LATCHSYM_TOLD_INIT { { 0, 0, 0, 0, 0 }, 0 }

/* Addresses from a up to, but not including, b, and a number of the caller's. */
struct latchsym_item { uint64_t a, b, tag; };

/* The item that was found (all 0 if none was), and the generation: the number of updates that
 * readers see. */
struct latchsym_found { uint64_t a, b, tag, generation; };

/* Some calls are functions of this header: they let a pointer be null if its length is 0, or if it
 * is a handle to close. They call the library's functions, whose names end in _nonnull and which
 * take no null pointer. From another language call those. */

/* ---- numbers ---- */

/* Where the text of a number is, for as long as the library is loaded. The length counts the 0
 * byte at its end. A number that no call returns has a text that says so. Handler. */
void latchsym_place_of_text(uint32_t number, struct latchsym_place *out);

/* The text of a number, as a string of C. Handler. */
static inline const char *latchsym_text(uint32_t number) {
    struct latchsym_place place = LATCHSYM_PLACE_INIT;
    latchsym_place_of_text(number, &place);
    return (const char *)place.at;
}

/* The version of the running library; LATCHSYM_VERSION is that of the header. Handler. */
uint32_t latchsym_version(void);

/* ---- the catalog ---- */

/* The listings that a catalog is opened with. Initialise it with LATCHSYM_LISTINGS_INIT, which
 * gives none. A later version of the library may add fields at the end. */
struct latchsym_listings {
    size_t size;                    /* of this struct */
    struct latchsym_place kallsyms; /* in the form of /proc/kallsyms */
    struct latchsym_place modules;  /* in the form of /proc/modules, where has_modules is not 0 */
    struct latchsym_place regions;  /* where modules lie (docs/FORMATS.md), if it has a byte */
    struct latchsym_place start;    /* the names of the symbols at the kernel's first address and */
    struct latchsym_place end;      /* at its end, which is excluded, if one of them has a byte */
    uint32_t has_modules;           /* 0: modules and where they lie come from the symbols alone */
};
#define LATCHSYM_LISTINGS_INIT                                                                     \
    { sizeof(struct latchsym_listings), LATCHSYM_PLACE_INIT, LATCHSYM_PLACE_INIT,                  \
      LATCHSYM_PLACE_INIT, LATCHSYM_PLACE_INIT, LATCHSYM_PLACE_INIT, 0 }

/* Opens a catalog of the listings in a closed handle.
 *
 * Without a listing of modules, the modules are the owners that the symbols name, such as [ext4]
 * and [bpf]. An address is a module's if the symbol below it is, and lies in the same page of 4096
 * bytes; or if the symbol above it is that module's too, less than 1 MiB above the one below. A
 * listing of modules knows less well where they are: from Linux 6.4 on it gives the start of one
 * memory area of a module and the size of all.
 *
 * The kernel itself reaches from `start` up to `end`. If neither is given, it reaches from _stext
 * up to _end or, if these are not listed in this order, from _stext up to _etext and from
 * _sinittext up to _einittext.
 *
 * Returns 0, LATCHSYM_BAD_HANDLE, or LATCHSYM_BAD_LISTINGS if the size is not that of this
 * version, or if has_modules is 0 and there are bytes of modules or of regions. Of a listing of
 * regions also LATCHSYM_BAD_LINE, with the number of the first bad line in bad_line, and
 * LATCHSYM_TOO_MANY_REGIONS. Or LATCHSYM_OUT_OF_MEMORY. Counts are written only with 0. */
uint32_t latchsym_catalog_open_nonnull(const struct latchsym_listings *,
                                       struct latchsym_catalog *out,
                                       struct latchsym_counts *counts, uint64_t *bad_line);
static inline struct latchsym_place latchsym_place_nonnull(struct latchsym_place place) {
    const struct latchsym_place none = LATCHSYM_PLACE_INIT;
    return place.len ? place : none;
}
static inline struct latchsym_listings latchsym_listings_nonnull(struct latchsym_listings given) {
    given.kallsyms = latchsym_place_nonnull(given.kallsyms);
    given.modules = latchsym_place_nonnull(given.modules);
    given.regions = latchsym_place_nonnull(given.regions);
    given.start = latchsym_place_nonnull(given.start);
    given.end = latchsym_place_nonnull(given.end);
    return given;
}
static inline uint32_t latchsym_catalog_open(const struct latchsym_listings *listings,
                                             struct latchsym_catalog *out,
                                             struct latchsym_counts *counts, uint64_t *bad_line) {
    const struct latchsym_listings given = latchsym_listings_nonnull(*listings);
    return latchsym_catalog_open_nonnull(&given, out, counts, bad_line);
}

/* Opens in a closed handle the catalog of what a change leaves of a catalog's listing of symbols:
 * the listing without the lines of each module that the change names, and with the change's own
 * lines behind the others. Since 1.3.
 *
 * `change.kallsyms` has a change as a history has it (docs/FORMATS.md): lines of modules in the
 * form of /proc/kallsyms, and lines "gone NAME". It names the modules of both. Nothing else of
 * `change` is read but its size. A change without a byte opens the same catalog again.
 *
 * Both catalogs share what did not change, so a change of one module takes little time and memory.
 * Keep the bytes of the listings and of the change until both catalogs are closed, or forgotten by
 * their follower.
 *
 * Returns 0; LATCHSYM_BAD_HANDLE, also if the catalog was opened with a listing of modules;
 * LATCHSYM_BAD_LISTINGS if the size is not that of this version, or if there are modules or
 * regions; LATCHSYM_BAD_LINE, with the number of the first line of the change that is not
 * understood in bad_line, as one of the kernel itself; or LATCHSYM_OUT_OF_MEMORY. */
uint32_t latchsym_catalog_change_nonnull(struct latchsym_catalog *,
                                         const struct latchsym_listings *change,
                                         struct latchsym_catalog *out, uint64_t *bad_line);
static inline uint32_t latchsym_catalog_change(struct latchsym_catalog *catalog,
                                               const struct latchsym_listings *change,
                                               struct latchsym_catalog *out, uint64_t *bad_line) {
    const struct latchsym_listings given = latchsym_listings_nonnull(*change);
    return latchsym_catalog_change_nonnull(catalog, &given, out, bad_line);
}

/* The symbol of an address, as `latchsym lookup` prints it, without a copy. Returns 0,
 * LATCHSYM_NO_SYMBOL (only the module is known), LATCHSYM_NOTHING (all numbers are 0 and all names
 * empty) or LATCHSYM_BAD_HANDLE (nothing is written). Takes time logarithmic in regions and
 * symbols. Handler. */
uint32_t latchsym_catalog_find(struct latchsym_catalog *, uint64_t addr,
                               struct latchsym_symbol *out);

/* The same for a return address, as `latchsym lookup --callers` prints it. The call before it may
 * be the last instruction of its function. So the symbol is that of the address one byte lower,
 * and the offset is counted to the return address; it may equal the size. Handler. */
uint32_t latchsym_catalog_find_caller(struct latchsym_catalog *, uint64_t addr,
                                      struct latchsym_symbol *out);

/* The same for many addresses, in any order, in one call: out[i] is about addresses[i]. Returns 0,
 * LATCHSYM_BAD_HANDLE, or LATCHSYM_BAD_LENGTH if the two arrays differ in length; only 0 writes
 * anything. For names call latchsym_catalog_find for the addresses that you show. Addresses with
 * the same `addresses[i] - out[i].answer.offset` have the same symbol. Handler. */
uint32_t latchsym_catalog_find_many_nonnull(struct latchsym_catalog *, const uint64_t *addresses,
                                            size_t addresses_len, struct latchsym_told *out,
                                            size_t out_len);
static inline uint32_t latchsym_catalog_find_many(struct latchsym_catalog *catalog,
                                                  const uint64_t *addresses, size_t addresses_len,
                                                  struct latchsym_told *out, size_t out_len) {
    const uint64_t no_address = 0;
    struct latchsym_told no_room = LATCHSYM_TOLD_INIT;
    return latchsym_catalog_find_many_nonnull(catalog, addresses_len ? addresses : &no_address,
                                              addresses_len, out_len ? out : &no_room, out_len);
}

/* The symbol of an address, with copies of the names: as many bytes of each as there is room for,
 * without a 0 byte at the end. Read no more of a name than its room. Rooms of 512 bytes hold every
 * name of a kernel. The numbers are those of latchsym_catalog_find. Handler. */
uint32_t latchsym_catalog_name_nonnull(struct latchsym_catalog *, uint64_t addr,
                                       struct latchsym_answer *out, uint8_t *name,
                                       size_t name_room, uint8_t *module, size_t module_room);
static inline uint32_t latchsym_catalog_name(struct latchsym_catalog *catalog, uint64_t addr,
                                             struct latchsym_answer *out, uint8_t *name,
                                             size_t name_room, uint8_t *module,
                                             size_t module_room) {
    uint8_t none = 0;
    return latchsym_catalog_name_nonnull(catalog, addr, out, name_room ? name : &none, name_room,
                                         module_room ? module : &none, module_room);
}

/* The number of modules in the catalog. Modules are numbered from 1, in the order of their lines,
 * or of their first symbols if no listing of modules was given. Number 0 is the kernel itself, if
 * it has a region. Returns 0 or LATCHSYM_BAD_HANDLE. Handler. */
uint32_t latchsym_catalog_modules(struct latchsym_catalog *, uint64_t *count);

/* A module: its name (`-` for the kernel), and how many regions and symbols it has. */
struct latchsym_module { struct latchsym_place name; size_t regions, symbols; };
#define LATCHSYM_MODULE_INIT { LATCHSYM_PLACE_INIT, 0, 0 }

/* Addresses from a up to, but not including, b. is_init is 1 if only the start of the module needs
 * them, and else 0. */
struct latchsym_region { uint64_t a, b; uint32_t is_init; };

/* A symbol of a module. */
struct latchsym_entry { uint64_t addr; struct latchsym_place name; };
#define LATCHSYM_ENTRY_INIT { 0, LATCHSYM_PLACE_INIT }

/* A module by its number; a region or a symbol of it by its place, from 0, in the order listed.
 * Returns 0, LATCHSYM_NOTHING if there is none (nothing is written), or LATCHSYM_BAD_HANDLE.
 * Handler. */
uint32_t latchsym_catalog_module(struct latchsym_catalog *, uint64_t number,
                                 struct latchsym_module *out);
uint32_t latchsym_catalog_region(struct latchsym_catalog *, uint64_t number, size_t place,
                                 struct latchsym_region *out);
uint32_t latchsym_catalog_symbol(struct latchsym_catalog *, uint64_t number, size_t place,
                                 struct latchsym_entry *out);

/* The place of the first symbol in a module, from the place `from` on, that has this name. For the
 * next symbol of the name ask again from the place after it. Looks at one symbol after another.
 * Returns 0, LATCHSYM_NOTHING (nothing is written) or LATCHSYM_BAD_HANDLE. Handler. */
uint32_t latchsym_catalog_place_of_name_nonnull(struct latchsym_catalog *, uint64_t number,
                                                const uint8_t *name, size_t name_len, size_t from,
                                                size_t *place);
static inline uint32_t latchsym_catalog_place_of_name(struct latchsym_catalog *catalog,
                                                      uint64_t number, const uint8_t *name,
                                                      size_t name_len, size_t from,
                                                      size_t *place) {
    const uint8_t none = 0;
    return latchsym_catalog_place_of_name_nonnull(catalog, number, name_len ? name : &none,
                                                  name_len, from, place);
}

/* The symbol number `from`, counted from 0, of this name in all modules: its module, and its place
 * there. Symbols are counted by rising number of the module, and then in the order listed. The
 * first call with a handle sorts the symbols by name, which takes memory; later ones take
 * logarithmic time. Returns 0, LATCHSYM_NOTHING, LATCHSYM_OUT_OF_MEMORY or LATCHSYM_BAD_HANDLE;
 * only 0 writes anything. Since 1.2. */
uint32_t latchsym_catalog_find_name_nonnull(struct latchsym_catalog *, const uint8_t *name,
                                            size_t name_len, size_t from, uint64_t *number,
                                            size_t *place);
static inline uint32_t latchsym_catalog_find_name(struct latchsym_catalog *catalog,
                                                  const uint8_t *name, size_t name_len, size_t from,
                                                  uint64_t *number, size_t *place) {
    const uint8_t none = 0;
    return latchsym_catalog_find_name_nonnull(catalog, name_len ? name : &none, name_len, from,
                                              number, place);
}

/* ---- a view of the catalog ---- */

/* A catalog in plain memory of the caller's. Any number of threads search it at once, also while
 * they fork or are interrupted. Keep the memory and the bytes of the listings unchanged while a
 * view of them is used; the catalog may be closed. A view may be copied, and its rows may be read.
 */

/* A symbol of a module, and its place in the order listed. */
struct latchsym_view_symbol { uint64_t addr; size_t place; struct latchsym_place name; };
#define LATCHSYM_VIEW_SYMBOL_INIT { 0, 0, LATCHSYM_PLACE_INIT }

/* Addresses from a up to, but not including, b; the number and the name of their module; all
 * symbols of this module by rising address, those of one address by falling place; and the
 * addresses of these symbols alone. */
struct latchsym_view_region {
    uint64_t a, b, module_number;
    struct latchsym_place module;
    const struct latchsym_view_symbol *symbols;
    size_t symbols_len;
    const uint64_t *addresses;
    size_t addresses_len;
};

/* The regions of all modules by rising address, as latchsym_catalog_flatten wrote them. */
struct latchsym_view { const struct latchsym_view_region *regions; size_t regions_len; };

/* The number of rows that a view of the catalog has: of regions, and of symbols, with as many
 * addresses. Returns 0, LATCHSYM_OUT_OF_MEMORY if no memory could hold so many, or
 * LATCHSYM_BAD_HANDLE; only 0 writes anything. Handler. */
struct latchsym_sizes { size_t regions, symbols; };
uint32_t latchsym_catalog_sizes(struct latchsym_catalog *, struct latchsym_sizes *out);

/* Writes the rows of the catalog to the caller's arrays, and a view of them. The arrays have the
 * lengths of latchsym_catalog_sizes. Returns 0, LATCHSYM_BAD_LENGTH if they have others, or
 * LATCHSYM_BAD_HANDLE; only 0 writes anything. Takes no memory. */
uint32_t latchsym_catalog_flatten_nonnull(struct latchsym_catalog *,
                                          struct latchsym_view_region *regions,
                                          size_t regions_len,
                                          struct latchsym_view_symbol *symbols,
                                          size_t symbols_len, uint64_t *addresses,
                                          size_t addresses_len, struct latchsym_view *out);
static inline uint32_t latchsym_catalog_flatten(struct latchsym_catalog *catalog,
                                                struct latchsym_view_region *regions,
                                                size_t regions_len,
                                                struct latchsym_view_symbol *symbols,
                                                size_t symbols_len, uint64_t *addresses,
                                                size_t addresses_len, struct latchsym_view *out) {
    static struct latchsym_view_symbol no_symbol = LATCHSYM_VIEW_SYMBOL_INIT;
    static uint64_t no_address = 0;
    static struct latchsym_view_region no_region = { 0, 0, 0, LATCHSYM_PLACE_INIT, &no_symbol, 0,
                                                     &no_address, 0 };
    struct latchsym_view view = { &no_region, 0 };
    struct latchsym_sizes sizes = { 0, 0 };
    uint32_t answer = latchsym_catalog_sizes(catalog, &sizes);
    size_t i;
    if (answer) return answer == LATCHSYM_OUT_OF_MEMORY ? (uint32_t)LATCHSYM_BAD_LENGTH : answer;
    if (sizes.regions != regions_len || sizes.symbols != symbols_len || sizes.symbols != addresses_len)
        return LATCHSYM_BAD_LENGTH;
    for (i = 0; i < regions_len; i++) regions[i] = no_region;
    for (i = 0; i < symbols_len; i++) symbols[i] = no_symbol;
    answer = latchsym_catalog_flatten_nonnull(
        catalog, regions_len ? regions : &no_region, regions_len,
        symbols_len ? symbols : &no_symbol, symbols_len, addresses_len ? addresses : &no_address,
        addresses_len, &view);
    if (!answer) *out = view;
    return answer;
}

/* The symbol of an address, as latchsym_catalog_find gives it, for any number of threads at once.
 * One takes 1.1 to 2.5 times as long as there. Returns 0, LATCHSYM_NO_SYMBOL or LATCHSYM_NOTHING.
 * Handler. */
uint32_t latchsym_view_find(const struct latchsym_view *, uint64_t addr,
                            struct latchsym_symbol *out);

/* The same for a return address, as latchsym_catalog_find_caller gives it. Handler. */
uint32_t latchsym_view_find_caller(const struct latchsym_view *, uint64_t addr,
                                   struct latchsym_symbol *out);

/* Opens another handle of the same catalog, for another thread. Returns 0, LATCHSYM_OUT_OF_MEMORY
 * or LATCHSYM_BAD_HANDLE. */
uint32_t latchsym_catalog_share(struct latchsym_catalog *, struct latchsym_catalog *out);

/* Closes a handle. The catalog is freed with its last one. A null pointer closes nothing, here and
 * in the other closing calls. */
void latchsym_catalog_close_nonnull(struct latchsym_catalog *);
static inline void latchsym_catalog_close(struct latchsym_catalog *catalog) {
    if (catalog) latchsym_catalog_close_nonnull(catalog);
}

/* ---- the table ---- */

/* Opens an empty table of 1 to 65536 nodes: its writer, and a reader in each of 1 to 64 closed
 * handles; all of them or none. Returns 0, LATCHSYM_BAD_HANDLE if a handle is open,
 * LATCHSYM_BAD_CAPACITY for another number of nodes or readers, or LATCHSYM_OUT_OF_MEMORY. */
uint32_t latchsym_table_open_nonnull(uint32_t nodes, struct latchsym_writer *,
                                     struct latchsym_reader *readers, size_t count);
static inline uint32_t latchsym_table_open(uint32_t nodes, struct latchsym_writer *writer,
                                           struct latchsym_reader *readers, size_t count) {
    struct latchsym_reader none = { { 0, NULL } };
    return latchsym_table_open_nonnull(nodes, writer, count ? readers : &none, count);
}

/* Opens one more reader of the writer's table in a closed handle, also in the middle of an update:
 * it finds what the others find. Returns 0, LATCHSYM_BAD_HANDLE, LATCHSYM_BAD_CAPACITY if the
 * table has 65536 readers already, or LATCHSYM_OUT_OF_MEMORY. A closed reader still counts here
 * and for latchsym_table_enlarge: give it to latchsym_writer_take_reader instead. */
uint32_t latchsym_writer_add_reader(struct latchsym_writer *, struct latchsym_reader *out);

/* Closes a reader and frees its place in the writer's table, also in the middle of an update:
 * latchsym_writer_add_reader and latchsym_table_enlarge then count one reader fewer. Whether it is
 * a reader of this table is not checked. Returns 0, LATCHSYM_BAD_HANDLE if one of the two is
 * closed, or LATCHSYM_BAD_CAPACITY if the table has no reader. Since 1.1. */
uint32_t latchsym_writer_take_reader(struct latchsym_writer *, struct latchsym_reader *);

/* Begin an update: insert an item, erase the item that begins at `a`, or several of both at once.
 * Readers see all of it from its second flip on. Return 0, LATCHSYM_BAD_HANDLE,
 * LATCHSYM_UPDATE_IN_HAND, LATCHSYM_BAD_ITEM, LATCHSYM_NO_SUCH_ITEM, LATCHSYM_OVERLAP,
 * LATCHSYM_FULL, LATCHSYM_SEQUENCE_SPENT or LATCHSYM_OUT_OF_MEMORY. */
uint32_t latchsym_writer_begin_insert(struct latchsym_writer *, const struct latchsym_item *);
uint32_t latchsym_writer_begin_erase(struct latchsym_writer *, uint64_t a);
uint32_t latchsym_writer_begin_batch_nonnull(struct latchsym_writer *, const uint64_t *erase,
                                             size_t erase_len, const struct latchsym_item *insert,
                                             size_t insert_len);
static inline uint32_t latchsym_writer_begin_batch(struct latchsym_writer *writer,
                                                   const uint64_t *erase, size_t erase_len,
                                                   const struct latchsym_item *insert,
                                                   size_t insert_len) {
    const uint64_t no_start = 0;
    const struct latchsym_item no_item = { 0, 0, 0 };
    return latchsym_writer_begin_batch_nonnull(writer, erase_len ? erase : &no_start, erase_len,
                                               insert_len ? insert : &no_item, insert_len);
}

/* Begins the update after which the table has just these items: at once it erases the others and
 * inserts the new ones, and leaves alone what the table has already. Takes memory for a copy of
 * all items first, and then for the difference. Returns 0, LATCHSYM_BAD_HANDLE,
 * LATCHSYM_UPDATE_IN_HAND, LATCHSYM_OVERLAP if an item does not lie below the next,
 * LATCHSYM_BAD_ITEM, LATCHSYM_FULL, LATCHSYM_SEQUENCE_SPENT or LATCHSYM_OUT_OF_MEMORY. Since 1.1.
 */
uint32_t latchsym_writer_begin_replace_nonnull(struct latchsym_writer *,
                                               const struct latchsym_item *items, size_t items_len);
static inline uint32_t latchsym_writer_begin_replace(struct latchsym_writer *writer,
                                                     const struct latchsym_item *items,
                                                     size_t items_len) {
    const struct latchsym_item no_item = { 0, 0, 0 };
    return latchsym_writer_begin_replace_nonnull(writer, items_len ? items : &no_item, items_len);
}

/* Writes an item for each region of the catalog, by rising address, with the number of its module
 * as the tag: what latchsym_writer_begin_replace takes. The array has the number of regions of
 * latchsym_catalog_sizes. Returns 0, LATCHSYM_BAD_LENGTH or LATCHSYM_BAD_HANDLE; only 0 writes
 * anything. Takes no memory. Since 1.1. */
uint32_t latchsym_catalog_items_nonnull(struct latchsym_catalog *, struct latchsym_item *out,
                                        size_t out_len);
static inline uint32_t latchsym_catalog_items(struct latchsym_catalog *catalog,
                                              struct latchsym_item *out, size_t out_len) {
    struct latchsym_item no_item = { 0, 0, 0 };
    return latchsym_catalog_items_nonnull(catalog, out_len ? out : &no_item, out_len);
}

/* Takes one step of the pending update. Returns LATCHSYM_FLIP or LATCHSYM_STORE; 0 if no update is
 * pending, or it is complete; or LATCHSYM_BAD_HANDLE. Handler, unless another call on the writer
 * is running. */
uint32_t latchsym_writer_step(struct latchsym_writer *);

/* Takes the remaining steps, and gives the generation after them. Returns 0 or
 * LATCHSYM_BAD_HANDLE. */
uint32_t latchsym_writer_finish(struct latchsym_writer *, uint64_t *generation);

/* Gives the table room for `nodes` nodes, at least as many as before and at most 65536, in new
 * memory. The items and the generation stay. Takes all readers of the table: those that it was
 * opened with or that were added, less those that were taken back. All are open, and go on in the
 * new memory. Returns 0, LATCHSYM_BAD_HANDLE if a handle is closed or the number of readers is
 * another, LATCHSYM_BAD_CAPACITY if no table has so many nodes, LATCHSYM_UPDATE_IN_HAND,
 * LATCHSYM_BAD_CAPACITY if it had more nodes before, or LATCHSYM_OUT_OF_MEMORY.
 *
 * Whether a reader is one of this table is not checked. One of another table becomes a reader of
 * this one, and one of this table that is left out keeps the table as it was. */
uint32_t latchsym_table_enlarge_nonnull(uint32_t nodes, struct latchsym_writer *,
                                        struct latchsym_reader *readers, size_t count);
static inline uint32_t latchsym_table_enlarge(uint32_t nodes, struct latchsym_writer *writer,
                                              struct latchsym_reader *readers, size_t count) {
    struct latchsym_reader none = { { 0, NULL } };
    return latchsym_table_enlarge_nonnull(nodes, writer, count ? readers : &none, count);
}

/* What readers find now, also in the middle of an update. Returns 0, LATCHSYM_NOTHING or
 * LATCHSYM_BAD_HANDLE. */
uint32_t latchsym_writer_find(struct latchsym_writer *, uint64_t addr, struct latchsym_found *out);

/* Closes the writer. Open readers keep the table as it is. */
void latchsym_writer_close_nonnull(struct latchsym_writer *);
static inline void latchsym_writer_close(struct latchsym_writer *writer) {
    if (writer) latchsym_writer_close_nonnull(writer);
}

/* The item of an address: from memory if the reader found it last and no update was shown since,
 * else by one attempt. Returns 0, LATCHSYM_NOTHING, LATCHSYM_RETRY (nothing is written) or
 * LATCHSYM_BAD_HANDLE. It is never LATCHSYM_RETRY beside a writer at rest; beside one that never
 * rests no lookup was seen to take more than 6 attempts. Handler. */
uint32_t latchsym_reader_try_find(struct latchsym_reader *, uint64_t addr,
                                  struct latchsym_found *out);

/* The same, and the symbol in the item found, whose tag is taken as the number of a module of the
 * catalog. Returns LATCHSYM_NO_SYMBOL, too. If a handle is closed, nothing is looked up. Handler.
 */
uint32_t latchsym_reader_find_name_nonnull(struct latchsym_reader *, struct latchsym_catalog *,
                                           uint64_t addr, struct latchsym_found *item,
                                           struct latchsym_answer *out, uint8_t *name,
                                           size_t name_room, uint8_t *module, size_t module_room);
static inline uint32_t latchsym_reader_find_name(struct latchsym_reader *reader,
                                                 struct latchsym_catalog *catalog, uint64_t addr,
                                                 struct latchsym_found *item,
                                                 struct latchsym_answer *out, uint8_t *name,
                                                 size_t name_room, uint8_t *module,
                                                 size_t module_room) {
    uint8_t none = 0;
    return latchsym_reader_find_name_nonnull(reader, catalog, addr, item, out,
                                             name_room ? name : &none, name_room,
                                             module_room ? module : &none, module_room);
}

/* Closes a reader. Its place in the table stays taken; latchsym_writer_take_reader frees it. */
void latchsym_reader_close_nonnull(struct latchsym_reader *);
static inline void latchsym_reader_close(struct latchsym_reader *reader) {
    if (reader) latchsym_reader_close_nonnull(reader);
}

/* ---- a pool of readers ---- */

/* A pool has readers of one table, each in a slot, for any number of threads, signal handlers and
 * calls inside calls. A call claims a free slot without waiting for it, and gives it back before
 * it returns. A pool takes some 4 KB. Initialise it with `= {0}`, which is a closed pool. Its type
 * is aligned to 64 bytes: on the heap use aligned_alloc. Only the calls here write to a pool, and
 * none may run while it is moved, opened or freed.
 *
 * A pool needs a slot for each call that may run at once: two for a thread that looks up both in a
 * handler and outside of it. A handler must bound how often it asks again after LATCHSYM_BUSY:
 * inside the call that enlarges the table the answer stays the same.
 *
 * A slot stays claimed for good if a handler leaves the lookup that it interrupted, by siglongjmp
 * or pthread_exit; and in a forked child, if another thread's call had it at the fork. Once all
 * are claimed so, or if a call wanted all at the fork, each call returns LATCHSYM_BUSY. */
enum { LATCHSYM_POOL_MOST = 64 };
/* How often an enlarging or a close looks for free slots before it returns LATCHSYM_BUSY. */
#ifndef LATCHSYM_POOL_LOOKS
#define LATCHSYM_POOL_LOOKS 1000
#endif
struct latchsym_pool_slot {
    uint64_t claims; /* odd while a call has the reader: each claim adds 1, and so does its end */
    struct latchsym_reader reader;
    uint64_t apart[5]; /* the next slot lies in another line of the cache */
};
struct __attribute__((aligned(64))) latchsym_pool {
    uint32_t slots_len, shift; /* calls begin to look at one of the first 2^(32 - shift) slots */
    uint32_t is_wanted;        /* 1 while a call claims all slots, and then no other claims any */
    uint32_t apart[13];
    struct latchsym_pool_slot slots[LATCHSYM_POOL_MOST];
};

/* The number of slots of a pool, 0 once it is closed. */
static inline uint32_t latchsym_pool_len(const struct latchsym_pool *pool) {
    return __atomic_load_n(&pool->slots_len, __ATOMIC_RELAXED);
}

/* Claims a slot if it is free, and returns whether it was. */
static inline int latchsym_pool_claim_slot(struct latchsym_pool_slot *slot) {
    return !(__atomic_load_n(&slot->claims, __ATOMIC_RELAXED) & 1) &&
           !(__atomic_fetch_or(&slot->claims, 1, __ATOMIC_SEQ_CST) & 1);
}

/* Gives back a slot that the call has claimed. */
static inline void latchsym_pool_give_back(struct latchsym_pool_slot *slot) {
    const uint64_t claims = __atomic_load_n(&slot->claims, __ATOMIC_RELAXED);
    __atomic_store_n(&slot->claims, claims + 1, __ATOMIC_RELEASE);
}

/* Claims a free slot of a pool. Returns null if a call wants all slots, or if all were claimed at
 * one moment. Claim counters never fall: if two rounds give the same sum, none changed, so between
 * the rounds every slot was taken. Threads have stacks far apart, mostly by 2^23, so most begin at
 * different slots, if there are enough. */
static inline struct latchsym_pool_slot *latchsym_pool_claim(const struct latchsym_pool *pool) {
    const char here = 0;
    const uint64_t at = (uint64_t)(uintptr_t)&here;
    const uint32_t stack = (uint32_t)((at >> 16) + (at >> 23)), mixed = stack * 0x9e3779b9u;
    const uint32_t len = latchsym_pool_len(pool);
    const uint32_t first = (uint32_t)((uint64_t)mixed >> pool->shift);
    uint64_t sum, before = UINT64_MAX;
    uint32_t i;
    if (__atomic_load_n(&pool->is_wanted, __ATOMIC_RELAXED)) return NULL;
    for (;; before = sum) {
        for (sum = 0, i = 0; i < len; i++) {
            const uint32_t place = first + i < len ? first + i : first + i - len;
            struct latchsym_pool_slot *slot =
                (struct latchsym_pool_slot *)(uintptr_t)&pool->slots[place];
            if (latchsym_pool_claim_slot(slot)) return slot;
            sum += __atomic_load_n(&slot->claims, __ATOMIC_SEQ_CST);
        }
        if (sum == before) return NULL;
    }
}

/* All of 1 to 64 slots, as bits: bit i is that of slot i. */
static inline uint64_t latchsym_pool_all(uint32_t len) {
    return UINT64_MAX >> (LATCHSYM_POOL_MOST - len);
}

/* Claims the free slots beside those that the call has, and returns all that it has then. */
static inline uint64_t latchsym_pool_claim_more(struct latchsym_pool *pool, uint32_t len,
                                                uint64_t mine) {
    uint32_t i;
    for (i = 0; i < len; i++)
        if (!(mine >> i & 1) && latchsym_pool_claim_slot(&pool->slots[i])) mine |= (uint64_t)1 << i;
    return mine;
}

/* Gives back the slots that the call has. */
static inline void latchsym_pool_give_back_all(struct latchsym_pool *pool, uint64_t mine) {
    for (; mine; mine &= mine - 1) latchsym_pool_give_back(&pool->slots[__builtin_ctzll(mine)]);
}

/* Claims all slots of a pool that had `len`, 1 or more. One call at a time does, so that no two
 * wait for each other. It keeps the slots that it has while it looks for the others, and at last
 * lets their threads run. Returns 0; LATCHSYM_BUSY if another call keeps a slot or wants all; or
 * LATCHSYM_BAD_HANDLE if the pool was closed meanwhile. Unless it returns 0 it has no slot. Only a
 * call that has all slots closes a pool, so the pool stays open until this call gives them back. */
static inline uint32_t latchsym_pool_claim_all(struct latchsym_pool *pool, uint32_t len) {
    const uint64_t all = latchsym_pool_all(len);
    uint64_t mine = 0;
    uint32_t looks, is_open;
    if (__atomic_exchange_n(&pool->is_wanted, 1, __ATOMIC_ACQUIRE)) return LATCHSYM_BUSY;
    for (looks = 0; looks < LATCHSYM_POOL_LOOKS && mine != all; looks++) {
        if (looks + 10 >= LATCHSYM_POOL_LOOKS) sched_yield(); /* one may wait for this processor */
        mine = latchsym_pool_claim_more(pool, len, mine);
    }
    is_open = latchsym_pool_len(pool) == len;
    if (mine != all || !is_open) latchsym_pool_give_back_all(pool, mine);
    __atomic_store_n(&pool->is_wanted, 0, __ATOMIC_RELEASE);
    return mine != all ? LATCHSYM_BUSY : is_open ? LATCHSYM_DONE : LATCHSYM_BAD_HANDLE;
}

/* Claims all slots of a pool, and takes their readers out. Returns 0, or what the claim is refused
 * by: then it has no slot. */
static inline uint32_t latchsym_pool_take_readers(struct latchsym_pool *pool,
                                                  struct latchsym_reader *out, uint32_t *len) {
    uint32_t i, answer;
    *len = latchsym_pool_len(pool);
    answer = *len ? latchsym_pool_claim_all(pool, *len) : (uint32_t)LATCHSYM_BAD_HANDLE;
    for (i = 0; !answer && i < *len; i++) out[i] = pool->slots[i].reader;
    return answer;
}

/* Puts the readers back into the slots, and gives these back. */
static inline void latchsym_pool_put_readers(struct latchsym_pool *pool,
                                             const struct latchsym_reader *readers, uint32_t len) {
    uint32_t i;
    for (i = 0; i < len; i++) pool->slots[i].reader = readers[i];
    latchsym_pool_give_back_all(pool, latchsym_pool_all(len));
}

/* Opens a closed pool with 1 to 64 readers, whose handles are then the pool's. Returns 0,
 * LATCHSYM_BAD_HANDLE if the pool is open, or LATCHSYM_BAD_CAPACITY for another number. */
static inline uint32_t latchsym_pool_fill(struct latchsym_pool *pool,
                                          const struct latchsym_reader *readers, size_t slots) {
    uint32_t i;
    if (pool->slots_len) return LATCHSYM_BAD_HANDLE;
    if (slots < 1 || slots > LATCHSYM_POOL_MOST) return LATCHSYM_BAD_CAPACITY;
    for (i = 0; i < slots; i++) pool->slots[i].reader = readers[i];
    for (pool->shift = 32, i = 2; i <= slots; i *= 2) pool->shift--;
    pool->slots_len = (uint32_t)slots;
    return LATCHSYM_DONE;
}

/* Opens an empty table of 1 to 65536 nodes: its writer, and a pool with 1 to 64 of its readers;
 * both or neither. Refuses what latchsym_table_open refuses, and with LATCHSYM_BAD_HANDLE a pool
 * that is open. (For a pool of a follower's readers call latchsym_pool_follow.) */
static inline uint32_t latchsym_pool_open(uint32_t nodes, size_t slots,
                                          struct latchsym_writer *writer,
                                          struct latchsym_pool *pool) {
    struct latchsym_reader readers[LATCHSYM_POOL_MOST] = { { { 0, NULL } } };
    uint32_t answer;
    if (pool->slots_len) return LATCHSYM_BAD_HANDLE;
    answer = latchsym_table_open(nodes, writer, readers, slots > LATCHSYM_POOL_MOST ? 0 : slots);
    return answer ? answer : latchsym_pool_fill(pool, readers, slots);
}

/* The item of an address, as latchsym_reader_try_find gives it. Any number of threads may call it
 * with one pool at once, and so may handlers inside such calls. Returns 0, LATCHSYM_NOTHING,
 * LATCHSYM_RETRY, LATCHSYM_BAD_HANDLE, or LATCHSYM_BUSY if other calls had all readers at one
 * moment, or one wants all (nothing is written). It is never LATCHSYM_BUSY if at most as many
 * calls run at once as there are slots, and none of them enlarges or closes the pool. Of two
 * calls, the later one never gives a lower generation, whichever readers they had. Handler. */
static inline uint32_t latchsym_pool_try_find(const struct latchsym_pool *pool, uint64_t addr,
                                              struct latchsym_found *out) {
    struct latchsym_pool_slot *slot = latchsym_pool_claim(pool);
    uint32_t answer;
    if (!slot) return latchsym_pool_len(pool) ? LATCHSYM_BUSY : LATCHSYM_BAD_HANDLE;
    answer = latchsym_reader_try_find(&slot->reader, addr, out);
    latchsym_pool_give_back(slot);
    return answer;
}

/* Gives the table room for `nodes` nodes, as latchsym_table_enlarge does, with the readers of the
 * pool, which must be all that the table has. Meanwhile threads and handlers may look up, and
 * threads may close the pool: these calls return LATCHSYM_BUSY. Returns 0, LATCHSYM_BAD_HANDLE if
 * the pool is closed, LATCHSYM_BUSY if a call keeps one of the slots or wants all (ask again), or
 * what latchsym_table_enlarge refuses. */
static inline uint32_t latchsym_pool_enlarge(uint32_t nodes, struct latchsym_writer *writer,
                                             struct latchsym_pool *pool) {
    struct latchsym_reader readers[LATCHSYM_POOL_MOST];
    uint32_t len, answer = latchsym_pool_take_readers(pool, readers, &len);
    if (answer) return answer;
    answer = latchsym_table_enlarge(nodes, writer, readers, len);
    latchsym_pool_put_readers(pool, readers, len);
    return answer;
}

/* Closes a pool with its readers, so that calls return LATCHSYM_BAD_HANDLE; also beside calls of
 * other threads that look up, enlarge the table or close it. Returns 0, or LATCHSYM_BUSY if a call
 * keeps one of the slots or wants all: nothing is closed then, so ask again. */
static inline uint32_t latchsym_pool_close(struct latchsym_pool *pool) {
    const uint32_t len = pool ? latchsym_pool_len(pool) : 0;
    uint32_t i, answer = len ? latchsym_pool_claim_all(pool, len) : (uint32_t)LATCHSYM_BAD_HANDLE;
    if (answer == LATCHSYM_BAD_HANDLE) return LATCHSYM_DONE;
    if (answer) return answer;
    __atomic_store_n(&pool->slots_len, 0, __ATOMIC_RELAXED);
    for (i = 0; i < len; i++) latchsym_reader_close(&pool->slots[i].reader);
    latchsym_pool_give_back_all(pool, latchsym_pool_all(len));
    return LATCHSYM_DONE;
}

/* ---- a table that follows a listing, since 1.2 ---- */

/* A follower has a table of its own, which always has the regions of the catalog shown last. It
 * keeps each catalog with the generation of its update and with a stamp of the caller's: any
 * number that does not fall, as a time of CLOCK_MONOTONIC. So a sample is named by the listing of
 * its moment: by the generation that a reader gave with it, or by its stamp. Keep the bytes of a
 * catalog's listings until a call gives its tag back.
 *
 * A stack has one moment: name all of its frames by the generation of its first lookup, since a
 * later lookup may be answered by a listing that was shown after the sample. In a handler look a
 * return address up one lower, for a call may be the last instruction of a region; the calls
 * .._find_caller take the address as it is. A thread that looks nothing up stays at its generation,
 * and holds up who forgets by generation; who forgets by stamp does not wait for it. */

/* Opens a follower without a catalog, over an empty table of 1 to 65536 nodes, and a reader of it
 * in each of 1 to 64 closed handles. Refuses what latchsym_table_open refuses. Until an update is
 * complete, new regions take nodes beside those that they replace: the regions of two listings, as
 * latchsym_catalog_sizes counts them, are enough. */
uint32_t latchsym_follower_open_nonnull(uint32_t nodes, struct latchsym_follower *,
                                        struct latchsym_reader *readers, size_t count);
static inline uint32_t latchsym_follower_open(uint32_t nodes, struct latchsym_follower *follower,
                                              struct latchsym_reader *readers, size_t count) {
    struct latchsym_reader none = { { 0, NULL } };
    return latchsym_follower_open_nonnull(nodes, follower, count ? readers : &none, count);
}

/* Opens one more reader of the table in a closed handle, as latchsym_writer_add_reader does. */
uint32_t latchsym_follower_add_reader(struct latchsym_follower *, struct latchsym_reader *out);

/* Gives the follower's table room for `nodes` nodes, as latchsym_table_enlarge does, with all its
 * readers. So call it where latchsym_follower_show returns LATCHSYM_FULL, and show the catalog
 * again, which is still open. The catalogs stay, each at its generation and stamp. Refuses what
 * latchsym_table_enlarge refuses. Since 1.3. */
uint32_t latchsym_follower_enlarge_nonnull(uint32_t nodes, struct latchsym_follower *,
                                           struct latchsym_reader *readers, size_t count);
static inline uint32_t latchsym_follower_enlarge(uint32_t nodes, struct latchsym_follower *follower,
                                                 struct latchsym_reader *readers, size_t count) {
    struct latchsym_reader none = { { 0, NULL } };
    return latchsym_follower_enlarge_nonnull(nodes, follower, count ? readers : &none, count);
}

/* Opens a follower without a catalog, as latchsym_follower_open does, and a pool with 1 to 64
 * readers of its table; both or neither. Refuses an open pool by LATCHSYM_BAD_HANDLE, too. Since
 * 1.3. */
static inline uint32_t latchsym_pool_follow(uint32_t nodes, size_t slots,
                                            struct latchsym_follower *follower,
                                            struct latchsym_pool *pool) {
    struct latchsym_reader readers[LATCHSYM_POOL_MOST] = { { { 0, NULL } } };
    uint32_t answer;
    if (pool->slots_len) return LATCHSYM_BAD_HANDLE;
    answer = latchsym_follower_open(nodes, follower, readers,
                                    slots > LATCHSYM_POOL_MOST ? 0 : slots);
    return answer ? answer : latchsym_pool_fill(pool, readers, slots);
}

/* Gives the follower's table room for `nodes` nodes, with the readers of the pool, which must be
 * all that the table has: beside what latchsym_pool_enlarge may run beside, and with its numbers.
 * Since 1.3. */
static inline uint32_t latchsym_pool_enlarge_follower(uint32_t nodes,
                                                      struct latchsym_follower *follower,
                                                      struct latchsym_pool *pool) {
    struct latchsym_reader readers[LATCHSYM_POOL_MOST];
    uint32_t len, answer = latchsym_pool_take_readers(pool, readers, &len);
    if (answer) return answer;
    answer = latchsym_follower_enlarge(nodes, follower, readers, len);
    latchsym_pool_put_readers(pool, readers, len);
    return answer;
}

/* Takes the catalog out of its handle, which is then closed, and shows its regions in one update.
 * Readers give this generation from then on, and the catalog is found by it before they can. The
 * tag is a number of the caller's, such as the address of the listings. Returns 0,
 * LATCHSYM_BAD_HANDLE, LATCHSYM_BAD_STAMP, what latchsym_writer_begin_replace refuses, or
 * LATCHSYM_OUT_OF_MEMORY. Unless it is 0, both handles are as they were. */
uint32_t latchsym_follower_show(struct latchsym_follower *, struct latchsym_catalog *,
                                uint64_t since, uint64_t tag, uint64_t *generation);

/* The symbol of an address, or of a return address, at a generation, or a stamp: by code that was
 * noted and there, and else by the last catalog shown at or before it. The numbers are those of
 * latchsym_catalog_find, and LATCHSYM_FORGOTTEN if the follower has no such catalog: then nothing
 * is written. */
uint32_t latchsym_follower_find(struct latchsym_follower *, uint64_t generation, uint64_t addr,
                                struct latchsym_symbol *out);
uint32_t latchsym_follower_find_caller(struct latchsym_follower *, uint64_t generation,
                                       uint64_t addr, struct latchsym_symbol *out);
uint32_t latchsym_follower_find_since(struct latchsym_follower *, uint64_t at, uint64_t addr,
                                      struct latchsym_symbol *out);
uint32_t latchsym_follower_find_caller_since(struct latchsym_follower *, uint64_t at, uint64_t addr,
                                             struct latchsym_symbol *out);

/* Code that the caller knows of itself, as by a record of perf that a program was loaded: its first
 * address, how many bytes it has, its name, and the name of what it belongs to, such as "bpf". */
struct latchsym_code { uint64_t addr, len; struct latchsym_place name, module; };
#define LATCHSYM_CODE_INIT { 0, 0, LATCHSYM_PLACE_INIT, LATCHSYM_PLACE_INIT }

/* Notes that code is there, or that the code which begins at `addr` is gone: from `since`, a stamp
 * of the caller's clock, and from the generation that is written on. So code has its name on all of
 * its bytes, which a listing does not tell, and code that came and went between two listings has it
 * too. Until it is noted gone, a search at a moment when it was there finds it first, whatever the
 * catalogs have: of several at an address the one noted last. The offset is counted from `addr`,
 * the size is `len`, the names are those given, and the module's number is UINT64_MAX.
 *
 * The table keeps its regions, in an update of its own, so that each reader's generation says
 * whether the code was there. Stamps of code may fall, as records may come late.
 *
 * Keep the names' bytes until the follower is closed, or until a call that forgets was made with a
 * generation, or a stamp, at which the code was gone, whatever that call returned.
 *
 * Return 0, LATCHSYM_BAD_HANDLE, LATCHSYM_NOTHING if no code that begins there was noted and not
 * gone, LATCHSYM_SEQUENCE_SPENT or LATCHSYM_OUT_OF_MEMORY. Unless it is 0 nothing changes and
 * nothing is written. Since 1.3. */
uint32_t latchsym_follower_note_nonnull(struct latchsym_follower *, const struct latchsym_code *,
                                        uint64_t since, uint64_t *generation);
static inline uint32_t latchsym_follower_note(struct latchsym_follower *follower,
                                              const struct latchsym_code *code, uint64_t since,
                                              uint64_t *generation) {
    struct latchsym_code given = *code;
    given.name = latchsym_place_nonnull(given.name);
    given.module = latchsym_place_nonnull(given.module);
    return latchsym_follower_note_nonnull(follower, &given, since, generation);
}
uint32_t latchsym_follower_note_gone(struct latchsym_follower *, uint64_t addr, uint64_t since,
                                     uint64_t *generation);

/* Forgets the oldest catalog if the next one was shown at or before a generation, or a stamp, so
 * that no sample from then on needs it, and gives its tag back. The newest stays. Noted code that
 * was gone by then is forgotten by each of these calls. Returns 0; LATCHSYM_NOTHING if no catalog
 * is to be forgotten, or LATCHSYM_BAD_HANDLE: these write nothing. Ask until it is
 * LATCHSYM_NOTHING. */
uint32_t latchsym_follower_forget(struct latchsym_follower *, uint64_t generation, uint64_t *tag);
uint32_t latchsym_follower_forget_since(struct latchsym_follower *, uint64_t at, uint64_t *tag);

/* Drops the oldest catalog, gives its tag back and returns 0. If there is none, closes the
 * follower and returns LATCHSYM_NOTHING: ask until then. LATCHSYM_BAD_HANDLE if it is closed. Open
 * readers keep the table as it is. */
uint32_t latchsym_follower_close(struct latchsym_follower *, uint64_t *tag);

#ifdef __cplusplus
}
#endif
#endif
