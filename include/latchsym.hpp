// SPDX-License-Identifier: MIT OR Apache-2.0
/* latchsym for C++17: the calls of latchsym.h with handles that close themselves, names as
 * std::string_view, and refusals as exceptions; and a follower of files over latchsym_follow.h. Link
 * as for latchsym.h.
 *
 *     latchsym::listings listings;
 *     listings.kallsyms = text; // which stays where it is, unchanged, while the catalog is open
 *     latchsym::catalog catalog(listings);
 *     if (auto found = catalog.find(0xffffffffc0000018)) std::cout << found->name << '\n';
 *
 * Use an object on one thread at a time, also to look up: no member that calls the library is
 * const, except those of a view, which any number of threads search at once. Between two calls an
 * object may go to another thread. One that was moved from may only be assigned or destroyed. In a
 * signal handler use the calls of latchsym.h that are marked "handler", with the handle that get()
 * gives: members may throw, and some take memory. */
#ifndef LATCHSYM_HPP
#define LATCHSYM_HPP
#include <latchsym.h>
#include <latchsym_follow.h>

#include <cerrno>
#include <chrono>
#include <cstddef>
#include <cstdint>
#include <list>
#include <memory>
#include <optional>
#include <stdexcept>
#include <string>
#include <string_view>
#include <system_error>
#include <thread>
#include <type_traits>
#include <utility>
#include <vector>

namespace latchsym {

/* What the library refused, with its text. */
class error : public std::runtime_error {
public:
    explicit error(std::uint32_t number) : error(number, latchsym_text(number)) {}
    /* One of the numbers of latchsym.h. */
    std::uint32_t number() const noexcept { return number_; }

protected:
    error(std::uint32_t number, const std::string &text)
        : std::runtime_error(text), number_(number) {}

private:
    std::uint32_t number_;
};

/* A line of the listing of regions is bad: line() has the number of the first. */
class bad_line : public error {
public:
    explicit bad_line(std::uint64_t line)
        : error(LATCHSYM_BAD_LINE,
                std::string(latchsym_text(LATCHSYM_BAD_LINE)) + ": line " + std::to_string(line)),
          line_(line) {}
    std::uint64_t line() const noexcept { return line_; }

private:
    std::uint64_t line_;
};

namespace detail {

inline void check(std::uint32_t number) {
    if (number != LATCHSYM_DONE) throw error(number);
}

/* Returns whether something was written; throws each number but 0 and LATCHSYM_NOTHING. */
inline bool is_there(std::uint32_t number) {
    if (number != LATCHSYM_NOTHING) check(number);
    return number == LATCHSYM_DONE;
}

inline latchsym_place place(std::string_view text) noexcept {
    return {reinterpret_cast<const std::uint8_t *>(text.data()), text.size()};
}

inline std::string_view text(const latchsym_place &place) noexcept {
    return {reinterpret_cast<const char *>(place.at), place.len};
}

struct closes {
    void operator()(latchsym_catalog *handle) const noexcept {
        latchsym_catalog_close(handle);
        delete handle;
    }
    void operator()(latchsym_writer *handle) const noexcept {
        latchsym_writer_close(handle);
        delete handle;
    }
};

/* An open handle is never moved, so it lies apart from the object that owns it. */
template <class Handle>
using owned = std::unique_ptr<Handle, closes>;

template <class Handle>
owned<Handle> closed() {
    return owned<Handle>(new Handle{});
}

} // namespace detail

/* The version of the running library; LATCHSYM_VERSION is that of the header. */
inline std::uint32_t version() noexcept { return latchsym_version(); }

/* ---- the catalog ---- */

/* The listings that a catalog is opened with, as in latchsym.h. Without a listing of modules the
 * symbols say which there are, and where. */
struct listings {
    std::string_view kallsyms;
    std::optional<std::string_view> modules;
    std::string_view regions, start, end;
};

/* What is known of an address. The names are in the caller's listings, and can be read as long
 * as these are kept. */
struct symbol {
    std::string_view name;   /* empty if the module has no symbol at or below the address */
    std::string_view module; /* `-` is the kernel itself */
    std::uint64_t offset, size, module_number;
    bool has_name;
};

using told = latchsym_told;
using region = latchsym_region;
using counts = latchsym_counts;

struct module {
    std::string_view name;
    std::size_t regions, symbols;
};

struct entry {
    std::uint64_t addr;
    std::string_view name;
};

namespace detail {

/* The answer of a call with these words; none if nothing is there. */
template <class Call, class... Words>
std::optional<symbol> symbol_by(Call call, Words... words) {
    latchsym_symbol out = LATCHSYM_SYMBOL_INIT;
    const std::uint32_t number = call(words..., &out);
    if (number == LATCHSYM_NOTHING) return std::nullopt;
    const bool has_name = number != LATCHSYM_NO_SYMBOL;
    if (has_name) check(number);
    return symbol{text(out.name), text(out.module),  out.offset,
                  out.size,       out.module_number, has_name};
}

} // namespace detail

class catalog {
public:
    /* Opens a catalog of the listings. Keep their bytes while it, or one that shares it, is
     * open. */
    explicit catalog(const listings &from) : handle_(detail::closed<latchsym_catalog>()) {
        latchsym_listings given = LATCHSYM_LISTINGS_INIT;
        given.kallsyms = detail::place(from.kallsyms);
        given.modules = detail::place(from.modules.value_or(std::string_view()));
        given.has_modules = from.modules.has_value();
        given.regions = detail::place(from.regions);
        given.start = detail::place(from.start);
        given.end = detail::place(from.end);
        std::uint64_t line = 0;
        const std::uint32_t number = latchsym_catalog_open(&given, get(), &counts_, &line);
        if (number == LATCHSYM_BAD_LINE) throw bad_line(line);
        detail::check(number);
    }

    /* The catalog of what a change leaves of this one's listing of symbols: without the lines of the
     * modules that it names, and with its own lines. Its text is lines of modules as in
     * /proc/kallsyms, and lines "gone NAME". Both catalogs share what did not change. Keep the bytes
     * of the listings and of the change while either is open. counts() stays as it is. */
    catalog change(std::string_view text) {
        latchsym_listings given = LATCHSYM_LISTINGS_INIT;
        given.kallsyms = detail::place(text);
        std::uint64_t line = 0;
        catalog other(counts_);
        const std::uint32_t number = latchsym_catalog_change(get(), &given, other.get(), &line);
        if (number == LATCHSYM_BAD_LINE) throw bad_line(line);
        detail::check(number);
        return other;
    }

    /* The same catalog for another thread. */
    catalog share() {
        catalog other(counts_);
        detail::check(latchsym_catalog_share(get(), other.get()));
        return other;
    }

    /* How many lines of each listing were used, and how many skipped, for each reason. */
    const latchsym::counts &counts() const noexcept { return counts_; }

    latchsym_catalog *get() noexcept { return handle_.get(); }

    /* The symbol of an address, or none. */
    std::optional<symbol> find(std::uint64_t addr) {
        return detail::symbol_by(latchsym_catalog_find, get(), addr);
    }

    /* The symbol of a return address: of the call before it. */
    std::optional<symbol> find_caller(std::uint64_t addr) {
        return detail::symbol_by(latchsym_catalog_find_caller, get(), addr);
    }

    /* The numbers for many addresses, written to as many places. */
    void find_many(const std::uint64_t *addresses, std::size_t count, told *out) {
        detail::check(latchsym_catalog_find_many(get(), addresses, count, out, count));
    }

    /* The same for a container whose numbers lie in one row, such as std::vector or std::array. */
    template <class Addresses>
    std::vector<told> find_many(const Addresses &addresses) {
        using number = std::remove_cv_t<std::remove_pointer_t<decltype(std::data(addresses))>>;
        static_assert(std::is_same_v<number, std::uint64_t>, "addresses are std::uint64_t");
        std::vector<told> out(std::size(addresses));
        find_many(std::data(addresses), out.size(), out.data());
        return out;
    }

    /* The number of modules. They are numbered from 1; the kernel itself is 0. */
    std::uint64_t modules() {
        std::uint64_t count = 0;
        detail::check(latchsym_catalog_modules(get(), &count));
        return count;
    }

    /* An item for each region, by rising address, with the number of its module as the tag. */
    std::vector<latchsym_item> items() {
        latchsym_sizes sizes{};
        detail::check(latchsym_catalog_sizes(get(), &sizes));
        std::vector<latchsym_item> out(sizes.regions);
        detail::check(latchsym_catalog_items(get(), out.data(), out.size()));
        return out;
    }

    std::optional<latchsym::module> module(std::uint64_t number) {
        latchsym_module out = LATCHSYM_MODULE_INIT;
        if (!detail::is_there(latchsym_catalog_module(get(), number, &out))) return std::nullopt;
        return latchsym::module{detail::text(out.name), out.regions, out.symbols};
    }

    std::optional<latchsym::region> region(std::uint64_t number, std::size_t place) {
        latchsym::region out{};
        if (!detail::is_there(latchsym_catalog_region(get(), number, place, &out)))
            return std::nullopt;
        return out;
    }

    std::optional<entry> symbol_at(std::uint64_t number, std::size_t place) {
        latchsym_entry out = LATCHSYM_ENTRY_INIT;
        if (!detail::is_there(latchsym_catalog_symbol(get(), number, place, &out)))
            return std::nullopt;
        return entry{out.addr, detail::text(out.name)};
    }

    /* The place of the first symbol of a name in a module, from a place on. */
    std::optional<std::size_t> place_of_name(std::uint64_t number, std::string_view name,
                                             std::size_t from = 0) {
        const latchsym_place bytes = detail::place(name);
        std::size_t out = 0;
        const auto got =
            latchsym_catalog_place_of_name(get(), number, bytes.at, bytes.len, from, &out);
        if (!detail::is_there(got)) return std::nullopt;
        return out;
    }

    /* The symbol number `from`, counted from 0, of a name in all modules: its module, and its
     * place there. The first call sorts the symbols by name. */
    std::optional<std::pair<std::uint64_t, std::size_t>> find_name(std::string_view name,
                                                                   std::size_t from = 0) {
        const latchsym_place bytes = detail::place(name);
        std::pair<std::uint64_t, std::size_t> out{};
        const auto got =
            latchsym_catalog_find_name(get(), bytes.at, bytes.len, from, &out.first, &out.second);
        if (!detail::is_there(got)) return std::nullopt;
        return out;
    }

private:
    explicit catalog(const latchsym::counts &counts)
        : handle_(detail::closed<latchsym_catalog>()), counts_(counts) {}

    detail::owned<latchsym_catalog> handle_;
    latchsym::counts counts_{};
};

/* A catalog in memory of its own, which any number of threads search at once. Keep the bytes of
 * the listings as long; the catalog may be closed. */
class view {
public:
    explicit view(catalog &from) {
        latchsym_sizes sizes{};
        detail::check(latchsym_catalog_sizes(from.get(), &sizes));
        regions_.resize(sizes.regions);
        symbols_.resize(sizes.symbols);
        addresses_.resize(sizes.symbols);
        detail::check(latchsym_catalog_flatten(from.get(), regions_.data(), regions_.size(),
                                               symbols_.data(), symbols_.size(),
                                               addresses_.data(), addresses_.size(), &view_));
    }

    /* Its rows stay in place when it is moved; a copy would have them twice. */
    view(view &&) = default;
    view &operator=(view &&) = default;
    view(const view &) = delete;
    view &operator=(const view &) = delete;

    const latchsym_view *get() const noexcept { return &view_; }

    /* The symbol of an address, or none. */
    std::optional<symbol> find(std::uint64_t addr) const {
        return detail::symbol_by(latchsym_view_find, get(), addr);
    }

    /* The symbol of a return address: of the call before it. */
    std::optional<symbol> find_caller(std::uint64_t addr) const {
        return detail::symbol_by(latchsym_view_find_caller, get(), addr);
    }

private:
    std::vector<latchsym_view_region> regions_;
    std::vector<latchsym_view_symbol> symbols_;
    std::vector<std::uint64_t> addresses_;
    latchsym_view view_{};
};

/* ---- the table ---- */

using item = latchsym_item;

/* The item at an address, if there is one, and the number of updates that were shown. */
struct found {
    std::optional<latchsym::item> item;
    std::uint64_t generation;
};

/* The same, and the numbers for the symbol in the item. */
struct named {
    latchsym::found found;
    latchsym::told told;
};

/* What a step of an update did: nothing if none is pending. */
enum class step : std::uint32_t {
    end = LATCHSYM_DONE,
    flip = LATCHSYM_FLIP,
    store = LATCHSYM_STORE
};

namespace detail {

inline found found_of(std::uint32_t number, const latchsym_found &out) {
    if (!is_there(number)) return {std::nullopt, out.generation};
    return {item{out.a, out.b, out.tag}, out.generation};
}

/* How often a lookup is tried before its refusal is thrown. */
constexpr int most_tries = 1000000;

/* The first answer of a call that may have to be tried again. If other calls have all readers,
 * other threads run between two tries. */
template <class Call>
found first_answer(Call call) {
    latchsym_found out{};
    std::uint32_t number = LATCHSYM_RETRY;
    for (int tries = 0; tries < most_tries; tries++) {
        number = call(&out);
        if (number == LATCHSYM_BUSY)
            std::this_thread::yield();
        else if (number != LATCHSYM_RETRY)
            return found_of(number, out);
    }
    throw error(number);
}

} // namespace detail

/* One of the readers of a table, which exists as long as its `readers` do. */
class reader {
public:
    explicit reader(latchsym_reader *handle) noexcept : handle_(handle) {}

    latchsym_reader *get() noexcept { return handle_; }

    /* One attempt: none if the writer flipped meanwhile. */
    std::optional<found> try_find(std::uint64_t addr) {
        latchsym_found out{};
        const std::uint32_t number = latchsym_reader_try_find(get(), addr, &out);
        if (number == LATCHSYM_RETRY) return std::nullopt;
        return detail::found_of(number, out);
    }

    /* Attempts until one answers. Beside a writer at rest, also in the middle of an update, the
     * first one does. Beside another, an error with LATCHSYM_RETRY comes after 1,000,000
     * attempts, which was never seen. */
    found find(std::uint64_t addr) {
        return detail::first_answer(
            [&](latchsym_found *out) { return latchsym_reader_try_find(get(), addr, out); });
    }

    /* One attempt, and the symbol in the item found, whose tag is taken as the number of a
     * module of the catalog. Copies as many bytes of its names as there is room for; the answer
     * has the lengths of the whole names. */
    std::optional<named> try_find_name(catalog &catalog, std::uint64_t addr, char *name,
                                       std::size_t name_room, char *module,
                                       std::size_t module_room) {
        latchsym_found out{};
        latchsym_answer answer{};
        const std::uint32_t number = latchsym_reader_find_name(
            get(), catalog.get(), addr, &out, &answer, reinterpret_cast<std::uint8_t *>(name),
            name_room, reinterpret_cast<std::uint8_t *>(module), module_room);
        if (number == LATCHSYM_RETRY) return std::nullopt;
        if (number == LATCHSYM_NO_SYMBOL) {
            return named{detail::found_of(LATCHSYM_DONE, out), {answer, number}};
        }
        return named{detail::found_of(number, out), {answer, number}};
    }

    /* Closes this reader, which is of no further use. */
    void close() noexcept { latchsym_reader_close(get()); }

private:
    latchsym_reader *handle_;
};

/* The readers of a table. Their handles lie in one row, for the call that enlarges the table. */
class readers {
public:
    readers(readers &&) noexcept = default;
    readers &operator=(readers &&other) noexcept {
        std::swap(handles_, other.handles_);
        std::swap(room_, other.room_);
        std::swap(count_, other.count_);
        return *this;
    }
    ~readers() {
        for (std::size_t i = 0; handles_ && i < room_; i++)
            latchsym_reader_close(&handles_[i]);
    }

    std::size_t size() const noexcept { return count_; }
    reader operator[](std::size_t place) noexcept { return reader(&handles_[place]); }

private:
    friend class writer;
    friend class follower;
    friend struct table;
    friend struct followed_table;

    /* Opens one more by a call, if there is room. */
    template <class Call>
    reader add(Call call) {
        if (count_ == room_) throw error(LATCHSYM_BAD_CAPACITY);
        latchsym_reader *handle = &handles_[count_];
        detail::check(call(handle));
        count_++;
        return reader(handle);
    }

    explicit readers(std::size_t room)
        : handles_(new latchsym_reader[room ? room : 1]{}), room_(room), count_(0) {}

    std::unique_ptr<latchsym_reader[]> handles_;
    std::size_t room_, count_;
};

/* Readers of one table that threads, signal handlers and calls inside calls share. It is closed
 * with its table, while no call on it runs. */
class pool {
public:
    pool(pool &&) noexcept = default;
    pool &operator=(pool &&other) noexcept {
        std::swap(pool_, other.pool_);
        return *this;
    }
    ~pool() { latchsym_pool_close(get()); }

    latchsym_pool *get() const noexcept { return pool_.get(); }

    /* One attempt: none if the writer flipped meanwhile, or if other calls had all readers. */
    std::optional<found> try_find(std::uint64_t addr) const {
        latchsym_found out{};
        const std::uint32_t number = latchsym_pool_try_find(get(), addr, &out);
        if (number == LATCHSYM_RETRY || number == LATCHSYM_BUSY) return std::nullopt;
        return detail::found_of(number, out);
    }

    /* Attempts until one answers; other threads may run between them. After 1,000,000
     * an error with LATCHSYM_BUSY comes, as if no reader is ever given back. */
    found find(std::uint64_t addr) const {
        return detail::first_answer(
            [&](latchsym_found *out) { return latchsym_pool_try_find(get(), addr, out); });
    }

private:
    friend struct pooled_table;
    friend struct followed_pool;
    pool() : pool_(new latchsym_pool{}) {}

    std::unique_ptr<latchsym_pool> pool_;
};

class writer {
public:
    latchsym_writer *get() noexcept { return handle_.get(); }

    /* Whole updates: each returns the generation that shows it. */
    std::uint64_t insert(const item &added) {
        begin_insert(added);
        return finish();
    }
    std::uint64_t erase(std::uint64_t a) {
        begin_erase(a);
        return finish();
    }
    std::uint64_t batch(const std::vector<std::uint64_t> &erase, const std::vector<item> &insert) {
        begin_batch(erase, insert);
        return finish();
    }

    /* Gives the table just these items, by rising address; those that it has already stay as
     * they are. */
    std::uint64_t replace(const std::vector<item> &items) {
        begin_replace(items);
        return finish();
    }

    /* The same, with the steps left to step() and finish(). Readers see a whole update from its
     * second flip on. */
    void begin_insert(const item &added) {
        detail::check(latchsym_writer_begin_insert(get(), &added));
    }
    void begin_erase(std::uint64_t a) { detail::check(latchsym_writer_begin_erase(get(), a)); }
    void begin_batch(const std::vector<std::uint64_t> &erase, const std::vector<item> &insert) {
        detail::check(latchsym_writer_begin_batch(get(), erase.data(), erase.size(), insert.data(),
                                                  insert.size()));
    }

    void begin_replace(const std::vector<item> &items) {
        detail::check(latchsym_writer_begin_replace(get(), items.data(), items.size()));
    }

    latchsym::step step() {
        const std::uint32_t number = latchsym_writer_step(get());
        if (number == LATCHSYM_BAD_HANDLE) throw error(number);
        return static_cast<latchsym::step>(number);
    }

    /* Takes the remaining steps, and returns the generation after them. */
    std::uint64_t finish() {
        std::uint64_t generation = 0;
        detail::check(latchsym_writer_finish(get(), &generation));
        return generation;
    }

    /* What readers find now, also in the middle of an update. */
    found find(std::uint64_t addr) {
        latchsym_found out{};
        const std::uint32_t number = latchsym_writer_find(get(), addr, &out);
        return detail::found_of(number, out);
    }

    /* Adds a reader of this table to its readers, if there is room; also in the middle of an
     * update. */
    reader add_reader(readers &readers) {
        return readers.add([this](latchsym_reader *out) { return latchsym_writer_add_reader(get(), out); });
    }

    /* Takes the last of its readers back, which closes it and leaves room for another. */
    void take_reader(readers &readers) {
        if (!readers.count_) throw error(LATCHSYM_BAD_CAPACITY);
        detail::check(latchsym_writer_take_reader(get(), &readers.handles_[readers.count_ - 1]));
        readers.count_--;
    }

    /* Gives the table room for `nodes` nodes, with all its readers: no other thread uses or
     * closes one meanwhile. Items and generation stay. */
    void enlarge(std::uint32_t nodes, readers &readers) {
        detail::check(latchsym_table_enlarge(nodes, get(), readers.handles_.get(), readers.count_));
    }

    /* The same with the readers of its pool, while other calls look up. Returns false, and
     * changes nothing, if one of these has a reader just now: ask again. */
    bool enlarge(std::uint32_t nodes, pool &pool) {
        const std::uint32_t number = latchsym_pool_enlarge(nodes, get(), pool.get());
        if (number == LATCHSYM_BUSY) return false;
        detail::check(number);
        return true;
    }

private:
    friend struct table;
    friend struct pooled_table;
    writer() : handle_(detail::closed<latchsym_writer>()) {}

    detail::owned<latchsym_writer> handle_;
};

/* The two ends of a table of 1 to 65536 nodes, which may go to different threads: `auto [writer,
 * readers] = latchsym::table(64, 2)`. There is room for `most_readers`, which add_reader adds
 * one by one. */
struct table {
    latchsym::writer writer;
    latchsym::readers readers;

    explicit table(std::uint32_t nodes, std::size_t count = 1, std::size_t most_readers = 64)
        : readers(most_readers < count && count <= 64 ? count : most_readers) {
        if (readers.room_ < count) throw error(LATCHSYM_BAD_CAPACITY);
        detail::check(latchsym_table_open(nodes, writer.get(), readers.handles_.get(), count));
        readers.count_ = count;
    }
};

/* Code that the caller knows of itself, such as a program that was loaded: its first address, how
 * many bytes it has, its name, and the name of what it belongs to. */
struct code {
    std::uint64_t addr, len;
    std::string_view name, module = "bpf";
};

/* A table that follows a listing as it changes, and the catalogs that it showed. Keep the bytes
 * of their listings until forget or forget_since gives the tag back. */
class follower {
public:
    follower(follower &&) noexcept = default;
    follower &operator=(follower &&other) noexcept {
        std::swap(handle_, other.handle_);
        std::swap(noted_, other.noted_);
        return *this;
    }
    ~follower() {
        std::uint64_t tag = 0;
        while (handle_ && latchsym_follower_close(get(), &tag) == LATCHSYM_DONE) {}
    }

    latchsym_follower *get() noexcept { return handle_.get(); }

    /* Shows the regions of a catalog in one update, and takes the catalog over: it is closed
     * then. Stamps must not fall. Returns the generation from which on it is current. */
    std::uint64_t show(catalog &shown, std::uint64_t since, std::uint64_t tag = 0) {
        std::uint64_t generation = 0;
        detail::check(latchsym_follower_show(get(), shown.get(), since, tag, &generation));
        return generation;
    }

    /* Notes that code is there, or that the code noted last of those that begin at an address is
     * gone: from a stamp on, and from the generation returned on; none if no such code was there.
     * The names are copied, and kept until forget or forget_since of a moment when it was gone. */
    std::uint64_t note(const code &noted, std::uint64_t since) {
        std::uint64_t generation = 0;
        noted_.push_back({std::string(noted.name), std::string(noted.module), noted.addr, {}, {}});
        const names &kept = noted_.back();
        const latchsym_code given{noted.addr, noted.len, detail::place(kept.name), detail::place(kept.module)};
        const std::uint32_t number = latchsym_follower_note(get(), &given, since, &generation);
        if (number != LATCHSYM_DONE) noted_.pop_back();
        detail::check(number);
        return generation;
    }
    std::optional<std::uint64_t> note_gone(std::uint64_t addr, std::uint64_t since) {
        std::uint64_t generation = 0;
        if (!detail::is_there(latchsym_follower_note_gone(get(), addr, since, &generation)))
            return std::nullopt;
        for (auto it = noted_.rbegin(); it != noted_.rend(); ++it)
            if (it->addr == addr && !it->generation) {
                it->generation = generation;
                it->since = since;
                break;
            }
        return generation;
    }

    /* The symbol of an address, or of a return address, by the code and the listing that were
     * current at a generation or at a stamp; an error with LATCHSYM_FORGOTTEN if it is gone. */
    std::optional<symbol> find(std::uint64_t generation, std::uint64_t addr) {
        return detail::symbol_by(latchsym_follower_find, get(), generation, addr);
    }
    std::optional<symbol> find_caller(std::uint64_t generation, std::uint64_t addr) {
        return detail::symbol_by(latchsym_follower_find_caller, get(), generation, addr);
    }
    std::optional<symbol> find_since(std::uint64_t at, std::uint64_t addr) {
        return detail::symbol_by(latchsym_follower_find_since, get(), at, addr);
    }
    std::optional<symbol> find_caller_since(std::uint64_t at, std::uint64_t addr) {
        return detail::symbol_by(latchsym_follower_find_caller_since, get(), at, addr);
    }

    /* Forgets the oldest catalog if no sample of this generation, or stamp, or a later one needs
     * it, and returns its tag; none if nothing is to be forgotten. */
    std::optional<std::uint64_t> forget(std::uint64_t generation) {
        const std::optional<std::uint64_t> tag = gone(latchsym_follower_forget, generation);
        drop_names(&names::generation, generation);
        return tag;
    }
    std::optional<std::uint64_t> forget_since(std::uint64_t at) {
        const std::optional<std::uint64_t> tag = gone(latchsym_follower_forget_since, at);
        drop_names(&names::since, at);
        return tag;
    }

    /* Adds a reader of this table to its readers, if there is room. */
    reader add_reader(latchsym::readers &readers) {
        return readers.add([this](latchsym_reader *out) { return latchsym_follower_add_reader(get(), out); });
    }

    /* Gives the table room for `nodes` nodes, with all its readers or those of its pool, as a
     * writer does: for a catalog whose regions show() refuses by LATCHSYM_FULL. */
    void enlarge(std::uint32_t nodes, latchsym::readers &readers) {
        detail::check(
            latchsym_follower_enlarge(nodes, get(), readers.handles_.get(), readers.count_));
    }
    bool enlarge(std::uint32_t nodes, pool &pool) {
        const std::uint32_t number = latchsym_pool_enlarge_follower(nodes, get(), pool.get());
        if (number == LATCHSYM_BUSY) return false;
        detail::check(number);
        return true;
    }

private:
    friend struct followed_table;
    friend struct followed_pool;
    friend class file_follower;
    follower() : handle_(new latchsym_follower{}) {}

    /* The names of noted code, and from when on it is gone. */
    struct names {
        std::string name, module;
        std::uint64_t addr;
        std::optional<std::uint64_t> generation, since;
    };

    /* Drops the names of code that was gone by a moment, once the library has forgotten it. */
    void drop_names(std::optional<std::uint64_t> names::*gone, std::uint64_t moment) {
        noted_.remove_if([=](const names &it) { return it.*gone && *(it.*gone) <= moment; });
    }

    template <class Call>
    std::optional<std::uint64_t> gone(Call call, std::uint64_t moment) {
        std::uint64_t tag = 0;
        if (!detail::is_there(call(get(), moment, &tag))) return std::nullopt;
        return tag;
    }

    std::unique_ptr<latchsym_follower> handle_;
    std::list<names> noted_;
};

/* A follower without a catalog over an empty table of 1 to 65536 nodes, and its readers, with
 * room for `most_readers`. */
struct followed_table {
    latchsym::follower follower;
    latchsym::readers readers;

    explicit followed_table(std::uint32_t nodes, std::size_t count = 1,
                            std::size_t most_readers = 64)
        : readers(most_readers < count && count <= 64 ? count : most_readers) {
        if (readers.room_ < count) throw error(LATCHSYM_BAD_CAPACITY);
        detail::check(latchsym_follower_open(nodes, follower.get(), readers.handles_.get(), count));
        readers.count_ = count;
    }
};

/* A follower without a catalog, and a pool of 1 to 64 readers of its table. */
struct followed_pool {
    latchsym::follower follower;
    latchsym::pool pool;

    explicit followed_pool(std::uint32_t nodes, std::size_t slots) {
        detail::check(latchsym_pool_follow(nodes, slots, follower.get(), pool.get()));
    }
};

/* The files that a follower reads. */
struct files {
    std::string kallsyms = "/proc/kallsyms";
    std::optional<std::string> modules; /* none: modules come from the symbols */
    /* In the form of /proc/modules. None: that file itself if kallsyms is /proc/kallsyms; else each
     * poll reads the listings. */
    std::optional<std::string> watched;
    /* After so long a poll reads the listings, whatever the watched file says. */
    std::chrono::nanoseconds every = std::chrono::minutes(1);
};

/* Something is noted of a file that was not noted of the listing shown, which stays: number() is the
 * note, and file() the name. */
class noted : public error {
public:
    noted(std::uint32_t note, const std::string &file)
        : error(note, file + ": " + latchsym_text(note)), file_(file) {}
    const std::string &file() const noexcept { return file_; }

private:
    std::string file_;
};

/* A follower of files, and its readers: poll() reads the files again if they may have changed, as
 * latchsym_follow.h says, and shows what has. It keeps the bytes of each listing until forget or
 * forget_since. Stamps are those of now(), nanoseconds of CLOCK_MONOTONIC. */
class file_follower {
public:
    /* Follows the files, of which the first listings are shown. A note on these is no error. */
    explicit file_follower(files from = {}, std::uint32_t nodes = 4096, std::size_t count = 1,
                           std::size_t most_readers = 64)
        : all_(new parts(std::move(from), nodes, count, most_readers)) {
        poll();
    }

    /* Returns whether the files had other bytes, which are shown now. Throws std::system_error if
     * one cannot be read, `noted`, or an error as follower::show does; then what was shown stays,
     * and the next poll reads the files again. */
    bool poll() {
        std::uint64_t generation = 0;
        const int number =
            latchsym_followed_poll(&all_->followed, get(), now(), &generation);
        const char *file = all_->followed.at_fault;
        if (number < 0) throw std::system_error(errno, std::generic_category(), file);
        if (file) throw noted(static_cast<std::uint32_t>(number), file);
        return detail::is_there(static_cast<std::uint32_t>(number));
    }

    static std::uint64_t now() {
        using namespace std::chrono;
        const auto time = steady_clock::now().time_since_epoch();
        return static_cast<std::uint64_t>(duration_cast<nanoseconds>(time).count());
    }

    latchsym_follower *get() noexcept { return all_->table.follower.get(); }
    latchsym::readers &readers() noexcept { return all_->table.readers; }
    reader add_reader() { return all_->table.follower.add_reader(readers()); }

    /* Gives the table room for `nodes` nodes, with all its readers: for files whose regions poll()
     * refuses by LATCHSYM_FULL. */
    void enlarge(std::uint32_t nodes) { all_->table.follower.enlarge(nodes, readers()); }

    /* What is noted of the file of symbols, and of that of modules; LATCHSYM_NOTHING if nothing. */
    std::uint32_t symbols_note() const noexcept { return all_->followed.shown->notes[0]; }
    std::uint32_t modules_note() const noexcept { return all_->followed.shown->notes[1]; }

    /* The symbol of an address, or of a return address, as a follower finds it. Its names can be
     * read until their listing is forgotten. */
    std::optional<symbol> find(std::uint64_t generation, std::uint64_t addr) {
        return all_->table.follower.find(generation, addr);
    }
    std::optional<symbol> find_caller(std::uint64_t generation, std::uint64_t addr) {
        return all_->table.follower.find_caller(generation, addr);
    }
    std::optional<symbol> find_since(std::uint64_t at, std::uint64_t addr) {
        return all_->table.follower.find_since(at, addr);
    }
    std::optional<symbol> find_caller_since(std::uint64_t at, std::uint64_t addr) {
        return all_->table.follower.find_caller_since(at, addr);
    }

    /* Notes code, as a follower does. */
    std::uint64_t note(const code &noted, std::uint64_t since) {
        return all_->table.follower.note(noted, since);
    }
    std::optional<std::uint64_t> note_gone(std::uint64_t addr, std::uint64_t since) {
        return all_->table.follower.note_gone(addr, since);
    }

    /* Forgets each listing that no sample of this generation, or stamp, or a later one needs. */
    void forget(std::uint64_t generation) {
        latchsym_followed_forget(get(), generation);
        all_->table.follower.drop_names(&follower::names::generation, generation);
    }
    void forget_since(std::uint64_t at) {
        latchsym_followed_forget_since(get(), at);
        all_->table.follower.drop_names(&follower::names::since, at);
    }

private:
    /* They stay in place when the follower is moved, as the names of files are pointed to. */
    struct parts {
        parts(files &&given, std::uint32_t nodes, std::size_t count, std::size_t most_readers)
            : from(std::move(given)), table(nodes, count, most_readers) {
            if (!from.watched && from.kallsyms == "/proc/kallsyms") from.watched = "/proc/modules";
            followed.kallsyms = from.kallsyms.c_str();
            followed.modules = from.modules ? from.modules->c_str() : nullptr;
            followed.watched = from.watched ? from.watched->c_str() : nullptr;
            followed.every = static_cast<std::uint64_t>(from.every.count());
        }
        parts(const parts &) = delete;
        parts &operator=(const parts &) = delete;
        ~parts() { latchsym_followed_close(&followed, table.follower.get()); }

        files from;
        latchsym_followed followed = LATCHSYM_FOLLOWED_INIT;
        followed_table table;
    };

    std::unique_ptr<parts> all_;
};

/* A table with 1 to 64 readers that threads and signal handlers share: `auto [writer, pool] =
 * latchsym::pooled_table(64, 4)`. */
struct pooled_table {
    latchsym::writer writer;
    latchsym::pool pool;

    explicit pooled_table(std::uint32_t nodes, std::size_t slots) {
        detail::check(latchsym_pool_open(nodes, slots, writer.get(), pool.get()));
    }
};

} // namespace latchsym
#endif
