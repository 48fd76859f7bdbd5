// SPDX-License-Identifier: MIT OR Apache-2.0
/* The header for C++: what is found, what is refused, handles that move, close and are shared, and
 * readers on threads. */
#include <latchsym.hpp>

#include <array>
#include <atomic>
#include <cstdio>
#include <cstdlib>
#include <fstream>
#include <memory>
#include <string>
#include <thread>
#include <vector>

#define CHECK(x) do { if (!(x)) { std::printf("bindings: line %d: %s\n", __LINE__, #x); std::exit(1); } } while (0)

static const std::string symbols = "ffffffff81000000 T _stext\nffffffff81000100 T do_one\nffffffff81002000 T _end\n"
                                   "ffffffffc0000010 t ext4_a\t[ext4]\nffffffffc0000040 t ext4_b\t[ext4]\n";
static const std::uint64_t ext4_a = 0xffffffffc0000018;

static latchsym::listings listed() {
    latchsym::listings out;
    out.kallsyms = symbols;
    out.modules = "ext4 8192 1 - Live 0xffffffffc0000000\n";
    return out;
}

/* refused CALL: the number of what it throws */
template <class Call>
static std::uint32_t refused(Call call) {
    try {
        call();
    } catch (const latchsym::error &error) {
        CHECK(*error.what());
        return error.number();
    }
    return LATCHSYM_DONE;
}

static void finds() {
    latchsym::catalog catalog(listed());
    const auto found = catalog.find(ext4_a);
    CHECK(found && found->has_name && found->name == "ext4_a" && found->module == "ext4");
    CHECK(found->offset == 8 && found->size == 0x30 && found->module_number == 1);
    CHECK(!catalog.find(0x1000));
    CHECK(!catalog.find(0xffffffffc0000001)->has_name);
    CHECK(catalog.find_caller(0xffffffffc0000040)->offset == 0x30);
    CHECK(catalog.counts().symbols == 4 && latchsym::version() == LATCHSYM_VERSION);

    const auto told = catalog.find_many(std::array<std::uint64_t, 3>{ext4_a, 0x1000, 0xffffffff81000108});
    CHECK(told.size() == 3 && told[0].answer.offset == 8 && told[1].code == LATCHSYM_NOTHING);
    CHECK(told[2].answer.offset == 8 && catalog.find_many(std::vector<std::uint64_t>()).empty());

    CHECK(catalog.modules() == 1 && catalog.module(0)->name == "-" && !catalog.module(2));
    CHECK(catalog.region(1, 0)->b == 0xffffffffc0002000 && !catalog.region(1, 1));
    const auto place = catalog.place_of_name(1, "ext4_b");
    CHECK(place && catalog.symbol_at(1, *place)->addr == 0xffffffffc0000040);
    CHECK(!catalog.place_of_name(1, "ext4_b", *place + 1) && !catalog.place_of_name(1, ""));
}

static void finds_in_a_view() {
    auto catalog = std::make_unique<latchsym::catalog>(listed());
    latchsym::view first(*catalog);
    catalog.reset();
    const latchsym::view view = std::move(first);
    std::vector<std::thread> threads;
    for (int i = 0; i < 4; i++)
        threads.emplace_back([&view] {
            for (int turn = 0; turn < 1000; turn++) {
                CHECK(view.find(ext4_a)->name == "ext4_a" && view.find(ext4_a)->offset == 8);
                CHECK(view.find_caller(0xffffffffc0000040)->offset == 0x30 && !view.find(0x1000));
                CHECK(!view.find(0xffffffffc0000001)->has_name && !view.find_caller(0));
            }
        });
    for (std::thread &thread : threads) thread.join();
    static_assert(!std::is_copy_constructible_v<latchsym::view>, "its rows lie in one place");
}

static void refuses_listings() {
    latchsym::listings bad = listed();
    bad.regions = "latchregions 1\nx\n";
    try {
        latchsym::catalog catalog(bad);
        CHECK(false);
    } catch (const latchsym::bad_line &error) {
        CHECK(error.line() == 2 && error.number() == LATCHSYM_BAD_LINE);
    }
    bad.modules.reset();
    CHECK(refused([&] { latchsym::catalog catalog(bad); }) == LATCHSYM_BAD_LISTINGS);
}

static void changes() {
    latchsym::listings alone = listed();
    alone.modules.reset();
    alone.regions = {};
    latchsym::catalog first(alone);
    latchsym::catalog second = first.change("gone ext4\nffffffffc0100000 t xfs_a\t[xfs]\n");
    CHECK(first.find(ext4_a)->name == "ext4_a" && !second.find(ext4_a));
    CHECK(second.find(0xffffffffc0100010)->name == "xfs_a");
    try {
        first.change("gone a\nchange 1.5\n");
        CHECK(false);
    } catch (const latchsym::bad_line &error) {
        CHECK(error.line() == 2);
    }
    latchsym::catalog with_modules(listed());
    CHECK(refused([&] { with_modules.change(""); }) == LATCHSYM_BAD_HANDLE);
}

static void moves_and_shares() {
    latchsym::catalog first(listed());
    latchsym::catalog second = std::move(first);
    first = second.share();
    second = std::move(first);
    CHECK(second.find(ext4_a)->name == "ext4_a");
    std::thread([shared = second.share()]() mutable { CHECK(shared.find(ext4_a)->offset == 8); }).join();
    static_assert(!std::is_copy_constructible_v<latchsym::catalog>, "a handle is never copied");
    static_assert(std::is_nothrow_move_constructible_v<latchsym::catalog>, "a move takes the place of the handle");
    static_assert(std::is_nothrow_move_assignable_v<latchsym::readers>, "readers move as catalogs do");
    latchsym_catalog_close(second.get());
    CHECK(refused([&] { second.find(1); }) == LATCHSYM_BAD_HANDLE);
}

static void updates() {
    auto [writer, readers] = latchsym::table(4, 2, 3);
    const latchsym::item item{0x1000, 0x2000, 7};
    CHECK(writer.step() == latchsym::step::end && writer.insert(item) == 1);
    CHECK(readers[0].find(0x1fff).item->tag == 7 && !readers[1].find(0x2000).item);
    CHECK(refused([&, &writer = writer] { writer.insert({0x1fff, 0x3000, 1}); }) == LATCHSYM_OVERLAP);
    CHECK(refused([&, &writer = writer] { writer.erase(1); }) == LATCHSYM_NO_SUCH_ITEM);
    CHECK(writer.batch({0x1000}, {{0x1000, 0x1800, 1}, {0x1800, 0x2000, 2}}) == 2 && writer.batch({}, {}) == 3);
    writer.begin_erase(0x1000);
    CHECK(writer.step() != latchsym::step::end && writer.find(0x1000).item->tag == 1);
    latchsym::reader added = writer.add_reader(readers);
    CHECK(added.find(0x1000).item->tag == 1 && readers.size() == 3);
    CHECK(refused([&, &writer = writer, &readers = readers] { writer.add_reader(readers); }) == LATCHSYM_BAD_CAPACITY);
    CHECK(writer.finish() == 4);
    writer.take_reader(readers);
    CHECK(readers.size() == 2 && refused([&] { added.find(1); }) == LATCHSYM_BAD_HANDLE);
    added = writer.add_reader(readers);
    writer.enlarge(64, readers);
    latchsym::readers moved = std::move(readers);
    CHECK(!added.find(0x1000).item && moved[2].find(0x1800).item->tag == 2);
    moved[0].close();
    CHECK(refused([&, &writer = writer] { writer.enlarge(65, moved); }) == LATCHSYM_BAD_HANDLE);
    for (std::uint32_t nodes : {0u, 65537u}) CHECK(refused([&] { latchsym::table table(nodes); }) == LATCHSYM_BAD_CAPACITY);
    CHECK(refused([] { latchsym::table table(4, 65); }) == LATCHSYM_BAD_CAPACITY);
    CHECK(refused([] { latchsym::table table(4, 0, 0); }) == LATCHSYM_BAD_CAPACITY);
}

static void names_items() {
    latchsym::catalog catalog(listed());
    latchsym::table table(4);
    latchsym::reader reader = table.readers[0];
    char name[512], module[3];
    auto named = reader.try_find_name(catalog, ext4_a, name, sizeof name, module, sizeof module);
    CHECK(named && !named->found.item && named->told.code == LATCHSYM_NOTHING);
    const auto region = catalog.region(1, 0);
    table.writer.insert({region->a, region->b, 1});
    named = reader.try_find_name(catalog, ext4_a, name, sizeof name, module, sizeof module);
    CHECK(named->found.item->tag == 1 && named->told.code == LATCHSYM_DONE && named->told.answer.offset == 8);
    CHECK(std::string(name, named->told.answer.name_len) == "ext4_a" && named->told.answer.module_len == 4);
    CHECK(std::string(module, sizeof module) == "ext");
    named = reader.try_find_name(catalog, region->a, nullptr, 0, nullptr, 0);
    CHECK(named->found.item && named->told.code == LATCHSYM_NO_SYMBOL);
}

static void shares_readers() {
    auto [writer, pool] = latchsym::pooled_table(4, 2);
    std::atomic<bool> is_over{false};
    std::atomic<long> wrong{0};
    std::vector<std::thread> threads;
    for (int i = 0; i < 3; i++) {
        threads.emplace_back([&, &pool = pool] {
            for (std::uint64_t last = 0; !is_over;) {
                const auto found = pool.find(0x1000);
                wrong += found.item.has_value() != (found.generation % 2 == 1) || found.generation < last;
                last = found.generation;
            }
        });
    }
    for (std::uint32_t i = 0; i < 2000; i++) {
        writer.insert({0x1000, 0x2000, 7});
        while (!writer.enlarge(4 + i, pool)) {}
        writer.erase(0x1000);
    }
    is_over = true;
    for (auto &thread : threads) thread.join();
    CHECK(wrong == 0 && !pool.try_find(1)->item);
    latchsym::pool moved = std::move(pool);
    CHECK(refused([&, &writer = writer] { writer.enlarge(4, moved); }) == LATCHSYM_BAD_CAPACITY && moved.find(1).generation == 4000);
    CHECK(refused([] { latchsym::pooled_table table(4, 65); }) == LATCHSYM_BAD_CAPACITY);
}

/* A lookup is tried again, but not for ever. */
static void gives_up() {
    auto [writer, pool] = latchsym::pooled_table(4, 1);
    writer.insert({0x1000, 0x2000, 7});
    latchsym_pool_slot *slot = latchsym_pool_claim(pool.get());
    CHECK(slot && refused([&, &pool = pool] { pool.find(0x1000); }) == LATCHSYM_BUSY && !pool.try_find(0x1000));
    latchsym_pool_give_back(slot);
    CHECK(pool.find(0x1000).item->tag == 7);
    int calls = 0;
    const auto never = [&](latchsym_found *) { return calls++, std::uint32_t{LATCHSYM_RETRY}; };
    CHECK(refused([&] { latchsym::detail::first_answer(never); }) == LATCHSYM_RETRY && calls == 1000000);
    const auto at_last = [&](latchsym_found *) { return std::uint32_t{--calls ? LATCHSYM_RETRY : LATCHSYM_NOTHING}; };
    CHECK(!latchsym::detail::first_answer(at_last).item && calls == 0);
}

static void reads_on_threads() {
    latchsym::table table(4, 3);
    std::atomic<bool> is_over{false};
    std::atomic<long> wrong{0};
    std::vector<std::thread> threads;
    for (std::size_t i = 0; i < table.readers.size(); i++) {
        threads.emplace_back([&, reader = table.readers[i]]() mutable {
            for (std::uint64_t last = 0; !is_over;) {
                const auto found = reader.find(0x1000);
                wrong += found.item.has_value() != (found.generation % 2 == 1) || found.generation < last;
                last = found.generation;
            }
        });
    }
    for (int i = 0; i < 2000; i++) {
        table.writer.insert({0x1000, 0x2000, 7});
        table.writer.erase(0x1000);
    }
    is_over = true;
    for (auto &thread : threads) thread.join();
    CHECK(wrong == 0);
}

static void follows() {
    const std::uint64_t addr = 0xffffffffc0000018;
    const std::string texts[] = {"ffffffffc0000010 t one\t[a]\n", "ffffffffc0000010 t two\t[a]\nffffffffc0000020 t one\t[a]\n"};
    latchsym::followed_table table(8, 1, 2);
    table.follower.add_reader(table.readers);
    for (std::size_t i = 0; i < 2; i++) {
        latchsym::listings listings;
        listings.kallsyms = texts[i];
        latchsym::catalog catalog(listings);
        if (i == 1) CHECK(catalog.find_name("one")->second == 1 && !catalog.find_name("one", 1) && !catalog.find_name("o"));
        CHECK(refused([&] { table.follower.show(catalog, i ? 9 : 10, i); }) == (i ? LATCHSYM_BAD_STAMP : 0));
        if (i == 1) CHECK(table.follower.show(catalog, 20, i) == 2);
        CHECK(refused([&] { catalog.modules(); }) == LATCHSYM_BAD_HANDLE);
    }
    CHECK(table.readers[0].find(addr).generation == 2 && table.readers[1].find(addr).generation == 2);
    CHECK(refused([&] { table.follower.add_reader(table.readers); }) == LATCHSYM_BAD_CAPACITY);
    CHECK(table.follower.find(1, addr)->name == "one" && table.follower.find_since(19, addr)->name == "one");
    CHECK(table.follower.find_caller(2, addr)->name == "two" && table.follower.find_caller_since(20, addr)->name == "two");
    CHECK(!table.follower.forget(1) && table.follower.forget_since(20) == 0 && !table.follower.forget(2));
    CHECK(refused([&] { table.follower.find(1, addr); }) == LATCHSYM_FORGOTTEN);
    latchsym::follower moved = std::move(table.follower);
    CHECK(moved.find(2, addr)->name == "two");
    CHECK(refused([&] { moved.enlarge(1, table.readers); }) == LATCHSYM_BAD_CAPACITY);
    moved.enlarge(16, table.readers);
    CHECK(moved.find(2, addr)->name == "two" && table.readers[1].find(addr).generation == 2);
}

/* Code that is noted beside a listing, and gone again. */
static void notes() {
    const std::uint64_t addr = 0xffffffffc0000018;
    const std::string text = "ffffffffc0000010 t listed\t[bpf]\n";
    latchsym::followed_table table(8);
    latchsym::listings listings;
    listings.kallsyms = text;
    latchsym::catalog catalog(listings);
    CHECK(table.follower.show(catalog, 10) == 1 && !table.follower.note_gone(addr, 5));
    std::string name = "noted_with_a_name_that_is_long";
    CHECK(table.follower.note({addr, 10000, name, "bpf"}, 20) == 2);
    name.assign(name.size(), 'x'); /* it was copied */
    latchsym::follower moved = std::move(table.follower);
    const auto last = moved.find_since(20, addr + 9999);
    CHECK(last->name == "noted_with_a_name_that_is_long" && last->module == "bpf" && last->offset == 9999);
    CHECK(last->size == 10000 && last->module_number == UINT64_MAX && moved.find(1, addr)->name == "listed");
    CHECK(moved.find_caller(2, addr + 10000)->offset == 10000 && !moved.find(2, addr + 10000));
    CHECK(moved.note_gone(addr, 30) == 3 && !moved.note_gone(addr, 30));
    CHECK(moved.find_since(29, addr)->name == last->name && moved.find_since(30, addr)->name == "listed");
    CHECK(table.readers[0].find(addr).generation == 3);
    CHECK(!moved.forget(2) && moved.find(2, addr)->name == last->name && !moved.forget_since(29));
    CHECK(moved.find(2, addr)->name == last->name && !moved.forget(3) && moved.find(2, addr)->name == "listed");
    CHECK(moved.note({addr, 1, "short", "m"}, 40) == 4 && moved.find(4, addr)->name == "short");
    CHECK(moved.note_gone(addr, 50) == 5 && !moved.forget_since(50) && moved.find(4, addr)->name == "listed");
}

/* A listing that needs more nodes than the table of a pool has. */
static void outgrows() {
    const std::uint64_t addr = 0xffffffffc0000018;
    const std::string text = "ffffffffc0000010 t one\t[a]\nffffffffc0200000 t two\t[b]\n";
    auto [follower, pool] = latchsym::followed_pool(1, 2);
    latchsym::listings listings;
    listings.kallsyms = text;
    latchsym::catalog catalog(listings);
    CHECK(refused([&] { latchsym::followed_pool table(4, 65); }) == LATCHSYM_BAD_CAPACITY);
    /* (lambdas capture no structured bindings in C++17) */
    latchsym::follower &shows = follower;
    CHECK(refused([&] { shows.show(catalog, 10); }) == LATCHSYM_FULL && !pool.find(addr).item);
    CHECK(follower.enlarge(2, pool) && follower.show(catalog, 10) == 1);
    CHECK(pool.find(addr).item && pool.try_find(addr)->generation == 1 && follower.find(1, addr)->name == "one");
    pool.get()->slots[0].claims++;
    CHECK(!follower.enlarge(4, pool));
    pool.get()->slots[0].claims++;
}

/* A file of the text, which is gone with the object. */
struct file {
    explicit file(const std::string &text) {
        std::snprintf(name, sizeof name, "/tmp/latchsym.XXXXXX");
        close(mkstemp(name));
        put(text);
    }
    ~file() { std::remove(name); }
    void put(const std::string &text) { std::ofstream(name) << text; }
    char name[32];
};

static void follows_files() {
    const std::uint64_t addr = 0xffffffffc0000018;
    const auto listing = [](const char *name) { return "ffffffffc0000010 t " + std::string(name) + "\t[a]\n"; };
    file kallsyms(listing("one")), modules("a 4096 0 - Live 0xffffffffc0000000\n");
    latchsym::files files;
    files.kallsyms = kallsyms.name;
    files.watched = modules.name;
    latchsym::file_follower first(files, 8, 1, 2), follower = std::move(first);
    const std::uint64_t early = follower.now();
    follower.add_reader();
    kallsyms.put(listing("two"));
    CHECK(!follower.poll() && follower.readers().size() == 2 && follower.readers()[1].find(addr).generation == 1);
    modules.put("a 8192 1 - Live 0xffffffffc0000000\n");
    CHECK(follower.poll() && !follower.poll() && follower.readers()[1].find(addr).generation == 2);
    CHECK(follower.find(1, addr)->name == "one" && follower.find_since(early, addr)->name == "one");
    CHECK(follower.find_caller(2, addr)->name == "two" && follower.find_caller_since(follower.now(), addr)->name == "two");
    CHECK(follower.symbols_note() == LATCHSYM_NOTHING && follower.modules_note() == LATCHSYM_NOTHING);
    follower.forget(2);
    CHECK(refused([&] { follower.find(1, addr); }) == LATCHSYM_FORGOTTEN);
    CHECK(follower.note({addr, 8, "noted"}, 1) == 3 && follower.find(3, addr)->name == "noted");
    CHECK(follower.find(3, addr)->module == "bpf" && follower.note_gone(addr, follower.now()) == 4);
    follower.forget_since(follower.now());
    follower.enlarge(64);
    CHECK(follower.find(4, addr)->name == "two" && follower.readers()[1].find(addr).generation == 4);

    /* a listing that is not taken: it has a note, it is missing, or the table has too few nodes */
    files.watched = std::nullopt;
    latchsym::file_follower each(files, 2);
    kallsyms.put("0000000000000000 T _stext\n");
    try {
        each.poll();
        CHECK(!"a listing with a note was taken");
    } catch (const latchsym::noted &note) {
        CHECK(note.file() == kallsyms.name && note.number() == LATCHSYM_NOTE_HIDDEN);
        CHECK(std::string(note.what()).find(note.file() + ": every address is 0") == 0);
    }
    kallsyms.put(listing("two") + "ffffffffd0000000 t b\t[b]\nffffffffe0000000 t c\t[c]\n");
    CHECK(refused([&] { each.poll(); }) == LATCHSYM_FULL);
    kallsyms.put(listing("three"));
    CHECK(each.poll() && each.find(2, addr)->name == "three");
    each.forget_since(each.now());
    CHECK(refused([&] { each.find(1, addr); }) == LATCHSYM_FORGOTTEN);
    std::remove(kallsyms.name);
    for (int is_new = 0; is_new < 2; is_new++) {
        try {
            is_new ? (void)latchsym::file_follower(files) : (void)each.poll();
            CHECK(!"a file that is missing was read");
        } catch (const std::system_error &error) {
            CHECK(error.code().value() == ENOENT && std::string(error.what()).find(kallsyms.name) == 0);
        }
    }
    kallsyms.put(listing("x") + "ffffffffd0000000 t b\t[b]\n");
    CHECK(refused([&] { latchsym::file_follower(files, 1); }) == LATCHSYM_FULL);
    files.modules = modules.name;
    CHECK(latchsym::file_follower(files).find(1, addr)->name == "x");
    modules.put("a 4096 0 - Live 0x0000000000000000\n");
    CHECK(latchsym::file_follower(files).modules_note() == LATCHSYM_NOTE_HIDDEN);
}

int main() {
    follows();
    outgrows();
    notes();
    follows_files();
    finds();
    finds_in_a_view();
    refuses_listings();
    changes();
    moves_and_shares();
    updates();
    shares_readers();
    gives_up();
    names_items();
    reads_on_threads();
}
