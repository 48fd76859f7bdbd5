// SPDX-License-Identifier: MIT OR Apache-2.0
/* Looks addresses up in a listing: lookup KALLSYMS ADDRESS..
 * c++ -std=c++17 lookup.cpp $(pkg-config --cflags --libs latchsym) -o lookup */
#include <latchsym.hpp>

#include <exception>
#include <fstream>
#include <iostream>
#include <iterator>
#include <string>

static void print(std::uint64_t addr, const std::optional<latchsym::symbol> &found) {
    std::cout << std::showbase << std::hex << addr << ' ';
    if (!found || (!found->has_name && found->module_number == 0)) {
        std::cout << '-';
    } else if (found->has_name) {
        std::cout << found->name << '+' << "0x" << std::noshowbase << found->offset << "/0x"
                  << found->size;
    } else {
        std::cout << '?';
    }
    if (found && found->module_number) std::cout << " [" << found->module << ']';
    std::cout << '\n';
}

int main(int argc, char **argv) try {
    if (argc < 2) {
        std::cerr << "usage: lookup KALLSYMS ADDRESS..\n";
        return 2;
    }
    std::ifstream file(argv[1], std::ios::binary);
    const std::string kallsyms{std::istreambuf_iterator<char>(file), {}};
    if (!file) throw std::runtime_error(std::string(argv[1]) + ": cannot be read");
    latchsym::listings listings;
    listings.kallsyms = kallsyms;
    latchsym::catalog catalog(listings);
    const std::uint32_t note = catalog.counts().symbols_note;
    if (note != LATCHSYM_NOTHING)
        std::cerr << "lookup: note: " << argv[1] << ": " << latchsym_text(note) << '\n';
    for (int i = 2; i < argc; i++) {
        const std::uint64_t addr = std::stoull(argv[i], nullptr, 0);
        print(addr, catalog.find(addr));
    }
} catch (const std::exception &fault) {
    std::cerr << "lookup: " << fault.what() << '\n';
    return 1;
}
