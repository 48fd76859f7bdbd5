"""Compares what the library finds with the lines of examples/listings: names.py liblatchsym.so FOLDER"""
import ctypes, os, pathlib, sys
from ctypes import c_uint64, c_void_p

os.environ["LATCHSYM_LIBRARY"] = os.path.abspath(sys.argv[1])
sys.dont_write_bytecode = True
sys.path.insert(0, str(pathlib.Path(__file__).parents[2] / "python/src"))
from latchsym._library import COUNTS, NO_SYMBOL, NOTHING, Answer, Counts, Found, Handle, Item, Listings, Place
from latchsym._library import lib, no_place, no_symbol, text_of

def found(call, catalog, addr):
    """The line of what a call finds, with the names where they lie."""
    symbol = no_symbol()
    answer = call(catalog, addr, symbol)
    names = (symbol.name_at, symbol.name_len), (symbol.module_at, symbol.module_len)
    return line(addr, answer, symbol, *(ctypes.create_string_buffer(ctypes.string_at(*it)) for it in names))

def line(addr, answer, symbol, name, module):
    if answer == NOTHING or (answer == NO_SYMBOL and symbol.module_number == 0):
        return f"0x{addr:x} -"
    text = "?" if answer == NO_SYMBOL else f"{name.value.decode()}+0x{symbol.offset:x}/0x{symbol.size:x}"
    owner = f" [{module.value.decode()}]" if symbol.module_number else ""
    return f"0x{addr:x} {text}{owner}"

def counts_lines(counts, has_regions):
    words = "modules hidden empty wraps overlap double long malformed".split()
    at = iter(COUNTS)
    out = [" ".join(f"{w} {getattr(counts, next(at))}" for w in words)]
    out.append(" ".join(f"{w} {getattr(counts, next(at))}" for w in "symbols hidden stray long malformed".split()))
    if has_regions:
        out.append(f"regions {counts.regions} stray {counts.regions_stray}")
    return out

NOTES = {text_of(number): number for number in range(41, 55)}
NAMED = {
    "has no symbol _stext": 46,
    "has no symbol _end; try --kernel _stext _einittext": 47,
}
# listings with symbols of an owner that none of modules has, which a lookup does not note
OWNERS = {"causes": 54}

def noted(folder, name):
    """What the library notes of both listings, as numbers: what the program notes of a lookup, and owners."""
    notes = {"modules": OWNERS.get(name, NOTHING), "kallsyms": NOTHING}
    path = folder / f"{name}.notes"
    for note in path.read_text().splitlines() if path.exists() else []:
        file, text = note.removeprefix("latchsym: note: ").split(": ", 1)
        notes[file.split(".")[1]] = NAMED.get(text) or NOTES[text]
    return notes["modules"], notes["kallsyms"]

def compare(folder, name):
    read = lambda part: (folder / f"{name}.{part}").read_bytes()
    modules, kallsyms = read("modules"), read("kallsyms")
    regions = read("regions") if (folder / f"{name}.regions").exists() else None
    other = Handle()
    catalog, counts = opened((modules, kallsyms, regions), b"_stext", b"_end")
    assert lib.latchsym_catalog_share(catalog, other) == 0
    lib.latchsym_catalog_close(catalog)
    lib.latchsym_catalog_close(catalog)
    symbol = Answer()
    lines = []
    for word in read("addresses").split():
        addr = int(word, 0)
        first, second = ctypes.create_string_buffer(4096), ctypes.create_string_buffer(4096)
        got = lib.latchsym_catalog_name(other, addr, symbol, first, 4096, second, 4096)
        lines.append(line(addr, got, symbol, first, second))
        assert found(lib.latchsym_catalog_find, other, addr) == lines[-1]
    expected = read("expected").decode().splitlines()
    assert lines + counts_lines(counts, regions is not None) == expected, name
    assert (counts.modules_note, counts.symbols_note) == noted(folder, name), name
    assert lib.latchsym_catalog_name(catalog, 1, symbol, first, 4096, second, 4096) == 101
    return other, (modules, kallsyms, regions), len(lines)

def short_rooms_and_a_table(catalog):
    """A name in a room that is too short for it, and the name of an address through a table."""
    addr, symbol, found, generation = 0xffffffffc0000018, Answer(), Found(), c_uint64()
    short = ctypes.create_string_buffer(b"????????", 8)
    assert lib.latchsym_catalog_name(catalog, addr, symbol, short, 3, short, 0) == 0
    assert short.raw == b"ext?????" and symbol.name_len == 6, short.raw
    writer, reader, short, module = Handle(), Handle(), ctypes.create_string_buffer(9), ctypes.create_string_buffer(16)
    assert lib.latchsym_table_open(4, writer, reader, 1) == 0
    assert lib.latchsym_reader_find_name(reader, catalog, addr, found, symbol, short, 8, module, 16) == NOTHING
    item = Item(0xffffffffc0000000, 0xffffffffc0001000, 1)
    assert lib.latchsym_writer_begin_insert(writer, item) == 0 and lib.latchsym_writer_finish(writer, generation) == 0
    assert lib.latchsym_reader_find_name(reader, catalog, addr, found, symbol, short, 8, module, 16) == 0
    assert line(addr, 0, symbol, short, module) == "0xffffffffc0000018 ext4_a+0x8/0x30 [ext4]"
    assert (found.a, found.b, found.tag, found.generation) == (item.a, item.b, 1, 1)

def place(text):
    return Place(ctypes.cast(ctypes.c_char_p(text), c_void_p), len(text))

def opening(texts, start=b"", end=b""):
    """What is returned for the listings, of which that of modules may be None, and what is written."""
    modules, kallsyms, regions = texts
    words = [place(text or b"") for text in (kallsyms, modules, regions, start, end)]
    catalog, counts, bad = Handle(), Counts(), c_uint64(77)
    listings = Listings(ctypes.sizeof(Listings), *words, modules is not None)
    return lib.latchsym_catalog_open(listings, catalog, counts, bad), catalog, counts, bad.value

def opened(texts, start=b"", end=b""):
    """A handle of the catalog of the listings, and the counts. The texts stay while it is open."""
    got, catalog, counts, bad = opening(texts, start, end)
    assert got == 0 and catalog.kind == 1 and bad == 77, got
    return catalog, counts

def answer(catalog, addr):
    return found(lib.latchsym_catalog_find, catalog, addr)

def other_bounds(texts):
    """A kernel is found between the names that are given, and else between those that it lists."""
    modules, kallsyms, regions = texts
    renamed = {end: (modules, kallsyms.replace(b" _end\n", b" " + end + b"\n"), regions)
               for end in (b"_end", b"_einittext", b"_etext", b"_other")}
    usual, counts = opened(texts, b"_stext", b"_end")
    addr = 0xffffffff81000108
    right = f"0x{addr:x} do_one+0x8/0x1f00"
    assert answer(usual, addr) == right
    for end, listed in renamed.items():
        for start, given in ((b"_stext", end), (b"", b"")):
            catalog, found = opened(listed, start, given)
            known = given == end or end in (b"_end", b"_etext")
            assert answer(catalog, addr) == (right if known else f"0x{addr:x} -"), (end, given)
            assert (bytes(found) == bytes(counts)) == known
            lib.latchsym_catalog_close(catalog)
    for start, end in ((b"_etext", b"_stext"), (b"_stext", b""), (b"", b"_etext"), (b"_stext", b"_end")):
        catalog, found = opened(renamed[b"_etext"], start, end)
        assert answer(catalog, addr) == f"0x{addr:x} -" and found.symbols < counts.symbols
        lib.latchsym_catalog_close(catalog)
    lib.latchsym_catalog_close(usual)

def from_symbols():
    """Without a listing of modules they are the owners of the symbols, wherever these lie."""
    kallsyms = (b"ffffffff81000000 T _stext\nffffffff81000100 T do_one\nffffffff81002000 T _etext\n"
                b"ffffffffc0000010 t ext4_a\t[ext4]\nffffffffc0000040 t nfs_a\t[nfs]\n"
                b"ffffffffc0000080 t ext4_b\t[ext4]\nffffffffc0200000 t prog\t[bpf]\nffffffff81000200 t odd\t[odd]\n")
    catalog, counts = opened((None, kallsyms, None))
    assert (counts.modules, counts.regions, counts.symbols, counts.symbols_stray) == (3, 4, 6, 2)
    lines = {0xffffffff81000fff: "do_one+0xeff/0x1f00", 0xffffffffc000000f: "-", 0xffffffffc000003f: "ext4_a+0x2f/0x30 [ext4]",
             0xffffffffc0000040: "nfs_a+0x0/0x40 [nfs]", 0xffffffffc0000081: "ext4_b+0x1/0xf80 [ext4]",
             0xffffffffc0000fff: "ext4_b+0xf7f/0xf80 [ext4]", 0xffffffffc0001000: "-",
             0xffffffffc02000ff: "prog+0xff/0x1000 [bpf]"}
    for addr, text in lines.items():
        assert answer(catalog, addr) == f"0x{addr:x} {text}", answer(catalog, addr)
    lib.latchsym_catalog_close(catalog)

def callers(catalog):
    """A return address is told of the call before it, and 0 of none."""
    call = lambda addr: found(lib.latchsym_catalog_find_caller, catalog, addr)
    assert call(0xffffffffc0000018) == "0xffffffffc0000018 ext4_a+0x8/0x30 [ext4]"
    assert call(0xffffffffc0000040) == "0xffffffffc0000040 ext4_a+0x30/0x30 [ext4]"
    assert call(0) == "0x0 -"

def a_bad_line():
    got, catalog, _, bad = opening((b"", b"", b"latchregions 1\nx\n"))
    assert got == 15 and bad == 2 and catalog.kind == 0
    assert opening((None, b"", b"latchregions 1\n"))[::3] == (103, 77)

def numbers():
    """The version, and the text of a number."""
    place = no_place()
    lib.latchsym_place_of_text(NOTHING, place)
    assert ctypes.string_at(place.at, place.len) == b"nothing is there\0"
    assert lib.latchsym_version() == 10300

numbers()
folder = pathlib.Path(sys.argv[2])
for path in sorted(folder.glob("*.modules")):
    catalog, texts, count = compare(folder, path.stem)
    print(f"names: {path.stem}: {count} addresses as latchsym lookup answers")
    if path.stem == "basic":
        short_rooms_and_a_table(catalog)
        callers(catalog)
        other_bounds(texts)
    lib.latchsym_catalog_close(catalog)
a_bad_line()
from_symbols()
print("names: ok")
