# made of include/latchsym.h by bindings/write.py
# SPDX-License-Identifier: MIT OR Apache-2.0
from ctypes import POINTER, Structure, c_char, c_size_t, c_uint32, c_uint64, c_void_p

MAJOR = 1
DONE = 0
BAD_ITEM = 1
OVERLAP = 2
NO_SUCH_ITEM = 3
FULL = 4
UPDATE_IN_HAND = 5
SEQUENCE_SPENT = 6
OUT_OF_MEMORY = 7
BAD_CAPACITY = 10
TOO_MANY_REGIONS = 14
BAD_LINE = 15
NO_SYMBOL = 21
NOTHING = 22
RETRY = 23
BUSY = 24
FORGOTTEN = 25
FLIP = 31
STORE = 32
BAD_HANDLE = 101
BAD_LENGTH = 102
BAD_LISTINGS = 103
BAD_STAMP = 104

class Handle(Structure): _fields_ = [("kind", c_uint32), ("at", c_void_p)]
class Counts(Structure): _fields_ = [("modules", c_uint64), ("modules_hidden", c_uint64), ("modules_empty", c_uint64), ("modules_wraps", c_uint64), ("modules_overlap", c_uint64), ("modules_double", c_uint64), ("modules_long", c_uint64), ("modules_malformed", c_uint64), ("symbols", c_uint64), ("symbols_hidden", c_uint64), ("symbols_stray", c_uint64), ("symbols_long", c_uint64), ("symbols_malformed", c_uint64), ("regions", c_uint64), ("regions_stray", c_uint64), ("modules_note", c_uint32), ("symbols_note", c_uint32)]
class Place(Structure): _fields_ = [("at", c_void_p), ("len", c_size_t)]
class Symbol(Structure): _fields_ = [("module_number", c_uint64), ("offset", c_uint64), ("size", c_uint64), ("name_at", c_void_p), ("name_len", c_size_t), ("module_at", c_void_p), ("module_len", c_size_t)]
class Answer(Structure): _fields_ = [("module_number", c_uint64), ("offset", c_uint64), ("size", c_uint64), ("name_len", c_size_t), ("module_len", c_size_t)]
class Told(Structure): _fields_ = [("answer", Answer), ("code", c_uint32)]
class Item(Structure): _fields_ = [("a", c_uint64), ("b", c_uint64), ("tag", c_uint64)]
class Found(Structure): _fields_ = [("a", c_uint64), ("b", c_uint64), ("tag", c_uint64), ("generation", c_uint64)]
class Listings(Structure): _fields_ = [("size", c_size_t), ("kallsyms", Place), ("modules", Place), ("regions", Place), ("start", Place), ("end", Place), ("has_modules", c_uint32)]
class Module(Structure): _fields_ = [("name", Place), ("regions", c_size_t), ("symbols", c_size_t)]
class Region(Structure): _fields_ = [("a", c_uint64), ("b", c_uint64), ("is_init", c_uint32)]
class Entry(Structure): _fields_ = [("addr", c_uint64), ("name", Place)]
class ViewSymbol(Structure): _fields_ = [("addr", c_uint64), ("place", c_size_t), ("name", Place)]
class ViewRegion(Structure): _fields_ = [("a", c_uint64), ("b", c_uint64), ("module_number", c_uint64), ("module", Place), ("symbols", c_void_p), ("symbols_len", c_size_t), ("addresses", c_void_p), ("addresses_len", c_size_t)]
class View(Structure): _fields_ = [("regions", c_void_p), ("regions_len", c_size_t)]
class Sizes(Structure): _fields_ = [("regions", c_size_t), ("symbols", c_size_t)]
class Code(Structure): _fields_ = [("addr", c_uint64), ("len", c_uint64), ("name", Place), ("module", Place)]

# what each call takes, and whether it returns a number
CALLS = {
    "latchsym_place_of_text": ([c_uint32, POINTER(Place)], False),
    "latchsym_version": ([], True),
    "latchsym_catalog_open": ([POINTER(Listings), POINTER(Handle), POINTER(Counts), POINTER(c_uint64)], True),
    "latchsym_catalog_change": ([POINTER(Handle), POINTER(Listings), POINTER(Handle), POINTER(c_uint64)], True),
    "latchsym_catalog_find": ([POINTER(Handle), c_uint64, POINTER(Symbol)], True),
    "latchsym_catalog_find_caller": ([POINTER(Handle), c_uint64, POINTER(Symbol)], True),
    "latchsym_catalog_find_many": ([POINTER(Handle), POINTER(c_uint64), c_size_t, POINTER(Told), c_size_t], True),
    "latchsym_catalog_name": ([POINTER(Handle), c_uint64, POINTER(Answer), POINTER(c_char), c_size_t, POINTER(c_char), c_size_t], True),
    "latchsym_catalog_modules": ([POINTER(Handle), POINTER(c_uint64)], True),
    "latchsym_catalog_module": ([POINTER(Handle), c_uint64, POINTER(Module)], True),
    "latchsym_catalog_region": ([POINTER(Handle), c_uint64, c_size_t, POINTER(Region)], True),
    "latchsym_catalog_symbol": ([POINTER(Handle), c_uint64, c_size_t, POINTER(Entry)], True),
    "latchsym_catalog_place_of_name": ([POINTER(Handle), c_uint64, POINTER(c_char), c_size_t, c_size_t, POINTER(c_size_t)], True),
    "latchsym_catalog_find_name": ([POINTER(Handle), POINTER(c_char), c_size_t, c_size_t, POINTER(c_uint64), POINTER(c_size_t)], True),
    "latchsym_catalog_sizes": ([POINTER(Handle), POINTER(Sizes)], True),
    "latchsym_catalog_flatten": ([POINTER(Handle), POINTER(ViewRegion), c_size_t, POINTER(ViewSymbol), c_size_t, POINTER(c_uint64), c_size_t, POINTER(View)], True),
    "latchsym_view_find": ([POINTER(View), c_uint64, POINTER(Symbol)], True),
    "latchsym_view_find_caller": ([POINTER(View), c_uint64, POINTER(Symbol)], True),
    "latchsym_catalog_share": ([POINTER(Handle), POINTER(Handle)], True),
    "latchsym_catalog_close": ([POINTER(Handle)], False),
    "latchsym_table_open": ([c_uint32, POINTER(Handle), POINTER(Handle), c_size_t], True),
    "latchsym_writer_add_reader": ([POINTER(Handle), POINTER(Handle)], True),
    "latchsym_writer_take_reader": ([POINTER(Handle), POINTER(Handle)], True),
    "latchsym_writer_begin_insert": ([POINTER(Handle), POINTER(Item)], True),
    "latchsym_writer_begin_erase": ([POINTER(Handle), c_uint64], True),
    "latchsym_writer_begin_batch": ([POINTER(Handle), POINTER(c_uint64), c_size_t, POINTER(Item), c_size_t], True),
    "latchsym_writer_begin_replace": ([POINTER(Handle), POINTER(Item), c_size_t], True),
    "latchsym_catalog_items": ([POINTER(Handle), POINTER(Item), c_size_t], True),
    "latchsym_writer_step": ([POINTER(Handle)], True),
    "latchsym_writer_finish": ([POINTER(Handle), POINTER(c_uint64)], True),
    "latchsym_table_enlarge": ([c_uint32, POINTER(Handle), POINTER(Handle), c_size_t], True),
    "latchsym_writer_find": ([POINTER(Handle), c_uint64, POINTER(Found)], True),
    "latchsym_writer_close": ([POINTER(Handle)], False),
    "latchsym_reader_try_find": ([POINTER(Handle), c_uint64, POINTER(Found)], True),
    "latchsym_reader_find_name": ([POINTER(Handle), POINTER(Handle), c_uint64, POINTER(Found), POINTER(Answer), POINTER(c_char), c_size_t, POINTER(c_char), c_size_t], True),
    "latchsym_reader_close": ([POINTER(Handle)], False),
    "latchsym_follower_open": ([c_uint32, POINTER(Handle), POINTER(Handle), c_size_t], True),
    "latchsym_follower_add_reader": ([POINTER(Handle), POINTER(Handle)], True),
    "latchsym_follower_enlarge": ([c_uint32, POINTER(Handle), POINTER(Handle), c_size_t], True),
    "latchsym_follower_show": ([POINTER(Handle), POINTER(Handle), c_uint64, c_uint64, POINTER(c_uint64)], True),
    "latchsym_follower_find": ([POINTER(Handle), c_uint64, c_uint64, POINTER(Symbol)], True),
    "latchsym_follower_find_caller": ([POINTER(Handle), c_uint64, c_uint64, POINTER(Symbol)], True),
    "latchsym_follower_find_since": ([POINTER(Handle), c_uint64, c_uint64, POINTER(Symbol)], True),
    "latchsym_follower_find_caller_since": ([POINTER(Handle), c_uint64, c_uint64, POINTER(Symbol)], True),
    "latchsym_follower_note": ([POINTER(Handle), POINTER(Code), c_uint64, POINTER(c_uint64)], True),
    "latchsym_follower_note_gone": ([POINTER(Handle), c_uint64, c_uint64, POINTER(c_uint64)], True),
    "latchsym_follower_forget": ([POINTER(Handle), c_uint64, POINTER(c_uint64)], True),
    "latchsym_follower_forget_since": ([POINTER(Handle), c_uint64, POINTER(c_uint64)], True),
    "latchsym_follower_close": ([POINTER(Handle), POINTER(c_uint64)], True),
}
# those that have names in _nonnull, and take no null pointers
NONNULL = set("""
latchsym_catalog_open latchsym_catalog_change latchsym_catalog_find_many latchsym_catalog_name
latchsym_catalog_place_of_name latchsym_catalog_find_name latchsym_catalog_flatten
latchsym_catalog_close latchsym_table_open latchsym_writer_begin_batch latchsym_writer_begin_replace
latchsym_catalog_items latchsym_table_enlarge latchsym_writer_close latchsym_reader_find_name
latchsym_reader_close latchsym_follower_open latchsym_follower_enlarge latchsym_follower_note
""".split())
