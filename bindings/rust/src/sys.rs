// made of include/latchsym.h by bindings/write.py
// SPDX-License-Identifier: MIT OR Apache-2.0
use crate::{Answer as Told, Counts, Item};
use std::ptr::{null_mut, NonNull};

pub const DONE: u32 = 0;
pub const BAD_ITEM: u32 = 1;
pub const OVERLAP: u32 = 2;
pub const NO_SUCH_ITEM: u32 = 3;
pub const FULL: u32 = 4;
pub const UPDATE_IN_HAND: u32 = 5;
pub const SEQUENCE_SPENT: u32 = 6;
pub const OUT_OF_MEMORY: u32 = 7;
pub const BAD_CAPACITY: u32 = 10;
pub const TOO_MANY_REGIONS: u32 = 14;
pub const BAD_LINE: u32 = 15;
pub const NO_SYMBOL: u32 = 21;
pub const NOTHING: u32 = 22;
pub const RETRY: u32 = 23;
pub const BUSY: u32 = 24;
pub const FORGOTTEN: u32 = 25;
pub const FLIP: u32 = 31;
pub const STORE: u32 = 32;
pub const BAD_HANDLE: u32 = 101;
pub const BAD_LENGTH: u32 = 102;
pub const BAD_LISTINGS: u32 = 103;
pub const BAD_STAMP: u32 = 104;

#[repr(C)] pub struct Handle { kind: u32, at: *mut u8 }
impl Handle { pub const CLOSED: Handle = Handle { kind: 0, at: null_mut() }; }
#[repr(C)] #[derive(Clone, Copy)] pub struct Place { pub at: *const u8, pub len: usize }
impl Place { pub const NONE: Place = Place { at: NonNull::dangling().as_ptr(), len: 0 }; }
#[repr(C)] #[derive(Clone, Copy)] pub struct Symbol { pub module_number: u64, pub offset: u64, pub size: u64, pub name: Place, pub module: Place }
impl Symbol { pub const NONE: Symbol = Symbol { module_number: 0, offset: 0, size: 0, name: Place::NONE, module: Place::NONE }; }
#[repr(C)] #[derive(Clone, Copy)] pub struct Answer { pub module_number: u64, pub offset: u64, pub size: u64, pub name_len: usize, pub module_len: usize }
impl Answer { pub const NONE: Answer = Answer { module_number: 0, offset: 0, size: 0, name_len: 0, module_len: 0 }; }
#[repr(C)] #[derive(Clone, Copy)] pub struct Found { pub a: u64, pub b: u64, pub tag: u64, pub generation: u64 }
impl Found { pub const NONE: Found = Found { a: 0, b: 0, tag: 0, generation: 0 }; }
#[repr(C)] #[derive(Clone, Copy)] pub struct Listings { pub size: usize, pub kallsyms: Place, pub modules: Place, pub regions: Place, pub start: Place, pub end: Place, pub has_modules: u32 }
impl Listings { pub const NONE: Listings = Listings { size: 0, kallsyms: Place::NONE, modules: Place::NONE, regions: Place::NONE, start: Place::NONE, end: Place::NONE, has_modules: 0 }; }
#[repr(C)] #[derive(Clone, Copy)] pub struct Module { pub name: Place, pub regions: usize, pub symbols: usize }
impl Module { pub const NONE: Module = Module { name: Place::NONE, regions: 0, symbols: 0 }; }
#[repr(C)] #[derive(Clone, Copy)] pub struct Region { pub a: u64, pub b: u64, pub is_init: u32 }
impl Region { pub const NONE: Region = Region { a: 0, b: 0, is_init: 0 }; }
#[repr(C)] #[derive(Clone, Copy)] pub struct Entry { pub addr: u64, pub name: Place }
impl Entry { pub const NONE: Entry = Entry { addr: 0, name: Place::NONE }; }
#[repr(C)] #[derive(Clone, Copy)] pub struct ViewSymbol { pub addr: u64, pub place: usize, pub name: Place }
impl ViewSymbol { pub const NONE: ViewSymbol = ViewSymbol { addr: 0, place: 0, name: Place::NONE }; }
#[repr(C)] #[derive(Clone, Copy)] pub struct ViewRegion { pub a: u64, pub b: u64, pub module_number: u64, pub module: Place, pub symbols: *const ViewSymbol, pub symbols_len: usize, pub addresses: *const u64, pub addresses_len: usize }
impl ViewRegion { pub const NONE: ViewRegion = ViewRegion { a: 0, b: 0, module_number: 0, module: Place::NONE, symbols: NonNull::dangling().as_ptr(), symbols_len: 0, addresses: NonNull::dangling().as_ptr(), addresses_len: 0 }; }
#[repr(C)] #[derive(Clone, Copy)] pub struct View { pub regions: *const ViewRegion, pub regions_len: usize }
impl View { pub const NONE: View = View { regions: NonNull::dangling().as_ptr(), regions_len: 0 }; }
#[repr(C)] #[derive(Clone, Copy)] pub struct Sizes { pub regions: usize, pub symbols: usize }
impl Sizes { pub const NONE: Sizes = Sizes { regions: 0, symbols: 0 }; }
#[repr(C)] #[derive(Clone, Copy)] pub struct Code { pub addr: u64, pub len: u64, pub name: Place, pub module: Place }
impl Code { pub const NONE: Code = Code { addr: 0, len: 0, name: Place::NONE, module: Place::NONE }; }

extern "C" {
    pub fn latchsym_place_of_text(number: u32, out: *mut Place);
    pub fn latchsym_version() -> u32;
    #[link_name = "latchsym_catalog_open_nonnull"] pub fn latchsym_catalog_open(listings: *const Listings, out: *mut Handle, counts: *mut Counts, bad_line: *mut u64) -> u32;
    #[link_name = "latchsym_catalog_change_nonnull"] pub fn latchsym_catalog_change(catalog: *mut Handle, change: *const Listings, out: *mut Handle, bad_line: *mut u64) -> u32;
    pub fn latchsym_catalog_find(catalog: *mut Handle, addr: u64, out: *mut Symbol) -> u32;
    pub fn latchsym_catalog_find_caller(catalog: *mut Handle, addr: u64, out: *mut Symbol) -> u32;
    #[link_name = "latchsym_catalog_find_many_nonnull"] pub fn latchsym_catalog_find_many(catalog: *mut Handle, addresses: *const u64, addresses_len: usize, out: *mut Told, out_len: usize) -> u32;
    #[link_name = "latchsym_catalog_name_nonnull"] pub fn latchsym_catalog_name(catalog: *mut Handle, addr: u64, out: *mut Answer, name: *mut u8, name_room: usize, module: *mut u8, module_room: usize) -> u32;
    pub fn latchsym_catalog_modules(catalog: *mut Handle, count: *mut u64) -> u32;
    pub fn latchsym_catalog_module(catalog: *mut Handle, number: u64, out: *mut Module) -> u32;
    pub fn latchsym_catalog_region(catalog: *mut Handle, number: u64, place: usize, out: *mut Region) -> u32;
    pub fn latchsym_catalog_symbol(catalog: *mut Handle, number: u64, place: usize, out: *mut Entry) -> u32;
    #[link_name = "latchsym_catalog_place_of_name_nonnull"] pub fn latchsym_catalog_place_of_name(catalog: *mut Handle, number: u64, name: *const u8, name_len: usize, from: usize, place: *mut usize) -> u32;
    #[link_name = "latchsym_catalog_find_name_nonnull"] pub fn latchsym_catalog_find_name(catalog: *mut Handle, name: *const u8, name_len: usize, from: usize, number: *mut u64, place: *mut usize) -> u32;
    pub fn latchsym_catalog_sizes(catalog: *mut Handle, out: *mut Sizes) -> u32;
    #[link_name = "latchsym_catalog_flatten_nonnull"] pub fn latchsym_catalog_flatten(catalog: *mut Handle, regions: *mut ViewRegion, regions_len: usize, symbols: *mut ViewSymbol, symbols_len: usize, addresses: *mut u64, addresses_len: usize, out: *mut View) -> u32;
    pub fn latchsym_view_find(view: *const View, addr: u64, out: *mut Symbol) -> u32;
    pub fn latchsym_view_find_caller(view: *const View, addr: u64, out: *mut Symbol) -> u32;
    pub fn latchsym_catalog_share(catalog: *mut Handle, out: *mut Handle) -> u32;
    #[link_name = "latchsym_catalog_close_nonnull"] pub fn latchsym_catalog_close(catalog: *mut Handle);
    #[link_name = "latchsym_table_open_nonnull"] pub fn latchsym_table_open(nodes: u32, writer: *mut Handle, readers: *mut Handle, count: usize) -> u32;
    pub fn latchsym_writer_add_reader(writer: *mut Handle, out: *mut Handle) -> u32;
    pub fn latchsym_writer_take_reader(writer: *mut Handle, reader: *mut Handle) -> u32;
    pub fn latchsym_writer_begin_insert(writer: *mut Handle, item: *const Item) -> u32;
    pub fn latchsym_writer_begin_erase(writer: *mut Handle, a: u64) -> u32;
    #[link_name = "latchsym_writer_begin_batch_nonnull"] pub fn latchsym_writer_begin_batch(writer: *mut Handle, erase: *const u64, erase_len: usize, insert: *const Item, insert_len: usize) -> u32;
    #[link_name = "latchsym_writer_begin_replace_nonnull"] pub fn latchsym_writer_begin_replace(writer: *mut Handle, items: *const Item, items_len: usize) -> u32;
    #[link_name = "latchsym_catalog_items_nonnull"] pub fn latchsym_catalog_items(catalog: *mut Handle, out: *mut Item, out_len: usize) -> u32;
    pub fn latchsym_writer_step(writer: *mut Handle) -> u32;
    pub fn latchsym_writer_finish(writer: *mut Handle, generation: *mut u64) -> u32;
    #[link_name = "latchsym_table_enlarge_nonnull"] pub fn latchsym_table_enlarge(nodes: u32, writer: *mut Handle, readers: *mut Handle, count: usize) -> u32;
    pub fn latchsym_writer_find(writer: *mut Handle, addr: u64, out: *mut Found) -> u32;
    #[link_name = "latchsym_writer_close_nonnull"] pub fn latchsym_writer_close(writer: *mut Handle);
    pub fn latchsym_reader_try_find(reader: *mut Handle, addr: u64, out: *mut Found) -> u32;
    #[link_name = "latchsym_reader_find_name_nonnull"] pub fn latchsym_reader_find_name(reader: *mut Handle, catalog: *mut Handle, addr: u64, item: *mut Found, out: *mut Answer, name: *mut u8, name_room: usize, module: *mut u8, module_room: usize) -> u32;
    #[link_name = "latchsym_reader_close_nonnull"] pub fn latchsym_reader_close(reader: *mut Handle);
    #[link_name = "latchsym_follower_open_nonnull"] pub fn latchsym_follower_open(nodes: u32, follower: *mut Handle, readers: *mut Handle, count: usize) -> u32;
    pub fn latchsym_follower_add_reader(follower: *mut Handle, out: *mut Handle) -> u32;
    #[link_name = "latchsym_follower_enlarge_nonnull"] pub fn latchsym_follower_enlarge(nodes: u32, follower: *mut Handle, readers: *mut Handle, count: usize) -> u32;
    pub fn latchsym_follower_show(follower: *mut Handle, catalog: *mut Handle, since: u64, tag: u64, generation: *mut u64) -> u32;
    pub fn latchsym_follower_find(follower: *mut Handle, generation: u64, addr: u64, out: *mut Symbol) -> u32;
    pub fn latchsym_follower_find_caller(follower: *mut Handle, generation: u64, addr: u64, out: *mut Symbol) -> u32;
    pub fn latchsym_follower_find_since(follower: *mut Handle, at: u64, addr: u64, out: *mut Symbol) -> u32;
    pub fn latchsym_follower_find_caller_since(follower: *mut Handle, at: u64, addr: u64, out: *mut Symbol) -> u32;
    #[link_name = "latchsym_follower_note_nonnull"] pub fn latchsym_follower_note(follower: *mut Handle, code: *const Code, since: u64, generation: *mut u64) -> u32;
    pub fn latchsym_follower_note_gone(follower: *mut Handle, addr: u64, since: u64, generation: *mut u64) -> u32;
    pub fn latchsym_follower_forget(follower: *mut Handle, generation: u64, tag: *mut u64) -> u32;
    pub fn latchsym_follower_forget_since(follower: *mut Handle, at: u64, tag: *mut u64) -> u32;
    pub fn latchsym_follower_close(follower: *mut Handle, tag: *mut u64) -> u32;
}
