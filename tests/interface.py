#!/usr/bin/env python3
"""Looks that bindings/write.py --check passes, and that it says of each wrong interface below what is
wrong: types, the order of arguments and fields, a call that one side lacks, what was not written anew."""
import pathlib
import subprocess
import sys
import tempfile

TOP = pathlib.Path(__file__).resolve().parent.parent
READ = "VERSION bindings/write.py bindings/rust/src crates/latchsym_ffi/src docs include packaging python/src tests/c".split()
H, LIBRARY = "include/latchsym.h", "crates/latchsym_ffi/src"
ITEM = "latchsym_writer_begin_insert(struct latchsym_writer *, {}struct latchsym_item *)"
# a file, what stands there once, what stands there then, and what is said of it
WRONG = [
    (H, "view_find(const struct latchsym_view *, uint64_t", "view_find(const struct latchsym_view *, uint32_t", "view_find: the header has"),
    (H, "uint64_t since, uint64_t tag,", "uint64_t tag, uint64_t since,", "latchsym_follower_show: the header has"),
    (H, "begin_erase(struct latchsym_writer *, uint64_t a);", "begin_erase(struct latchsym_writer *);", "begin_erase: the header has"),
    (H, "uint32_t latchsym_writer_step(struct latchsym_writer *);", "", "latchsym_writer_step is not in the header"),
    (H, "void latchsym_writer_close_nonnull(", "uint32_t latchsym_writer_close_nonnull(", "writer_close_nonnull: the header has"),
    (H, ITEM.format("const "), ITEM.format(""), "latchsym_writer_begin_insert: the header has"),
    (H, "Takes no memory. Since 1.1. */", "Takes no memory. */", "items_nonnull is of LATCHSYM_1.1, and of LATCHSYM_1 by"),
    (f"{LIBRARY}/viewing.rt", "view_find(view: &CatalogView, addr: u64", "view_find(view: &CatalogView, addr: u32", "view_find: the header"),
    (f"{LIBRARY}/viewing.rt", "#[repr(C)]\n", "", "latchsym_catalog_sizes: the header has"),
    (f"{LIBRARY}/lookups.rt", "writer_find(writer: &mut Handle, addr: u64,", "writer_find(addr: u64, writer: &mut Handle,", "writer_find: the header"),
    (f"{LIBRARY}/taking.rt", "(writer: &mut Handle, reader: &mut Handle)", "(reader: &mut Handle, writer: &mut Handle)", "take_reader: the header"),
    (f"{LIBRARY}/updates.rt", '"C" fn latchsym_writer_step', '"C" fn writer_step', "latchsym_writer_step is no export"),
    (f"{LIBRARY}/by_number.rt", "pub is_init: u32,", "pub is_init: u64,", "latchsym_catalog_region: the header has"),
    (f"{LIBRARY}/opening.rt", "hidden: u64,\n    pub modules_empty: u64", "empty: u64,\n    pub modules_hidden: u64", "open_nonnull: the header"),
    ("include/latchsym.hpp", "latchsym_catalog_items(", "catalog_items(", "latchsym.hpp has no latchsym_catalog_items"),
    ("bindings/rust/src/table.rs", "pub tag: u64,", "pub tag: u32,", "Item of the crate for Rust has other fields"),
    ("python/src/latchsym/_header.py", "RETRY = 23", "RETRY = 24", "-RETRY = 24"),
    ("tests/c/numbers.c", "of the pool: try again", "of the pool", "-    {LATCHSYM_BUSY, "),
]


def check(folder):
    return subprocess.run([f"{folder}/bindings/write.py", "--check"], stdout=subprocess.PIPE, text=True)


right, unseen = check(TOP), []
print(right.stdout, end="")
with tempfile.TemporaryDirectory() as name:
    subprocess.run(["cp", "-r", "--parents", *READ, name], cwd=TOP, check=True)
    for path, old, new, said in WRONG:
        file = pathlib.Path(name, path)
        text = file.read_text()
        file.write_text(text.replace(old, new))
        run = check(name)
        file.write_text(text)
        if text.count(old) != 1 or run.returncode != 1 or said not in run.stdout:
            unseen.append(f"interface: not seen: {path}: {old}")
print(*unseen, f"interface: {len(WRONG) - len(unseen)} wrong ones are seen", sep="\n")
sys.exit(1 if unseen or right.returncode else 0)
