// SPDX-License-Identifier: MIT OR Apache-2.0
//! Which symbol and which module of a Linux kernel hold an address, and a table of address ranges
//! whose readers never wait for its writer: the library for C, `liblatchsym.a`, in safe Rust.
//!
//! ```
//! let symbols = b"ffffffffc0000010 t ext4_a\t[ext4]\nffffffffc0000040 t ext4_b\t[ext4]\n";
//! let catalog = latchsym::Listings::new(symbols).open()?;
//! let found = catalog.find(0xffffffffc0000018)?.expect("a symbol");
//! assert_eq!((found.name, found.offset), (Some(&b"ext4_a"[..]), 8));
//! assert_eq!(found.to_string(), "ext4_a+0x8/0x30 [ext4]");
//! # Ok::<(), latchsym::Error>(())
//! ```
//!
//! What include/latchsym.h asks of a caller, the types here uphold:
//!
//! - A handle is never copied: each lies apart, in memory of its own, or moves.
//! - It is given to one call at a time: [`Catalog`], [`Writer`] and [`Reader`] are `Send` and not
//!   `Sync`. [`Catalog::share`] gives another thread its own, and [`Catalog::view`] is for any
//!   number of threads: [`View`] is `Sync`. So is [`Pool`], whose calls claim a reader each.
//! - The bytes of listings stay unchanged while a catalog is open: it borrows them, and so do the
//!   names that it returns, which may be read after it is closed.
//!
//! A thread cannot have the catalog of another one:
//!
//! ```compile_fail,E0277
//! fn is_sync<T: Sync>() {}
//! is_sync::<latchsym::Catalog<'static>>();
//! ```
//!
//! and a catalog cannot outlive its listings:
//!
//! ```compile_fail,E0597
//! let catalog;
//! {
//!     let symbols = std::fs::read("/proc/kallsyms").unwrap();
//!     catalog = latchsym::Listings::new(&symbols).open();
//! }
//! drop(catalog);
//! ```
//!
//! Two threads cannot have one reader, nor one thread a reader while the table is enlarged:
//!
//! ```compile_fail,E0502
//! let (mut writer, mut readers) = latchsym::table(4, 1)?;
//! let mut reader = readers.get(0).unwrap();
//! writer.enlarge(8, &mut readers)?;
//! reader.find(1)?;
//! # Ok::<(), latchsym::Error>(())
//! ```

#![warn(missing_docs)]
#![deny(unsafe_op_in_unsafe_fn)]

mod catalog;
mod changes;
mod error;
mod files;
mod follower;
mod pool;
mod table;
mod view;

#[allow(dead_code)]
#[rustfmt::skip]
mod sys;

pub use catalog::{Answer, Catalog, Counts, Entry, Listings, Module, Region, Symbol};
pub use error::Error;
pub use files::{file_follower, file_follower_with_room, FileFollower, Files, PollError};
pub use follower::{follower, follower_with_room, Code, Follower};
pub use pool::{followed_pool, pooled_table, Pool};
pub use table::{table, table_with_room, Found, Item, Reader, Readers, Step, Writer};
pub use view::View;

/// The version of the library: 10000 of each major, 100 of each minor and 1 of each patch number.
pub fn version() -> u32 {
    // SAFETY: the call takes nothing.
    unsafe { sys::latchsym_version() }
}
