// SPDX-License-Identifier: MIT OR Apache-2.0
use crate::{error::text_of, sys, Error, Item, View};
use std::{cell::UnsafeCell, fmt, marker::PhantomData, mem::size_of, slice};

/// The listings that a catalog is opened of.
#[derive(Clone, Copy, Debug, Default)]
pub struct Listings<'l> {
    /// In the form of /proc/kallsyms.
    pub kallsyms: &'l [u8],
    /// In the form of /proc/modules. Without it the modules, and where they lie, come from the
    /// symbols alone.
    pub modules: Option<&'l [u8]>,
    /// Where modules lie that have several regions, if it has a byte.
    pub regions: &'l [u8],
    /// The names of the symbols at the kernel's first address and at its end, which is excluded.
    pub kernel: Option<(&'l [u8], &'l [u8])>,
}

impl<'l> Listings<'l> {
    /// A listing of symbols alone.
    pub fn new(kallsyms: &'l [u8]) -> Self {
        Listings { kallsyms, ..Listings::default() }
    }

    /// The struct of the library's.
    fn given(&self) -> sys::Listings {
        let (start, end) = self.kernel.unwrap_or_default();
        sys::Listings {
            size: size_of::<sys::Listings>(),
            kallsyms: sys::Place::of(self.kallsyms),
            modules: sys::Place::of(self.modules.unwrap_or_default()),
            regions: sys::Place::of(self.regions),
            start: sys::Place::of(start),
            end: sys::Place::of(end),
            has_modules: self.modules.is_some().into(),
        }
    }

    /// Opens the catalog of the listings.
    pub fn open(&self) -> Result<Catalog<'l>, Error> {
        let given = self.given();
        let mut catalog = Catalog::closed();
        let mut line = 0;
        // SAFETY: the listings stay for 'l, which the catalog borrows, and its handle is closed.
        let number = unsafe {
            sys::latchsym_catalog_open(&given, catalog.handle(), &mut catalog.counts, &mut line)
        };
        match number {
            sys::BAD_LINE => Err(Error::BadLine(line)),
            _ => Error::check(number).map(|()| catalog),
        }
    }
}

/// How many lines of each listing went where, as `latchsym lookup` prints them.
#[repr(C)]
#[derive(Clone, Copy, Debug, Default, PartialEq, Eq)]
#[allow(missing_docs)]
pub struct Counts {
    pub modules: u64,
    pub modules_hidden: u64,
    pub modules_empty: u64,
    pub modules_wraps: u64,
    pub modules_overlap: u64,
    pub modules_double: u64,
    pub modules_long: u64,
    pub modules_malformed: u64,
    pub symbols: u64,
    pub symbols_hidden: u64,
    pub symbols_stray: u64,
    pub symbols_long: u64,
    pub symbols_malformed: u64,
    pub regions: u64,
    pub regions_stray: u64,
    modules_note: u32,
    symbols_note: u32,
}

impl Counts {
    /// What `latchsym lookup` notes of the listing of modules, where none of it is of use.
    pub fn modules_note(&self) -> Option<&'static str> {
        note(self.modules_note)
    }

    /// The same of the listing of symbols.
    pub fn symbols_note(&self) -> Option<&'static str> {
        note(self.symbols_note)
    }
}

fn note(number: u32) -> Option<&'static str> {
    (number != sys::NOTHING).then(|| text_of(number))
}

/// What is known of an address. It is shown as `latchsym lookup` writes it.
#[derive(Clone, Copy, Debug, PartialEq, Eq)]
pub struct Symbol<'l> {
    /// None where the module has no symbol at or below the address.
    pub name: Option<&'l [u8]>,
    /// How far the address lies above the symbol, in bytes.
    pub offset: u64,
    /// How far the symbol reaches, in bytes.
    pub size: u64,
    /// The module's name; `-` is the kernel itself.
    pub module: &'l [u8],
    /// The module's number; 0 is the kernel itself.
    pub module_number: u64,
}

impl fmt::Display for Symbol<'_> {
    fn fmt(&self, out: &mut fmt::Formatter<'_>) -> fmt::Result {
        match self.name {
            Some(name) => {
                let name = String::from_utf8_lossy(name);
                write!(out, "{name}+{:#x}/{:#x}", self.offset, self.size)?;
            }
            None if self.module_number == 0 => return out.write_str("-"),
            None => out.write_str("?")?,
        }
        match self.module_number {
            0 => Ok(()),
            _ => write!(out, " [{}]", String::from_utf8_lossy(self.module)),
        }
    }
}

/// The answer of [`Catalog::find_many`] for one address: only numbers.
#[repr(C)]
#[derive(Clone, Copy, Debug, Default, PartialEq, Eq)]
pub struct Answer {
    /// The module's number; 0 is the kernel itself.
    pub module_number: u64,
    /// How far the address lies above the symbol, in bytes.
    pub offset: u64,
    /// How far the symbol reaches, in bytes.
    pub size: u64,
    /// How many bytes the symbol's name has.
    pub name_len: usize,
    /// How many bytes the module's name has.
    pub module_len: usize,
    number: u32,
}

impl Answer {
    pub(crate) fn named(answer: &sys::Answer, number: u32) -> Answer {
        Answer {
            module_number: answer.module_number,
            offset: answer.offset,
            size: answer.size,
            name_len: answer.name_len,
            module_len: answer.module_len,
            number,
        }
    }

    /// Whether the address lies in a region.
    pub fn is_in_a_region(&self) -> bool {
        self.number != sys::NOTHING
    }

    /// Whether there is a symbol.
    pub fn has_symbol(&self) -> bool {
        self.number == sys::DONE
    }
}

/// A module, and how many regions and symbols it has.
#[derive(Clone, Copy, Debug, PartialEq, Eq)]
#[allow(missing_docs)]
pub struct Module<'l> {
    pub number: u64,
    pub name: &'l [u8],
    pub regions: usize,
    pub symbols: usize,
}

/// Addresses from `a` up to `b`, which is excluded.
#[derive(Clone, Copy, Debug, PartialEq, Eq)]
#[allow(missing_docs)]
pub struct Region {
    pub a: u64,
    pub b: u64,
    /// Whether only the start of the module needs them.
    pub is_init: bool,
}

/// A symbol of a module.
#[derive(Clone, Copy, Debug, PartialEq, Eq)]
#[allow(missing_docs)]
pub struct Entry<'l> {
    pub addr: u64,
    pub name: &'l [u8],
}

/// The symbols and modules of a kernel's listings, which it borrows.
pub struct Catalog<'l> {
    // An open handle is never moved, so it lies apart. `UnsafeCell` keeps a catalog from being
    // `Sync`.
    handle: Box<UnsafeCell<sys::Handle>>,
    counts: Counts,
    listings: PhantomData<&'l [u8]>,
}

// SAFETY: between two calls a handle may go to another thread.
unsafe impl Send for Catalog<'_> {}

impl<'l> Catalog<'l> {
    fn closed() -> Self {
        Catalog {
            handle: Box::new(UnsafeCell::new(sys::Handle::CLOSED)),
            counts: Counts::default(),
            listings: PhantomData,
        }
    }

    pub(crate) fn handle(&self) -> *mut sys::Handle {
        self.handle.get()
    }

    /// The catalog of what a change leaves of this one's listing of symbols: without the lines of
    /// each module that it names, and with its own lines behind the others.
    ///
    /// The change is lines of modules in the form of /proc/kallsyms, and lines `gone NAME`. Both
    /// catalogs share what did not change, so a change of one module takes little time and memory.
    /// Their counts are those of the listings that were opened.
    pub fn change(&self, text: &'l [u8]) -> Result<Catalog<'l>, Error> {
        let given = Listings::new(text).given();
        let mut other = Catalog::closed();
        other.counts = self.counts;
        let mut line = 0;
        // SAFETY: the change and what this catalog borrows stay for 'l, which the other one borrows.
        // This handle is in no other call: a catalog is not `Sync`. The other is closed.
        let number = unsafe {
            sys::latchsym_catalog_change(self.handle(), &given, other.handle(), &mut line)
        };
        match number {
            sys::BAD_LINE => Err(Error::BadLine(line)),
            _ => Error::check(number).map(|()| other),
        }
    }

    /// The same catalog for another thread.
    pub fn share(&self) -> Result<Catalog<'l>, Error> {
        let mut other = Catalog::closed();
        other.counts = self.counts;
        // SAFETY: this handle is in no other call: a catalog is not `Sync`. The other is closed.
        Error::check(unsafe { sys::latchsym_catalog_share(self.handle(), other.handle()) })?;
        Ok(other)
    }

    /// How many lines of each listing went where.
    pub fn counts(&self) -> &Counts {
        &self.counts
    }

    /// The symbol of an address, or none where nothing is.
    pub fn find(&self, addr: u64) -> Result<Option<Symbol<'l>>, Error> {
        // SAFETY: as `found` asks.
        self.found(|out| unsafe { sys::latchsym_catalog_find(self.handle(), addr, out) })
    }

    /// The symbol of a return address: that of the call before it, which may be the last
    /// instruction of its function. So the offset may equal the size.
    pub fn find_caller(&self, addr: u64) -> Result<Option<Symbol<'l>>, Error> {
        // SAFETY: as `found` asks.
        self.found(|out| unsafe { sys::latchsym_catalog_find_caller(self.handle(), addr, out) })
    }

    /// What a search finds, which leaves in `out` places of this catalog's listings.
    fn found(
        &self,
        call: impl FnOnce(&mut sys::Symbol) -> u32,
    ) -> Result<Option<Symbol<'l>>, Error> {
        // SAFETY: the names lie in the listings (or are constants), which stay for 'l.
        unsafe { symbol_found(call) }
    }

    /// The catalog in memory of its own, for any number of threads at once.
    pub fn view(&self) -> Result<View<'l>, Error> {
        View::of(self)
    }

    /// What is told of each address, in numbers alone.
    ///
    /// For a name ask [`Catalog::find`] once more: the addresses of one symbol are those with one
    /// `address - offset`.
    pub fn find_many(&self, addresses: &[u64]) -> Result<Vec<Answer>, Error> {
        let mut out = vec![Answer::default(); addresses.len()];
        self.find_many_into(addresses, &mut out)?;
        Ok(out)
    }

    /// The same into rooms of the caller's.
    ///
    /// # Panics
    ///
    /// Where there are not as many rooms as addresses.
    pub fn find_many_into(&self, addresses: &[u64], out: &mut [Answer]) -> Result<(), Error> {
        let out = out.get_mut(..addresses.len()).expect("not as many rooms as addresses");
        // SAFETY: pointers and lengths are those of slices.
        Error::check(unsafe {
            sys::latchsym_catalog_find_many(
                self.handle(),
                addresses.as_ptr(),
                addresses.len(),
                out.as_mut_ptr(),
                out.len(),
            )
        })
    }

    /// The modules by their numbers: the kernel itself, 0, where it has a region, then from 1 on.
    pub fn modules(&self) -> Result<impl Iterator<Item = Module<'l>> + '_, Error> {
        let mut count = 0;
        // SAFETY: the handle is open and in no other call.
        Error::check(unsafe { sys::latchsym_catalog_modules(self.handle(), &mut count) })?;
        Ok((0..=count).filter_map(move |number| self.module(number)))
    }

    /// An item for each region, each below the next, with the number of its module as the tag.
    pub fn items(&self) -> Result<Vec<Item>, Error> {
        let mut sizes = sys::Sizes::NONE;
        // SAFETY: the handle is open and in no other call.
        Error::check(unsafe { sys::latchsym_catalog_sizes(self.handle(), &mut sizes) })?;
        let mut items = vec![Item::default(); sizes.regions];
        // SAFETY: pointer and length are those of a slice.
        Error::check(unsafe {
            sys::latchsym_catalog_items(self.handle(), items.as_mut_ptr(), items.len())
        })?;
        Ok(items)
    }

    /// The module of a number.
    pub fn module(&self, number: u64) -> Option<Module<'l>> {
        let mut out = sys::Module::NONE;
        // SAFETY: the handle is open and in no other call.
        let got = unsafe { sys::latchsym_catalog_module(self.handle(), number, &mut out) };
        (got == sys::DONE).then(|| Module {
            number,
            // SAFETY: a name lies in the listings (or is a constant), which stay for 'l.
            name: unsafe { bytes_at(out.name) },
            regions: out.regions,
            symbols: out.symbols,
        })
    }

    /// The regions of the module of a number, in the order of their listing.
    pub fn regions(&self, number: u64) -> impl Iterator<Item = Region> + '_ {
        (0..).map_while(move |place| {
            let mut out = sys::Region::NONE;
            // SAFETY: the handle is open and in no other call.
            let got =
                unsafe { sys::latchsym_catalog_region(self.handle(), number, place, &mut out) };
            (got == sys::DONE).then_some(Region { a: out.a, b: out.b, is_init: out.is_init != 0 })
        })
    }

    /// The symbols of the module of a number, in the order listed.
    pub fn symbols(&self, number: u64) -> impl Iterator<Item = Entry<'l>> + '_ {
        (0..).map_while(move |place| self.symbol(number, place))
    }

    /// The symbol at a place of the module of a number.
    pub fn symbol(&self, number: u64, place: usize) -> Option<Entry<'l>> {
        let mut out = sys::Entry::NONE;
        // SAFETY: the handle is open and in no other call.
        let got = unsafe { sys::latchsym_catalog_symbol(self.handle(), number, place, &mut out) };
        (got == sys::DONE).then(|| Entry {
            addr: out.addr,
            // SAFETY: a name lies in the listings, which stay for 'l.
            name: unsafe { bytes_at(out.name) },
        })
    }

    /// The addresses of a name in the module of a number, in the order listed.
    pub fn addresses_of<'c>(
        &'c self,
        number: u64,
        name: &'c [u8],
    ) -> impl Iterator<Item = u64> + 'c {
        let mut from = 0;
        std::iter::from_fn(move || {
            let mut place = 0;
            // SAFETY: the handle is open and in no other call; the name is a slice.
            let got = unsafe {
                sys::latchsym_catalog_place_of_name(
                    self.handle(),
                    number,
                    name.as_ptr(),
                    name.len(),
                    from,
                    &mut place,
                )
            };
            from = place + 1;
            (got == sys::DONE).then(|| self.symbol(number, place))?
        })
        .map(|entry| entry.addr)
    }

    /// The number of the module and the place in it of the symbol that `from` others of this name
    /// come before, by rising number of the module. The first call sorts the symbols by name.
    pub fn find_name(&self, name: &[u8], from: usize) -> Result<Option<(u64, usize)>, Error> {
        let (mut number, mut place) = (0, 0);
        // SAFETY: the handle is open and in no other call; the name is a slice.
        let got = unsafe {
            sys::latchsym_catalog_find_name(
                self.handle(),
                name.as_ptr(),
                name.len(),
                from,
                &mut number,
                &mut place,
            )
        };
        Ok(Error::is_there(got)?.then_some((number, place)))
    }
}

impl Drop for Catalog<'_> {
    fn drop(&mut self) {
        // SAFETY: the handle is in no other call.
        unsafe { sys::latchsym_catalog_close(self.handle()) }
    }
}

impl fmt::Debug for Catalog<'_> {
    fn fmt(&self, out: &mut fmt::Formatter<'_>) -> fmt::Result {
        out.debug_struct("Catalog").field("counts", &self.counts).finish_non_exhaustive()
    }
}

/// What a search finds, or why it was refused.
///
/// # Safety
///
/// The places that the call leaves stay for `'l`.
pub(crate) unsafe fn symbol_found<'l>(
    call: impl FnOnce(&mut sys::Symbol) -> u32,
) -> Result<Option<Symbol<'l>>, Error> {
    let mut out = sys::Symbol::NONE;
    let number = call(&mut out);
    if number != sys::NO_SYMBOL && !Error::is_there(number)? {
        return Ok(None);
    }
    // SAFETY: as the caller says.
    Ok(unsafe { symbol_told(number, &out) })
}

/// What a search has told by its number; none where nothing is.
///
/// # Safety
///
/// The bytes of the names stay unchanged for 'l.
pub(crate) unsafe fn symbol_told<'l>(number: u32, out: &sys::Symbol) -> Option<Symbol<'l>> {
    if number != sys::DONE && number != sys::NO_SYMBOL {
        return None;
    }
    Some(Symbol {
        // SAFETY: as the caller says.
        name: unsafe { (number == sys::DONE).then(|| bytes_at(out.name)) },
        offset: out.offset,
        size: out.size,
        // SAFETY: the same.
        module: unsafe { bytes_at(out.module) },
        module_number: out.module_number,
    })
}

impl sys::Place {
    /// (the pointer of a slice is never null, also where it is empty)
    fn of(bytes: &[u8]) -> sys::Place {
        sys::Place { at: bytes.as_ptr(), len: bytes.len() }
    }
}

/// The bytes at a place that a call has told.
///
/// # Safety
///
/// They stay unchanged for 'l.
unsafe fn bytes_at<'l>(place: sys::Place) -> &'l [u8] {
    // SAFETY: the place's pointer is not null, and its bytes are the caller's to say.
    unsafe { slice::from_raw_parts(place.at, place.len) }
}
