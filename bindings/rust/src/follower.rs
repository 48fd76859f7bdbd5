// SPDX-License-Identifier: MIT OR Apache-2.0
use crate::{
    catalog::symbol_found, changes::change_of, sys, Catalog, Error, Listings, Readers, Symbol,
};
use std::{cell::UnsafeCell, collections::BTreeMap, fmt, slice, sync::Arc};

/// Opens a follower without a listing over an empty table of 1 to 65536 nodes with 1 to 64 readers.
///
/// ```
/// let (mut follower, mut readers) = latchsym::follower(64, 1)?;
/// let old = follower.show(b"ffffffffc0000010 t ext4_a\t[ext4]\n".to_vec(), None, 10)?;
/// let found = readers.get(0).unwrap().find(0xffffffffc0000018)?;
/// follower.show(b"ffffffffc0000010 t xfs_a\t[xfs]\n".to_vec(), None, 20)?;
/// assert_eq!(found.generation, old);
/// assert_eq!(follower.find(old, 0xffffffffc0000018)?.unwrap().name, Some(&b"ext4_a"[..]));
/// assert_eq!(follower.find_since(25, 0xffffffffc0000018)?.unwrap().name, Some(&b"xfs_a"[..]));
/// # Ok::<(), latchsym::Error>(())
/// ```
pub fn follower(nodes: u32, readers: usize) -> Result<(Follower, Readers), Error> {
    follower_with_room(nodes, readers, readers)
}

/// Opens one as [`follower`] does, with room for this many readers in all.
pub fn follower_with_room(
    nodes: u32,
    count: usize,
    room: usize,
) -> Result<(Follower, Readers), Error> {
    let readers = Readers::closed(count, room)?;
    Ok((Follower::open(nodes, readers.handles(), count)?, readers))
}

/// A table that follows a listing as it changes, and the listings that it showed. An address is named
/// by the listing that stood at a generation, which a reader gives, or at a stamp of the caller's.
pub struct Follower {
    handle: Box<UnsafeCell<sys::Handle>>,
    /// The bytes of each listing, by its tag: its catalog points into them.
    shown: BTreeMap<u64, Arc<Texts>>,
    newest: u64,
    /// The listing that was shown last. It is closed before its bytes are freed.
    current: Option<Current>,
    /// The names of noted code, which the library points to.
    noted: Vec<Noted>,
}

/// The bytes of a listing, or of a change and of the listing that it was made of: the catalog of the
/// change points into both.
struct Texts {
    kallsyms: Vec<u8>,
    modules: Option<Vec<u8>>,
    _before: Option<Arc<Texts>>,
}

/// A listing that is shown, to be changed.
struct Current {
    catalog: Catalog<'static>,
    texts: Arc<Texts>,
    /// The listing's own bytes, if `texts` has a change.
    whole: Option<Vec<u8>>,
    /// How many bytes of changes there are since a listing was opened whole.
    changed: usize,
}

impl Current {
    fn kallsyms(&self) -> &[u8] {
        self.whole.as_deref().unwrap_or(&self.texts.kallsyms)
    }

    /// What a change to another listing leaves, if modules alone differ and not much has changed since
    /// a listing was opened whole; else that listing.
    fn change(&self, kallsyms: Vec<u8>) -> Result<Current, Vec<u8>> {
        let Some(change) = change_of(self.kallsyms(), &kallsyms) else { return Err(kallsyms) };
        let changed = self.changed + change.len();
        if changed > kallsyms.len() / 4 {
            return Err(kallsyms);
        }
        let before = Some(self.texts.clone());
        let texts = Arc::new(Texts { kallsyms: change, modules: None, _before: before });
        // SAFETY: the catalog is closed before `texts` is freed: both go in this order.
        match self.catalog.change(unsafe { kept(&texts.kallsyms) }) {
            Ok(catalog) => Ok(Current { catalog, texts, whole: Some(kallsyms), changed }),
            Err(_) => Err(kallsyms),
        }
    }

    /// Opens a listing.
    fn open(kallsyms: Vec<u8>, modules: Option<Vec<u8>>) -> Result<Current, Error> {
        let texts = Arc::new(Texts { kallsyms, modules, _before: None });
        // SAFETY: as above.
        let mut listings = Listings::new(unsafe { kept(&texts.kallsyms) });
        listings.modules = texts.modules.as_deref().map(|it| unsafe { kept(it) });
        Ok(Current { catalog: listings.open()?, texts, whole: None, changed: 0 })
    }
}

/// Bytes for as long as whoever calls keeps them where they are.
unsafe fn kept(bytes: &[u8]) -> &'static [u8] {
    // SAFETY: as the caller says.
    unsafe { slice::from_raw_parts(bytes.as_ptr(), bytes.len()) }
}

/// Code that the caller knows of itself, such as a program that was loaded.
#[derive(Clone, Copy, Debug, PartialEq, Eq)]
pub struct Code<'n> {
    /// Its first address.
    pub addr: u64,
    /// How many bytes it has.
    pub len: u64,
    /// Its name.
    pub name: &'n [u8],
    /// The name of what it belongs to, such as `bpf`.
    pub module: &'n [u8],
}

/// The names of noted code, its address, and the generation and the stamp from which on it is gone.
struct Noted {
    _names: [Box<[u8]>; 2],
    addr: u64,
    gone: Option<(u64, u64)>,
}

// SAFETY: between two calls a handle may go to another thread.
unsafe impl Send for Follower {}

impl Follower {
    /// Opens one, and this many of the closed handles of readers, which are in no other call.
    pub(crate) fn open(
        nodes: u32,
        readers: *mut sys::Handle,
        count: usize,
    ) -> Result<Follower, Error> {
        let handle = Box::new(UnsafeCell::new(sys::Handle::CLOSED));
        let (shown, noted) = (BTreeMap::new(), Vec::new());
        let follower = Follower { handle, shown, newest: 0, current: None, noted };
        // SAFETY: the handles are closed, and as many as are told.
        Error::check(unsafe {
            sys::latchsym_follower_open(nodes, follower.handle(), readers, count)
        })?;
        Ok(follower)
    }

    fn handle(&self) -> *mut sys::Handle {
        self.handle.get()
    }

    /// Shows the regions of a listing in one update, and keeps it. Returns the generation from which
    /// it stands. The stamp does not fall. A refusal changes nothing.
    pub fn show(
        &mut self,
        kallsyms: Vec<u8>,
        modules: Option<Vec<u8>>,
        since: u64,
    ) -> Result<u64, Error> {
        self.show_if(kallsyms, modules, since, |_| Ok(())).map(|(generation, ())| generation)
    }

    /// Shows a listing likewise unless `look` refuses its catalog, and returns what that gives, too.
    pub(crate) fn show_if<T, E: From<Error>>(
        &mut self,
        kallsyms: Vec<u8>,
        modules: Option<Vec<u8>>,
        since: u64,
        look: impl FnOnce(&Catalog<'_>) -> Result<T, E>,
    ) -> Result<(u64, T), E> {
        let next = self.opened(kallsyms, modules)?;
        let looked = look(&next.catalog)?;
        let shared = next.catalog.share()?;
        let (tag, mut generation) = (self.newest + 1, 0);
        // SAFETY: both handles are in no other call. The bytes stay where they are until their tag
        // is told.
        Error::check(unsafe {
            sys::latchsym_follower_show(self.handle(), shared.handle(), since, tag, &mut generation)
        })?;
        self.shown.insert(tag, next.texts.clone());
        self.newest = tag;
        self.current = Some(next);
        Ok((generation, looked))
    }

    /// The catalog of a listing: of its change, if modules alone have changed, so that little of it
    /// is kept.
    fn opened(&self, kallsyms: Vec<u8>, modules: Option<Vec<u8>>) -> Result<Current, Error> {
        match &self.current {
            Some(current) if modules.is_none() && current.texts.modules.is_none() => {
                current.change(kallsyms).or_else(|kallsyms| Current::open(kallsyms, None))
            }
            _ => Current::open(kallsyms, modules),
        }
    }

    /// Whether these bytes are those of the listing that was shown last.
    pub(crate) fn shows(&self, kallsyms: &[u8], modules: Option<&[u8]>) -> bool {
        let current = self.current.as_ref();
        current
            .map_or(false, |it| (it.kallsyms(), it.texts.modules.as_deref()) == (kallsyms, modules))
    }

    /// Notes that code is there, from a stamp on and from the generation returned on. Until it is
    /// noted gone it is found before what the listings have, each of its bytes with its name: of
    /// several the one noted last. The names are copied. A refusal changes nothing.
    pub fn note(&mut self, code: Code<'_>, since: u64) -> Result<u64, Error> {
        let names = [code.name.into(), code.module.into()];
        let place = |name: &Box<[u8]>| sys::Place { at: name.as_ptr(), len: name.len() };
        let (name, module) = (place(&names[0]), place(&names[1]));
        let given = sys::Code { addr: code.addr, len: code.len, name, module };
        let mut generation = 0;
        // SAFETY: the handle is in no other call. The names stay where they are until the library has
        // forgotten the code: a box that is moved keeps its place in memory.
        Error::check(unsafe {
            sys::latchsym_follower_note(self.handle(), &given, since, &mut generation)
        })?;
        self.noted.push(Noted { _names: names, addr: code.addr, gone: None });
        Ok(generation)
    }

    /// Notes that the code noted last of those that begin at an address is gone, from a stamp on and
    /// from the generation returned on; none where no such code was there.
    pub fn note_gone(&mut self, addr: u64, since: u64) -> Result<Option<u64>, Error> {
        let mut generation = 0;
        // SAFETY: the handle is in no other call.
        let number = unsafe {
            sys::latchsym_follower_note_gone(self.handle(), addr, since, &mut generation)
        };
        if !Error::is_there(number)? {
            return Ok(None);
        }
        let newest = self.noted.iter_mut().rev().find(|it| it.addr == addr && it.gone.is_none());
        newest.expect("what the library knew").gone = Some((generation, since));
        Ok(Some(generation))
    }

    /// The symbol of an address by the code and the listing that stood at a generation. Refused by
    /// [`Error::Forgotten`].
    pub fn find(&self, generation: u64, addr: u64) -> Result<Option<Symbol<'_>>, Error> {
        self.found(sys::latchsym_follower_find, generation, addr)
    }

    /// That of a return address.
    pub fn find_caller(&self, generation: u64, addr: u64) -> Result<Option<Symbol<'_>>, Error> {
        self.found(sys::latchsym_follower_find_caller, generation, addr)
    }

    /// The symbol of an address by the last listing that was shown at or before a stamp.
    pub fn find_since(&self, at: u64, addr: u64) -> Result<Option<Symbol<'_>>, Error> {
        self.found(sys::latchsym_follower_find_since, at, addr)
    }

    /// That of a return address.
    pub fn find_caller_since(&self, at: u64, addr: u64) -> Result<Option<Symbol<'_>>, Error> {
        self.found(sys::latchsym_follower_find_caller_since, at, addr)
    }

    fn found(
        &self,
        find: unsafe extern "C" fn(*mut sys::Handle, u64, u64, *mut sys::Symbol) -> u32,
        moment: u64,
        addr: u64,
    ) -> Result<Option<Symbol<'_>>, Error> {
        // SAFETY: the handle is open, and in no other call: a follower is on one thread at a time.
        // The names lie in listings that stay while it is borrowed.
        unsafe { symbol_found(|out| find(self.handle(), moment, addr, out)) }
    }

    /// Forgets each listing, and the code, that no sample of this generation or a later one needs.
    pub fn forget(&mut self, generation: u64) {
        self.gone(sys::latchsym_follower_forget, generation);
        self.noted.retain(|it| it.gone.map_or(true, |gone| generation < gone.0));
    }

    /// Forgets each listing, and the code, that no sample of this stamp or a later one needs.
    pub fn forget_since(&mut self, at: u64) {
        self.gone(sys::latchsym_follower_forget_since, at);
        self.noted.retain(|it| it.gone.map_or(true, |gone| at < gone.1));
    }

    fn gone(
        &mut self,
        forget: unsafe extern "C" fn(*mut sys::Handle, u64, *mut u64) -> u32,
        moment: u64,
    ) {
        let mut tag = 0;
        // SAFETY: the handle is open and in no other call.
        while unsafe { forget(self.handle(), moment, &mut tag) } == sys::DONE {
            self.shown.remove(&tag);
        }
    }

    /// Goes on with so many nodes, with all readers of its table: for a listing whose regions
    /// [`show`](Follower::show) refuses by [`Error::Full`].
    pub fn enlarge(&mut self, nodes: u32, readers: &mut Readers) -> Result<(), Error> {
        // SAFETY: the readers are borrowed, so that none is in a call.
        Error::check(unsafe { self.enlarge_with(nodes, readers.handles(), readers.len()) })
    }

    /// What the call returns. The handles are as many as are told, and in no other call.
    pub(crate) unsafe fn enlarge_with(
        &mut self,
        nodes: u32,
        readers: *mut sys::Handle,
        count: usize,
    ) -> u32 {
        // SAFETY: as the caller says.
        unsafe { sys::latchsym_follower_enlarge(nodes, self.handle(), readers, count) }
    }

    /// One more reader, where the readers have room: [`follower_with_room`].
    pub fn add_reader(&mut self, readers: &mut Readers) -> Result<(), Error> {
        readers.add(|reader| {
            // SAFETY: the reader's handle is closed, and the follower's is in no other call.
            unsafe { sys::latchsym_follower_add_reader(self.handle(), reader) }
        })
    }
}

impl Drop for Follower {
    fn drop(&mut self) {
        let mut tag = 0;
        self.current = None;
        // SAFETY: the handle is in no other call, and the listings are freed after it is closed.
        while unsafe { sys::latchsym_follower_close(self.handle(), &mut tag) } == sys::DONE {}
    }
}

impl fmt::Debug for Follower {
    fn fmt(&self, out: &mut fmt::Formatter<'_>) -> fmt::Result {
        out.debug_struct("Follower").field("listings", &self.shown.len()).finish_non_exhaustive()
    }
}
