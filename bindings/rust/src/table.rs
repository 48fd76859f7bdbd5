// SPDX-License-Identifier: MIT OR Apache-2.0
use crate::{sys, Answer, Catalog, Error};
use std::{cell::UnsafeCell, fmt, marker::PhantomData, thread};

/// How often a lookup is tried before its refusal is returned.
const MOST_TRIES: u32 = 1_000_000;

/// The first answer of attempts; other threads may run after one that found all readers in other
/// calls.
pub(crate) fn first_answer(
    mut attempt: impl FnMut() -> Result<Option<Found>, Error>,
) -> Result<Found, Error> {
    let mut refusal = Error::Retry;
    for _ in 0..MOST_TRIES {
        refusal = match attempt() {
            Ok(Some(found)) => return Ok(found),
            Ok(None) => Error::Retry,
            Err(Error::Busy) => Error::Busy,
            Err(error) => return Err(error),
        };
        if refusal == Error::Busy {
            thread::yield_now();
        }
    }
    Err(refusal)
}

/// Addresses from `a` up to `b`, which is excluded, and a number of the caller's.
#[repr(C)]
#[derive(Clone, Copy, Debug, Default, PartialEq, Eq)]
#[allow(missing_docs)]
pub struct Item {
    pub a: u64,
    pub b: u64,
    pub tag: u64,
}

/// What lies at an address, if something does, and how many updates were shown.
#[derive(Clone, Copy, Debug, PartialEq, Eq)]
#[allow(missing_docs)]
pub struct Found {
    pub item: Option<Item>,
    pub generation: u64,
}

impl Found {
    pub(crate) fn of(number: u32, out: sys::Found) -> Result<Found, Error> {
        let item = Item { a: out.a, b: out.b, tag: out.tag };
        Ok(Found { item: Error::is_there(number)?.then_some(item), generation: out.generation })
    }
}

/// What a step of an update did.
#[derive(Clone, Copy, Debug, PartialEq, Eq)]
pub enum Step {
    /// No update is pending, or it is at its end.
    End,
    /// A flip of the sequence; the second shows the update.
    Flip,
    /// Another word was stored.
    Store,
}

/// Opens an empty table of 1 to 65536 nodes with 1 to 64 readers.
///
/// ```
/// let (mut writer, mut readers) = latchsym::table(64, 2)?;
/// writer.insert(latchsym::Item { a: 0x1000, b: 0x2000, tag: 7 })?;
/// std::thread::scope(|scope| {
///     for mut reader in readers.iter_mut() {
///         scope.spawn(move || assert_eq!(reader.find(0x1fff).unwrap().item.unwrap().tag, 7));
///     }
/// });
/// # Ok::<(), latchsym::Error>(())
/// ```
pub fn table(nodes: u32, readers: usize) -> Result<(Writer, Readers), Error> {
    table_with_room(nodes, readers, readers)
}

/// Opens a table as [`table`] does, with room for so many readers in all: [`Writer::add_reader`].
pub fn table_with_room(nodes: u32, count: usize, room: usize) -> Result<(Writer, Readers), Error> {
    let readers = Readers::closed(count, room)?;
    let writer = Writer::open(nodes, readers.handles(), count)?;
    Ok((writer, readers))
}

/// The writer of a table. One that is dropped leaves the table to its readers as it is.
pub struct Writer {
    handle: Box<UnsafeCell<sys::Handle>>,
}

// SAFETY: between two calls a handle may go to another thread.
unsafe impl Send for Writer {}

impl Writer {
    /// The writer of a new table, whose readers are then in these handles, which are closed.
    pub(crate) fn open(nodes: u32, readers: *mut sys::Handle, count: usize) -> Result<Self, Error> {
        let writer = Writer { handle: Box::new(UnsafeCell::new(sys::Handle::CLOSED)) };
        // SAFETY: the handles are closed, and as many as are told.
        let number = unsafe { sys::latchsym_table_open(nodes, writer.handle(), readers, count) };
        Error::check(number).map(|()| writer)
    }

    fn handle(&self) -> *mut sys::Handle {
        self.handle.get()
    }

    /// Puts an item in, and returns the generation that shows it.
    pub fn insert(&mut self, item: Item) -> Result<u64, Error> {
        self.begin_insert(item)?;
        self.finish()
    }

    /// Takes the item out that begins at `a`, and returns the generation without it.
    pub fn erase(&mut self, a: u64) -> Result<u64, Error> {
        self.begin_erase(a)?;
        self.finish()
    }

    /// Takes the items out that begin at these addresses and puts others in, all at once.
    pub fn batch(&mut self, erase: &[u64], insert: &[Item]) -> Result<u64, Error> {
        self.begin_batch(erase, insert)?;
        self.finish()
    }

    /// Begins an update whose steps are left to [`Writer::step`] and [`Writer::finish`]. Readers
    /// see it from its second flip on, whole.
    pub fn begin_insert(&mut self, item: Item) -> Result<(), Error> {
        // SAFETY: the handle is open and in no other call.
        Error::check(unsafe { sys::latchsym_writer_begin_insert(self.handle(), &item) })
    }

    /// Begins to take an item out.
    pub fn begin_erase(&mut self, a: u64) -> Result<(), Error> {
        // SAFETY: the handle is open and in no other call.
        Error::check(unsafe { sys::latchsym_writer_begin_erase(self.handle(), a) })
    }

    /// Begins to do several of both at once.
    pub fn begin_batch(&mut self, erase: &[u64], insert: &[Item]) -> Result<(), Error> {
        // SAFETY: pointers and lengths are those of slices.
        Error::check(unsafe {
            sys::latchsym_writer_begin_batch(
                self.handle(),
                erase.as_ptr(),
                erase.len(),
                insert.as_ptr(),
                insert.len(),
            )
        })
    }

    /// Gives the table just these items, each of which is to lie below the next, all at once. Those
    /// that it has already are left alone.
    pub fn replace(&mut self, items: &[Item]) -> Result<u64, Error> {
        self.begin_replace(items)?;
        self.finish()
    }

    /// Begins to give the table just these items.
    pub fn begin_replace(&mut self, items: &[Item]) -> Result<(), Error> {
        // SAFETY: pointer and length are those of a slice.
        Error::check(unsafe {
            sys::latchsym_writer_begin_replace(self.handle(), items.as_ptr(), items.len())
        })
    }

    /// Takes one step of the pending update.
    pub fn step(&mut self) -> Result<Step, Error> {
        // SAFETY: the handle is open and in no other call.
        match unsafe { sys::latchsym_writer_step(self.handle()) } {
            sys::FLIP => Ok(Step::Flip),
            sys::STORE => Ok(Step::Store),
            number => Error::check(number).map(|()| Step::End),
        }
    }

    /// Takes the steps that are left, and returns the generation after them.
    pub fn finish(&mut self) -> Result<u64, Error> {
        let mut generation = 0;
        // SAFETY: the handle is open and in no other call.
        Error::check(unsafe { sys::latchsym_writer_finish(self.handle(), &mut generation) })?;
        Ok(generation)
    }

    /// What readers find now, also amid an update.
    pub fn find(&mut self, addr: u64) -> Result<Found, Error> {
        let mut out = sys::Found::NONE;
        // SAFETY: the handle is open and in no other call.
        let number = unsafe { sys::latchsym_writer_find(self.handle(), addr, &mut out) };
        Found::of(number, out)
    }

    /// One more reader, also amid an update, where the readers have room: [`table_with_room`].
    pub fn add_reader(&mut self, readers: &mut Readers) -> Result<(), Error> {
        readers.add(|reader| {
            // SAFETY: the reader's handle is closed, and the writer's is in no other call.
            unsafe { sys::latchsym_writer_add_reader(self.handle(), reader) }
        })
    }

    /// Takes the last of its readers back, which leaves room for another.
    pub fn take_reader(&mut self, readers: &mut Readers) -> Result<(), Error> {
        let last = readers.count.checked_sub(1).ok_or(Error::BadCapacity)?;
        // SAFETY: the readers are borrowed, so that none is in a call.
        Error::check(unsafe {
            sys::latchsym_writer_take_reader(self.handle(), readers.handles[last].get())
        })?;
        readers.count = last;
        Ok(())
    }

    /// Goes on with so many nodes, with all readers of this table. Items and generation stay.
    ///
    /// Readers of another table go over to this one.
    pub fn enlarge(&mut self, nodes: u32, readers: &mut Readers) -> Result<(), Error> {
        // SAFETY: the readers are borrowed, so that none is in a call.
        Error::check(unsafe { self.enlarge_with(nodes, readers.handles(), readers.count) })
    }

    /// What the call returns. The handles are as many as are told, and in no other call.
    pub(crate) unsafe fn enlarge_with(
        &mut self,
        nodes: u32,
        readers: *mut sys::Handle,
        count: usize,
    ) -> u32 {
        // SAFETY: as the caller says.
        unsafe { sys::latchsym_table_enlarge(nodes, self.handle(), readers, count) }
    }
}

impl Drop for Writer {
    fn drop(&mut self) {
        // SAFETY: the handle is in no other call.
        unsafe { sys::latchsym_writer_close(self.handle()) }
    }
}

impl fmt::Debug for Writer {
    fn fmt(&self, out: &mut fmt::Formatter<'_>) -> fmt::Result {
        out.debug_struct("Writer").finish_non_exhaustive()
    }
}

/// The readers of a table. Their handles lie in one row, where enlarging the table finds them.
pub struct Readers {
    handles: Box<[UnsafeCell<sys::Handle>]>,
    count: usize,
}

// SAFETY: between two calls handles may go to another thread.
unsafe impl Send for Readers {}

impl Readers {
    /// Closed handles, of which the first `count` are to be opened.
    pub(crate) fn closed(count: usize, room: usize) -> Result<Self, Error> {
        // (the call itself refuses these, and so many handles might not be had)
        if !(1..=64).contains(&count) {
            return Err(Error::BadCapacity);
        }
        let closed = (0..room.max(count)).map(|_| UnsafeCell::new(sys::Handle::CLOSED));
        Ok(Readers { handles: closed.collect(), count })
    }

    pub(crate) fn handles(&self) -> *mut sys::Handle {
        UnsafeCell::raw_get(self.handles.as_ptr())
    }

    /// Opens one more handle by this call.
    pub(crate) fn add(&mut self, open: impl FnOnce(*mut sys::Handle) -> u32) -> Result<(), Error> {
        let handle = self.handles.get(self.count).ok_or(Error::BadCapacity)?;
        Error::check(open(handle.get()))?;
        self.count += 1;
        Ok(())
    }

    /// How many readers there are.
    pub fn len(&self) -> usize {
        self.count
    }

    /// Whether there are none, as where [`Writer::take_reader`] took all back.
    pub fn is_empty(&self) -> bool {
        self.count == 0
    }

    /// The reader at a place.
    pub fn get(&mut self, place: usize) -> Option<Reader<'_>> {
        self.iter_mut().nth(place)
    }

    /// Each reader, which may go to a thread of its own.
    pub fn iter_mut(&mut self) -> impl Iterator<Item = Reader<'_>> {
        self.handles[..self.count]
            .iter_mut()
            .map(|handle| Reader { handle: handle.get(), readers: PhantomData })
    }
}

impl Drop for Readers {
    fn drop(&mut self) {
        for handle in self.handles.iter() {
            // SAFETY: the handle is in no other call; a closed one stays closed.
            unsafe { sys::latchsym_reader_close(handle.get()) }
        }
    }
}

impl fmt::Debug for Readers {
    fn fmt(&self, out: &mut fmt::Formatter<'_>) -> fmt::Result {
        out.debug_struct("Readers").field("count", &self.count).finish_non_exhaustive()
    }
}

/// A reader of a table, borrowed from its [`Readers`].
pub struct Reader<'r> {
    handle: *mut sys::Handle,
    readers: PhantomData<&'r mut sys::Handle>,
}

// SAFETY: between two calls a handle may go to another thread, and no other reader has this one.
unsafe impl Send for Reader<'_> {}

impl Reader<'_> {
    /// One attempt: none where the writer flipped meanwhile.
    pub fn try_find(&mut self, addr: u64) -> Result<Option<Found>, Error> {
        let mut out = sys::Found::NONE;
        // SAFETY: the handle is open, and in no other call.
        match unsafe { sys::latchsym_reader_try_find(self.handle, addr, &mut out) } {
            sys::RETRY => Ok(None),
            number => Found::of(number, out).map(Some),
        }
    }

    /// Attempts until one answers. Beside a writer that rests, also amid an update, the first does;
    /// beside another [`Error::Retry`] comes after 1,000,000, which nobody saw.
    pub fn find(&mut self, addr: u64) -> Result<Found, Error> {
        first_answer(|| self.try_find(addr))
    }

    /// The same attempt, and the symbol in the item that was found, whose tag is taken as the
    /// number of a module of the catalog.
    ///
    /// The names are copied: as many bytes of each as there is room for, where the answer has the
    /// lengths of the whole names. Rooms of 512 bytes hold every name of a kernel.
    pub fn try_find_name(
        &mut self,
        catalog: &Catalog<'_>,
        addr: u64,
        name: &mut [u8],
        module: &mut [u8],
    ) -> Result<Option<(Found, Answer)>, Error> {
        let (mut found, mut out) = (sys::Found::NONE, sys::Answer::NONE);
        // SAFETY: both handles are in no other call; pointers and lengths are those of slices.
        let number = unsafe {
            sys::latchsym_reader_find_name(
                self.handle,
                catalog.handle(),
                addr,
                &mut found,
                &mut out,
                name.as_mut_ptr(),
                name.len(),
                module.as_mut_ptr(),
                module.len(),
            )
        };
        let answer = Answer::named(&out, number);
        match number {
            sys::RETRY => Ok(None),
            sys::NO_SYMBOL => Ok(Some((Found::of(sys::DONE, found)?, answer))),
            _ => Ok(Some((Found::of(number, found)?, answer))),
        }
    }
}

impl fmt::Debug for Reader<'_> {
    fn fmt(&self, out: &mut fmt::Formatter<'_>) -> fmt::Result {
        out.debug_struct("Reader").finish_non_exhaustive()
    }
}

#[cfg(test)]
mod tests {
    use super::*;

    #[test]
    fn a_lookup_is_tried_again_but_not_for_ever() {
        let found = Found { item: None, generation: 7 };
        let mut calls = 0;
        let answers = [Ok(None), Err(Error::Busy), Ok(None), Ok(Some(found))];
        let mut next = answers.into_iter().inspect(|_| calls += 1);
        assert_eq!(first_answer(|| next.next().unwrap()), Ok(found));
        assert_eq!(calls, 4);
        assert_eq!(first_answer(|| Err(Error::BadHandle)), Err(Error::BadHandle));
        let mut calls = 0;
        let never = || {
            calls += 1;
            Ok(None)
        };
        assert_eq!((first_answer(never), calls), (Err(Error::Retry), MOST_TRIES));
    }
}
