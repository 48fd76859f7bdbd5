// SPDX-License-Identifier: MIT OR Apache-2.0
use crate::{sys, table::first_answer, Error, Follower, Found, Writer};
use std::{
    cell::UnsafeCell,
    fmt,
    sync::atomic::{AtomicBool, AtomicU64, Ordering::SeqCst},
    thread,
};

const MOST_SLOTS: usize = 64;

/// How often an enlarging looks for free slots before it is refused, and how many of the last looks let
/// other threads run before them.
const LOOKS: usize = 1000;
const LAST_LOOKS: usize = 10;

/// Opens an empty table of 1 to 65536 nodes with a pool of 1 to 64 readers, which threads share.
///
/// ```
/// let (mut writer, pool) = latchsym::pooled_table(64, 4)?;
/// writer.insert(latchsym::Item { a: 0x1000, b: 0x2000, tag: 7 })?;
/// std::thread::scope(|scope| {
///     for _ in 0..4 {
///         scope.spawn(|| assert_eq!(pool.find(0x1fff).unwrap().item.unwrap().tag, 7));
///     }
/// });
/// # Ok::<(), latchsym::Error>(())
/// ```
pub fn pooled_table(nodes: u32, slots: usize) -> Result<(Writer, Pool), Error> {
    Pool::open(slots, |readers| Writer::open(nodes, readers, slots))
}

/// Opens a follower without a listing, as [`follower`](crate::follower) does, with a pool of 1 to 64
/// readers of its table.
///
/// ```
/// let (mut follower, pool) = latchsym::followed_pool(64, 4)?;
/// follower.show(b"ffffffffc0000010 t ext4_a\t[ext4]\n".to_vec(), None, 10)?;
/// let found = pool.find(0xffffffffc0000018)?;
/// let symbol = follower.find(found.generation, 0xffffffffc0000018)?;
/// assert_eq!(symbol.unwrap().name, Some(&b"ext4_a"[..]));
/// # Ok::<(), latchsym::Error>(())
/// ```
pub fn followed_pool(nodes: u32, slots: usize) -> Result<(Follower, Pool), Error> {
    Pool::open(slots, |readers| Follower::open(nodes, readers, slots))
}

/// A reader, and its claims: odd while a call has it. Each claim adds 1, and so does its end.
#[repr(align(64))]
struct Slot {
    claims: AtomicU64,
    handle: UnsafeCell<sys::Handle>,
}

impl Slot {
    fn of(handle: sys::Handle) -> Slot {
        Slot { claims: AtomicU64::new(0), handle: UnsafeCell::new(handle) }
    }

    fn claim(&self) -> Option<Claim<'_>> {
        let is_free = self.claims.load(SeqCst) % 2 == 0 && self.claims.fetch_or(1, SeqCst) % 2 == 0;
        is_free.then(|| Claim { slot: self })
    }
}

/// A slot that one call has, until this is dropped.
struct Claim<'p> {
    slot: &'p Slot,
}

impl Claim<'_> {
    fn handle(&self) -> *mut sys::Handle {
        self.slot.handle.get()
    }
}

impl Drop for Claim<'_> {
    fn drop(&mut self) {
        self.slot.claims.fetch_add(1, SeqCst);
    }
}

/// Readers of one table that any number of threads share. Each call claims a free one, without
/// waiting for it.
pub struct Pool {
    slots: Box<[Slot]>,
    /// Whether an enlarging claims all slots, while no other call claims one.
    is_wanted: AtomicBool,
}

// SAFETY: between two calls a handle may go to another thread, and a call claims the one that it uses.
unsafe impl Send for Pool {}
unsafe impl Sync for Pool {}

impl Pool {
    /// Opens what changes a table, with this many readers in closed handles, and the pool of these.
    fn open<T>(
        slots: usize,
        open: impl FnOnce(*mut sys::Handle) -> Result<T, Error>,
    ) -> Result<(T, Pool), Error> {
        // (the call itself refuses these, and so many handles might not be had)
        if !(1..=MOST_SLOTS).contains(&slots) {
            return Err(Error::BadCapacity);
        }
        let mut readers = [sys::Handle::CLOSED; MOST_SLOTS];
        let owner = open(readers.as_mut_ptr())?;
        let slots = readers.into_iter().take(slots).map(Slot::of).collect();
        Ok((owner, Pool { slots, is_wanted: AtomicBool::new(false) }))
    }

    /// A slot that was free, or none where an enlarging wants all, or all were claimed at one moment.
    /// Claims only rise, so two rounds with one sum met the same claims, all of which held between the
    /// rounds. A thread begins at a slot of its own, as its stack lies elsewhere.
    fn claim(&self) -> Option<Claim<'_>> {
        if self.is_wanted.load(SeqCst) {
            return None;
        }
        let here = 0u8;
        let first = (&here as *const u8 as usize >> 16).wrapping_mul(0x9e37_79b9) >> 16;
        let (before, behind) = self.slots.split_at(first % self.slots.len());
        let mut last = None;
        loop {
            let mut sum = 0;
            for slot in behind.iter().chain(before) {
                if let Some(claim) = slot.claim() {
                    return Some(claim);
                }
                sum += slot.claims.load(SeqCst);
            }
            if last == Some(sum) {
                return None;
            }
            last = Some(sum);
        }
    }

    /// One attempt: none where the writer flipped meanwhile, [`Error::Busy`] where other calls had
    /// all readers.
    pub fn try_find(&self, addr: u64) -> Result<Option<Found>, Error> {
        let claim = self.claim().ok_or(Error::Busy)?;
        let mut out = sys::Found::NONE;
        // SAFETY: the handle is open, and in no other call, as it is claimed.
        match unsafe { sys::latchsym_reader_try_find(claim.handle(), addr, &mut out) } {
            sys::RETRY => Ok(None),
            number => Found::of(number, out).map(Some),
        }
    }

    /// Attempts until one answers; other threads may run between those that find all readers in
    /// other calls. After 1,000,000 it is [`Error::Busy`], as where no reader is ever given back.
    pub fn find(&self, addr: u64) -> Result<Found, Error> {
        first_answer(|| self.try_find(addr))
    }

    /// The claims of all slots, for one call at a time, or none where other calls have or want them.
    fn claim_all(&self) -> Option<Vec<Claim<'_>>> {
        if self.is_wanted.swap(true, SeqCst) {
            return None;
        }
        let claims = self.claims_after_looks();
        self.is_wanted.store(false, SeqCst);
        claims
    }

    /// The same. Claims are kept while it looks for the others.
    fn claims_after_looks(&self) -> Option<Vec<Claim<'_>>> {
        let mut claims: Vec<_> = self.slots.iter().map(|_| None).collect();
        for look in 0..LOOKS {
            if look + LAST_LOOKS >= LOOKS {
                thread::yield_now();
            }
            for (claim, slot) in claims.iter_mut().zip(self.slots.iter()) {
                *claim = claim.take().or_else(|| slot.claim());
            }
            if claims.iter().all(Option::is_some) {
                break;
            }
        }
        claims.into_iter().collect()
    }

    /// Enlarges its table by a call that takes all readers, as many handles as are told.
    fn enlarge_by(
        &self,
        enlarge: impl FnOnce(*mut sys::Handle, usize) -> u32,
    ) -> Result<(), Error> {
        let claims = self.claim_all().ok_or(Error::Busy)?;
        let mut readers = [sys::Handle::CLOSED; MOST_SLOTS];
        for (reader, claim) in readers.iter_mut().zip(&claims) {
            // SAFETY: the handle is claimed, and moves to where the call takes it.
            std::mem::swap(reader, unsafe { &mut *claim.handle() });
        }
        let number = enlarge(readers.as_mut_ptr(), claims.len());
        for (reader, claim) in readers.iter_mut().zip(&claims) {
            // SAFETY: the handle is still claimed, and moves back.
            std::mem::swap(reader, unsafe { &mut *claim.handle() });
        }
        Error::check(number)
    }
}

impl Writer {
    /// Goes on with so many nodes, with the readers of its pool, while other calls look up.
    /// [`Error::Busy`] where one of these has a reader just now, or enlarges too: ask again.
    ///
    /// A pool of another table goes over to this one.
    pub fn enlarge_pool(&mut self, nodes: u32, pool: &Pool) -> Result<(), Error> {
        // SAFETY: as many handles as are told, which are in no other call.
        pool.enlarge_by(|readers, count| unsafe { self.enlarge_with(nodes, readers, count) })
    }
}

impl Follower {
    /// Goes on with so many nodes, with the readers of its pool, as [`Writer::enlarge_pool`] does.
    pub fn enlarge_pool(&mut self, nodes: u32, pool: &Pool) -> Result<(), Error> {
        // SAFETY: as many handles as are told, which are in no other call.
        pool.enlarge_by(|readers, count| unsafe { self.enlarge_with(nodes, readers, count) })
    }
}

impl Drop for Pool {
    fn drop(&mut self) {
        for slot in self.slots.iter_mut() {
            // SAFETY: the pool is borrowed by no call.
            unsafe { sys::latchsym_reader_close(slot.handle.get_mut()) }
        }
    }
}

impl fmt::Debug for Pool {
    fn fmt(&self, out: &mut fmt::Formatter<'_>) -> fmt::Result {
        out.debug_struct("Pool").field("slots", &self.slots.len()).finish_non_exhaustive()
    }
}

#[cfg(test)]
mod tests {
    use super::*;

    fn found(generation: u64) -> Result<Found, Error> {
        Ok(Found { item: None, generation })
    }

    #[test]
    fn a_lookup_ends_where_all_readers_stay_claimed() {
        let (_writer, pool) = pooled_table(4, 2).unwrap();
        let claims = (pool.claim().unwrap(), pool.claim().unwrap());
        assert_eq!((pool.find(1), pool.try_find(1)), (Err(Error::Busy), Err(Error::Busy)));
        drop(claims.1);
        assert_eq!(pool.find(1), found(0));
    }

    #[test]
    fn an_enlarging_wants_all_slots_and_keeps_none_where_it_is_refused() {
        let (mut writer, pool) = pooled_table(4, 2).unwrap();
        let claim = pool.claim();
        assert_eq!(writer.enlarge_pool(8, &pool), Err(Error::Busy));
        assert_eq!(pool.find(1), found(0));
        drop(claim);
        pool.is_wanted.store(true, SeqCst);
        assert_eq!(
            (writer.enlarge_pool(8, &pool), pool.try_find(1)),
            (Err(Error::Busy), Err(Error::Busy))
        );
        pool.is_wanted.store(false, SeqCst);
        assert_eq!((writer.enlarge_pool(8, &pool), pool.find(1)), (Ok(()), found(0)));
        assert!(pool.slots.iter().all(|slot| slot.claims.load(SeqCst) % 2 == 0));
    }

    #[test]
    fn claims_rise_past_32_bits() {
        let (_writer, pool) = pooled_table(4, 1).unwrap();
        pool.slots[0].claims.store(u64::from(u32::MAX) - 1, SeqCst);
        assert_eq!(pool.find(1), found(0));
        assert_eq!(pool.slots[0].claims.load(SeqCst), u64::from(u32::MAX) + 1);
    }
}
