// SPDX-License-Identifier: MIT OR Apache-2.0
use crate::sys;
use std::{ffi::CStr, fmt};

/// The text of a number.
pub(crate) fn text_of(number: u32) -> &'static str {
    let mut place = sys::Place::NONE;
    // SAFETY: the call writes a place, of a text that ends with a 0 byte and stays.
    let text = unsafe {
        sys::latchsym_place_of_text(number, &mut place);
        CStr::from_ptr(place.at.cast())
    };
    text.to_str().unwrap_or_default()
}

/// What the library refused. It is shown by the library's text.
#[derive(Clone, Copy, Debug, PartialEq, Eq, Hash)]
#[non_exhaustive]
pub enum Error {
    /// The item is empty.
    BadItem,
    /// The item overlaps one of the table.
    Overlap,
    /// No item begins there.
    NoSuchItem,
    /// The table has as many items as nodes.
    Full,
    /// An update has begun and is not at its end.
    UpdateInHand,
    /// The table has had 2^63 - 1 updates.
    SequenceSpent,
    /// A request for memory was refused.
    OutOfMemory,
    /// Nodes or readers are not in their range.
    BadCapacity,
    /// More than 7 region lines have one name.
    TooManyRegions,
    /// The writer flipped in each of many attempts.
    Retry,
    /// Other calls have all readers of a pool, or one of them where all are wanted: try again.
    Busy,
    /// A follower has no listing of that moment.
    Forgotten,
    /// A stamp lies below that of a listing shown before.
    BadStamp,
    /// The line of this number in the listing of regions is not one.
    BadLine(u64),
    /// There is no handle where one is wanted, as where a reader has been closed.
    BadHandle,
    /// There are listings of modules or of regions that do not go together.
    BadListings,
    /// A number of a later version.
    Other(u32),
}

impl Error {
    /// The number that the call returned.
    pub fn number(self) -> u32 {
        match self {
            Error::BadItem => sys::BAD_ITEM,
            Error::Overlap => sys::OVERLAP,
            Error::NoSuchItem => sys::NO_SUCH_ITEM,
            Error::Full => sys::FULL,
            Error::UpdateInHand => sys::UPDATE_IN_HAND,
            Error::SequenceSpent => sys::SEQUENCE_SPENT,
            Error::OutOfMemory => sys::OUT_OF_MEMORY,
            Error::BadCapacity => sys::BAD_CAPACITY,
            Error::TooManyRegions => sys::TOO_MANY_REGIONS,
            Error::BadLine(_) => sys::BAD_LINE,
            Error::Retry => sys::RETRY,
            Error::Busy => sys::BUSY,
            Error::Forgotten => sys::FORGOTTEN,
            Error::BadHandle => sys::BAD_HANDLE,
            Error::BadListings => sys::BAD_LISTINGS,
            Error::BadStamp => sys::BAD_STAMP,
            Error::Other(number) => number,
        }
    }

    pub(crate) fn of(number: u32) -> Error {
        match number {
            sys::BAD_ITEM => Error::BadItem,
            sys::OVERLAP => Error::Overlap,
            sys::NO_SUCH_ITEM => Error::NoSuchItem,
            sys::FULL => Error::Full,
            sys::UPDATE_IN_HAND => Error::UpdateInHand,
            sys::SEQUENCE_SPENT => Error::SequenceSpent,
            sys::OUT_OF_MEMORY => Error::OutOfMemory,
            sys::BAD_CAPACITY => Error::BadCapacity,
            sys::TOO_MANY_REGIONS => Error::TooManyRegions,
            sys::RETRY => Error::Retry,
            sys::BUSY => Error::Busy,
            sys::FORGOTTEN => Error::Forgotten,
            sys::BAD_HANDLE => Error::BadHandle,
            sys::BAD_LISTINGS => Error::BadListings,
            sys::BAD_STAMP => Error::BadStamp,
            _ => Error::Other(number),
        }
    }

    /// The number of a call that returns 0 where all was done.
    pub(crate) fn check(number: u32) -> Result<(), Error> {
        match number {
            sys::DONE => Ok(()),
            _ => Err(Error::of(number)),
        }
    }

    /// The number of a call that writes an answer, or says that there is none.
    pub(crate) fn is_there(number: u32) -> Result<bool, Error> {
        match number {
            sys::NOTHING => Ok(false),
            _ => Error::check(number).map(|()| true),
        }
    }
}

impl fmt::Display for Error {
    fn fmt(&self, out: &mut fmt::Formatter<'_>) -> fmt::Result {
        out.write_str(text_of(self.number()))?;
        match self {
            Error::BadLine(line) => write!(out, ": line {line}"),
            _ => Ok(()),
        }
    }
}

impl std::error::Error for Error {}
