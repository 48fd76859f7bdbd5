// SPDX-License-Identifier: MIT OR Apache-2.0
use crate::catalog::symbol_told;
use crate::{sys, Catalog, Error, Symbol};
use std::{fmt, marker::PhantomData, ptr};

/// A catalog in memory of its own, in which any number of threads find at once. It borrows the
/// listings, and not the catalog.
///
/// ```
/// fn is_sync<T: Send + Sync>() {}
/// is_sync::<latchsym::View<'static>>();
/// ```
pub struct View<'l> {
    // Rows that `view` leads to, and that are read through it alone.
    _regions: Vec<sys::ViewRegion>,
    _symbols: Vec<sys::ViewSymbol>,
    _addresses: Vec<u64>,
    view: sys::View,
    listings: PhantomData<&'l [u8]>,
}

// SAFETY: nothing writes to the rows or to the listings once the view is there.
unsafe impl Send for View<'_> {}
// SAFETY: the same; the library reads a view through a const pointer.
unsafe impl Sync for View<'_> {}

impl<'l> View<'l> {
    pub(crate) fn of(catalog: &Catalog<'l>) -> Result<View<'l>, Error> {
        let mut sizes = sys::Sizes::NONE;
        // SAFETY: the handle is in no other call.
        Error::check(unsafe { sys::latchsym_catalog_sizes(catalog.handle(), &mut sizes) })?;
        let mut regions = vec![sys::ViewRegion::NONE; sizes.regions];
        let mut symbols = vec![sys::ViewSymbol::NONE; sizes.symbols];
        let mut addresses = vec![0; sizes.symbols];
        let mut view = sys::View::NONE;
        // SAFETY: pointers and lengths are those of vectors, whose rows stay where they are when
        // these are moved.
        Error::check(unsafe {
            sys::latchsym_catalog_flatten(
                catalog.handle(),
                regions.as_mut_ptr(),
                regions.len(),
                symbols.as_mut_ptr(),
                symbols.len(),
                addresses.as_mut_ptr(),
                addresses.len(),
                &mut view,
            )
        })?;
        Ok(View {
            _regions: regions,
            _symbols: symbols,
            _addresses: addresses,
            view,
            listings: PhantomData,
        })
    }

    /// The symbol of an address, or none where nothing is.
    pub fn find(&self, addr: u64) -> Option<Symbol<'l>> {
        // SAFETY: the view is one that the library has written.
        self.found(|out| unsafe { sys::latchsym_view_find(ptr::addr_of!(self.view), addr, out) })
    }

    /// The symbol of a return address: that of the call before it, which may be the last
    /// instruction of its function. So the offset may equal the size.
    pub fn find_caller(&self, addr: u64) -> Option<Symbol<'l>> {
        // SAFETY: the same.
        self.found(|out| unsafe {
            sys::latchsym_view_find_caller(ptr::addr_of!(self.view), addr, out)
        })
    }

    fn found(&self, call: impl FnOnce(&mut sys::Symbol) -> u32) -> Option<Symbol<'l>> {
        let mut out = sys::Symbol::NONE;
        let number = call(&mut out);
        // SAFETY: the names lie in the listings (or are constants), which stay for 'l.
        unsafe { symbol_told(number, &out) }
    }
}

impl fmt::Debug for View<'_> {
    fn fmt(&self, out: &mut fmt::Formatter<'_>) -> fmt::Result {
        out.debug_struct("View").field("regions", &self.view.regions_len).finish_non_exhaustive()
    }
}
