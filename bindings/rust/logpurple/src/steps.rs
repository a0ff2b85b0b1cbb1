//! Reading entries one by one.

use crate::error::test;
use crate::handle::Handle;
use crate::{Error, InternalValue, LentValue};
use logpurple_sys as sys;

/// A handle through which entries are read one by one. After an error it is exhausted.
#[derive(Debug)]
pub(crate) struct Steps<'f> {
    handle: Handle<'f>,
    found: sys::sst_entry,
    is_over: bool,
}

impl<'f> Steps<'f> {
    /// Makes the steps of a handle that a call filled.
    pub(crate) fn of(handle: Handle<'f>) -> Steps<'f> {
        Steps { handle, found: sys::sst_entry::default(), is_over: false }
    }

    /// Reads the next entry by a call, and returns whether there is one.
    pub(crate) fn advance(
        &mut self,
        call: impl FnOnce(*mut sys::sst_handle, *mut sys::sst_entry) -> u32,
    ) -> Result<bool, Error> {
        if self.is_over {
            return Ok(false);
        }
        let code = call(self.handle.words(), &mut self.found);
        self.is_over = code != 0 || self.found.kind == sys::SST_NO_ENTRY;
        test(code)?;
        Ok(!self.is_over)
    }

    /// Returns whether the last read found an entry.
    pub(crate) fn has_found(&self) -> bool {
        self.found.kind != sys::SST_NO_ENTRY
    }

    /// Returns the entry that the last read found, borrowed until the next read.
    pub(crate) fn entry(&self) -> Result<Option<LentValue<'_>>, Error> {
        // SAFETY: the next read borrows these steps mutably.
        unsafe { self.handle.lend(self.found) }
    }

    /// Exhausts the steps.
    pub(crate) fn end(&mut self) {
        self.found = sys::sst_entry::default();
        self.is_over = true;
    }
}

/// Copies the found entry. If the copy fails with `OutOfMemory`, the caller exhausts the reader:
/// otherwise it would skip the entry.
pub(crate) fn copied(
    found: Result<Option<LentValue<'_>>, Error>,
) -> Option<Result<InternalValue, Error>> {
    match found {
        Ok(None) => None,
        Ok(Some(lent)) => Some(lent.to_owned()),
        Err(error) => Some(Err(error)),
    }
}
