//! Scans of a table.

use crate::error::test;
use crate::handle::Handle;
use crate::steps::{copied, Steps};
use crate::{Error, InternalValue, LentValue, Table};
use logpurple_sys as sys;
use std::iter::FusedIterator;

/// Iterates over the entries of a table in file order, as [`Table::scan`] describes. It reads each
/// data block once. After an error it is exhausted.
///
/// As an iterator it copies each entry. `next_lent` borrows it instead. It has a share of the
/// table, which may be dropped before it, and may go to another thread.
#[derive(Debug)]
pub struct Scanner<'f> {
    steps: Steps<'f>,
}

impl<'f> Scanner<'f> {
    pub(crate) fn of(table: &Table<'f>) -> Result<Scanner<'f>, Error> {
        let handle = Handle::closed();
        // SAFETY: both are references of this call, and the handle holds nothing.
        table
            .handles
            .with(|first| test(unsafe { sys::sst_scan_open(first.words(), handle.words()) }))?;
        Ok(Scanner { steps: Steps::of(handle) })
    }

    /// Returns the next entry, borrowed until the scanner reads again. Returns `None` at the end.
    ///
    /// # Errors
    ///
    /// The first fault of the blocks that it loads. The scanner is exhausted then.
    ///
    /// ```compile_fail,E0499
    /// fn keep(mut scanner: logpurple::Scanner) {
    ///     let first = scanner.next_lent().unwrap();
    ///     let second = scanner.next_lent().unwrap();
    ///     drop((first, second));
    /// }
    /// ```
    pub fn next_lent(&mut self) -> Result<Option<LentValue<'_>>, Error> {
        self.steps.advance(step())?;
        self.steps.entry()
    }
}

/// Returns a call that takes the next entry.
pub(crate) fn step() -> impl FnOnce(*mut sys::sst_handle, *mut sys::sst_entry) -> u32 {
    // SAFETY: callers pass references of their own.
    |scan, entry| unsafe { sys::sst_scan_next(scan, entry) }
}

impl Iterator for Scanner<'_> {
    type Item = Result<InternalValue, Error>;

    fn next(&mut self) -> Option<Self::Item> {
        let copied = copied(self.next_lent());
        if matches!(copied, Some(Err(_))) {
            self.steps.end();
        }
        copied
    }
}

impl FusedIterator for Scanner<'_> {}
