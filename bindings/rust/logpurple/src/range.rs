//! Ranges of one table, and of several.

use crate::error::test;
use crate::handle::{bound, Handle};
use crate::steps::{copied, Steps};
use crate::{scanner, Error, InternalValue, LentValue, Runs, SeqNo, Table};
use logpurple_sys as sys;
use std::iter::FusedIterator;
use std::ops::Bound;

/// Iterates over the entries within bounds, from both ends. Keys ascend, and sequence numbers of
/// one key descend.
///
/// A range of a table yields every version, a range of runs one version of each key. After an error
/// it is exhausted, from both ends.
///
/// As an iterator it copies each entry. `next_lent` and `next_back_lent` borrow it instead.
///
/// A range has shares of the tables that it reads: these may be dropped before it, and it may go to
/// another thread.
///
/// ```
/// # fn main() -> Result<(), Box<dyn std::error::Error>> {
/// # let mut writer = logpurple::Writer::new(1)?;
/// # writer.write(b"a", 2, logpurple::ValueType::Value, b"1")?;
/// # let table = logpurple::Table::open(writer.finish()?.unwrap())?;
/// let range = table.iter()?;
/// drop(table);
/// assert_eq!(std::thread::spawn(move || range.count()).join().unwrap(), 1);
/// # Ok(())
/// # }
/// ```
#[derive(Debug)]
pub struct Range<'f> {
    // The range.
    steps: Steps<'f>,
    // The scan that reads the front of several tables: the range then reads only their back. Each
    // has the entry that it found last until it reads again. They end where they meet.
    front: Option<Steps<'f>>,
}

impl<'f> Range<'f> {
    pub(crate) fn of_table<K: AsRef<[u8]>>(
        table: &Table<'f>,
        lower: Bound<&K>,
        upper: Bound<&K>,
    ) -> Result<Range<'f>, Error> {
        let handle = Handle::closed();
        let ((lower_kind, lower), (upper_kind, upper)) = (bound(lower), bound(upper));
        // SAFETY: the keys are read during the call only, and the handle holds nothing.
        test(table.handles.briefly(|first| unsafe {
            sys::sst_range_open(
                first.words(),
                lower_kind,
                lower.as_ptr(),
                lower.len(),
                upper_kind,
                upper.as_ptr(),
                upper.len(),
                handle.words(),
            )
        }))?;
        Ok(Range { steps: Steps::of(handle), front: None })
    }

    pub(crate) fn of_runs<K: AsRef<[u8]>>(
        runs: &Runs<'f>,
        lower: Bound<&K>,
        upper: Bound<&K>,
        seqno: SeqNo,
    ) -> Result<Range<'f>, Error> {
        let ((lower_kind, lower), (upper_kind, upper)) = (bound(lower), bound(upper));
        let open = |call: OpenRuns| {
            let handle = Handle::closed();
            // SAFETY: the keys are read during the call only, and the handle holds nothing.
            test(unsafe {
                call(
                    runs.handle.words(),
                    lower_kind,
                    lower.as_ptr(),
                    lower.len(),
                    upper_kind,
                    upper.as_ptr(),
                    upper.len(),
                    seqno,
                    handle.words(),
                )
            })?;
            Ok(Steps::of(handle))
        };
        let front = open(sys::sst_runs_scan_open)?;
        Ok(Range { steps: open(sys::sst_runs_range_open)?, front: Some(front) })
    }

    /// Returns the next entry from the front, borrowed until the range reads again. Returns `None`
    /// at the end.
    ///
    /// # Errors
    ///
    /// The first fault of the blocks that it loads. The range is exhausted then.
    ///
    /// ```compile_fail,E0499
    /// fn keep(mut range: logpurple::Range) {
    ///     let first = range.next_lent().unwrap();
    ///     let second = range.next_lent().unwrap();
    ///     drop((first, second));
    /// }
    /// ```
    pub fn next_lent(&mut self) -> Result<Option<LentValue<'_>>, Error> {
        self.lent(false)
    }

    /// Returns the next entry from the back, borrowed until the range reads again. Returns `None`
    /// at the end.
    ///
    /// # Errors
    ///
    /// Those of `next_lent`.
    ///
    /// ```compile_fail,E0505
    /// fn keep(mut range: logpurple::Range) {
    ///     let last = range.next_back_lent().unwrap();
    ///     drop(range);
    ///     drop(last);
    /// }
    /// ```
    pub fn next_back_lent(&mut self) -> Result<Option<LentValue<'_>>, Error> {
        self.lent(true)
    }

    /// Returns the next entry from an end, borrowed until the range reads again.
    fn lent(&mut self, back: bool) -> Result<Option<LentValue<'_>>, Error> {
        let advanced = match &mut self.front {
            Some(front) if !back => front.advance(scanner::step()),
            _ => self.steps.advance(step(back)),
        };
        if advanced != Ok(true) || self.has_met()? {
            self.end();
        }
        advanced?;
        match &self.front {
            Some(front) if !back => front.entry(),
            _ => self.steps.entry(),
        }
    }

    /// Returns whether one end of several tables has reached an entry that the other end has read.
    fn has_met(&self) -> Result<bool, Error> {
        match &self.front {
            Some(front) if front.has_found() && self.steps.has_found() => {
                let (first, last) = (front.entry()?, self.steps.entry()?);
                Ok(first.map(|lent| lent.user_key) >= last.map(|lent| lent.user_key))
            }
            _ => Ok(false),
        }
    }

    /// Exhausts the range, from both ends.
    fn end(&mut self) {
        self.steps.end();
        if let Some(front) = &mut self.front {
            front.end();
        }
    }

    /// Returns a copy of the next entry from an end.
    fn copied(&mut self, back: bool) -> Option<Result<InternalValue, Error>> {
        let copied = copied(self.lent(back));
        if matches!(copied, Some(Err(_))) {
            self.end();
        }
        copied
    }
}

/// A call that opens the entries of several tables together, at one end or at both.
type OpenRuns = unsafe extern "C" fn(
    *mut sys::sst_handle,
    u32,
    *const u8,
    usize,
    u32,
    *const u8,
    usize,
    u64,
    *mut sys::sst_handle,
) -> u32;

/// Returns a call that takes the next entry, from the back if `back`.
fn step(back: bool) -> impl FnOnce(*mut sys::sst_handle, *mut sys::sst_entry) -> u32 {
    // SAFETY: callers pass references of their own.
    move |range, entry| unsafe { sys::sst_range_next(range, back, entry) }
}

impl Iterator for Range<'_> {
    type Item = Result<InternalValue, Error>;

    fn next(&mut self) -> Option<Self::Item> {
        self.copied(false)
    }
}

impl DoubleEndedIterator for Range<'_> {
    fn next_back(&mut self) -> Option<Self::Item> {
        self.copied(true)
    }
}

impl FusedIterator for Range<'_> {}
