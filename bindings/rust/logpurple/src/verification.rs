//! Verifying a table by steps.

use crate::error::test;
use crate::handle::Handle;
use crate::{Error, Table, Verified, VerifyError};
use logpurple_sys as sys;

/// A verification by steps, as [`Table::verification`] returns it. It has a share of the table,
/// which may be dropped before it.
#[derive(Debug)]
pub struct Verification<'f> {
    handle: Handle<'f>,
    told: sys::sst_progress,
}

impl<'f> Verification<'f> {
    pub(crate) fn of(table: &Table<'f>) -> Result<Verification<'f>, Error> {
        let handle = Handle::closed();
        // SAFETY: both are references of this call, and the handle holds nothing.
        test(table.handles.briefly(|first| unsafe {
            sys::sst_verification_open(first.words(), handle.words())
        }))?;
        let data_size = table.metadata().file_size;
        Ok(Verification { handle, told: sys::sst_progress { data_size, ..Default::default() } })
    }

    /// Reads the next block of the filter, of the index or of the data. Returns `None` before the
    /// end, and at the end what [`Table::verify`] returns. A further step changes nothing then.
    ///
    /// # Errors
    ///
    /// Those of [`Table::verify`]. A failed step changes nothing and may be repeated, after
    /// `OutOfMemory` and after a fault. A fault is found again.
    pub fn step(&mut self) -> Result<Option<Verified>, VerifyError> {
        let mut told = sys::sst_verified::default();
        // SAFETY: all are references of this call.
        let code =
            unsafe { sys::sst_verification_step(self.handle.words(), &mut self.told, &mut told) };
        if code == 0 && self.told.at_end == 0 {
            return Ok(None);
        }
        Verified::of(code, &told).map(Some)
    }

    /// Returns the number of bytes of data blocks read so far.
    pub fn bytes_read(&self) -> u64 {
        self.told.bytes_read
    }

    /// Returns the number of bytes of data blocks that the table claims to have.
    pub fn data_size(&self) -> u64 {
        self.told.data_size
    }
}
