//! Writing several tables, one after another.

use crate::error::test;
use crate::handle::Handle;
use crate::writer::{finished_table, finished_tables};
use crate::{Error, FinishedTable, InternalValue, Options, SeqNo, ValueType};
use logpurple_sys as sys;

/// Writes several tables, one after another. Entries are in the order of a [`Writer`](crate::Writer).
///
/// A new table starts at the next key once the data blocks of the current one have the target size.
/// No key is in two tables. Their ids ascend by 1 from that of the options, or from the id after it
/// if the target size is 0.
///
/// ```
/// use logpurple::{MultiWriter, ValueType};
///
/// # fn main() -> Result<(), logpurple::Error> {
/// let mut ids = Vec::new();
/// let mut writer = MultiWriter::new(3, 0)?;
/// for key in ["a", "b", "c"] {
///     writer.write(key.as_bytes(), 1, ValueType::Value, b"")?;
///     while let Some(table) = writer.take_finished()? {
///         ids.push(table.id);
///     }
/// }
/// let (rest, next_id) = writer.finish()?;
/// assert_eq!((ids, rest[0].id, next_id), (vec![4, 5], 6, Some(7)));
/// # Ok(())
/// # }
/// ```
#[derive(Debug)]
pub struct MultiWriter {
    handle: Handle<'static>,
    // holds a table from the call that takes it until it is copied
    taken: Handle<'static>,
}

impl Options {
    /// Opens a writer of tables of `target_size` bytes of data blocks each.
    ///
    /// At a target size of 0 each key has a table of its own, with `u64::MAX` there is one table.
    ///
    /// # Errors
    ///
    /// Those of [`Options::open`].
    pub fn open_multi(&self, target_size: u64) -> Result<MultiWriter, Error> {
        let asked = self.told();
        let handle = Handle::closed();
        // SAFETY: the options are read during the call only, and the handle holds nothing.
        test(unsafe { sys::sst_multi_writer_open(&asked, target_size, handle.words()) })?;
        Ok(MultiWriter { handle, taken: Handle::closed() })
    }
}

impl MultiWriter {
    /// Opens a writer of tables of a target size, with ids from `id` on and `Options::default()`.
    ///
    /// # Errors
    ///
    /// `OutOfMemory`.
    pub fn new(id: u64, target_size: u64) -> Result<MultiWriter, Error> {
        Options { id, ..Options::default() }.open_multi(target_size)
    }

    /// Writes an entry and copies its key and value. If a table is due, it first finishes the current
    /// one and begins the next.
    ///
    /// # Errors
    ///
    /// Those of [`Writer::write`](crate::Writer::write). If a table is due, also `TableIdsSpent` if no
    /// id is left, and the errors of [`Writer::finish`](crate::Writer::finish) for the current table.
    ///
    /// After `OutOfOrder` the writer stays as it is. After any other error it has failed, and the
    /// unfinished table is lost. The finished tables can still be taken.
    pub fn write(
        &mut self,
        key: &[u8],
        seqno: SeqNo,
        value_type: ValueType,
        value: &[u8],
    ) -> Result<(), Error> {
        // SAFETY: key and value are read during the call only.
        test(unsafe {
            sys::sst_multi_writer_add(
                self.handle.words(),
                key.as_ptr(),
                key.len(),
                seqno,
                value_type.kind() as u32,
                value.as_ptr(),
                value.len(),
            )
        })
    }

    /// Writes an entry that owns its bytes, as `write` does.
    ///
    /// # Errors
    ///
    /// Those of `write`.
    pub fn write_item(&mut self, item: &InternalValue) -> Result<(), Error> {
        let key = &item.key;
        self.write(&key.user_key, key.seqno, key.value_type, &item.value)
    }

    /// Returns the oldest finished table that was not taken, or `None` if there is none yet.
    ///
    /// Tables can be taken between any two calls, also after an error of `write`. The taken tables,
    /// followed by those that `finish` returns, are the tables of a writer from which none is taken.
    ///
    /// # Errors
    ///
    /// `OutOfMemory`. The next call returns the same table then.
    pub fn take_finished(&mut self) -> Result<Option<FinishedTable>, Error> {
        let mut next_id = 0;
        // SAFETY: all are references of this call.
        let code = unsafe {
            let (writer, taken) = (self.handle.words(), self.taken.words());
            sys::sst_multi_writer_take(writer, taken, &mut next_id)
        };
        match test(code) {
            // If it is open, it holds a table that was taken before, and whose copy failed.
            Ok(()) | Err(Error::AlreadyOpen) => {}
            Err(Error::Nothing) => return Ok(None),
            Err(error) => return Err(error),
        }
        let table = finished_table(&self.taken, 0)?;
        self.taken = Handle::closed();
        Ok(Some(table))
    }

    /// Finishes the current table. Returns the tables that were not taken, in key order, and the
    /// first unused id, or `None` if no id is left. There is no table if nothing was written.
    ///
    /// # Errors
    ///
    /// After an error, the tables that were not taken are dropped.
    ///
    /// - `WriterFailed` if the writer has failed.
    /// - The errors of [`Writer::finish`](crate::Writer::finish).
    pub fn finish(self) -> Result<(Vec<FinishedTable>, Option<u64>), Error> {
        let (files, mut next_id) = (Handle::closed(), 0);
        // SAFETY: all are references of this call, and `files` holds nothing.
        test(unsafe {
            sys::sst_multi_writer_finish(self.handle.words(), files.words(), &mut next_id)
        })?;
        // A table that was taken, and whose copy failed.
        let mut tables = match finished_tables(&self.taken) {
            Err(Error::Closed) => Vec::new(),
            tables => tables?,
        };
        let mut rest = finished_tables(&files)?;
        tables.try_reserve(rest.len()).map_err(|_| Error::OutOfMemory)?;
        tables.append(&mut rest);
        Ok((tables, (next_id > 0).then_some(next_id)))
    }
}
