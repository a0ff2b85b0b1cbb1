//! Compaction.

use crate::error::test;
use crate::handle::Handle;
use crate::writer::{finished_table, finished_tables};
use crate::{Error, FinishedTable, Options, SeqNo};
use logpurple_sys as sys;
use std::iter::FusedIterator;

/// Options of [`Runs::compact`](crate::Runs::compact) and
/// [`Runs::compact_each`](crate::Runs::compact_each).
///
/// For each key, the versions that are not below the watermark are kept, and the newest version
/// below it. All older ones, which no reader sees, are dropped. Among the kept versions, only the
/// oldest may be dropped too:
///
/// - A weak tombstone is dropped if the version directly after it is dropped, and is a
///   `ValueType::Value`.
/// - With `evict_tombstones`, a `ValueType::Tombstone` is dropped, and so is a weak tombstone after
///   which the runs have no version of its key.
///
/// Any other deletion is kept.
///
/// # Errors
///
/// `Runs::compact` returns no table after an error.
///
/// - `NoSuch` if an option is out of range.
/// - `OutOfOrder` if a table is not as a writer makes it, or if two tables have the same key with
///   the same sequence number.
/// - The first fault of the blocks, and the errors of a writer.
/// - `TableIdsSpent` if no id is left.
/// - `OutOfMemory`.
#[derive(Clone, Copy, Debug, PartialEq, Eq)]
pub struct Compaction {
    /// The least snapshot that is still read.
    pub watermark: SeqNo,
    /// Whether unneeded deletions are dropped, as described above. Only for runs after which there
    /// is no older table.
    pub evict_tombstones: bool,
    /// Whether sequence numbers below the watermark become 0.
    pub zero_seqnos: bool,
    /// Target size of a table in bytes of data blocks. A table that has reached it ends before the
    /// next key. With `u64::MAX` there is one table.
    pub target_size: u64,
    /// Options of the new tables. Their ids ascend by 1 from `options.id`, or from the id after it
    /// if `target_size` is 0.
    pub options: Options,
}

impl Default for Compaction {
    /// Keeps all entries as they are, in one table.
    fn default() -> Compaction {
        Compaction {
            watermark: 0,
            evict_tombstones: false,
            zero_seqnos: false,
            target_size: u64::MAX,
            options: Options::default(),
        }
    }
}

/// Result of a compaction.
#[derive(Clone, Debug, PartialEq, Eq)]
pub struct Compacted {
    /// The tables, in key order; empty if no entry was kept.
    pub tables: Vec<FinishedTable>,
    /// The first unused id, or `None` if no id is left. The id of the options is used up even if no
    /// entry was kept.
    pub next_id: Option<u64>,
}

impl Compacted {
    pub(crate) fn of(runs: &Handle<'_>, compaction: &Compaction) -> Result<Compacted, Error> {
        let (files, asked) = (Handle::closed(), compaction.options.told());
        let mut next_id = 0;
        // SAFETY: the options are read during the call only, and `files` holds nothing.
        test(unsafe {
            sys::sst_compact(
                runs.words(),
                &asked,
                compaction.watermark,
                compaction.evict_tombstones,
                compaction.zero_seqnos,
                compaction.target_size,
                files.words(),
                &mut next_id,
            )
        })?;
        let tables = finished_tables(&files)?;
        Ok(Compacted { tables, next_id: (next_id > 0).then_some(next_id) })
    }
}

/// The tables of a compaction, one by one, as [`Runs::compact_each`](crate::Runs::compact_each)
/// returns them. It has shares of the tables of the runs, which may be dropped before it.
///
/// If it is dropped before its end, so is the table that is being written. After an error it yields
/// only `None`.
#[derive(Debug)]
pub struct CompactEach<'f> {
    // `None` at the end and after an error
    handle: Option<Handle<'f>>,
    next_id: Option<u64>,
}

impl<'f> CompactEach<'f> {
    pub(crate) fn of(runs: &Handle<'f>, compaction: &Compaction) -> Result<CompactEach<'f>, Error> {
        let (handle, asked) = (Handle::closed(), compaction.options.told());
        // SAFETY: the options are read during the call only, and the handle holds nothing.
        test(unsafe {
            sys::sst_compaction_open(
                runs.words(),
                &asked,
                compaction.watermark,
                compaction.evict_tombstones,
                compaction.zero_seqnos,
                compaction.target_size,
                handle.words(),
            )
        })?;
        let next_id = compaction.options.id.checked_add(1);
        Ok(CompactEach { handle: Some(handle), next_id })
    }

    /// Returns the first unused id, or `None` if no id is left. The table that is being written has
    /// used its id, and so has the id of the options, even if no entry is kept.
    pub fn next_id(&self) -> Option<u64> {
        self.next_id
    }

    /// Takes the next table, or `None` if none is left.
    fn take(&mut self) -> Result<Option<FinishedTable>, Error> {
        let handle = match &self.handle {
            Some(handle) => handle,
            None => return Ok(None),
        };
        let (files, mut next_id) = (Handle::closed(), 0);
        // SAFETY: both are references of this call, and `files` holds nothing.
        let code = unsafe { sys::sst_compaction_next(handle.words(), files.words(), &mut next_id) };
        match test(code) {
            Ok(()) => {
                self.next_id = (next_id > 0).then_some(next_id);
                finished_table(&files, 0).map(Some)
            }
            Err(Error::Nothing) => Ok(None),
            Err(error) => Err(error),
        }
    }
}

impl Iterator for CompactEach<'_> {
    type Item = Result<FinishedTable, Error>;

    /// Returns the next table as soon as it is finished. The tables that were finished before an
    /// error come before it.
    fn next(&mut self) -> Option<Result<FinishedTable, Error>> {
        let item = self.take().transpose();
        if !matches!(item, Some(Ok(_))) {
            self.handle = None;
        }
        item
    }
}

impl FusedIterator for CompactEach<'_> {}
