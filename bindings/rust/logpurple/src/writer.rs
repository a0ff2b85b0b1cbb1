//! Writing a table.

use crate::error::test;
use crate::files::save;
use crate::handle::{require_version, room, Handle};
use crate::{Error, FileError, InternalValue, SeqNo, ValueType, WrittenFile};
use logpurple_sys as sys;
use std::fs::File;
use std::io::{self, Write};
use std::path::Path;

/// Options of a writer.
#[derive(Clone, Copy, Debug, PartialEq, Eq)]
pub struct Options {
    /// The table's id.
    pub id: u64,
    /// The time of creation, in nanoseconds since 1970.
    pub created_at: u64,
    /// The level of the tree that the table is for.
    pub level: u8,
    /// Bytes of keys and values at which a data block is cut, at most 4 MiB.
    pub data_block_size: u32,
    /// Restart interval of data blocks, 1 to 255. It is only stored in the meta block.
    pub data_block_restart_interval: u8,
    /// Hash ratio of data blocks. It is only stored in the meta block.
    pub data_block_hash_ratio: u32,
    /// Bytes at which a partition of the index is cut, at most 4 MiB; 0 for one block.
    pub index_partition_size: u32,
    /// Bytes at which a partition of the filter is cut, at most 4 MiB; 0 for one block.
    pub filter_partition_size: u32,
    /// Size of the filter, in tenths of a bit for each key; 0 for no filter.
    pub filter_bits_per_key: u32,
}

impl Default for Options {
    /// Returns blocks of 4,096 bytes, an index and a filter of one block each, and ten bits a key.
    /// The id, the timestamp and the level are 0, the restart interval is 16, the hash ratio 0.
    fn default() -> Options {
        require_version();
        let mut told = sys::sst_options::default();
        // SAFETY: it is a reference of this call.
        unsafe { sys::sst_options_default(&mut told) };
        Options {
            id: told.id,
            created_at: told.created_at,
            level: told.level as u8,
            data_block_size: told.data_block_size,
            data_block_restart_interval: told.data_block_restart_interval as u8,
            data_block_hash_ratio: told.data_block_hash_ratio,
            index_partition_size: told.index_partition_size,
            filter_partition_size: told.filter_partition_size,
            filter_bits_per_key: told.filter_bits_per_key,
        }
    }
}

impl Options {
    /// Opens a writer. Options without a stated range may have any value.
    ///
    /// # Errors
    ///
    /// `NoSuch` if `data_block_restart_interval` is 0, or if `data_block_size`,
    /// `index_partition_size` or `filter_partition_size` is above 4,194,304; and `OutOfMemory`.
    pub fn open(&self) -> Result<Writer, Error> {
        let asked = self.told();
        let handle = Handle::closed();
        // SAFETY: the options are read during the call only, and the handle holds nothing.
        test(unsafe { sys::sst_writer_open(&asked, handle.words()) })?;
        Ok(Writer { handle })
    }

    pub(crate) fn told(&self) -> sys::sst_options {
        sys::sst_options {
            id: self.id,
            created_at: self.created_at,
            level: self.level.into(),
            data_block_size: self.data_block_size,
            data_block_restart_interval: self.data_block_restart_interval.into(),
            data_block_hash_ratio: self.data_block_hash_ratio,
            index_partition_size: self.index_partition_size,
            filter_partition_size: self.filter_partition_size,
            filter_bits_per_key: self.filter_bits_per_key,
            unused: 0,
        }
    }
}

/// Writes a table. Keys ascend, and sequence numbers of one key descend.
#[derive(Debug)]
pub struct Writer {
    handle: Handle<'static>,
}

/// A finished table: its id, its checksum and its bytes.
#[derive(Clone, Debug, PartialEq, Eq)]
pub struct FinishedTable {
    /// The table's id.
    pub id: u64,
    /// The FNV-1a hash of all its bytes.
    pub checksum: u64,
    /// All its bytes.
    pub bytes: Vec<u8>,
}

impl FinishedTable {
    /// Writes the table to a file, which is then complete and synced.
    ///
    /// The bytes go into a file beside it, which is renamed. So the path has the whole table, or
    /// its earlier file. A file that is there is replaced.
    ///
    /// # Errors
    ///
    /// Those of the system.
    pub fn save(&self, path: impl AsRef<Path>) -> io::Result<()> {
        save(path.as_ref(), |file| file.write_all(&self.bytes))
    }
}

impl AsRef<[u8]> for FinishedTable {
    fn as_ref(&self) -> &[u8] {
        &self.bytes
    }
}

impl Writer {
    /// Opens a writer of a table with this id, with `Options::default()`.
    ///
    /// # Errors
    ///
    /// `OutOfMemory`.
    pub fn new(id: u64) -> Result<Writer, Error> {
        Options { id, ..Options::default() }.open()
    }

    /// Writes an entry and copies its key and value.
    ///
    /// # Errors
    ///
    /// `OutOfOrder` if the entry does not follow the one before it, or if its sequence number is
    /// `u64::MAX`. The writer stays as it is then.
    ///
    /// After these errors the writer has failed. The first that applies is returned:
    ///
    /// - `KeyTooLong` if the key has more than 1,048,576 bytes;
    /// - `ValueTooLong` if the value has 2^32 bytes or more;
    /// - `BlockTooLarge` if the current data block would have 2^32 bytes or more. It counts 28, and
    ///   for each entry 17 plus the key and the value;
    /// - `OutOfMemory`.
    ///
    /// A writer that has failed returns `WriterFailed` for an entry that may follow.
    pub fn write(
        &mut self,
        key: &[u8],
        seqno: SeqNo,
        value_type: ValueType,
        value: &[u8],
    ) -> Result<(), Error> {
        // SAFETY: key and value are read during the call only.
        test(unsafe {
            sys::sst_writer_add(
                self.handle.words(),
                key.as_ptr(),
                key.len(),
                seqno,
                value_type.kind() as u32,
                value.as_ptr(),
                value.len(),
            )
        })
    }

    /// Writes an entry that owns its bytes, as `write` does.
    ///
    /// # Errors
    ///
    /// Those of `write`.
    pub fn write_item(&mut self, item: &InternalValue) -> Result<(), Error> {
        let key = &item.key;
        self.write(&key.user_key, key.seqno, key.value_type, &item.value)
    }

    /// Finishes the table. Returns `None` if nothing was written.
    ///
    /// # Errors
    ///
    /// After an error, what was written is dropped.
    ///
    /// - `WriterFailed` if the writer has failed.
    /// - `BlockTooLarge` or `SectionTooLarge` if the index or the filter is too large.
    /// - `OutOfMemory`.
    pub fn finish(self) -> Result<Option<FinishedTable>, Error> {
        // SAFETY: it is a reference of this call.
        test(unsafe { sys::sst_writer_finish(self.handle.words()) })?;
        Ok(finished_tables(&self.handle)?.pop())
    }

    /// Finishes the table and writes it to a file, as [`FinishedTable::save`] does, without a copy
    /// in memory. Returns `None` if nothing was written: then there is no file.
    ///
    /// # Errors
    ///
    /// Those of `finish`, and of the system.
    ///
    /// ```
    /// use logpurple::{Table, ValueType, Writer, NEWEST};
    ///
    /// # fn main() -> Result<(), Box<dyn std::error::Error>> {
    /// let path = std::env::temp_dir().join(format!("{}.sst", std::process::id()));
    /// let mut writer = Writer::new(1)?;
    /// writer.write(b"apple", 2, ValueType::Value, b"red")?;
    /// let written = writer.finish_to(&path)?.expect("an entry was written");
    /// let file = std::fs::read(&path)?;
    /// assert_eq!((written.id, written.len), (1, file.len() as u64));
    /// assert_eq!(Table::open(&file)?.get(b"apple", NEWEST)?.unwrap().value, b"red");
    /// # std::fs::remove_file(&path)?;
    /// # Ok(())
    /// # }
    /// ```
    pub fn finish_to(self, path: impl AsRef<Path>) -> Result<Option<WrittenFile>, FileError> {
        // SAFETY: it is a reference of this call.
        test(unsafe { sys::sst_writer_finish(self.handle.words()) })?;
        if count_of(&self.handle)? == 0 {
            return Ok(None);
        }
        let told = told_of(&self.handle, 0)?;
        save(path.as_ref(), |file| write_pieces(&self.handle, file))?;
        Ok(Some(WrittenFile { id: told.id, checksum: told.checksum, len: told.len }))
    }
}

/// Writes the first finished table of a handle to a file, piece by piece.
fn write_pieces(files: &Handle<'_>, file: &mut File) -> Result<(), FileError> {
    let mut room: Vec<u8> = room(PIECE)?;
    room.resize(PIECE, 0);
    let (mut offset, mut count) = (0, 0);
    loop {
        // SAFETY: the buffer has so many bytes, and all are references of this call.
        test(unsafe {
            let (room, len) = (room.as_mut_ptr(), room.len());
            sys::sst_files_copy(files.words(), 0, offset, room, len, &mut count)
        })?;
        if count == 0 {
            return Ok(());
        }
        file.write_all(&room[..count as usize])?;
        offset += count;
    }
}

/// Bytes of a file that are copied at a time.
const PIECE: usize = 1 << 20;

/// Returns the number of finished tables that a handle holds.
fn count_of(files: &Handle<'_>) -> Result<u64, Error> {
    let mut count = 0;
    // SAFETY: both are references of this call.
    test(unsafe { sys::sst_files_count(files.words(), &mut count) })?;
    Ok(count)
}

/// Returns the report of a handle on a finished table.
fn told_of(files: &Handle<'_>, place: u64) -> Result<sys::sst_file, Error> {
    let mut told = sys::sst_file::default();
    // SAFETY: both are references of this call.
    test(unsafe { sys::sst_files_tell(files.words(), place, &mut told) })?;
    Ok(told)
}

/// Copies all finished tables that a handle holds.
pub(crate) fn finished_tables(files: &Handle<'_>) -> Result<Vec<FinishedTable>, Error> {
    let mut tables = Vec::new();
    for place in 0..count_of(files)? {
        tables.try_reserve(1).map_err(|_| Error::OutOfMemory)?;
        tables.push(finished_table(files, place)?);
    }
    Ok(tables)
}

/// Copies a finished table that a handle holds.
pub(crate) fn finished_table(files: &Handle<'_>, place: u64) -> Result<FinishedTable, Error> {
    let told = told_of(files, place)?;
    let len = usize::try_from(told.len).map_err(|_| Error::OutOfMemory)?;
    let mut bytes: Vec<u8> = room(len)?;
    let mut count = 0;
    // SAFETY: the buffer has `len` bytes, and all are references of this call.
    test(unsafe {
        sys::sst_files_copy(files.words(), place, 0, bytes.as_mut_ptr(), len, &mut count)
    })?;
    // SAFETY: `count` bytes were copied, and no more than fit.
    unsafe { bytes.set_len(count as usize) };
    Ok(FinishedTable { id: told.id, checksum: told.checksum, bytes })
}
