//! Tables.

use crate::error::test;
use crate::handle::{after, get, Handle, Handles};
use crate::{
    Answers, Error, InternalValue, LentValue, Range, Scanner, SeqNo, Verification, Verified,
    VerifyError,
};
use logpurple_sys as sys;
use std::alloc::{handle_alloc_error, Layout};
use std::ops::{Bound, RangeBounds};

/// An open table.
///
/// It has a copy of its bytes, or reads bytes that are borrowed for `'f`. It shares them with its
/// clones, its ranges and the runs that it was pushed to.
///
/// Threads may read one table at the same time:
///
/// ```
/// use logpurple::{Table, ValueType, Writer, NEWEST};
///
/// # fn main() -> Result<(), Box<dyn std::error::Error>> {
/// let mut writer = Writer::new(1)?;
/// writer.write(b"apple", 2, ValueType::Value, b"red")?;
/// let table = Table::open(writer.finish()?.unwrap())?;
/// std::thread::scope(|scope| {
///     for _ in 0..2 {
///         scope.spawn(|| assert_eq!(table.get(b"apple", NEWEST).unwrap().unwrap().value, b"red"));
///     }
/// });
/// # Ok(())
/// # }
/// ```
///
/// A read of the library keeps its result in a handle. So each read through `&self` uses a handle
/// of its own. The table keeps these handles for later reads: as many as there were reads at once.
/// Threads wait for each other only while they take and return a handle. A thread with a clone of
/// its own never waits. [`get_lent`](Table::get_lent) borrows the table mutably, and needs no other
/// handle.
#[derive(Debug)]
pub struct Table<'f> {
    pub(crate) handles: Handles<'f>,
}

/// Options of opening a table.
#[derive(Clone, Copy, Debug, PartialEq, Eq)]
pub struct OpenOptions {
    /// The global sequence number, which is added to every stored one.
    pub global_seqno: SeqNo,
    /// Whether a filter of one block is pinned, else each read loads it.
    pub pin_filter: bool,
    /// Whether an index of one block is pinned, else each read loads it.
    pub pin_index: bool,
}

impl Default for OpenOptions {
    /// Adds nothing, and pins both.
    fn default() -> OpenOptions {
        OpenOptions { global_seqno: 0, pin_filter: true, pin_index: true }
    }
}

impl OpenOptions {
    /// Opens a table from a copy of its bytes.
    ///
    /// # Errors
    ///
    /// The first fault of the bytes, and `OutOfMemory`. Bytes with damaged blocks may open: reads
    /// that meet the damage fail.
    pub fn open(&self, file: impl AsRef<[u8]>) -> Result<Table<'static>, Error> {
        // SAFETY: the bytes are read during the call only.
        unsafe { self.open_by(sys::sst_table_open, file.as_ref()) }
    }

    /// Opens a table as `open` does, over the bytes themselves, without a copy.
    ///
    /// The compiler ensures that the bytes stay until the table and all that was opened from it are
    /// dropped. No process may write to borrowed bytes meanwhile, for example to a mapped file.
    ///
    /// # Errors
    ///
    /// Those of `open`.
    ///
    /// ```compile_fail,E0597
    /// fn open() {
    ///     let table;
    ///     let file = std::fs::read("table").unwrap();
    ///     table = logpurple::OpenOptions::default().open_kept(&file).unwrap();
    /// }
    /// ```
    ///
    /// ```compile_fail,E0597
    /// fn open() {
    ///     let range;
    ///     {
    ///         let file = std::fs::read("table").unwrap();
    ///         let table = logpurple::OpenOptions::default().open_kept(&file).unwrap();
    ///         range = table.iter().unwrap();
    ///     }
    ///     drop(range);
    /// }
    /// ```
    pub fn open_kept<'f>(&self, file: &'f [u8]) -> Result<Table<'f>, Error> {
        // SAFETY: the bytes stay for `'f`. Each handle of what is opened from the table has this
        // lifetime too, and is closed before it ends.
        unsafe { self.open_by(sys::sst_table_open_kept, file) }
    }

    // SAFETY of callers: the call reads the bytes no longer than they stay.
    unsafe fn open_by<'f>(&self, open: Open, file: &[u8]) -> Result<Table<'f>, Error> {
        let handle = Handle::closed();
        // SAFETY: the caller guarantees the bytes, and the handle holds nothing.
        test(unsafe {
            open(
                file.as_ptr(),
                file.len(),
                self.global_seqno,
                self.pin_filter,
                self.pin_index,
                handle.words(),
            )
        })?;
        // SAFETY: the caller guarantees it.
        Ok(Table { handles: unsafe { Handles::of(handle) } })
    }
}

/// A call that opens a table.
type Open = unsafe extern "C" fn(*const u8, usize, u64, bool, bool, *mut sys::sst_handle) -> u32;

/// The metadata that a table claims. Sequence numbers are as stored, without the global one.
#[derive(Clone, Copy, Debug, PartialEq, Eq)]
pub struct Metadata {
    /// The table's id.
    pub id: u64,
    /// The version of its format: 3 or 4.
    pub table_version: u64,
    /// The lowest and the highest stored sequence number.
    pub seqnos: (SeqNo, SeqNo),
    /// Number of entries: versions, not keys.
    pub item_count: u64,
    /// Number of tombstones of either kind.
    pub tombstone_count: u64,
    /// Number of weak tombstones.
    pub weak_tombstone_count: u64,
    /// Number of data blocks.
    pub data_block_count: u64,
    /// Number of index blocks.
    pub index_block_count: u64,
    /// Size of the data blocks in bytes, as the item `file_size` of the meta block has it.
    /// [`Memory::file_len`] is the size of the file.
    pub file_size: u64,
}

/// The memory of a table in bytes, for all of its clones together and for what was opened from
/// them.
#[derive(Clone, Copy, Debug, PartialEq, Eq)]
pub struct Memory {
    /// Size of the file. After `open_kept` the bytes are the caller's.
    pub file_len: u64,
    /// Size of the pinned index in the file, the whole or the top level; 0 if none is pinned.
    pub pinned_block_index_size: u64,
    /// Size of the pinned filter in the file; 0 if none is pinned, and for a partitioned filter.
    pub pinned_filter_size: u64,
    /// Size of the verified-block cache, beside the file.
    pub marks_size: u64,
}

impl Table<'static> {
    /// Opens a table from a copy of its bytes, with `OpenOptions::default()`.
    ///
    /// # Errors
    ///
    /// Those of [`OpenOptions::open`].
    pub fn open(file: impl AsRef<[u8]>) -> Result<Table<'static>, Error> {
        OpenOptions::default().open(file)
    }
}

impl<'f> Table<'f> {
    /// Opens a table over its bytes, without a copy, with `OpenOptions::default()`.
    ///
    /// # Errors
    ///
    /// Those of [`OpenOptions::open`].
    ///
    /// ```
    /// # use logpurple::{Table, ValueType, Writer, NEWEST};
    /// # fn main() -> Result<(), Box<dyn std::error::Error>> {
    /// # let mut writer = Writer::new(1)?;
    /// # writer.write(b"apple", 2, ValueType::Value, b"red")?;
    /// # let file = writer.finish()?.unwrap();
    /// let mut table = Table::open_kept(file.as_ref())?;
    /// let found = table.get_lent(b"apple", NEWEST)?.unwrap();
    /// assert!(file.as_ref().as_ptr_range().contains(&found.value.as_ptr()));
    /// # Ok(())
    /// # }
    /// ```
    pub fn open_kept(file: &'f [u8]) -> Result<Table<'f>, Error> {
        OpenOptions::default().open_kept(file)
    }

    /// Finds the newest version of a key below `seqno`, and copies it. The version may be a
    /// deletion.
    ///
    /// # Errors
    ///
    /// The first fault of the blocks that it loads, and `OutOfMemory`.
    pub fn get(&self, key: &[u8], seqno: SeqNo) -> Result<Option<InternalValue>, Error> {
        self.handles.with(|handle| {
            let told = get(sys::sst_table_get, handle, key, seqno)?;
            // SAFETY: the lent bytes are copied here, before any other read.
            let found = unsafe { handle.lend(told) }?;
            found.map(|lent| lent.to_owned()).transpose()
        })
    }

    /// Finds what `get` finds, borrowed until the table is used again.
    ///
    /// # Errors
    ///
    /// Those of `get`.
    ///
    /// ```compile_fail,E0499
    /// fn keep(mut table: logpurple::Table) {
    ///     let first = table.get_lent(b"a", 9).unwrap();
    ///     let second = table.get_lent(b"b", 9).unwrap();
    ///     drop((first, second));
    /// }
    /// ```
    pub fn get_lent(&mut self, key: &[u8], seqno: SeqNo) -> Result<Option<LentValue<'_>>, Error> {
        let handle = self.handles.own();
        let told = get(sys::sst_table_get, handle, key, seqno)?;
        // SAFETY: the table is borrowed mutably for as long as the bytes.
        unsafe { handle.lend(told) }
    }

    /// Finds for each of several keys what `get` finds, and copies it, in the order of the keys.
    ///
    /// The keys may be in any order and may repeat. A block that has several of them is loaded
    /// once. All keys are of one type: byte strings of several lengths are passed as slices, as
    /// `&[&b"pear"[..], b"fig"]`.
    ///
    /// # Errors
    ///
    /// The error of the first key whose read fails, and `OutOfMemory`.
    ///
    /// ```
    /// # use logpurple::{Table, ValueType, Writer, NEWEST};
    /// # fn main() -> Result<(), Box<dyn std::error::Error>> {
    /// # let mut writer = Writer::new(1)?;
    /// # writer.write(b"apple", 2, ValueType::Value, b"red")?;
    /// # let table = Table::open(writer.finish()?.unwrap())?;
    /// let found = table.get_many(&["pear", "apple"], NEWEST)?;
    /// assert!(found[0].is_none());
    /// assert_eq!(found[1].as_ref().unwrap().value, b"red");
    /// # Ok(())
    /// # }
    /// ```
    pub fn get_many<K: AsRef<[u8]>>(
        &self,
        keys: &[K],
        seqno: SeqNo,
    ) -> Result<Vec<Option<InternalValue>>, Error> {
        self.get_many_lent(keys, seqno)?.to_owned()
    }

    /// Finds what `get_many` finds, borrowed from the answers. The table may be used meanwhile.
    ///
    /// # Errors
    ///
    /// Those of `get_many`.
    pub fn get_many_lent<K: AsRef<[u8]>>(
        &self,
        keys: &[K],
        seqno: SeqNo,
    ) -> Result<Answers<'f>, Error> {
        Answers::of(self, keys, seqno)
    }

    /// Returns a range of the entries whose keys are within bounds, from both ends.
    ///
    /// It yields each version of a key. It is empty if no key is between the bounds, for example
    /// with the lower bound above the upper one. No block is loaded yet.
    ///
    /// # Errors
    ///
    /// `OutOfMemory`.
    ///
    /// ```
    /// # use logpurple::{Table, ValueType, Writer};
    /// # fn main() -> Result<(), Box<dyn std::error::Error>> {
    /// use std::ops::Bound;
    ///
    /// # let mut writer = Writer::new(1)?;
    /// # for key in [b"a", b"b", b"c"] {
    /// #     writer.write(key, 2, ValueType::Value, b"")?;
    /// # }
    /// # let table = Table::open(writer.finish()?.unwrap())?;
    /// let (a, b) = (b"a".to_vec(), b"b".to_vec());
    /// let (from_a, after_a) = (Bound::Included(&a[..]), Bound::Excluded(&a[..]));
    /// assert_eq!(table.range("a".."c")?.count(), 2);
    /// assert_eq!(table.range(&a[..]..=&b[..])?.count(), 2);
    /// assert_eq!(table.range::<&[u8], _>((after_a, Bound::Unbounded))?.count(), 2);
    /// assert_eq!(table.range::<&[u8], _>((from_a, Bound::Excluded(&b[..])))?.count(), 1);
    /// assert_eq!(table.range("c".."a")?.count(), 0);
    /// # Ok(())
    /// # }
    /// ```
    pub fn range<K, R>(&self, bounds: R) -> Result<Range<'f>, Error>
    where
        K: AsRef<[u8]>,
        R: RangeBounds<K>,
    {
        Range::of_table(self, bounds.start_bound(), bounds.end_bound())
    }

    /// Returns a range of the entries whose keys begin with a prefix, from both ends.
    ///
    /// # Errors
    ///
    /// `OutOfMemory`.
    ///
    /// ```
    /// # use logpurple::{Table, ValueType, Writer};
    /// # fn main() -> Result<(), Box<dyn std::error::Error>> {
    /// # let mut writer = Writer::new(1)?;
    /// # for key in ["a", "ba", "bb", "c"] {
    /// #     writer.write(key.as_bytes(), 2, ValueType::Value, b"")?;
    /// # }
    /// # let table = Table::open(writer.finish()?.unwrap())?;
    /// assert_eq!(table.prefix("b")?.next_back().unwrap()?.key.user_key, b"bb");
    /// assert_eq!(table.prefix("b")?.count(), 2);
    /// # Ok(())
    /// # }
    /// ```
    pub fn prefix(&self, prefix: impl AsRef<[u8]>) -> Result<Range<'f>, Error> {
        let (prefix, after) = (prefix.as_ref(), after(prefix.as_ref())?);
        let after = after.as_deref();
        let upper = after.as_ref().map_or(Bound::Unbounded, Bound::Excluded);
        Range::of_table(self, Bound::Included(&prefix), upper)
    }

    /// Returns a range of all entries, from both ends.
    pub fn iter(&self) -> Result<Range<'f>, Error> {
        self.range::<&[u8], _>(..)
    }

    /// Returns a scan of all entries in order, from the front.
    ///
    /// It reads the data blocks in file order, each once, and no index. This call loads the first
    /// block.
    ///
    /// # Errors
    ///
    /// The first fault of that block, and `OutOfMemory`.
    ///
    /// ```
    /// # use logpurple::{Table, ValueType, Writer};
    /// # fn main() -> Result<(), Box<dyn std::error::Error>> {
    /// # let mut writer = Writer::new(1)?;
    /// # writer.write(b"apple", 2, ValueType::Value, b"red")?;
    /// # writer.write(b"apple", 1, ValueType::Value, b"green")?;
    /// # let table = Table::open(writer.finish()?.unwrap())?;
    /// let mut scanner = table.scan()?;
    /// assert_eq!(scanner.next_lent()?.unwrap().value, b"red");
    /// assert_eq!(scanner.next().unwrap()?.value, b"green");
    /// assert!(scanner.next().is_none());
    /// # Ok(())
    /// # }
    /// ```
    pub fn scan(&self) -> Result<Scanner<'f>, Error> {
        Scanner::of(self)
    }

    /// Returns how much memory the table holds.
    ///
    /// ```
    /// # use logpurple::{Table, ValueType, Writer};
    /// # fn main() -> Result<(), Box<dyn std::error::Error>> {
    /// # let mut writer = Writer::new(1)?;
    /// # writer.write(b"apple", 2, ValueType::Value, b"red")?;
    /// # let file = writer.finish()?.unwrap();
    /// let memory = Table::open(&file)?.memory();
    /// assert_eq!(memory.file_len, file.bytes.len() as u64);
    /// # Ok(())
    /// # }
    /// ```
    pub fn memory(&self) -> Memory {
        let mut told = sys::sst_memory::default();
        // SAFETY: both are references of this call.
        let code = self
            .handles
            .briefly(|handle| unsafe { sys::sst_table_memory(handle.words(), &mut told) });
        assert_eq!(code, 0, "a table that is open says what it holds");
        Memory {
            file_len: told.file_len,
            pinned_block_index_size: told.pinned_index_size,
            pinned_filter_size: told.pinned_filter_size,
            marks_size: told.marks_size,
        }
    }

    /// Returns the metadata that the table claims.
    pub fn metadata(&self) -> Metadata {
        let facts = self.facts();
        Metadata {
            id: facts.id,
            table_version: facts.version,
            seqnos: (facts.lowest_seqno, facts.highest_seqno),
            item_count: facts.item_count,
            tombstone_count: facts.tombstone_count,
            weak_tombstone_count: facts.weak_tombstone_count,
            data_block_count: facts.data_block_count,
            index_block_count: facts.index_block_count,
            file_size: facts.data_size,
        }
    }

    /// Returns the global sequence number, which is added to every stored one.
    pub fn global_seqno(&self) -> SeqNo {
        self.facts().global_seqno
    }

    /// Returns another object for the same table, as `clone` does. No bytes are copied.
    ///
    /// # Errors
    ///
    /// `OutOfMemory`.
    pub fn share(&self) -> Result<Table<'f>, Error> {
        Ok(Table { handles: self.handles.shared()? })
    }

    fn facts(&self) -> sys::sst_facts {
        let mut facts = sys::sst_facts::default();
        // SAFETY: both are references of this call.
        let code = self
            .handles
            .briefly(|handle| unsafe { sys::sst_table_facts(handle.words(), &mut facts) });
        assert_eq!(code, 0, "a table that is open says of itself what there is");
        facts
    }

    /// Reads all blocks of the table once, and verifies that its bytes store a list of entries in
    /// order, whoever wrote them.
    ///
    /// Bytes that no read needs are not checked. These are the byte of the version section, and the
    /// trailer's positions of that section, the data blocks and partitions. A file that differs
    /// only there may open and be verified. [`verify_with`](Table::verify_with) compares a checksum
    /// of every byte.
    ///
    /// # Errors
    ///
    /// `VerifyError::Found` with the first fault and its position. `VerifyError::Refused` if an
    /// allocation failed, which does not mean that the table is invalid.
    pub fn verify(&self) -> Result<Verified, VerifyError> {
        let mut told = sys::sst_verified::default();
        let code = self
            .handles
            // SAFETY: both are references of this call.
            .with(|handle| Ok(unsafe { sys::sst_table_verify(handle.words(), &mut told) }))
            .map_err(VerifyError::Refused)?;
        Verified::of(code, &told)
    }

    /// Compares the checksum of the whole file, then verifies the table as
    /// [`verify`](Table::verify) does.
    ///
    /// `checksum` is the 64-bit FNV-1a hash of all bytes that the table was opened from. A
    /// [`FinishedTable`](crate::FinishedTable) and a [`WrittenFile`](crate::WrittenFile) have it.
    ///
    /// # Errors
    ///
    /// `VerifyError::Found` with [`Fault::OtherChecksum`](crate::Fault::OtherChecksum) if the bytes
    /// have another checksum. No block is read then. Otherwise the errors are those of
    /// [`verify`](Table::verify).
    ///
    /// ```
    /// # use logpurple::{Fault, Table, ValueType, VerifyError, Writer};
    /// # fn main() -> Result<(), Box<dyn std::error::Error>> {
    /// # let mut writer = Writer::new(1)?;
    /// # writer.write(b"apple", 2, ValueType::Value, b"red")?;
    /// let file = writer.finish()?.unwrap();
    /// let checksum = file.checksum;
    /// let table = Table::open(file)?;
    /// assert_eq!(table.verify_with(checksum)?.item_count, 1);
    /// match table.verify_with(checksum ^ 1) {
    ///     Err(VerifyError::Found(finding)) => assert_eq!(finding.fault, Fault::OtherChecksum),
    ///     other => panic!("{other:?}"),
    /// }
    /// # Ok(())
    /// # }
    /// ```
    pub fn verify_with(&self, checksum: u64) -> Result<Verified, VerifyError> {
        let mut told = sys::sst_verified::default();
        let code = self
            .handles
            .with(|handle| {
                // SAFETY: both are references of this call.
                Ok(unsafe { sys::sst_table_verify_with(handle.words(), checksum, &mut told) })
            })
            .map_err(VerifyError::Refused)?;
        Verified::of(code, &told)
    }

    /// Returns a verification by steps. The caller can show its progress, and stop it. Nothing is
    /// read yet.
    ///
    /// # Errors
    ///
    /// `OutOfMemory`.
    ///
    /// ```
    /// # use logpurple::{Table, ValueType, Writer};
    /// # fn main() -> Result<(), Box<dyn std::error::Error>> {
    /// # let mut writer = Writer::new(1)?;
    /// # writer.write(b"apple", 2, ValueType::Value, b"red")?;
    /// # let table = Table::open(writer.finish()?.unwrap())?;
    /// let mut verification = table.verification()?;
    /// let verified = loop {
    ///     match verification.step()? {
    ///         Some(verified) => break verified,
    ///         None => println!("{} of {}", verification.bytes_read(), verification.data_size()),
    ///     }
    /// };
    /// assert_eq!(verified, table.verify()?);
    /// # Ok(())
    /// # }
    /// ```
    pub fn verification(&self) -> Result<Verification<'f>, Error> {
        Verification::of(self)
    }
}

impl<'f> Clone for Table<'f> {
    /// Returns a share of the same bytes, without a copy. The program aborts if memory is short, as
    /// with any clone; [`Table::share`] returns an error instead.
    fn clone(&self) -> Table<'f> {
        match self.share() {
            Ok(table) => table,
            Err(Error::OutOfMemory) => handle_alloc_error(Layout::new::<sys::sst_handle>()),
            Err(error) => panic!("a table that is open is shared: {error}"),
        }
    }
}
