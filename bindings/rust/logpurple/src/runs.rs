//! Several tables as one.

use crate::error::test;
use crate::handle::{after, copy, get, room, Handle};
use crate::packing::packing_of;
use crate::{
    CompactEach, Compacted, Compaction, Error, InternalValue, LentValue, Packing, Range, RangeWith,
    SeqNo, Table,
};
use logpurple_sys as sys;
use std::ops::{Bound, RangeBounds};

/// Several tables as one, the newest first. It owns them.
///
/// Each read stores its result in the object. So it is `Send` and not `Sync`: each thread makes a
/// list of its own, from clones of the tables.
///
/// ```compile_fail,E0277
/// fn is_sync<T: Sync>() {}
/// is_sync::<logpurple::Runs>();
/// ```
#[derive(Debug)]
pub struct Runs<'f> {
    pub(crate) handle: Handle<'f>,
    // Run by run, if the runs are packed.
    tables: Vec<Table<'f>>,
}

impl<'f> Runs<'f> {
    /// Makes a list without tables.
    ///
    /// # Errors
    ///
    /// `OutOfMemory`.
    pub fn new() -> Result<Runs<'f>, Error> {
        let handle = Handle::closed();
        // SAFETY: the handle holds nothing.
        test(unsafe { sys::sst_runs_open(handle.words()) })?;
        Ok(Runs { handle, tables: Vec::new() })
    }

    /// Makes a list of these tables, the newest first.
    ///
    /// # Errors
    ///
    /// Those of `push`. The tables are dropped then.
    pub fn from_tables(tables: impl IntoIterator<Item = Table<'f>>) -> Result<Runs<'f>, Error> {
        let mut runs = Runs::new()?;
        for table in tables {
            runs.push(table)?;
        }
        Ok(runs)
    }

    /// Makes a list of several runs, the newest first. The tables of a run do not overlap, so a
    /// read searches one of them.
    ///
    /// If tables of one run overlap, the first of them is read as the newest, and they are searched
    /// one by one.
    ///
    /// # Errors
    ///
    /// Those of `push`. The tables are dropped then.
    ///
    /// ```
    /// use logpurple::{Runs, Table, ValueType, Writer, NEWEST};
    ///
    /// # fn main() -> Result<(), Box<dyn std::error::Error>> {
    /// let mut tables = Vec::new();
    /// for (id, key) in [(3, "a"), (2, "c"), (1, "a")] {
    ///     let mut writer = Writer::new(id)?;
    ///     writer.write(key.as_bytes(), id, ValueType::Value, b"")?;
    ///     tables.push(Table::open(writer.finish()?.unwrap())?);
    /// }
    /// let older = tables.split_off(2);
    /// let runs = Runs::from_runs([tables, older])?;
    /// assert_eq!(runs.packing()?.runs, [vec![0, 1], vec![2]]);
    /// assert_eq!(runs.get(b"a", NEWEST)?.unwrap().key.seqno, 3);
    /// # Ok(())
    /// # }
    /// ```
    pub fn from_runs<T>(runs: impl IntoIterator<Item = T>) -> Result<Runs<'f>, Error>
    where
        T: IntoIterator<Item = Table<'f>>,
    {
        // Tables that do not overlap go into one run.
        Runs::from_tables(runs.into_iter().flatten())?.packed()
    }

    /// Adds a table after those that are there. Push the newest table first.
    ///
    /// # Errors
    ///
    /// `OutOfOrder` if the table claims a least key above its greatest, as only damaged bytes do,
    /// and `OutOfMemory`. The table is dropped then, and the others stay.
    pub fn push(&mut self, mut table: Table<'f>) -> Result<(), Error> {
        self.tables.try_reserve(1).map_err(|_| Error::OutOfMemory)?;
        // SAFETY: both are references of this call.
        test(unsafe { sys::sst_runs_add(self.handle.words(), table.handles.own().words()) })?;
        self.tables.push(table);
        Ok(())
    }

    /// Returns the tables, the newest first; of packed runs, run by run.
    pub fn tables(&self) -> &[Table<'f>] {
        &self.tables
    }

    /// Returns the tables, in the order of `tables`.
    pub fn into_tables(self) -> Vec<Table<'f>> {
        self.tables
    }

    /// Finds the newest version of a key below `seqno` in all tables together, and copies it. The
    /// version may be a deletion.
    ///
    /// # Errors
    ///
    /// Those of `Table::get`.
    pub fn get(&self, key: &[u8], seqno: SeqNo) -> Result<Option<InternalValue>, Error> {
        let told = get(sys::sst_runs_get, &self.handle, key, seqno)?;
        // SAFETY: the lent bytes are copied here, before any other read.
        let found = unsafe { self.handle.lend(told) }?;
        found.map(|lent| lent.to_owned()).transpose()
    }

    /// Finds what `get` finds, borrowed until these runs are used again.
    ///
    /// # Errors
    ///
    /// Those of `get`.
    pub fn get_lent(&mut self, key: &[u8], seqno: SeqNo) -> Result<Option<LentValue<'_>>, Error> {
        let told = get(sys::sst_runs_get, &self.handle, key, seqno)?;
        // SAFETY: the runs are borrowed mutably for as long as the bytes.
        unsafe { self.handle.lend(told) }
    }

    /// Returns a range of all tables together within bounds, from both ends.
    ///
    /// For each key it yields the newest version below `seqno`, deletions too. Bounds are as in
    /// [`Table::range`]. No block is loaded yet. A table that is pushed later is not in the range.
    ///
    /// # Errors
    ///
    /// `OutOfMemory`.
    ///
    /// ```
    /// use logpurple::{Runs, Table, ValueType, Writer, NEWEST};
    ///
    /// # fn main() -> Result<(), Box<dyn std::error::Error>> {
    /// let (mut newer, mut older) = (Writer::new(2)?, Writer::new(1)?);
    /// newer.write(b"apple", 5, ValueType::Value, b"red")?;
    /// older.write(b"apple", 3, ValueType::Value, b"green")?;
    /// older.write(b"pear", 4, ValueType::Value, b"yellow")?;
    /// let newer = Table::open(newer.finish()?.unwrap())?;
    /// let older = Table::open(older.finish()?.unwrap())?;
    /// let runs = Runs::from_tables([newer, older])?;
    /// let mut range = runs.range("a".., NEWEST)?;
    /// assert_eq!(range.next().unwrap()?.value, b"red");
    /// assert_eq!(range.next_back().unwrap()?.value, b"yellow");
    /// assert!(range.next().is_none());
    /// assert_eq!(runs.range("a".."b", 4)?.next().unwrap()?.value, b"green");
    /// # Ok(())
    /// # }
    /// ```
    pub fn range<K, R>(&self, bounds: R, seqno: SeqNo) -> Result<Range<'f>, Error>
    where
        K: AsRef<[u8]>,
        R: RangeBounds<K>,
    {
        Range::of_runs(self, bounds.start_bound(), bounds.end_bound(), seqno)
    }

    /// Returns a range of all tables together and a memtable, within bounds, from both ends.
    ///
    /// `memtable` has entries that no table has yet, in the order of a table. They are read as if
    /// they were a table, and only those within the bounds. If a table has the same version of a
    /// key, that of the memtable is yielded. The range is as [`Runs::range`] describes it
    /// otherwise. It yields `OutOfOrder` where it reads two entries that are not in order.
    ///
    /// # Errors
    ///
    /// `OutOfMemory`.
    ///
    /// ```
    /// use logpurple::{InternalValue, Runs, Table, ValueType, Writer, NEWEST};
    ///
    /// # fn main() -> Result<(), Box<dyn std::error::Error>> {
    /// let mut writer = Writer::new(1)?;
    /// writer.write(b"apple", 3, ValueType::Value, b"green")?;
    /// writer.write(b"pear", 4, ValueType::Value, b"yellow")?;
    /// let runs = Runs::from_tables([Table::open(writer.finish()?.unwrap())?])?;
    /// let memtable = [
    ///     InternalValue::from_components(*b"apple", *b"", 5, ValueType::Tombstone),
    ///     InternalValue::from_components(*b"fig", *b"violet", 6, ValueType::Value),
    /// ];
    /// let range = runs.range_with("a".., NEWEST, memtable)?;
    /// let keys: Vec<_> = range.map(|item| item.unwrap().key).collect();
    /// assert_eq!(keys.iter().map(|key| key.seqno).collect::<Vec<_>>(), [5, 6, 4]);
    /// # Ok(())
    /// # }
    /// ```
    pub fn range_with<K, R, M>(
        &self,
        bounds: R,
        seqno: SeqNo,
        memtable: M,
    ) -> Result<RangeWith<'f, M::IntoIter>, Error>
    where
        K: AsRef<[u8]>,
        R: RangeBounds<K>,
        M: IntoIterator<Item = InternalValue>,
        M::IntoIter: DoubleEndedIterator,
    {
        let (lower, upper) = (bounds.start_bound(), bounds.end_bound());
        let owned = (copied(lower)?, copied(upper)?);
        let tables = Range::of_runs(self, lower, upper, seqno)?;
        Ok(RangeWith::of(tables, memtable.into_iter(), owned, seqno))
    }

    /// Returns a range of the keys of all tables together that begin with a prefix, as
    /// [`Runs::range`] describes.
    ///
    /// # Errors
    ///
    /// `OutOfMemory`.
    pub fn prefix(&self, prefix: impl AsRef<[u8]>, seqno: SeqNo) -> Result<Range<'f>, Error> {
        let (prefix, after) = (prefix.as_ref(), after(prefix.as_ref())?);
        let after = after.as_deref();
        let upper = after.as_ref().map_or(Bound::Unbounded, Bound::Excluded);
        Range::of_runs(self, Bound::Included(&prefix), upper, seqno)
    }

    /// Returns a range of all tables together, without bounds.
    pub fn iter(&self, seqno: SeqNo) -> Result<Range<'f>, Error> {
        self.range::<&[u8], _>(.., seqno)
    }

    /// Finds the fewest runs in which each key keeps the order of its tables. The result also shows
    /// why there cannot be fewer.
    ///
    /// # Errors
    ///
    /// `OutOfMemory`.
    ///
    /// ```
    /// use logpurple::{Runs, Table, ValueType, Writer, NEWEST};
    ///
    /// # fn main() -> Result<(), Box<dyn std::error::Error>> {
    /// let mut runs = Runs::new()?;
    /// for (id, keys) in [["a", "c"], ["d", "e"], ["b", "b"]].iter().enumerate() {
    ///     let mut writer = Writer::new(id as u64)?;
    ///     writer.write(keys[0].as_bytes(), 9, ValueType::Value, b"")?;
    ///     writer.write(keys[1].as_bytes(), 8, ValueType::Value, b"")?;
    ///     runs.push(Table::open(writer.finish()?.unwrap())?)?;
    /// }
    /// let packing = runs.packing()?;
    /// assert_eq!((packing.runs, packing.chain), (vec![vec![0, 1], vec![2]], vec![0, 2]));
    /// let packed = runs.packed()?;
    /// assert_eq!(packed.iter(NEWEST)?.count(), runs.iter(NEWEST)?.count());
    /// assert_eq!(packed.tables()[1].metadata().id, 1);
    /// # Ok(())
    /// # }
    /// ```
    pub fn packing(&self) -> Result<Packing, Error> {
        packing_of(&self.handle)
    }

    /// Returns the same tables in as few runs as possible. This object stays as it is.
    ///
    /// If each table stores a list of entries, reads of both find the same.
    ///
    /// # Errors
    ///
    /// `OutOfMemory`.
    pub fn packed(&self) -> Result<Runs<'f>, Error> {
        let mut tables = room(self.tables.len())?;
        for place in self.packing()?.runs.into_iter().flatten() {
            tables.push(self.tables[place].share()?);
        }
        let handle = Handle::closed();
        // SAFETY: both are references of this call, and the handle holds nothing.
        test(unsafe { sys::sst_runs_pack(self.handle.words(), handle.words()) })?;
        Ok(Runs { handle, tables })
    }

    /// Writes the entries that are kept into new tables, as [`Compaction`] describes. These tables
    /// stay.
    ///
    /// # Errors
    ///
    /// Those of [`Compaction`].
    ///
    /// ```
    /// use logpurple::{Compaction, Options, Runs, Table, ValueType, Writer, NEWEST};
    ///
    /// # fn main() -> Result<(), Box<dyn std::error::Error>> {
    /// let mut writer = Writer::new(1)?;
    /// writer.write(b"apple", 5, ValueType::Value, b"red")?;
    /// writer.write(b"apple", 3, ValueType::Value, b"green")?;
    /// writer.write(b"pear", 4, ValueType::Tombstone, b"")?;
    /// let runs = Runs::from_tables([Table::open(writer.finish()?.unwrap())?])?;
    /// let compacted = runs.compact(&Compaction {
    ///     watermark: 6, // the least snapshot that is still read
    ///     evict_tombstones: true,
    ///     options: Options { id: 2, ..Options::default() },
    ///     ..Compaction::default()
    /// })?;
    /// assert_eq!((compacted.tables.len(), compacted.next_id), (1, Some(3)));
    /// let table = Table::open(&compacted.tables[0])?;
    /// assert_eq!(table.get(b"apple", NEWEST)?.unwrap().value, b"red");
    /// assert_eq!(table.metadata().item_count, 1);
    /// # Ok(())
    /// # }
    /// ```
    pub fn compact(&self, compaction: &Compaction) -> Result<Compacted, Error> {
        Compacted::of(&self.handle, compaction)
    }

    /// Writes the entries that are kept into new tables as [`Runs::compact`] does, and yields each as
    /// soon as it is finished. Memory holds the table that is being written, and a block or two of
    /// each run.
    ///
    /// # Errors
    ///
    /// `NoSuch` if an option is out of range; the fault of the first run whose first data block cannot
    /// be loaded; `OutOfMemory`. The iterator yields the other errors of [`Compaction`].
    ///
    /// ```
    /// use logpurple::{Compaction, Runs, Table, ValueType, Writer};
    ///
    /// # fn main() -> Result<(), Box<dyn std::error::Error>> {
    /// let mut writer = Writer::new(1)?;
    /// writer.write(b"apple", 3, ValueType::Value, b"green")?;
    /// writer.write(b"pear", 4, ValueType::Value, b"yellow")?;
    /// let runs = Runs::from_tables([Table::open(writer.finish()?.unwrap())?])?;
    /// let by = Compaction { target_size: 0, ..Compaction::default() }; // a table for each key
    /// let mut count = 0;
    /// for table in runs.compact_each(&by)? {
    ///     assert_eq!(Table::open(table?)?.metadata().item_count, 1);
    ///     count += 1;
    /// }
    /// assert_eq!(count, 2);
    /// # Ok(())
    /// # }
    /// ```
    pub fn compact_each(&self, compaction: &Compaction) -> Result<CompactEach<'f>, Error> {
        CompactEach::of(&self.handle, compaction)
    }
}

/// Copies the key of a bound.
fn copied<K: AsRef<[u8]>>(bound: Bound<&K>) -> Result<Bound<Vec<u8>>, Error> {
    Ok(match bound {
        Bound::Unbounded => Bound::Unbounded,
        Bound::Included(key) => Bound::Included(copy(key.as_ref())?),
        Bound::Excluded(key) => Bound::Excluded(copy(key.as_ref())?),
    })
}
