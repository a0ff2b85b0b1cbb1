//! The declarations of `include/sst.h`.
//!
//! That header describes each call: its result, its errors and the conditions on its pointers. The
//! crate `logpurple` wraps them in safe calls.

#![no_std]
#![deny(missing_docs)]
#![allow(non_camel_case_types)]

/// The version of the calls that these declarations name.
pub const SST_VERSION: u32 = 4;

/// Out of memory.
pub const SST_OUT_OF_MEMORY: u32 = 1;
/// A block reaches past the sections.
pub const SST_TRUNCATED: u32 = 2;
/// A block's header is invalid.
pub const SST_INVALID_HEADER: u32 = 3;
/// A block is of another kind than required.
pub const SST_INVALID_TAG: u32 = 4;
/// A block was damaged.
pub const SST_CHECKSUM_MISMATCH: u32 = 5;
/// A block's payload is invalid.
pub const SST_INVALID_BLOCK: u32 = 6;
/// A key has more than 1,048,576 bytes.
pub const SST_KEY_TOO_LONG: u32 = 7;
/// A value has 2^32 bytes or more.
pub const SST_VALUE_TOO_LONG: u32 = 8;
/// A block would have 2^32 bytes or more.
pub const SST_BLOCK_TOO_LARGE: u32 = 9;
/// A section would have, or has, 2^32 bytes or more.
pub const SST_SECTION_TOO_LARGE: u32 = 10;
/// The bytes do not end as a table does.
pub const SST_INVALID_TRAILER: u32 = 11;
/// A required section is missing.
pub const SST_MISSING_SECTION: u32 = 12;
/// A required item of the meta block is missing.
pub const SST_META_KEY_MISSING: u32 = 13;
/// The value of an item of the meta block is too short.
pub const SST_INVALID_META_VALUE: u32 = 14;
/// The table's version is not 3 or 4.
pub const SST_UNSUPPORTED_TABLE_VERSION: u32 = 15;
/// The filter's hashes are of another type.
pub const SST_UNSUPPORTED_HASH_TYPE: u32 = 16;
/// The checksums are of another type.
pub const SST_UNSUPPORTED_CHECKSUM_TYPE: u32 = 17;
/// The index restarts otherwise than after each handle.
pub const SST_UNSUPPORTED_INDEX_INTERVAL: u32 = 18;
/// A block is compressed.
pub const SST_UNSUPPORTED_COMPRESSION: u32 = 19;
/// The highest stored sequence number plus the global one exceeds 64 bits.
pub const SST_GLOBAL_SEQNO_TOO_LARGE: u32 = 20;
/// The sequence number of an entry plus the global one exceeds 64 bits.
pub const SST_SEQNO_OVERFLOW: u32 = 21;
/// No id is left for a further table.
pub const SST_TABLE_IDS_SPENT: u32 = 22;
/// The writer has failed before.
pub const SST_WRITER_FAILED: u32 = 23;
/// A source of entries failed; none of these calls has one.
pub const SST_SOURCE_ERROR: u32 = 24;

/// Another name of [`SST_OUT_OF_MEMORY`].
pub const SST_NO_MEMORY: u32 = SST_OUT_OF_MEMORY;
/// The handle holds nothing.
pub const SST_CLOSED: u32 = 100;
/// The handle to fill holds something.
pub const SST_OPEN: u32 = 101;
/// The handle holds something of another kind.
pub const SST_OTHER_KIND: u32 = 102;
/// A buffer is too small.
pub const SST_NO_ROOM: u32 = 103;
/// An entry does not follow the one before it.
pub const SST_OUT_OF_ORDER: u32 = 104;
/// An index, a length, a kind or an option is invalid.
pub const SST_NO_SUCH: u32 = 105;
/// The last read by the handle found nothing.
pub const SST_NOTHING: u32 = 106;
/// A verification found a fault.
pub const SST_FAULTY: u32 = 107;

/// There is no entry.
pub const SST_NO_ENTRY: u64 = 0;
/// A value.
pub const SST_VALUE: u64 = 1;
/// A deletion of every older version of the key.
pub const SST_TOMBSTONE: u64 = 2;
/// A deletion of the one version directly before it.
pub const SST_WEAK_TOMBSTONE: u64 = 3;
/// A value that is stored elsewhere.
pub const SST_INDIRECTION: u64 = 5;

/// The data blocks.
pub const SST_SECTION_DATA: u32 = 1;
/// The partitions of a partitioned index.
pub const SST_SECTION_INDEX: u32 = 2;
/// The top level of the index, or the whole index.
pub const SST_SECTION_TLI: u32 = 3;
/// The full filter, or the partitions of a partitioned one.
pub const SST_SECTION_FILTER: u32 = 4;
/// The top level of a partitioned filter.
pub const SST_SECTION_FILTER_TLI: u32 = 5;
/// The table's version.
pub const SST_SECTION_TABLE_VERSION: u32 = 6;
/// The meta block.
pub const SST_SECTION_META: u32 = 7;

/// The block does not load.
pub const SST_FAULT_UNLOADED: u32 = 1;
/// The block is empty.
pub const SST_FAULT_HOLLOW: u32 = 2;
/// The block does not start where the one before it ends.
pub const SST_FAULT_MISPLACED: u32 = 3;
/// An entry has the largest sequence number.
pub const SST_FAULT_TOO_HIGH: u32 = 4;
/// An entry does not follow the one before it.
pub const SST_FAULT_UNORDERED: u32 = 5;
/// The filter has a false negative: it excludes a key of the table.
pub const SST_FAULT_DENIED: u32 = 6;
/// A block of the filter does not load.
pub const SST_FAULT_UNFILTERED: u32 = 7;
/// The block does not end with the key of its index entry.
pub const SST_FAULT_OTHER_KEY: u32 = 8;
/// The block does not end with the sequence number of its index entry.
pub const SST_FAULT_OTHER_NUMBER: u32 = 9;
/// The entries do not match an item of the meta block.
pub const SST_FAULT_UNBORNE: u32 = 10;
/// The index has no entry for a data block.
pub const SST_FAULT_UNNAMED: u32 = 11;
/// The file has another checksum than the given one.
pub const SST_FAULT_OTHER_CHECKSUM: u32 = 12;

/// A range without this bound.
pub const SST_UNBOUNDED: u32 = 0;
/// The key itself is within the bound.
pub const SST_INCLUDED: u32 = 1;
/// The key itself is not within the bound.
pub const SST_EXCLUDED: u32 = 2;

/// The largest sequence number. A read at it finds the newest version below it.
pub const SST_NEWEST: u64 = u64::MAX;

/// A handle, which calls fill and `sst_close` empties. Zeros hold nothing. It may be moved, but a
/// copy must not be used.
#[repr(C)]
#[derive(Debug, Default)]
pub struct sst_handle {
    /// Only the calls write to these words.
    pub words: [u64; 2],
}

/// The kind, the sequence number and the lengths of an entry; zeros if there is none.
#[repr(C)]
#[derive(Clone, Copy, Debug, Default)]
pub struct sst_entry {
    /// Its kind, as [`SST_VALUE`].
    pub kind: u64,
    /// Its sequence number.
    pub seqno: u64,
    /// Length of its key in bytes.
    pub key_len: u64,
    /// Length of its value in bytes.
    pub value_len: u64,
}

/// The addresses and the lengths of an entry's key and value.
#[repr(C)]
#[derive(Clone, Copy, Debug)]
pub struct sst_lent {
    /// The first byte of the key.
    pub key: *const u8,
    /// Length of the key in bytes.
    pub key_len: u64,
    /// The first byte of the value.
    pub value: *const u8,
    /// Length of the value in bytes.
    pub value_len: u64,
}

/// The metadata that a table claims.
#[repr(C)]
#[derive(Clone, Copy, Debug, Default)]
pub struct sst_facts {
    /// The table's id.
    pub id: u64,
    /// The version of its format: 3 or 4.
    pub version: u64,
    /// The global sequence number, which is added to every stored one.
    pub global_seqno: u64,
    /// The lowest stored sequence number.
    pub lowest_seqno: u64,
    /// The highest stored sequence number.
    pub highest_seqno: u64,
    /// Number of entries.
    pub item_count: u64,
    /// Number of tombstones of either kind.
    pub tombstone_count: u64,
    /// Number of weak tombstones.
    pub weak_tombstone_count: u64,
    /// Number of data blocks.
    pub data_block_count: u64,
    /// Number of index blocks.
    pub index_block_count: u64,
    /// Size of the data blocks in bytes.
    pub data_size: u64,
}

/// The memory of a table.
#[repr(C)]
#[derive(Clone, Copy, Debug, Default)]
pub struct sst_memory {
    /// Size of the table's file in bytes.
    pub file_len: u64,
    /// Size of the pinned index in bytes, or 0.
    pub pinned_index_size: u64,
    /// Size of the pinned filter in bytes, or 0.
    pub pinned_filter_size: u64,
    /// Size of the verified-block cache in bytes.
    pub marks_size: u64,
}

/// The result of a verification.
#[repr(C)]
#[derive(Clone, Copy, Debug, Default)]
pub struct sst_verified {
    /// Number of entries, if the table is valid.
    pub item_count: u64,
    /// Number of data blocks, if the table is valid.
    pub data_block_count: u64,
    /// Offset in the file of the block with the fault, in bytes.
    pub offset: u64,
    /// Its section, as [`SST_SECTION_DATA`].
    pub section: u32,
    /// The fault, as [`SST_FAULT_UNLOADED`].
    pub fault: u32,
    /// The error code of the load, if the block does not load.
    pub detail: u32,
    /// Unused.
    pub unused: u32,
}

/// The progress of a verification.
#[repr(C)]
#[derive(Clone, Copy, Debug, Default)]
pub struct sst_progress {
    /// Bytes of data blocks read so far.
    pub bytes_read: u64,
    /// Bytes of data blocks that the table claims to have.
    pub data_size: u64,
    /// 1 if all was read and is valid, else 0.
    pub at_end: u64,
}

/// The options of a writer.
#[repr(C)]
#[derive(Clone, Copy, Debug, Default)]
pub struct sst_options {
    /// The table's id.
    pub id: u64,
    /// The time of writing, in nanoseconds since 1970.
    pub created_at: u64,
    /// The level of the table, at most 255.
    pub level: u32,
    /// Bytes of keys and values at which a data block is cut, at most 4 MiB.
    pub data_block_size: u32,
    /// Restart interval of data blocks, 1 to 255. It is only stored in the meta block.
    pub data_block_restart_interval: u32,
    /// Hash ratio of data blocks. It is only stored in the meta block.
    pub data_block_hash_ratio: u32,
    /// Bytes at which a partition of the index is cut, at most 4 MiB; 0 for one block.
    pub index_partition_size: u32,
    /// Bytes at which a partition of the filter is cut, at most 4 MiB; 0 for one block.
    pub filter_partition_size: u32,
    /// Tenths of a bit of the filter for a key; 0 for no filter.
    pub filter_bits_per_key: u32,
    /// Unused.
    pub unused: u32,
}

/// The id, the checksum and the length of a finished table.
#[repr(C)]
#[derive(Clone, Copy, Debug, Default)]
pub struct sst_file {
    /// The table's id.
    pub id: u64,
    /// FNV-1a of all bytes.
    pub checksum: u64,
    /// Length in bytes.
    pub len: u64,
}

extern "C" {
    /// Returns [`SST_VERSION`] of the header that the library was built with.
    pub fn sst_version() -> u32;
    /// Closes a handle. A handle that holds nothing stays as it is.
    pub fn sst_close(handle: *mut sst_handle);

    /// Copies the key and the value of the entry that the last read by a handle found.
    pub fn sst_found_copy(
        handle: *mut sst_handle,
        key: *mut u8,
        key_room: usize,
        value: *mut u8,
        value_room: usize,
    ) -> u32;
    /// Returns where the key and the value are of the entry that the last read by a handle found.
    pub fn sst_found_lend(handle: *mut sst_handle, lent: *mut sst_lent) -> u32;

    /// Opens a table from a copy of its bytes.
    pub fn sst_table_open(
        file: *const u8,
        len: usize,
        global_seqno: u64,
        pin_filter: bool,
        pin_index: bool,
        table: *mut sst_handle,
    ) -> u32;
    /// Opens a table over its bytes, without a copy. The bytes must stay.
    pub fn sst_table_open_kept(
        file: *const u8,
        len: usize,
        global_seqno: u64,
        pin_filter: bool,
        pin_index: bool,
        table: *mut sst_handle,
    ) -> u32;
    /// Finds the newest version of a key below a sequence number.
    pub fn sst_table_get(
        table: *mut sst_handle,
        key: *const u8,
        key_len: usize,
        seqno: u64,
        entry: *mut sst_entry,
    ) -> u32;
    /// Returns what a table claims about itself.
    pub fn sst_table_facts(table: *mut sst_handle, facts: *mut sst_facts) -> u32;
    /// Returns how much memory a table holds.
    pub fn sst_table_memory(table: *mut sst_handle, memory: *mut sst_memory) -> u32;
    /// Makes another handle of a table.
    pub fn sst_table_share(table: *mut sst_handle, other: *mut sst_handle) -> u32;
    /// Finds the newest versions of many keys below a sequence number.
    pub fn sst_table_get_many(
        table: *mut sst_handle,
        keys: *const u8,
        keys_len: usize,
        key_lens: *const u64,
        key_count: usize,
        seqno: u64,
        entries: *mut sst_entry,
        entry_room: usize,
        answers: *mut sst_handle,
    ) -> u32;
    /// Returns where the key and the value are that were found of one of many keys.
    pub fn sst_answers_lend(answers: *mut sst_handle, index: u64, lent: *mut sst_lent) -> u32;
    /// Copies the key and the value that were found of one of many keys.
    pub fn sst_answers_copy(
        answers: *mut sst_handle,
        index: u64,
        key: *mut u8,
        key_room: usize,
        value: *mut u8,
        value_room: usize,
    ) -> u32;
    /// Copies what was found of many keys, from an index on.
    pub fn sst_answers_take(
        answers: *mut sst_handle,
        first: u64,
        bytes: *mut u8,
        byte_room: usize,
        count: *mut u64,
    ) -> u32;
    /// Reads a whole table and reports its first fault.
    pub fn sst_table_verify(table: *mut sst_handle, verified: *mut sst_verified) -> u32;
    /// Compares the checksum of a table's file, then does the same.
    pub fn sst_table_verify_with(
        table: *mut sst_handle,
        checksum: u64,
        verified: *mut sst_verified,
    ) -> u32;
    /// Opens a verification by steps.
    pub fn sst_verification_open(table: *mut sst_handle, verification: *mut sst_handle) -> u32;
    /// Reads one further block of a verification.
    pub fn sst_verification_step(
        verification: *mut sst_handle,
        progress: *mut sst_progress,
        verified: *mut sst_verified,
    ) -> u32;

    /// Opens a range of a table.
    pub fn sst_range_open(
        table: *mut sst_handle,
        lower_kind: u32,
        lower: *const u8,
        lower_len: usize,
        upper_kind: u32,
        upper: *const u8,
        upper_len: usize,
        range: *mut sst_handle,
    ) -> u32;
    /// Reads the next entry of a range, from its front or its back.
    pub fn sst_range_next(range: *mut sst_handle, back: bool, entry: *mut sst_entry) -> u32;
    /// Reads the next entries of a range and copies them.
    pub fn sst_range_take(
        range: *mut sst_handle,
        back: bool,
        entries: *mut sst_entry,
        entry_room: usize,
        bytes: *mut u8,
        byte_room: usize,
        count: *mut u64,
        found: *mut sst_entry,
    ) -> u32;

    /// Opens a scan of a table.
    pub fn sst_scan_open(table: *mut sst_handle, scan: *mut sst_handle) -> u32;
    /// Reads the next entry of a scan.
    pub fn sst_scan_next(scan: *mut sst_handle, entry: *mut sst_entry) -> u32;
    /// Reads the next entries of a scan and copies them.
    pub fn sst_scan_take(
        scan: *mut sst_handle,
        entries: *mut sst_entry,
        entry_room: usize,
        bytes: *mut u8,
        byte_room: usize,
        count: *mut u64,
        found: *mut sst_entry,
    ) -> u32;

    /// Opens an empty list of runs.
    pub fn sst_runs_open(runs: *mut sst_handle) -> u32;
    /// Adds a table to a list of runs, after those that are there.
    pub fn sst_runs_add(runs: *mut sst_handle, table: *mut sst_handle) -> u32;
    /// Finds the newest version of a key below a sequence number in all runs.
    pub fn sst_runs_get(
        runs: *mut sst_handle,
        key: *const u8,
        key_len: usize,
        seqno: u64,
        entry: *mut sst_entry,
    ) -> u32;
    /// Opens a range of all runs together.
    pub fn sst_runs_range_open(
        runs: *mut sst_handle,
        lower_kind: u32,
        lower: *const u8,
        lower_len: usize,
        upper_kind: u32,
        upper: *const u8,
        upper_len: usize,
        seqno: u64,
        range: *mut sst_handle,
    ) -> u32;
    /// Opens a scan of all runs together, from the front.
    pub fn sst_runs_scan_open(
        runs: *mut sst_handle,
        lower_kind: u32,
        lower: *const u8,
        lower_len: usize,
        upper_kind: u32,
        upper: *const u8,
        upper_len: usize,
        seqno: u64,
        scan: *mut sst_handle,
    ) -> u32;

    /// Makes a list of as few runs as possible of the same tables.
    pub fn sst_runs_pack(runs: *mut sst_handle, packed: *mut sst_handle) -> u32;
    /// Finds which table goes into which of as few runs as possible.
    pub fn sst_packing_open(runs: *mut sst_handle, packing: *mut sst_handle) -> u32;
    /// Returns the number of runs of a packing.
    pub fn sst_packing_count(packing: *mut sst_handle, runs: *mut u64) -> u32;
    /// Returns the number of tables of a run of a packing.
    pub fn sst_packing_run(packing: *mut sst_handle, run: u64, tables: *mut u64) -> u32;
    /// Returns which table is at an index of a run of a packing.
    pub fn sst_packing_table(
        packing: *mut sst_handle,
        run: u64,
        place: u64,
        table: *mut u64,
    ) -> u32;
    /// Returns which table is at an index of the chain of a packing.
    pub fn sst_packing_chain(packing: *mut sst_handle, place: u64, table: *mut u64) -> u32;

    /// Fills in the default options.
    pub fn sst_options_default(options: *mut sst_options);
    /// Opens a writer of a table.
    pub fn sst_writer_open(options: *const sst_options, writer: *mut sst_handle) -> u32;
    /// Writes an entry.
    pub fn sst_writer_add(
        writer: *mut sst_handle,
        key: *const u8,
        key_len: usize,
        seqno: u64,
        kind: u32,
        value: *const u8,
        value_len: usize,
    ) -> u32;
    /// Writes entries one after another, up to the first that fails.
    pub fn sst_writer_add_many(
        writer: *mut sst_handle,
        entries: *const sst_entry,
        entry_count: usize,
        bytes: *const u8,
        byte_len: usize,
        count: *mut u64,
    ) -> u32;
    /// Finishes a table, which the handle then holds.
    pub fn sst_writer_finish(writer: *mut sst_handle) -> u32;

    /// Opens a writer of several tables, one after another.
    pub fn sst_multi_writer_open(
        options: *const sst_options,
        target_size: u64,
        writer: *mut sst_handle,
    ) -> u32;
    /// Writes an entry, and first begins the next table if one is due.
    pub fn sst_multi_writer_add(
        writer: *mut sst_handle,
        key: *const u8,
        key_len: usize,
        seqno: u64,
        kind: u32,
        value: *const u8,
        value_len: usize,
    ) -> u32;
    /// Stores the oldest finished table that was not taken.
    pub fn sst_multi_writer_take(
        writer: *mut sst_handle,
        files: *mut sst_handle,
        next_id: *mut u64,
    ) -> u32;
    /// Finishes a writer of several tables, and stores those that were not taken.
    pub fn sst_multi_writer_finish(
        writer: *mut sst_handle,
        files: *mut sst_handle,
        next_id: *mut u64,
    ) -> u32;

    /// Compacts a list of runs into new tables.
    pub fn sst_compact(
        runs: *mut sst_handle,
        options: *const sst_options,
        watermark: u64,
        evict_tombstones: bool,
        zero_seqnos: bool,
        target_size: u64,
        files: *mut sst_handle,
        next_id: *mut u64,
    ) -> u32;
    /// Opens a compaction of a list of runs that hands out each new table as soon as it is finished.
    pub fn sst_compaction_open(
        runs: *mut sst_handle,
        options: *const sst_options,
        watermark: u64,
        evict_tombstones: bool,
        zero_seqnos: bool,
        target_size: u64,
        compaction: *mut sst_handle,
    ) -> u32;
    /// Stores the next finished table of a compaction.
    pub fn sst_compaction_next(
        compaction: *mut sst_handle,
        files: *mut sst_handle,
        next_id: *mut u64,
    ) -> u32;

    /// Returns the number of finished tables.
    pub fn sst_files_count(files: *mut sst_handle, count: *mut u64) -> u32;
    /// Returns the id, the checksum and the length of a finished table.
    pub fn sst_files_tell(files: *mut sst_handle, index: u64, told: *mut sst_file) -> u32;
    /// Copies a finished table's bytes from an offset on.
    pub fn sst_files_copy(
        files: *mut sst_handle,
        index: u64,
        offset: u64,
        room: *mut u8,
        room_len: usize,
        count: *mut u64,
    ) -> u32;

    /// Copies the sentence of an error code.
    pub fn sst_strerror_copy(code: u32, room: *mut u8, room_len: usize) -> u64;
}
