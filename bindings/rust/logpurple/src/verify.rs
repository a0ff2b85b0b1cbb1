//! Results of a verification.

use crate::Error;
use logpurple_sys as sys;
use std::fmt;

/// The counts of a valid table.
#[derive(Clone, Copy, Debug, PartialEq, Eq)]
pub struct Verified {
    /// Number of data blocks.
    pub data_block_count: u64,
    /// Number of entries.
    pub item_count: u64,
}

/// The error of a verification.
#[derive(Clone, Copy, Debug, PartialEq, Eq)]
pub enum VerifyError {
    /// The bytes do not store a list of entries in order, or have another checksum than the given
    /// one.
    Found(Finding),
    /// An allocation failed. The table may be valid.
    Refused(Error),
}

/// The first fault of a table, and its position.
#[derive(Clone, Copy, Debug, PartialEq, Eq)]
pub struct Finding {
    /// The section of the block.
    pub section: SectionName,
    /// Offset in the file at which the block starts, in bytes. Another checksum is reported at 0.
    pub offset: u64,
    /// The fault.
    pub fault: Fault,
}

/// A section of a table.
#[derive(Clone, Copy, Debug, PartialEq, Eq, Hash)]
#[non_exhaustive]
pub enum SectionName {
    /// The data blocks.
    Data,
    /// The partitions of a partitioned index.
    Index,
    /// The top level of the index, or the whole of it.
    Tli,
    /// The full filter, or the partitions of a partitioned one.
    Filter,
    /// The top level of a partitioned filter.
    FilterTli,
    /// The version of the table.
    TableVersion,
    /// The meta block.
    Meta,
    /// A number that this crate does not know.
    Unknown(u32),
}

/// A fault of a block or of a whole file.
#[derive(Clone, Copy, Debug, PartialEq, Eq, Hash)]
#[non_exhaustive]
pub enum Fault {
    /// The block does not load.
    Unloaded(Error),
    /// The block is empty.
    Hollow,
    /// The block does not start where the one before it ends.
    Misplaced,
    /// An entry has the largest sequence number.
    TooHigh,
    /// An entry does not follow the one before it.
    Unordered,
    /// The filter has a false negative: it excludes a key of the table.
    Denied,
    /// A block of the filter does not load.
    Unfiltered(Error),
    /// The block does not end with the key of its index entry.
    OtherKey,
    /// The block does not end with the sequence number of its index entry.
    OtherNumber,
    /// The entries do not match an item of the meta block.
    Unborne,
    /// The index has no entry for a data block.
    Unnamed,
    /// The file has another checksum than the given one.
    OtherChecksum,
    /// A number that this crate does not know.
    Unknown(u32),
}

impl Verified {
    pub(crate) fn of(code: u32, told: &sys::sst_verified) -> Result<Verified, VerifyError> {
        match code {
            0 => Ok(Verified {
                data_block_count: told.data_block_count,
                item_count: told.item_count,
            }),
            sys::SST_FAULTY => Err(VerifyError::Found(Finding {
                section: SectionName::of(told.section),
                offset: told.offset,
                fault: Fault::of(told.fault, told.detail),
            })),
            refused => Err(VerifyError::Refused(Error::of(refused))),
        }
    }
}

impl SectionName {
    fn of(number: u32) -> SectionName {
        match number {
            sys::SST_SECTION_DATA => SectionName::Data,
            sys::SST_SECTION_INDEX => SectionName::Index,
            sys::SST_SECTION_TLI => SectionName::Tli,
            sys::SST_SECTION_FILTER => SectionName::Filter,
            sys::SST_SECTION_FILTER_TLI => SectionName::FilterTli,
            sys::SST_SECTION_TABLE_VERSION => SectionName::TableVersion,
            sys::SST_SECTION_META => SectionName::Meta,
            other => SectionName::Unknown(other),
        }
    }
}

impl Fault {
    fn of(number: u32, detail: u32) -> Fault {
        match number {
            sys::SST_FAULT_UNLOADED => Fault::Unloaded(Error::of(detail)),
            sys::SST_FAULT_HOLLOW => Fault::Hollow,
            sys::SST_FAULT_MISPLACED => Fault::Misplaced,
            sys::SST_FAULT_TOO_HIGH => Fault::TooHigh,
            sys::SST_FAULT_UNORDERED => Fault::Unordered,
            sys::SST_FAULT_DENIED => Fault::Denied,
            sys::SST_FAULT_UNFILTERED => Fault::Unfiltered(Error::of(detail)),
            sys::SST_FAULT_OTHER_KEY => Fault::OtherKey,
            sys::SST_FAULT_OTHER_NUMBER => Fault::OtherNumber,
            sys::SST_FAULT_UNBORNE => Fault::Unborne,
            sys::SST_FAULT_UNNAMED => Fault::Unnamed,
            sys::SST_FAULT_OTHER_CHECKSUM => Fault::OtherChecksum,
            other => Fault::Unknown(other),
        }
    }
}

impl fmt::Display for VerifyError {
    fn fmt(&self, out: &mut fmt::Formatter<'_>) -> fmt::Result {
        match self {
            VerifyError::Found(Finding { section, offset, fault }) => {
                write!(out, "the table is not sound: {fault:?} in {section:?} at {offset}")
            }
            VerifyError::Refused(error) => error.fmt(out),
        }
    }
}

impl std::error::Error for VerifyError {}
