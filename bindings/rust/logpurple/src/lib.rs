//! Sorted tables of a log-structured store: written, read from both ends, compacted and verified.
//!
//! A table is bytes. Each entry has a key, a sequence number, a kind and a value:
//!
//! ```
//! use logpurple::{Table, ValueType, Writer, NEWEST};
//!
//! # fn main() -> Result<(), Box<dyn std::error::Error>> {
//! let mut writer = Writer::new(1)?;
//! writer.write(b"apple", 2, ValueType::Value, b"red")?;
//! writer.write(b"apple", 1, ValueType::Value, b"green")?;
//! writer.write(b"pear", 3, ValueType::Tombstone, b"")?;
//! let file = writer.finish()?.expect("entries were written");
//!
//! let table = Table::open(&file)?;
//! assert_eq!(table.get(b"apple", NEWEST)?.unwrap().value, b"red");
//! assert_eq!(table.get(b"apple", 2)?.unwrap().value, b"green");
//! assert!(table.get(b"pear", NEWEST)?.unwrap().is_tombstone());
//! for item in table.range("b".."z")?.rev() {
//!     assert_eq!(item?.key.user_key, b"pear");
//! }
//! assert_eq!(table.verify()?.item_count, 3);
//! # Ok(())
//! # }
//! ```
//!
//! This crate wraps the calls of `sst.h`. Their contracts are proved, and the wrapper is not. Its
//! types ensure three things:
//!
//! - A handle is closed when it is dropped.
//! - No call gets a handle of another kind.
//! - A borrowed entry ends before the next read.
//!
//! Any call that returns a `Result` may fail with `OutOfMemory`.

#![deny(missing_docs)]
#![deny(unsafe_op_in_unsafe_fn)]

mod answers;
mod compact;
mod entry;
mod error;
mod files;
mod handle;
mod memtable;
mod multi_writer;
mod packing;
mod range;
mod runs;
mod scanner;
mod steps;
mod table;
mod verification;
mod verify;
mod writer;

pub use answers::Answers;
pub use compact::{CompactEach, Compacted, Compaction};
pub use entry::{
    InternalKey, InternalValue, LentValue, SeqNo, UserKey, UserValue, ValueType, NEWEST,
};
pub use error::Error;
pub use files::{FileError, WrittenFile};
pub use memtable::RangeWith;
pub use multi_writer::MultiWriter;
pub use packing::Packing;
pub use range::Range;
pub use runs::Runs;
pub use scanner::Scanner;
pub use table::{Memory, Metadata, OpenOptions, Table};
pub use verification::Verification;
pub use verify::{Fault, Finding, SectionName, Verified, VerifyError};
pub use writer::{FinishedTable, Options, Writer};

/// Returns the version of the library's calls.
pub fn version() -> u32 {
    // SAFETY: the call takes no argument.
    unsafe { logpurple_sys::sst_version() }
}
