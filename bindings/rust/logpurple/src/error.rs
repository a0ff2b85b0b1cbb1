//! Errors.

use std::fmt;

macro_rules! refusals {
    ($($(#[$doc:meta])* $number:literal $name:ident $sentence:literal,)*) => {
        /// The error of a call.
        #[derive(Clone, Copy, Debug, PartialEq, Eq, Hash)]
        #[non_exhaustive]
        pub enum Error {
            $($(#[$doc])* $name,)*
            /// An error code that this crate does not know.
            Unknown(u32),
        }

        impl Error {
            pub(crate) fn of(number: u32) -> Error {
                match number {
                    $($number => Error::$name,)*
                    other => Error::Unknown(other),
                }
            }

            /// Returns the error code: 1 to 24 are the library's, codes from 100 on are those of
            /// the calls.
            pub fn number(&self) -> u32 {
                match self {
                    $(Error::$name => $number,)*
                    Error::Unknown(number) => *number,
                }
            }
        }

        impl fmt::Display for Error {
            fn fmt(&self, out: &mut fmt::Formatter<'_>) -> fmt::Result {
                match self {
                    $(Error::$name => out.write_str($sentence),)*
                    Error::Unknown(number) => write!(out, "refusal {number}"),
                }
            }
        }
    };
}

refusals! {
    /// An allocation failed.
    1 OutOfMemory "out of memory",
    /// A block reaches past the sections.
    2 Truncated "a block reaches past the sections",
    /// The header of a block is invalid.
    3 InvalidHeader "invalid block header",
    /// A block is of another kind than required.
    4 InvalidTag "a block of another kind",
    /// A block was damaged.
    5 ChecksumMismatch "checksum mismatch",
    /// The payload of a block is invalid.
    6 InvalidBlock "invalid block payload",
    /// A key has more than 1,048,576 bytes.
    7 KeyTooLong "key too long",
    /// A value has 2^32 bytes or more.
    8 ValueTooLong "value too long",
    /// A block would have 2^32 bytes or more.
    9 BlockTooLarge "block too large",
    /// A section would have, or has, 2^32 bytes or more.
    10 SectionTooLarge "section too large",
    /// The bytes do not end as a table does.
    11 InvalidTrailer "invalid trailer",
    /// A required section is missing.
    12 MissingSection "missing section",
    /// A required item of the meta block is missing.
    13 MetaKeyMissing "missing meta item",
    /// The value of an item of the meta block is too short.
    14 InvalidMetaValue "invalid meta value",
    /// The table's version is not 3 or 4.
    15 UnsupportedTableVersion "unsupported table version",
    /// The filter uses another hash function.
    16 UnsupportedHashType "unsupported hash type",
    /// The table uses another checksum.
    17 UnsupportedChecksumType "unsupported checksum type",
    /// The restart interval of the index is not 1.
    18 UnsupportedIndexInterval "unsupported index restart interval",
    /// A block is compressed.
    19 UnsupportedCompression "unsupported compression",
    /// The highest stored sequence number plus the global one exceeds 64 bits.
    20 GlobalSeqNoTooLarge "global sequence number too large",
    /// The sequence number of an entry plus the global one exceeds 64 bits.
    21 SeqNoOverflow "sequence number overflow",
    /// No id is left for a further table.
    22 TableIdsSpent "table ids spent",
    /// The writer has failed before.
    23 WriterFailed "the writer has failed",
    /// A source of entries failed.
    24 Source "source error",
    /// A handle holds nothing. No safe call returns this.
    100 Closed "the handle is closed",
    /// A handle to fill holds something. No safe call returns this.
    101 AlreadyOpen "the handle is open",
    /// A handle holds something of another kind. No safe call returns this.
    102 OtherKind "the handle holds another kind",
    /// A buffer is too small. No safe call returns this.
    103 NoRoom "the room is too small",
    /// An entry does not follow the one before it, or a table's least key is above its greatest.
    104 OutOfOrder "an entry is out of order",
    /// An option of `Options` is out of its range.
    105 NoSuch "there is no such number",
    /// Nothing was found. No safe call returns this: it returns `None`.
    106 Nothing "nothing was found",
    /// A table is invalid. `Table::verify` returns `VerifyError::Found` instead.
    107 Faulty "the table is not sound",
}

impl std::error::Error for Error {}

pub(crate) fn test(number: u32) -> Result<(), Error> {
    match number {
        0 => Ok(()),
        refused => Err(Error::of(refused)),
    }
}
