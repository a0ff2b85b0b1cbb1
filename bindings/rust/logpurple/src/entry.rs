//! Entries: versions of keys.

use crate::handle::copy;
use crate::Error;

/// Sequence number of a version. A read at a sequence number sees the versions below it.
pub type SeqNo = u64;

/// The largest sequence number. A read at it finds the newest version below it.
///
/// A [`Writer`](crate::Writer) takes only entries below it. A global sequence number may raise an
/// entry to it.
pub const NEWEST: SeqNo = logpurple_sys::SST_NEWEST;

/// A key's bytes.
pub type UserKey = Vec<u8>;

/// A value's bytes.
pub type UserValue = Vec<u8>;

/// The kind of an entry.
#[derive(Clone, Copy, Debug, PartialEq, Eq, PartialOrd, Ord, Hash)]
pub enum ValueType {
    /// A value.
    Value,
    /// A deletion of every older version of the key.
    Tombstone,
    /// A deletion of the one version directly before it.
    WeakTombstone,
    /// A value that is stored elsewhere, which the entry's value points to.
    Indirection,
}

impl ValueType {
    /// Returns whether it is a deletion.
    pub fn is_tombstone(self) -> bool {
        matches!(self, ValueType::Tombstone | ValueType::WeakTombstone)
    }

    pub(crate) fn kind(self) -> u64 {
        match self {
            ValueType::Value => logpurple_sys::SST_VALUE,
            ValueType::Tombstone => logpurple_sys::SST_TOMBSTONE,
            ValueType::WeakTombstone => logpurple_sys::SST_WEAK_TOMBSTONE,
            ValueType::Indirection => logpurple_sys::SST_INDIRECTION,
        }
    }

    pub(crate) fn of_kind(kind: u64) -> Option<ValueType> {
        match kind {
            logpurple_sys::SST_VALUE => Some(ValueType::Value),
            logpurple_sys::SST_TOMBSTONE => Some(ValueType::Tombstone),
            logpurple_sys::SST_WEAK_TOMBSTONE => Some(ValueType::WeakTombstone),
            logpurple_sys::SST_INDIRECTION => Some(ValueType::Indirection),
            _ => None,
        }
    }
}

/// A key with the sequence number and the kind of a version. Keys ascend, and the newest version of
/// a key is first.
#[derive(Clone, Debug, PartialEq, Eq, Hash)]
pub struct InternalKey {
    /// The key.
    pub user_key: UserKey,
    /// The version's sequence number.
    pub seqno: SeqNo,
    /// The version's kind.
    pub value_type: ValueType,
}

/// An entry that owns its bytes.
#[derive(Clone, Debug, PartialEq, Eq, Hash)]
pub struct InternalValue {
    /// The key, with its sequence number and kind.
    pub key: InternalKey,
    /// The value.
    pub value: UserValue,
}

impl InternalValue {
    /// Makes an entry of these parts.
    pub fn from_components(
        key: impl Into<UserKey>,
        value: impl Into<UserValue>,
        seqno: SeqNo,
        value_type: ValueType,
    ) -> InternalValue {
        InternalValue {
            key: InternalKey { user_key: key.into(), seqno, value_type },
            value: value.into(),
        }
    }

    /// Returns whether it is a deletion.
    pub fn is_tombstone(&self) -> bool {
        self.key.value_type.is_tombstone()
    }
}

/// An entry whose bytes are borrowed from the object that found it.
#[derive(Clone, Copy, Debug, PartialEq, Eq, Hash)]
pub struct LentValue<'l> {
    /// The key.
    pub user_key: &'l [u8],
    /// The version's sequence number.
    pub seqno: SeqNo,
    /// The version's kind.
    pub value_type: ValueType,
    /// The value.
    pub value: &'l [u8],
}

impl LentValue<'_> {
    /// Copies the entry.
    ///
    /// # Errors
    ///
    /// `OutOfMemory`.
    pub fn to_owned(&self) -> Result<InternalValue, Error> {
        Ok(InternalValue {
            key: InternalKey {
                user_key: copy(self.user_key)?,
                seqno: self.seqno,
                value_type: self.value_type,
            },
            value: copy(self.value)?,
        })
    }
}
