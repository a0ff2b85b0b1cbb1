//! Results of many reads in one call.

use crate::error::test;
use crate::handle::{lent_by, room, Handle};
use crate::{Error, InternalValue, LentValue, SeqNo, Table};
use logpurple_sys as sys;

/// The results of [`Table::get_many_lent`], in the order of the keys. Entries are borrowed from
/// it:
///
/// ```compile_fail,E0505
/// fn keep(answers: logpurple::Answers) {
///     let first = answers.get(0).unwrap();
///     drop(answers);
///     drop(first);
/// }
/// ```
#[derive(Debug)]
pub struct Answers<'f> {
    handle: Handle<'f>,
    told: Vec<sys::sst_entry>,
}

impl<'f> Answers<'f> {
    pub(crate) fn of<K: AsRef<[u8]>>(
        table: &Table<'f>,
        keys: &[K],
        seqno: SeqNo,
    ) -> Result<Answers<'f>, Error> {
        let handle = Handle::closed();
        let (joined, lens) = joined(keys)?;
        let mut told = room(keys.len())?;
        told.resize(keys.len(), sys::sst_entry::default());
        // SAFETY: keys and lengths are read during the call only, there is an entry for each key,
        // and the handle holds nothing.
        table.handles.with(|first| {
            test(unsafe {
                sys::sst_table_get_many(
                    first.words(),
                    joined.as_ptr(),
                    joined.len(),
                    lens.as_ptr(),
                    lens.len(),
                    seqno,
                    told.as_mut_ptr(),
                    told.len(),
                    handle.words(),
                )
            })
        })?;
        Ok(Answers { handle, told })
    }

    /// Returns the number of keys that were read.
    pub fn len(&self) -> usize {
        self.told.len()
    }

    /// Returns whether no key was read.
    pub fn is_empty(&self) -> bool {
        self.told.is_empty()
    }

    /// Returns the entry found for the key at an index, from 0 on.
    ///
    /// Returns `None` if the key has no version below the sequence number, or if there is no such
    /// index.
    pub fn get(&self, place: usize) -> Option<LentValue<'_>> {
        let told = *self.told.get(place)?;
        // SAFETY: both are references of the call. The lent bytes are valid until the answers are
        // closed, and the answers are borrowed for as long.
        let lent = unsafe {
            lent_by(told, |lent| sys::sst_answers_lend(self.handle.words(), place as u64, lent))
        };
        lent.expect("what was told to be found is lent")
    }

    /// Iterates over the results, in the order of the keys.
    pub fn iter<'l>(&'l self) -> impl ExactSizeIterator<Item = Option<LentValue<'l>>> + 'l {
        (0..self.len()).map(move |place| self.get(place))
    }

    /// Copies all results.
    ///
    /// # Errors
    ///
    /// `OutOfMemory`.
    pub fn to_owned(&self) -> Result<Vec<Option<InternalValue>>, Error> {
        let mut copied = room(self.len())?;
        for lent in self.iter() {
            copied.push(lent.map(|lent| lent.to_owned()).transpose()?);
        }
        Ok(copied)
    }
}

// Returns the keys one after another, and the length of each.
fn joined<K: AsRef<[u8]>>(keys: &[K]) -> Result<(Vec<u8>, Vec<u64>), Error> {
    let mut bytes = Vec::new();
    let mut lens = room(keys.len())?;
    for key in keys {
        let key = key.as_ref();
        bytes.try_reserve(key.len()).map_err(|_| Error::OutOfMemory)?;
        bytes.extend_from_slice(key);
        lens.push(key.len() as u64);
    }
    Ok((bytes, lens))
}
