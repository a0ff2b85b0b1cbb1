//! Shared by the tests: lists of entries, and tables of them.
#![allow(dead_code)]

use logpurple::{Compaction, Error, FinishedTable, InternalValue, Options, SeqNo, ValueType};
use std::cmp::Reverse;
use std::collections::BTreeMap;

/// Pseudo-random numbers, which are the same in each run.
pub struct Dice(u64);

impl Dice {
    pub fn new(seed: u64) -> Dice {
        Dice(seed.wrapping_mul(0x9e37_79b9_7f4a_7c15) | 1)
    }

    pub fn below(&mut self, bound: u64) -> u64 {
        self.0 ^= self.0 << 13;
        self.0 ^= self.0 >> 7;
        self.0 ^= self.0 << 17;
        self.0 % bound
    }

    pub fn bytes(&mut self, letters: &[u8], longest: u64) -> Vec<u8> {
        let len = self.below(longest + 1);
        (0..len).map(|_| letters[self.below(letters.len() as u64) as usize]).collect()
    }
}

pub type Entries = BTreeMap<(Vec<u8>, Reverse<SeqNo>), (ValueType, Vec<u8>)>;

/// Returns random versions of few keys, in the order of a table.
pub fn random_entries(seed: u64, count: usize) -> Entries {
    spaced_entries(seed, count, 0, 1)
}

/// Returns such entries with sequence numbers above one number, and a step apart.
pub fn spaced_entries(seed: u64, count: usize, above: SeqNo, step: SeqNo) -> Entries {
    let mut dice = Dice::new(seed);
    let mut entries = Entries::new();
    for _ in 0..count {
        let key = dice.bytes(b"abc\0", 5);
        let entry = match dice.below(6) {
            0 => (ValueType::Tombstone, Vec::new()),
            1 => (ValueType::WeakTombstone, Vec::new()),
            2 => (ValueType::Indirection, dice.bytes(b"xyz\0", 4)),
            _ => (ValueType::Value, dice.bytes(b"xyz\0", 4)),
        };
        entries.insert((key, Reverse(above + step * (1 + dice.below(9)))), entry);
    }
    entries
}

pub fn items(entries: &Entries) -> Vec<InternalValue> {
    entries
        .iter()
        .map(|((key, Reverse(seqno)), (value_type, value))| {
            InternalValue::from_components(key.clone(), value.clone(), *seqno, *value_type)
        })
        .collect()
}

/// Returns the newest version of a key below a sequence number.
pub fn newest(entries: &Entries, key: &[u8], seqno: SeqNo) -> Option<InternalValue> {
    let below = seqno.checked_sub(1)?;
    let from = (key.to_vec(), Reverse(below));
    let (found, entry) = entries.range(from..).next()?;
    (found.0 == key)
        .then(|| InternalValue::from_components(key, entry.1.clone(), found.1 .0, entry.0))
}

/// Returns options for small blocks, with and without partitions and a filter.
pub fn small(seed: u64) -> Options {
    Options {
        id: seed,
        data_block_size: 64,
        data_block_hash_ratio: 500 * (seed as u32 % 3),
        index_partition_size: 100 * (seed as u32 % 2),
        filter_partition_size: 50 * (seed as u32 / 2 % 2),
        filter_bits_per_key: 100 * u32::from(seed % 5 > 0),
        ..Options::default()
    }
}

pub fn collect<I>(range: I) -> Vec<InternalValue>
where
    I: Iterator<Item = Result<InternalValue, Error>>,
{
    range.map(Result::unwrap).collect()
}

/// Returns the newest version of each key below a sequence number, in order.
pub fn seen(entries: &Entries, seqno: SeqNo) -> Vec<InternalValue> {
    let mut found = Entries::new();
    let mut last = None;
    for ((key, number), entry) in entries {
        if number.0 < seqno && last != Some(key) {
            found.insert((key.clone(), *number), entry.clone());
            last = Some(key);
        }
    }
    items(&found)
}

/// Returns the entries that a compaction keeps of sorted entries.
pub fn kept(entries: &Entries, by: &Compaction) -> Vec<InternalValue> {
    let mut of_keys: BTreeMap<Vec<u8>, Vec<InternalValue>> = BTreeMap::new();
    for item in items(entries) {
        of_keys.entry(item.key.user_key.clone()).or_default().push(item);
    }
    of_keys.values().flat_map(|versions| kept_of_key(versions, by)).collect()
}

fn kept_of_key(versions: &[InternalValue], by: &Compaction) -> Vec<InternalValue> {
    let cut = versions.iter().position(|item| item.key.seqno < by.watermark);
    let count = cut.map_or(versions.len(), |cut| cut + 1);
    let (heads, older) = versions.split_at(count);
    let last = heads[count - 1].key.value_type;
    let goes = match (last, older.first()) {
        (ValueType::WeakTombstone, Some(hidden)) => hidden.key.value_type == ValueType::Value,
        _ => by.evict_tombstones && last.is_tombstone(),
    };
    let mut kept = heads[..count - usize::from(goes)].to_vec();
    for item in &mut kept {
        if by.zero_seqnos && item.key.seqno < by.watermark {
            item.key.seqno = 0;
        }
    }
    kept
}

pub fn write(options: &Options, items: &[InternalValue]) -> FinishedTable {
    let mut writer = options.open().unwrap();
    for item in items {
        writer.write_item(item).unwrap();
    }
    writer.finish().unwrap().expect("entries were written")
}

/// Returns the keys of some entries, and some that none has.
pub fn keys(entries: &Entries) -> Vec<Vec<u8>> {
    let mut keys: Vec<_> = entries.keys().map(|(key, _)| key.clone()).collect();
    keys.dedup();
    keys.extend([b"zz".to_vec(), vec![b'c'; 9]]);
    keys
}
