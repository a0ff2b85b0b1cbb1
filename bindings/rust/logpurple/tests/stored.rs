//! The stored tables of the repository, which other programs wrote. Each is read, and written again
//! if its entries are known.

mod common;

use common::{collect, kept, seen, write, Entries};
use logpurple::{Compaction, InternalValue, Options, Runs, Table, ValueType, NEWEST};
use std::cmp::Reverse;
use std::fs;

/// A stored table: its bytes and, if they are known, its entries and options.
#[derive(Default)]
struct Stored {
    bytes: Vec<u8>,
    items: Vec<InternalValue>,
    options: Option<Options>,
}

fn bytes_of(word: &str) -> Vec<u8> {
    if word == "-" {
        return Vec::new();
    }
    let digits = |at| u8::from_str_radix(&word[at..at + 2], 16).unwrap();
    (0..word.len()).step_by(2).map(digits).collect()
}

fn item_of(words: &[&str]) -> InternalValue {
    let value_type = match words[2] {
        "1" => ValueType::Tombstone,
        "2" => ValueType::WeakTombstone,
        "4" => ValueType::Indirection,
        _ => ValueType::Value,
    };
    let (key, value) = (bytes_of(words[0]), bytes_of(words[3]));
    InternalValue::from_components(key, value, words[1].parse().unwrap(), value_type)
}

/// Returns the options of a list of words: id, level and timestamp. More words are the kinds of
/// index and filter, the sizes of partitions and blocks, tenths of a bit per key, and the restart
/// interval.
fn options_of(words: &[&str]) -> Options {
    let number = |at: usize| words[at].parse::<u64>().unwrap();
    let told = Options {
        id: number(0),
        level: number(1) as u8,
        created_at: number(2),
        ..Options::default()
    };
    if words.len() == 3 {
        return told;
    }
    Options {
        index_partition_size: (number(4) * number(6)) as u32,
        filter_partition_size: (number(5) * number(6)) as u32,
        data_block_size: number(7) as u32,
        filter_bits_per_key: number(8) as u32,
        data_block_restart_interval: number(9) as u8,
        ..told
    }
}

fn stored() -> Vec<Stored> {
    let path = concat!(env!("CARGO_MANIFEST_DIR"), "/../../../crates/test_vectors/stdin");
    let mut tables: Vec<Stored> = Vec::new();
    for line in fs::read_to_string(path).unwrap().lines() {
        let words: Vec<_> = line.split(' ').collect();
        match (words[0], tables.last_mut()) {
            ("table", _) => tables.push(Stored { bytes: bytes_of(words[1]), ..Stored::default() }),
            ("entry", Some(table)) => table.items.push(item_of(&words[1..])),
            ("write", Some(table)) => table.options = Some(options_of(&words[1..])),
            _ => {}
        }
    }
    tables
}

fn entries_of(items: &[InternalValue]) -> Entries {
    let key_of = |item: &InternalValue| (item.key.user_key.clone(), Reverse(item.key.seqno));
    let entry_of = |item: &InternalValue| (item.key.value_type, item.value.clone());
    items.iter().map(|item| (key_of(item), entry_of(item))).collect()
}

/// Compares what runs of some entries read, and what a compaction keeps of them.
fn several_are_read(runs: Runs, entries: &Entries) {
    for seqno in [1, 5, NEWEST] {
        assert_eq!(collect(runs.iter(seqno).unwrap()), seen(entries, seqno));
    }
    for (watermark, evict_tombstones, zero_seqnos) in
        [(0, false, false), (7, true, false), (NEWEST, true, true)]
    {
        let by = Compaction { watermark, evict_tombstones, zero_seqnos, ..Compaction::default() };
        let tables = runs.compact(&by).unwrap().tables.into_iter();
        let written: Vec<_> =
            tables.flat_map(|table| collect(Table::open(table).unwrap().iter().unwrap())).collect();
        assert_eq!(written, kept(entries, &by));
    }
}

#[test]
fn stored_tables_are_read() {
    let tables = stored();
    assert!(tables.len() > 30);
    for stored in &tables {
        let table = Table::open(&stored.bytes).unwrap();
        let read: Vec<_> = table.iter().unwrap().map(Result::unwrap).collect();
        assert_eq!(collect(table.scan().unwrap()), read);
        let mut back: Vec<_> = table.iter().unwrap().rev().map(Result::unwrap).collect();
        back.reverse();
        assert_eq!(read, back);
        assert_eq!(table.verify().unwrap().item_count, read.len() as u64);
        for item in &read {
            let found = table.get(&item.key.user_key, item.key.seqno + 1).unwrap();
            assert_eq!(found.as_ref(), Some(item));
        }
        let keys: Vec<_> = read.iter().map(|item| item.key.user_key.clone()).collect();
        for seqno in [1, 5, NEWEST] {
            let singly = keys.iter().map(|key| table.get(key, seqno).unwrap());
            assert!(table.get_many(&keys, seqno).unwrap().into_iter().eq(singly));
        }
        several_are_read(Runs::from_tables([table]).unwrap(), &entries_of(&read));
        if stored.options.is_some() {
            assert_eq!(read, stored.items);
        }
    }
}

#[test]
fn stored_tables_are_written_again() {
    let mut count = 0;
    for stored in stored() {
        if let Some(options) = stored.options {
            assert!(write(&options, &stored.items).bytes == stored.bytes, "{options:?}");
            count += 1;
        }
    }
    assert!(count > 10);
}
