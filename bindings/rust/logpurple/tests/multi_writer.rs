//! Writers of several tables: their tables are those of a compaction, whenever they are taken.

mod common;

use common::{collect, items, random_entries, write};
use logpurple::{
    Compaction, Error, FinishedTable, InternalValue, MultiWriter, Options, Runs, Table, ValueType,
};
use std::iter;

const TARGET_SIZES: [u64; 5] = [0, 1, 100, 500, u64::MAX];

fn options() -> Options {
    Options { id: 9, data_block_size: 64, ..Options::default() }
}

/// Writes entries, and takes the finished tables after every `step` of them.
fn tables(
    entries: &[InternalValue],
    target_size: u64,
    step: usize,
) -> (Vec<FinishedTable>, Option<u64>) {
    let mut writer = options().open_multi(target_size).unwrap();
    let mut tables = Vec::new();
    for (item, count) in entries.iter().zip(1..) {
        writer.write_item(item).unwrap();
        if count % step == 0 {
            tables.extend(iter::from_fn(|| writer.take_finished().unwrap()));
        }
    }
    let (rest, next_id) = writer.finish().unwrap();
    tables.extend(rest);
    (tables, next_id)
}

fn put(writer: &mut MultiWriter, key: &str) -> Result<(), Error> {
    writer.write(key.as_bytes(), 1, ValueType::Value, b"")
}

#[test]
fn tables_are_those_of_a_compaction() {
    let entries = items(&random_entries(11, 150));
    let runs = Runs::from_tables([Table::open(write(&options(), &entries)).unwrap()]).unwrap();
    for target_size in TARGET_SIZES {
        let by = Compaction { target_size, options: options(), ..Compaction::default() };
        let wanted = runs.compact(&by).unwrap();
        for step in [1, 7, 1000] {
            let (tables, next_id) = tables(&entries, target_size, step);
            assert_eq!((&tables, next_id), (&wanted.tables, wanted.next_id));
            let tables = tables.iter().map(|table| Table::open(table).unwrap());
            let read: Vec<_> = tables.flat_map(|table| collect(table.iter().unwrap())).collect();
            assert_eq!(read, entries);
        }
    }
}

#[test]
fn a_writer_without_entries_has_no_table() {
    for target_size in TARGET_SIZES {
        let mut writer = MultiWriter::new(4, target_size).unwrap();
        assert_eq!(writer.take_finished(), Ok(None));
        assert_eq!(writer.finish(), Ok((Vec::new(), Some(5))));
    }
    let last = MultiWriter::new(u64::MAX, 0).unwrap();
    assert_eq!(last.finish(), Ok((Vec::new(), None)));
}

#[test]
fn an_entry_out_of_order_leaves_the_writer() {
    let mut writer = MultiWriter::new(4, 0).unwrap();
    put(&mut writer, "b").unwrap();
    assert_eq!(put(&mut writer, "a"), Err(Error::OutOfOrder));
    assert_eq!(put(&mut writer, "b"), Err(Error::OutOfOrder));
    assert_eq!(writer.write(b"c", u64::MAX, ValueType::Value, b""), Err(Error::OutOfOrder));
    assert_eq!(writer.take_finished(), Ok(None));
    put(&mut writer, "c").unwrap();
    let (tables, next_id) = writer.finish().unwrap();
    let ids: Vec<_> = tables.iter().map(|table| table.id).collect();
    assert_eq!((ids, next_id), (vec![5, 6], Some(7)));
}

#[test]
fn finished_tables_are_taken_after_an_error() {
    let mut writer = MultiWriter::new(u64::MAX - 2, 0).unwrap();
    put(&mut writer, "a").unwrap();
    put(&mut writer, "b").unwrap();
    assert_eq!(put(&mut writer, "c"), Err(Error::TableIdsSpent));
    assert_eq!(put(&mut writer, "c"), Err(Error::WriterFailed));
    let table = writer.take_finished().unwrap().unwrap();
    assert_eq!(table.id, u64::MAX - 1);
    assert_eq!(writer.take_finished(), Ok(None));
    assert_eq!(writer.finish(), Err(Error::WriterFailed));
}

#[test]
fn options_out_of_range_are_refused() {
    let unusable = Options { data_block_restart_interval: 0, ..Options::default() };
    assert_eq!(unusable.open_multi(0).err(), Some(Error::NoSuch));
}
