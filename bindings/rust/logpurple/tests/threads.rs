//! Threads, each with a share of its own.

mod common;

use common::{collect, items, keys, newest, random_entries, seen, small, write, Entries};
use logpurple::{
    Answers, Compaction, MultiWriter, OpenOptions, Range, Runs, Scanner, Table, Verification,
    Writer, NEWEST,
};
use std::sync::{Arc, Barrier, Mutex};
use std::thread;

fn is_send<T: Send>() {}
fn is_sync<T: Sync>() {}

#[test]
fn all_that_is_held_goes_to_another_thread() {
    is_send::<(Table, Range, Scanner, Runs, Writer, MultiWriter, Answers, Verification)>();
    is_sync::<Table>();
}

/// Threads that read one table by a reference find what one thread finds.
#[test]
fn threads_read_one_table() {
    let entries = random_entries(7, 300);
    for table in tables(&entries) {
        let start = Barrier::new(5);
        thread::scope(|scope| {
            for _ in 0..4 {
                let (table, start, entries) = (&table, &start, &entries);
                scope.spawn(move || {
                    start.wait();
                    read_all(table, entries);
                    read_all(&table.clone(), entries);
                });
            }
            start.wait();
            read_all(&table, &entries);
        });
    }
}

fn read_all(table: &Table, entries: &Entries) {
    let keys = keys(entries);
    let expected: Vec<_> = keys.iter().map(|key| newest(entries, key, NEWEST)).collect();
    for (key, expected) in keys.iter().zip(&expected) {
        assert_eq!(&table.get(key, NEWEST).unwrap(), expected);
    }
    assert_eq!(table.get_many(&keys, NEWEST).unwrap(), expected);
    assert_eq!(collect(table.iter().unwrap()), items(entries));
    assert_eq!(collect(table.scan().unwrap()), items(entries));
    assert_eq!(table.verify().unwrap().item_count, entries.len() as u64);
}

/// Returns tables of which nothing was read, so that threads compare blocks at the same time.
fn tables(entries: &Entries) -> impl Iterator<Item = Table<'static>> + '_ {
    (0..8).map(move |seed| {
        let pinned = seed % 2 == 0;
        let options =
            OpenOptions { pin_filter: pinned, pin_index: pinned, ..OpenOptions::default() };
        options.open(write(&small(seed), &items(entries))).unwrap()
    })
}

#[test]
fn each_thread_reads_by_a_share() {
    let entries = random_entries(6, 300);
    for table in tables(&entries) {
        let start = Barrier::new(5);
        thread::scope(|scope| {
            for _ in 0..4 {
                let (share, start, entries) = (table.clone(), &start, &entries);
                scope.spawn(move || {
                    start.wait();
                    read_all(&share, entries);
                    let other = share.share().unwrap();
                    drop(share);
                    read_all(&other, entries);
                });
            }
            start.wait();
            read_all(&table, &entries);
        });
    }
}

#[test]
fn ranges_and_runs_of_one_table_are_read_at_once() {
    let entries = random_entries(7, 300);
    for table in tables(&entries) {
        let (range, many) = (table.iter().unwrap(), table.get_many_lent(&["a"], NEWEST).unwrap());
        let runs = Runs::from_tables([table.clone()]).unwrap();
        let over_runs = runs.iter(NEWEST).unwrap();
        drop(table);
        let entries = &entries;
        thread::scope(|scope| {
            scope.spawn(move || assert_eq!(collect(range), items(entries)));
            scope.spawn(move || assert_eq!(collect(over_runs), seen(entries, NEWEST)));
            scope.spawn(move || {
                let lent = many.get(0).map(|lent| lent.to_owned().unwrap());
                assert_eq!(lent, newest(entries, b"a", NEWEST));
            });
            scope.spawn(move || {
                let compacted = runs.compact(&Compaction::default()).unwrap();
                let table = Table::open(&compacted.tables[0]).unwrap();
                assert_eq!(collect(table.iter().unwrap()), kept_without_watermark(entries));
            });
        });
    }
}

fn kept_without_watermark(entries: &Entries) -> Vec<logpurple::InternalValue> {
    common::kept(entries, &Compaction::default())
}

#[test]
fn shares_are_made_and_let_go_at_once() {
    let entries = random_entries(8, 100);
    let table = tables(&entries).next().unwrap();
    thread::scope(|scope| {
        for _ in 0..4 {
            let mut share = table.clone();
            scope.spawn(move || {
                for _ in 0..500 {
                    let mut range = share.iter().unwrap();
                    share = share.clone();
                    assert!(range.next_back().unwrap().is_ok());
                }
            });
        }
    });
    read_all(&table, &entries);
}

/// Threads use one table in turns, by a lock.
#[test]
fn threads_take_turns_by_one_table() {
    let entries = random_entries(9, 100);
    let table = Arc::new(Mutex::new(tables(&entries).next().unwrap()));
    thread::scope(|scope| {
        for _ in 0..4 {
            let (table, entries) = (Arc::clone(&table), &entries);
            scope.spawn(move || {
                for key in keys(entries) {
                    let found = table.lock().unwrap().get(&key, NEWEST).unwrap();
                    assert_eq!(found, newest(entries, &key, NEWEST));
                }
            });
        }
    });
}

#[test]
fn writers_go_to_other_threads() {
    let entries = items(&random_entries(10, 100));
    let mut writer = Writer::new(3).unwrap();
    let (first, rest) = entries.split_at(50);
    for item in first {
        writer.write_item(item).unwrap();
    }
    let written = thread::scope(|scope| {
        let half = scope.spawn(move || {
            for item in rest {
                writer.write_item(item).unwrap();
            }
            writer.finish().unwrap().unwrap()
        });
        half.join().unwrap()
    });
    assert_eq!(collect(Table::open(written).unwrap().iter().unwrap()), entries);
}
