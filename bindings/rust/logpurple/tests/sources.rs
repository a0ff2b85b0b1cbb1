//! Prefixes, memtables and runs of several tables, compared with plain lists; and files.

mod common;

use common::{
    collect, items, keys, newest, random_entries, seen, small, spaced_entries, write, Dice, Entries,
};
use logpurple::{Error, FileError, InternalValue, Runs, Table, ValueType, Writer, NEWEST};
use std::cmp::Reverse;
use std::fs;
use std::path::PathBuf;

const PREFIXES: [&[u8]; 8] = [b"", b"a", b"ab", b"\0", b"\xff", b"\xff\xff", b"c\xff", b"zz"];

/// Returns several tables as one, and all their entries.
fn several() -> (Runs<'static>, Entries) {
    let mut all = Entries::new();
    let mut tables = Vec::new();
    for (seed, above) in [(1, 20), (2, 11), (3, 2)] {
        let entries = spaced_entries(seed, 150, above, 4);
        tables.push(Table::open(write(&small(seed), &items(&entries))).unwrap());
        all.extend(entries);
    }
    (Runs::from_tables(tables).unwrap(), all)
}

#[test]
fn a_prefix_has_the_keys_that_begin_with_it() {
    let (runs, all) = several();
    let table = &runs.tables()[1];
    let entries = collect(table.iter().unwrap());
    for prefix in PREFIXES {
        let is_of = |item: &&InternalValue| item.key.user_key.starts_with(prefix);
        let expected: Vec<_> = entries.iter().filter(is_of).cloned().collect();
        assert_eq!(collect(table.prefix(prefix).unwrap()), expected);
        for seqno in [NEWEST, 25] {
            let expected: Vec<_> = seen(&all, seqno).iter().filter(is_of).cloned().collect();
            assert_eq!(collect(runs.prefix(prefix, seqno).unwrap()), expected);
            let mut back = collect(runs.prefix(prefix, seqno).unwrap().rev());
            back.reverse();
            assert_eq!(back, expected);
        }
    }
}

/// Takes the items of a range from both ends, as dice have it.
fn collect_from_both(
    mut range: impl DoubleEndedIterator<Item = Result<InternalValue, Error>>,
    dice: &mut Dice,
) -> Vec<InternalValue> {
    let (mut front, mut back) = (Vec::new(), Vec::new());
    loop {
        let taken = if dice.below(2) == 0 {
            range.next().map(|item| front.push(item.unwrap()))
        } else {
            range.next_back().map(|item| back.push(item.unwrap()))
        };
        if taken.is_none() {
            assert!(range.next().is_none() && range.next_back().is_none());
            front.extend(back.into_iter().rev());
            return front;
        }
    }
}

#[test]
fn a_memtable_is_read_as_a_table() {
    let (runs, all) = several();
    let mut dice = Dice::new(11);
    for seed in 0..8 {
        let memtable =
            spaced_entries(100 + seed, 40 * seed as usize, [0, 9, 60][seed as usize % 3], 3);
        let mut both = all.clone();
        both.extend(memtable.clone());
        for seqno in [0, 13, 30, NEWEST] {
            let expected = seen(&both, seqno);
            let range = || runs.range_with::<&[u8], _, _>(.., seqno, items(&memtable)).unwrap();
            assert_eq!(collect(range()), expected);
            for _ in 0..4 {
                assert_eq!(collect_from_both(range(), &mut dice), expected);
            }
            let within = |item: &&InternalValue| {
                let key = &item.key.user_key[..];
                key >= &b"a\0"[..] && key < &b"c"[..]
            };
            let expected: Vec<_> = expected.iter().filter(within).cloned().collect();
            let range = runs.range_with("a\0".."c", seqno, items(&memtable)).unwrap();
            assert_eq!(collect_from_both(range, &mut dice), expected);
        }
    }
}

fn item(key: &str, seqno: u64, value: &str) -> InternalValue {
    InternalValue::from_components(key, value, seqno, ValueType::Value)
}

#[test]
fn the_memtable_has_the_version_that_both_have() {
    let table = Table::open(write(&small(1), &[item("a", 3, "table"), item("b", 3, "table")]));
    let runs = Runs::from_tables([table.unwrap()]).unwrap();
    let memtable = vec![item("a", 3, "memtable"), item("b", 2, "memtable")];
    let expected = [item("a", 3, "memtable"), item("b", 3, "table")];
    let range = || runs.range_with::<&str, _, _>(.., NEWEST, memtable.clone()).unwrap();
    assert_eq!(collect(range()), expected);
    assert!(collect(range().rev()).iter().rev().eq(&expected));
}

#[test]
fn a_memtable_out_of_order_is_an_error() {
    let (runs, _) = several();
    for memtable in [
        vec![item("b", 1, ""), item("a", 1, "")],
        vec![item("a", 1, ""), item("a", 2, "")],
        vec![item("a", 1, ""), item("a", 1, "")],
    ] {
        let range = || runs.range_with::<&str, _, _>(.., NEWEST, memtable.clone()).unwrap();
        assert_eq!(range().find_map(Result::err), Some(Error::OutOfOrder));
        let mut range = range().rev();
        assert_eq!(range.find_map(|item| item.err()), Some(Error::OutOfOrder));
        assert!(range.next().is_none());
    }
}

/// An error of the tables comes in their place, and ends the range from both ends.
#[test]
fn an_error_ends_the_range() {
    let entries = random_entries(5, 300);
    let file = write(&small(4), &items(&entries)).bytes;
    let mut damaged = file.clone();
    damaged[40] ^= 1;
    let runs = Runs::from_tables([Table::open(&damaged).unwrap()]).unwrap();
    let mut range = runs.range_with::<&str, _, _>(.., NEWEST, vec![item("b", 99, "")]).unwrap();
    assert_eq!(range.next(), Some(Err(Error::ChecksumMismatch)));
    assert_eq!((range.next(), range.next_back()), (None, None));
}

#[test]
fn runs_of_several_tables_are_read_as_one() {
    let mut all = Entries::new();
    let mut runs = Vec::new();
    for (seed, above) in [(1, 40), (2, 20), (3, 0)] {
        let entries = spaced_entries(seed, 120, above, 2);
        let (left, right): (Entries, Entries) =
            entries.clone().into_iter().partition(|((key, Reverse(_)), _)| &key[..] < b"b");
        runs.push(
            [left, right].map(|part| Table::open(write(&small(seed), &items(&part))).unwrap()),
        );
        all.extend(entries);
    }
    let runs = Runs::from_runs(runs).unwrap();
    assert_eq!((runs.tables().len(), runs.packing().unwrap().runs.len()), (6, 3));
    for seqno in [NEWEST, 45, 25] {
        assert_eq!(collect(runs.iter(seqno).unwrap()), seen(&all, seqno));
        for key in keys(&all) {
            assert_eq!(runs.get(&key, seqno).unwrap(), newest(&all, &key, seqno));
        }
    }
}

/// A folder that is removed when it is dropped.
struct Folder(PathBuf);

impl Folder {
    fn new(name: &str) -> Folder {
        let path = std::env::temp_dir().join(format!("logpurple-{name}-{}", std::process::id()));
        fs::create_dir(&path).unwrap();
        Folder(path)
    }

    fn names(&self) -> Vec<String> {
        let names = fs::read_dir(&self.0).unwrap();
        names.map(|entry| entry.unwrap().file_name().into_string().unwrap()).collect()
    }
}

impl Drop for Folder {
    fn drop(&mut self) {
        let _ = fs::remove_dir_all(&self.0);
    }
}

fn writer_of(entries: &[InternalValue]) -> Writer {
    let mut writer = small(2).open().unwrap();
    for entry in entries {
        writer.write_item(entry).unwrap();
    }
    writer
}

#[test]
fn a_table_is_written_to_a_file() {
    let folder = Folder::new("written");
    let path = folder.0.join("2.sst");
    let large = [item("a", 1, &"x".repeat(3_000_000)), item("b", 1, "")];
    for entries in [&items(&random_entries(3, 200))[..], &large] {
        let file = write(&small(2), entries);
        let written = writer_of(entries).finish_to(&path).unwrap().unwrap();
        assert_eq!(fs::read(&path).unwrap(), file.bytes);
        let told = (written.id, written.checksum, written.len);
        assert_eq!(told, (file.id, file.checksum, file.bytes.len() as u64));
        fs::write(&path, b"old").unwrap();
        file.save(&path).unwrap();
        assert_eq!(fs::read(&path).unwrap(), file.bytes);
        assert_eq!(folder.names(), ["2.sst"]);
    }
}

#[test]
fn a_file_that_cannot_be_written_leaves_nothing() {
    let folder = Folder::new("failed");
    let entries = [item("a", 1, "")];
    assert!(writer_of(&[]).finish_to(folder.0.join("none")).unwrap().is_none());
    assert!(folder.names().is_empty());
    fs::create_dir(folder.0.join("taken")).unwrap();
    for path in [folder.0.join("taken"), folder.0.join("missing/2.sst")] {
        let failed = writer_of(&entries).finish_to(&path).unwrap_err();
        assert!(matches!(failed, FileError::Io(_)), "{failed:?}");
        assert!(write(&small(2), &entries).save(&path).is_err());
        assert_eq!(folder.names(), ["taken"]);
    }
}
