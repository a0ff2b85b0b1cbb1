//! Several tables, read as one and compacted.

mod common;

use common::{
    collect, items, kept, keys, newest, random_entries, seen, small, spaced_entries, write, Dice,
    Entries,
};
use logpurple::{Compaction, Error, Options, Runs, Table, ValueType, NEWEST};
use std::cmp::Reverse;
use std::ops::Bound;

/// Returns tables of random entries, the newest first, and all entries together.
fn several() -> (Runs<'static>, Entries) {
    let mut all = Entries::new();
    let mut tables = Vec::new();
    for (seed, above) in [(1, 20), (2, 11), (3, 2), (4, 1)] {
        let entries = spaced_entries(seed, 150, above, 4);
        tables.push(Table::open(write(&small(seed), &items(&entries))).unwrap());
        all.extend(entries);
    }
    (Runs::from_tables(tables).unwrap(), all)
}

#[test]
fn the_newest_of_several_tables_is_found() {
    let older = random_entries(9, 200);
    let newer: Entries = random_entries(10, 200)
        .into_iter()
        .map(|((key, Reverse(seqno)), entry)| ((key, Reverse(seqno + 10)), entry))
        .collect();
    let tables =
        [&newer, &older].map(|entries| Table::open(write(&small(2), &items(entries))).unwrap());
    let mut runs = Runs::from_tables(tables).unwrap();
    let both: Entries = newer.iter().chain(&older).map(|(k, e)| (k.clone(), e.clone())).collect();
    for key in keys(&both) {
        for seqno in (0..21).chain([NEWEST]) {
            let expected = newest(&both, &key, seqno);
            assert_eq!(runs.get(&key, seqno).unwrap(), expected);
            let lent = runs.get_lent(&key, seqno).unwrap();
            assert_eq!(lent.map(|lent| lent.to_owned().unwrap()), expected);
        }
    }
    assert_eq!(collect(runs.tables()[1].iter().unwrap()), items(&older));
    let tables = runs.into_tables();
    assert_eq!(collect(tables[0].iter().unwrap()), items(&newer));
}

/// Packed runs find the same, and list their tables run by run.
#[test]
fn packed_runs_find_the_same() {
    let (runs, all) = several();
    let packed = runs.packed().unwrap();
    for seqno in (0..60).step_by(13).chain([NEWEST]) {
        assert_eq!(collect(packed.iter(seqno).unwrap()), seen(&all, seqno));
        for key in keys(&all) {
            assert_eq!(packed.get(&key, seqno).unwrap(), newest(&all, &key, seqno));
        }
    }
    let places = runs.packing().unwrap().runs.concat();
    let ids: Vec<_> = places.iter().map(|place| runs.tables()[*place].metadata().id).collect();
    let packed: Vec<_> = packed.tables().iter().map(|table| table.metadata().id).collect();
    assert_eq!(packed, ids);
}

/// Packs tables of two keys each. Those of a run do not overlap, each key keeps the order of its
/// tables, and a chain is as long as the list of runs.
#[test]
fn tables_are_packed_as_far_as_they_lie_apart() {
    let mut dice = Dice::new(3);
    for count in 0..9 {
        let spans: Vec<[u64; 2]> = (0..count)
            .map(|_| {
                let ends = [dice.below(12), dice.below(12)];
                [ends[0].min(ends[1]), ends[0].max(ends[1])]
            })
            .collect();
        let runs = Runs::from_tables(spans.iter().zip(0..).map(|(span, id)| span_table(span, id)));
        let packing = runs.unwrap().packing().unwrap();
        let overlap = |a: usize, b: usize| spans[a][0] <= spans[b][1] && spans[b][0] <= spans[a][1];
        let mut run_of = vec![usize::MAX; spans.len()];
        for (at, run) in packing.runs.iter().enumerate() {
            assert!(run.windows(2).all(|two| spans[two[0]][1] < spans[two[1]][0]));
            run.iter().for_each(|table| run_of[*table] = at);
        }
        for older in 0..spans.len() {
            assert!(run_of[older] < packing.runs.len());
            let mut overlapped = (0..older).filter(|newer| overlap(*newer, older));
            assert!(overlapped.all(|newer| run_of[newer] < run_of[older]));
        }
        assert_eq!(packing.chain.len(), packing.runs.len());
        assert!(packing.chain.windows(2).all(|two| two[0] < two[1] && overlap(two[0], two[1])));
    }
}

fn span_table(span: &[u64; 2], id: u64) -> Table<'static> {
    let mut writer = Options { id, ..Options::default() }.open().unwrap();
    for (key, seqno) in span.iter().zip([9, 8]) {
        writer.write(format!("{key:02}").as_bytes(), seqno, ValueType::Value, b"").unwrap();
    }
    Table::open(writer.finish().unwrap().unwrap()).unwrap()
}

#[test]
fn ranges_over_several_tables_are_those_of_a_map() {
    let (runs, all) = several();
    for seqno in (0..60).step_by(7).chain([NEWEST]) {
        let seen = seen(&all, seqno);
        assert_eq!(collect(runs.iter(seqno).unwrap()), seen);
        for (lower, upper) in [("", "b"), ("a", "c\0"), ("ab", "ab"), ("c", "a"), ("b", "zz")] {
            let (lower, upper) = (lower.as_bytes(), upper.as_bytes());
            let expected: Vec<_> = seen
                .iter()
                .filter(|item| (lower..upper).contains(&&*item.key.user_key))
                .cloned()
                .collect();
            assert_eq!(collect(runs.range(lower..upper, seqno).unwrap()), expected);
            let back = collect(runs.range(lower..upper, seqno).unwrap().rev());
            assert!(back.iter().eq(expected.iter().rev()));
        }
        let (lower, upper) = (b"a".as_slice(), b"c".as_slice());
        let expected = seen.iter().filter(|item| {
            item.key.user_key.as_slice() > lower && item.key.user_key.as_slice() <= upper
        });
        let bounds = (Bound::Excluded(lower), Bound::Included(upper));
        let range = runs.range::<&[u8], _>(bounds, seqno).unwrap();
        assert!(collect(range).iter().eq(expected));
    }
}

#[test]
fn a_range_is_read_from_both_ends() {
    let (mut runs, all) = several();
    let expected = seen(&all, NEWEST);
    let mut dice = Dice::new(5);
    for _ in 0..5 {
        let mut range = runs.iter(NEWEST).unwrap();
        let (mut front, mut back) = (Vec::new(), Vec::new());
        for _ in 0..expected.len() {
            match dice.below(2) {
                0 => front.push(range.next_lent().unwrap().unwrap().to_owned().unwrap()),
                _ => back.push(range.next_back_lent().unwrap().unwrap().to_owned().unwrap()),
            }
        }
        assert!(range.next().is_none() && range.next_back().is_none());
        front.extend(back.into_iter().rev());
        assert_eq!(front, expected);
    }
    // A range has shares of its own: it does not include what is pushed later.
    let mut range = runs.iter(NEWEST).unwrap();
    let first = range.next().unwrap().unwrap();
    runs.push(Table::open(write(&small(1), &items(&all)[..1])).unwrap()).unwrap();
    drop(runs);
    assert_eq!([vec![first], collect(range)].concat(), expected);
}

#[test]
fn a_compaction_keeps_what_readers_see() {
    let (runs, all) = several();
    for watermark in [0, 1, 15, 30, 100, NEWEST] {
        for (evict_tombstones, zero_seqnos) in
            [(false, false), (false, true), (true, false), (true, true)]
        {
            let options = Options { id: 5, ..Options::default() };
            let by = Compaction {
                watermark,
                evict_tombstones,
                zero_seqnos,
                options,
                ..Compaction::default()
            };
            let compacted = runs.compact(&by).unwrap();
            assert_eq!((compacted.tables.len(), compacted.next_id), (1, Some(6)));
            let table = Table::open(&compacted.tables[0]).unwrap();
            assert_eq!(collect(table.iter().unwrap()), kept(&all, &by));
            assert_eq!((table.metadata().id, compacted.tables[0].id), (5, 5));
            table.verify().unwrap();
        }
    }
    assert_eq!(collect(runs.iter(NEWEST).unwrap()), seen(&all, NEWEST));
}

#[test]
fn a_compaction_begins_new_tables() {
    let (runs, all) = several();
    for target_size in [0, 1, 100, 500] {
        let options = Options { id: 9, data_block_size: 64, ..Options::default() };
        let by = Compaction { watermark: NEWEST, target_size, options, ..Compaction::default() };
        let compacted = runs.compact(&by).unwrap();
        // At a target size of 0 a table ends before its first key, so its id is skipped.
        let first = if target_size == 0 { 10 } else { 9 };
        let next = first + compacted.tables.len() as u64;
        assert!(compacted.tables.len() > 2 && compacted.next_id == Some(next));
        let ids: Vec<_> = compacted.tables.iter().map(|table| table.id).collect();
        assert_eq!(ids, (first..next).collect::<Vec<_>>());
        let tables: Vec<_> =
            compacted.tables.iter().map(|table| Table::open(table).unwrap()).collect();
        let read: Vec<_> = tables.iter().flat_map(|table| collect(table.iter().unwrap())).collect();
        assert_eq!(read, kept(&all, &by));
    }
}

#[test]
fn a_compaction_yields_each_table() {
    let (runs, _) = several();
    let none = Runs::new().unwrap();
    for runs in [&runs, &none] {
        for target_size in [0, 1, 100, 500, u64::MAX] {
            let options = Options { id: 9, data_block_size: 64, ..Options::default() };
            let by =
                Compaction { watermark: NEWEST, target_size, options, ..Compaction::default() };
            let compacted = runs.compact(&by).unwrap();
            let mut each = runs.compact_each(&by).unwrap();
            let tables: Vec<_> = each.by_ref().map(|table| table.unwrap()).collect();
            assert_eq!((tables, each.next_id()), (compacted.tables, compacted.next_id));
            assert!(each.next().is_none());
        }
    }
    // It has shares of the tables.
    let by = Compaction { target_size: 0, ..Compaction::default() };
    let count = runs.compact(&by).unwrap().tables.len();
    let mut each = runs.compact_each(&by).unwrap();
    drop(runs);
    assert_eq!((each.next().unwrap().unwrap().id, each.next_id()), (1, Some(3)));
    assert_eq!(each.count(), count - 1);
}

#[test]
fn a_compaction_that_is_refused() {
    let (runs, _) = several();
    let spent = Options { id: u64::MAX, data_block_size: 64, ..Options::default() };
    let by = Compaction { target_size: 1, options: spent, ..Compaction::default() };
    assert_eq!(runs.compact(&by), Err(Error::TableIdsSpent));
    let one = runs.compact(&Compaction { target_size: NEWEST, ..by }).unwrap();
    assert_eq!((one.tables.len(), one.next_id), (1, None));
    let unusable = Options { data_block_restart_interval: 0, ..Options::default() };
    let by = Compaction { options: unusable, ..Compaction::default() };
    assert_eq!(runs.compact(&by), Err(Error::NoSuch));
    let table = &runs.tables()[0];
    let twice = Runs::from_tables([table.clone(), table.clone()]).unwrap();
    assert_eq!(twice.compact(&Compaction::default()), Err(Error::OutOfOrder));
    let mut each = twice.compact_each(&Compaction::default()).unwrap();
    assert_eq!((each.next(), each.next()), (Some(Err(Error::OutOfOrder)), None));
    assert_eq!(runs.compact_each(&by).err(), Some(Error::NoSuch));
    let none = Runs::new().unwrap();
    for (id, next_id) in [(0, Some(1)), (7, Some(8)), (u64::MAX, None)] {
        let options = Options { id, ..Options::default() };
        let compacted = none.compact(&Compaction { options, ..Compaction::default() }).unwrap();
        assert_eq!((compacted.tables.len(), compacted.next_id), (0, next_id));
    }
    assert!(none.iter(NEWEST).unwrap().next().is_none());
    assert_eq!(none.get(b"", NEWEST), Ok(None));
}

#[test]
fn a_damaged_table_is_not_compacted() {
    let mut file = write(&small(2), &items(&random_entries(13, 100))).bytes;
    file[50] ^= 0xff;
    let runs = Runs::from_tables([Table::open(&file).unwrap()]).unwrap();
    assert_eq!(runs.compact(&Compaction::default()), Err(Error::ChecksumMismatch));
    assert_eq!(runs.compact_each(&Compaction::default()).err(), Some(Error::ChecksumMismatch));
    let mut range = runs.iter(NEWEST).unwrap();
    assert!(range.by_ref().any(|item| item.is_err()));
    assert!(range.next().is_none() && range.next_back().is_none());
}
