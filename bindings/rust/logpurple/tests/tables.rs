//! Writing, reading and damaging tables.

mod common;

use common::{collect, items, keys, newest, random_entries, small, write};
use logpurple::{
    Compaction, Error, Fault, Finding, InternalValue, OpenOptions, Options, Runs, SectionName,
    Table, ValueType, Verified, VerifyError, Writer, NEWEST,
};
use std::ops::Bound;

#[test]
fn the_declarations_are_those_of_the_header() {
    assert_eq!(logpurple::version(), logpurple_sys::SST_VERSION);
    let header = include_str!("../../../../include/sst.h");
    assert!(header.contains(&format!("#define SST_VERSION {}\n", logpurple_sys::SST_VERSION)));
    let declared = include_str!("../../logpurple-sys/src/lib.rs");
    let calls = header.lines().filter_map(|line| {
        let call = line.strip_prefix("uint32_t ").or(line.strip_prefix("void "));
        call.or(line.strip_prefix("uint64_t "))?.split('(').next()
    });
    let mut count = 0;
    for call in calls {
        assert!(declared.contains(&format!("pub fn {call}(")), "{call}");
        count += 1;
    }
    assert!(count > 25);
}

#[test]
fn random_tables_answer_as_a_map_does() {
    for seed in 0..6 {
        let entries = random_entries(seed, 300);
        let mut table = Table::open(write(&small(seed), &items(&entries))).unwrap();
        assert_eq!(table.verify().unwrap().item_count, entries.len() as u64);
        for key in keys(&entries) {
            for seqno in (0..11).chain([NEWEST]) {
                let expected = newest(&entries, &key, seqno);
                assert_eq!(table.get(&key, seqno).unwrap(), expected);
                let lent = table.get_lent(&key, seqno).unwrap();
                assert_eq!(lent.map(|lent| lent.to_owned().unwrap()), expected);
            }
        }
    }
}

#[test]
fn many_keys_are_read_as_each_is() {
    for seed in 0..6 {
        let entries = random_entries(seed, 300);
        let table = Table::open(write(&small(seed), &items(&entries))).unwrap();
        let mut keys = keys(&entries);
        keys.reverse();
        keys.extend_from_within(3..9);
        for seqno in (0..11).chain([NEWEST]) {
            let expected: Vec<_> = keys.iter().map(|key| newest(&entries, key, seqno)).collect();
            assert_eq!(table.get_many(&keys, seqno).unwrap(), expected);
            let answers = table.get_many_lent(&keys, seqno).unwrap();
            drop(table.get(b"a", seqno).unwrap());
            let lent: Vec<_> = answers.iter().collect();
            assert_eq!((lent.len(), answers.len()), (keys.len(), keys.len()));
            for (lent, expected) in lent.into_iter().zip(expected) {
                assert_eq!(lent.map(|lent| lent.to_owned().unwrap()), expected);
            }
            assert!(answers.get(keys.len()).is_none() && answers.get(usize::MAX).is_none());
        }
        assert_eq!(table.get_many::<&[u8]>(&[], NEWEST).unwrap(), []);
        assert!(table.get_many_lent::<&[u8]>(&[], NEWEST).unwrap().is_empty());
    }
}

#[test]
fn keys_and_values_may_be_long_or_empty() {
    let (longest, value) = (vec![b'k'; 65535], vec![b'v'; 1 << 20]);
    let mut writer = Writer::new(1).unwrap();
    writer.write(b"", 2, ValueType::Value, b"").unwrap();
    writer.write(b"", 1, ValueType::Value, b"empty").unwrap();
    writer.write(b"\0", 1, ValueType::Value, b"\0\0").unwrap();
    writer.write(&longest, 0, ValueType::Value, &value).unwrap();
    let table = Table::open(writer.finish().unwrap().unwrap()).unwrap();
    let get = |key: &[u8], seqno| table.get(key, seqno).unwrap().map(|item| item.value);
    assert_eq!(get(b"", NEWEST), Some(vec![]));
    assert_eq!(get(b"", 2), Some(b"empty".to_vec()));
    assert_eq!(get(b"\0", NEWEST), Some(b"\0\0".to_vec()));
    assert_eq!(get(&longest, NEWEST), Some(value));
    assert_eq!(get(&[b'k'; 65536], NEWEST), None);
    assert_eq!(table.range::<&[u8], _>(..=&longest[..]).unwrap().count(), 4);
    assert_eq!(table.verify().unwrap().item_count, 4);
}

#[test]
fn ranges_are_read_from_both_ends() {
    let entries = random_entries(7, 300);
    let all = items(&entries);
    let table = Table::open(write(&small(1), &all)).unwrap();
    assert_eq!(collect(table.iter().unwrap()), all);
    assert_eq!(collect(table.iter().unwrap().rev()), all.iter().rev().cloned().collect::<Vec<_>>());
    for nth in 2..5 {
        assert_eq!(in_turn(&table, nth), all);
    }
}

/// Returns all entries, every nth from the back.
fn in_turn(table: &Table, nth: usize) -> Vec<InternalValue> {
    let mut range = table.iter().unwrap();
    let (mut front, mut back) = (Vec::new(), Vec::new());
    for step in 1.. {
        let (lent, taken) = match step % nth {
            0 => (range.next_back_lent().unwrap(), &mut back),
            _ => (range.next_lent().unwrap(), &mut front),
        };
        match lent {
            Some(lent) => taken.push(lent.to_owned().unwrap()),
            None => break,
        }
    }
    assert!(range.next().is_none() && range.next_back().is_none());
    front.extend(back.into_iter().rev());
    front
}

#[test]
fn a_scan_gives_all_entries() {
    for seed in 0..6 {
        let entries = random_entries(seed, 300);
        let options = OpenOptions { global_seqno: seed, ..OpenOptions::default() };
        let table = options.open(write(&small(seed), &items(&entries))).unwrap();
        let (mut scanner, other) = (table.scan().unwrap(), table.scan().unwrap());
        let all = collect(table.iter().unwrap());
        drop(table);
        assert_eq!(collect(other), all);
        for expected in &all {
            let lent = scanner.next_lent().unwrap().unwrap();
            assert_eq!(&lent.to_owned().unwrap(), expected);
        }
        assert!(scanner.next_lent().unwrap().is_none() && scanner.next().is_none());
    }
}

#[test]
fn a_scan_ends_at_damage() {
    let written = items(&random_entries(13, 100));
    let mut file = write(&small(2), &written).bytes;
    let place = Table::open(&file).unwrap().metadata().file_size as usize / 2;
    file[place] ^= 0xff;
    let table = Table::open(&file).unwrap();
    let mut scanner = table.scan().unwrap();
    let read: Vec<_> = scanner.by_ref().take_while(Result::is_ok).map(Result::unwrap).collect();
    assert!(!read.is_empty() && read.len() < written.len() && written.starts_with(&read));
    assert!(scanner.next().is_none() && scanner.next_lent().unwrap().is_none());
    file[40] ^= 0xff;
    assert!(matches!(Table::open(&file).unwrap().scan(), Err(Error::ChecksumMismatch)));
}

#[test]
fn memory_is_told_by_what_is_pinned() {
    let file = write(&small(4), &items(&random_entries(14, 300))).bytes;
    let pinned = |pin_filter, pin_index| {
        let options = OpenOptions { pin_filter, pin_index, ..OpenOptions::default() };
        options.open(&file).unwrap().memory()
    };
    let (both, none) = (pinned(true, true), pinned(false, false));
    assert_eq!((both.file_len, none.file_len), (file.len() as u64, file.len() as u64));
    assert!(both.pinned_filter_size > 0 && both.pinned_block_index_size > 0);
    assert_eq!((none.pinned_filter_size, none.pinned_block_index_size), (0, 0));
    assert_eq!(pinned(true, false).pinned_filter_size, both.pinned_filter_size);
    assert_eq!(both.marks_size, 8 * (file.len() as u64 / 2048 + 1));
}

#[test]
fn bounds_are_those_of_the_standard_library() {
    let entries = random_entries(8, 300);
    let table = Table::open(write(&small(3), &items(&entries))).unwrap();
    let bounds = |key: &'static str| {
        [Bound::Unbounded, Bound::Included(key.as_bytes()), Bound::Excluded(key.as_bytes())]
    };
    for lower in ["", "a", "ab", "c"].into_iter().flat_map(bounds) {
        for upper in ["", "b", "ca", "d"].into_iter().flat_map(bounds) {
            let expected: Vec<_> = items(&entries)
                .into_iter()
                .filter(|item| is_within(&item.key.user_key, lower, upper))
                .collect();
            let range = table.range::<&[u8], _>((lower, upper)).unwrap();
            assert_eq!(collect(range), expected, "{lower:?} {upper:?}");
            let range = table.range::<&[u8], _>((lower, upper)).unwrap();
            assert!(collect(range.rev()).iter().eq(expected.iter().rev()), "{lower:?} {upper:?}");
        }
    }
}

fn is_within(key: &[u8], lower: Bound<&[u8]>, upper: Bound<&[u8]>) -> bool {
    let above = match lower {
        Bound::Unbounded => true,
        Bound::Included(bound) => key >= bound,
        Bound::Excluded(bound) => key > bound,
    };
    let below = match upper {
        Bound::Unbounded => true,
        Bound::Included(bound) => key <= bound,
        Bound::Excluded(bound) => key < bound,
    };
    above && below
}

#[test]
fn a_table_says_of_itself_what_was_written() {
    let options = Options { id: 42, level: 3, ..Options::default() };
    let written = write(&options, &items(&random_entries(11, 100)));
    let opened = OpenOptions { global_seqno: 100, ..OpenOptions::default() }.open(&written);
    let table = opened.unwrap();
    let told = table.metadata();
    assert_eq!((told.id, told.table_version, written.id), (42, 4, 42));
    assert_eq!(told.item_count, table.iter().unwrap().count() as u64);
    assert!(1 <= told.seqnos.0 && told.seqnos.1 <= 9 && told.tombstone_count > 0);
    assert_eq!(table.global_seqno(), 100);
    assert!(table.iter().unwrap().all(|item| item.unwrap().key.seqno > 100));
}

/// The library and this crate have the same sentence for each error.
#[test]
fn each_refusal_has_the_sentence_of_the_library() {
    for error in KNOWN {
        let mut text = [0; 100];
        // SAFETY: the buffer has the length that is passed.
        let len =
            unsafe { logpurple_sys::sst_strerror_copy(error.number(), text.as_mut_ptr(), 100) };
        assert_eq!(error.to_string().as_bytes(), &text[..len as usize]);
    }
    let numbers: Vec<_> = KNOWN.iter().map(Error::number).collect();
    assert_eq!(numbers, (1..=24).chain(100..=107).collect::<Vec<_>>());
}

const KNOWN: [Error; 32] = [
    Error::OutOfMemory,
    Error::Truncated,
    Error::InvalidHeader,
    Error::InvalidTag,
    Error::ChecksumMismatch,
    Error::InvalidBlock,
    Error::KeyTooLong,
    Error::ValueTooLong,
    Error::BlockTooLarge,
    Error::SectionTooLarge,
    Error::InvalidTrailer,
    Error::MissingSection,
    Error::MetaKeyMissing,
    Error::InvalidMetaValue,
    Error::UnsupportedTableVersion,
    Error::UnsupportedHashType,
    Error::UnsupportedChecksumType,
    Error::UnsupportedIndexInterval,
    Error::UnsupportedCompression,
    Error::GlobalSeqNoTooLarge,
    Error::SeqNoOverflow,
    Error::TableIdsSpent,
    Error::WriterFailed,
    Error::Source,
    Error::Closed,
    Error::AlreadyOpen,
    Error::OtherKind,
    Error::NoRoom,
    Error::OutOfOrder,
    Error::NoSuch,
    Error::Nothing,
    Error::Faulty,
];

#[test]
fn each_refusal_is_told() {
    let mut writer = Writer::new(1).unwrap();
    let mut write = |key: &[u8], seqno| writer.write(key, seqno, ValueType::Value, b"");
    assert_eq!(write(b"b", 4), Ok(()));
    assert_eq!(write(b"b", 4), Err(Error::OutOfOrder));
    assert_eq!(write(b"a", 3), Err(Error::OutOfOrder));
    assert_eq!(write(b"c", NEWEST), Err(Error::OutOfOrder));
    assert_eq!(write(b"b", 3), Ok(()));
    assert_eq!(write(&vec![0xff; 1 << 21], 3), Err(Error::KeyTooLong));
    assert_eq!(write(b"d", 3), Err(Error::WriterFailed));
    assert_eq!(writer.finish(), Err(Error::WriterFailed));
    assert_eq!(Writer::new(1).unwrap().finish(), Ok(None));
    let unusable = Options { data_block_restart_interval: 0, ..Options::default() };
    assert!(matches!(unusable.open(), Err(Error::NoSuch)));
    assert!(matches!(Table::open(b"no table"), Err(Error::InvalidTrailer)));
    assert_eq!(Error::ChecksumMismatch.to_string(), "checksum mismatch");
    assert_eq!((Error::ChecksumMismatch.number(), Error::Faulty.number()), (5, 107));
}

/// Damages each byte in turn. Damaged bytes that open may be read, and those that verify have the
/// same entries.
#[test]
fn damage_is_refused_or_found() {
    let written = items(&random_entries(12, 5));
    let file = write(&small(1), &written).bytes;
    let mut found = 0;
    for place in 0..file.len() {
        let mut damaged = file.clone();
        damaged[place] ^= 0xff;
        let options = OpenOptions { pin_filter: place % 2 == 0, ..OpenOptions::default() };
        let table = match options.open(&damaged) {
            Ok(table) => table,
            Err(error) => {
                assert!((2..=20).contains(&error.number()), "{error:?}");
                continue;
            }
        };
        let keys: Vec<_> = written.iter().map(|item| item.key.user_key.clone()).collect();
        let many = table.get_many(&keys, NEWEST);
        let singly: Result<Vec<_>, _> = keys.iter().map(|key| table.get(key, NEWEST)).collect();
        let several = Runs::from_tables([table.clone()]).and_then(|runs| {
            runs.compact(&Compaction::default())?;
            runs.iter(NEWEST)?.collect::<Result<Vec<_>, _>>()
        });
        let read: Result<Vec<_>, _> = table.iter().unwrap().collect();
        let scanned: Result<Vec<_>, _> = table.scan().and_then(|scanner| scanner.collect());
        let back: Result<Vec<_>, _> = table.iter().unwrap().rev().collect();
        match table.verify() {
            Ok(_) => {
                assert!(several.is_ok() && many == singly && scanned == read);
                assert_eq!((read, back.map(|b| b.len())), (Ok(written.clone()), Ok(written.len())))
            }
            Err(VerifyError::Found(_)) => found += 1,
            Err(other) => panic!("{other}"),
        }
    }
    assert!(found > 0);
}

/// The FNV-1a hash of some bytes.
fn hash_of(bytes: &[u8]) -> u64 {
    bytes.iter().fold(0xcbf2_9ce4_8422_2325, |hash, byte| {
        (hash ^ u64::from(*byte)).wrapping_mul(0x0100_0000_01b3)
    })
}

const OTHER_CHECKSUM: Result<Verified, VerifyError> = Err(VerifyError::Found(Finding {
    section: SectionName::Data,
    offset: 0,
    fault: Fault::OtherChecksum,
}));

#[test]
fn a_checksum_is_compared_before_blocks_are_read() {
    let file = write(&small(1), &items(&random_entries(12, 20)));
    let table = Table::open_kept(&file.bytes).unwrap();
    let checksum = hash_of(&file.bytes);
    assert_eq!(file.checksum, checksum);
    assert_eq!(table.verify_with(checksum), table.verify());
    assert!(table.verify().is_ok());
    for other in [0, checksum - 1, u64::MAX] {
        assert_eq!(table.verify_with(other), OTHER_CHECKSUM);
    }
    let mut counts = [0; 2];
    for place in 0..file.bytes.len() {
        let mut damaged = file.bytes.clone();
        damaged[place] ^= 0xff;
        let table = match Table::open_kept(&damaged) {
            Ok(table) => table,
            Err(_) => continue,
        };
        let found = table.verify();
        assert_eq!(table.verify_with(hash_of(&damaged)), found);
        assert_eq!(table.verify_with(checksum), OTHER_CHECKSUM);
        counts[usize::from(found.is_err())] += 1;
    }
    // Without a checksum, some damage is found, and some is not.
    assert!(counts.iter().all(|count| *count > 0));
}

#[test]
fn a_range_ends_at_damage_from_both_ends() {
    let written = items(&random_entries(13, 100));
    let mut file = write(&small(2), &written).bytes;
    file[50] ^= 0xff;
    let table = Table::open(&file).unwrap();
    let mut range = table.iter().unwrap();
    assert!(range.next_back().unwrap().is_ok());
    assert_eq!(range.next().unwrap(), Err(Error::ChecksumMismatch));
    assert!(range.next().is_none() && range.next_back().is_none());
}
