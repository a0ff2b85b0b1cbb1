//! Tables over borrowed bytes, and verification by steps.

mod common;

use common::{collect, items, keys, newest, random_entries, seen, small, write};
use logpurple::{Error, OpenOptions, Runs, Table, Verified, VerifyError, NEWEST};

#[test]
fn bytes_that_are_kept_are_read() {
    for seed in 0..4 {
        let entries = random_entries(seed, 150);
        let file = write(&small(seed), &items(&entries)).bytes;
        let table = Table::open_kept(&file).unwrap();
        assert_eq!(collect(table.iter().unwrap()), items(&entries));
        for key in keys(&entries) {
            assert_eq!(table.get(&key, 5).unwrap(), newest(&entries, &key, 5));
        }
        assert_eq!(table.verify().unwrap().item_count, entries.len() as u64);
        let lifted = OpenOptions { global_seqno: 7, ..OpenOptions::default() };
        let first = lifted.open_kept(&file).unwrap().iter().unwrap().next().unwrap().unwrap();
        assert_eq!(first.key.seqno, items(&entries)[0].key.seqno + 7);
    }
    assert!(matches!(Table::open_kept(b"no table"), Err(Error::InvalidTrailer)));
}

/// Ranges, runs and other objects opened from a table read the bytes after the table is dropped.
#[test]
fn what_was_opened_from_the_table_reads_them_too() {
    let entries = random_entries(5, 150);
    let file = write(&small(1), &items(&entries)).bytes;
    let table = Table::open_kept(&file).unwrap();
    let (other, range, scanner) = (table.clone(), table.iter().unwrap(), table.scan().unwrap());
    let answers = table.get_many_lent(&keys(&entries), NEWEST).unwrap();
    let mut verification = table.verification().unwrap();
    let runs = Runs::from_tables([table]).unwrap();
    let merged = runs.iter(NEWEST).unwrap();
    drop(runs);
    let reader = std::thread::scope(|scope| scope.spawn(move || collect(range)).join().unwrap());
    assert_eq!(reader, items(&entries));
    assert_eq!(collect(scanner), items(&entries));
    assert_eq!(collect(merged), seen(&entries, NEWEST));
    assert_eq!(collect(other.iter().unwrap()), items(&entries));
    assert_eq!(answers.to_owned().unwrap(), other.get_many(&keys(&entries), NEWEST).unwrap());
    while verification.step().unwrap().is_none() {}
}

/// Tables with a copy of their own work beside tables over borrowed bytes.
#[test]
fn copied_and_kept_are_read_as_one() {
    let (newer, older) = (random_entries(6, 80), random_entries(7, 80));
    let file = write(&small(2), &items(&older)).bytes;
    let copied = Table::open(write(&small(3), &items(&newer))).unwrap();
    let runs = Runs::from_tables([copied, Table::open_kept(&file).unwrap()]).unwrap();
    let again = Runs::from_tables(
        [&newer, &older].map(|entries| Table::open(write(&small(1), &items(entries))).unwrap()),
    )
    .unwrap();
    assert_eq!(collect(runs.iter(NEWEST).unwrap()), collect(again.iter(NEWEST).unwrap()));
}

#[test]
fn steps_come_to_what_is_verified_at_once() {
    for seed in 0..4 {
        let entries = random_entries(seed, 300);
        let table = Table::open(write(&small(seed), &items(&entries))).unwrap();
        let mut verification = table.verification().unwrap();
        let (mut steps, mut before) = (0, 0);
        assert_eq!(
            (verification.bytes_read(), verification.data_size()),
            (0, table.metadata().file_size)
        );
        let verified = loop {
            let step = verification.step().unwrap();
            assert!(verification.bytes_read() >= before);
            before = verification.bytes_read();
            match step {
                Some(verified) => break verified,
                None => steps += 1,
            }
        };
        assert_eq!(verified, table.verify().unwrap());
        assert_eq!(verification.step(), Ok(Some(verified)));
        assert_eq!(verification.bytes_read(), verification.data_size());
        assert!(steps > verified.data_block_count);
    }
}

fn by_steps(table: &Table) -> Result<Verified, VerifyError> {
    let mut verification = table.verification().unwrap();
    let answer = loop {
        match verification.step() {
            Ok(None) => {}
            Ok(Some(verified)) => break Ok(verified),
            Err(error) => break Err(error),
        }
    };
    assert_eq!(verification.step(), answer.map(Some));
    answer
}

#[test]
fn steps_find_what_is_found_at_once() {
    let file = write(&small(1), &items(&random_entries(8, 40))).bytes;
    let mut found = 0;
    for place in 0..file.len() {
        let mut damaged = file.clone();
        damaged[place] ^= 0xff;
        let table = match Table::open_kept(&damaged) {
            Ok(table) => table,
            Err(_) => continue,
        };
        let answer = by_steps(&table);
        assert_eq!(answer, table.verify());
        found += usize::from(answer.is_err());
    }
    assert!(found > 0);
}
