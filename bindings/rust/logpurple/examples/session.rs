//! Writes two tables, opens them, and reads keys and ranges of one and of both together. Then it
//! compacts them into one and verifies it. `bindings/test` runs it.

use logpurple::{
    Compaction, Error, InternalValue, Options, Runs, SeqNo, Table, ValueType, Writer, NEWEST,
};
use std::str;

/// Writes the older table. It has two versions of `apple`, the newest first.
fn write_older() -> Result<Table<'static>, Error> {
    let mut writer = Writer::new(1)?;
    writer.write(b"apple", 7, ValueType::Value, b"red")?;
    writer.write(b"apple", 3, ValueType::Value, b"green")?;
    writer.write(b"pear", 5, ValueType::Value, b"yellow")?;
    writer.write(b"plum", 6, ValueType::Tombstone, b"")?;
    Table::open(writer.finish()?.expect("entries were written"))
}

/// Writes the newer table, in which `pear` is deleted.
fn write_newer() -> Result<Table<'static>, Error> {
    let mut writer = Writer::new(2)?;
    writer.write(b"fig", 9, ValueType::Value, b"violet")?;
    writer.write(b"pear", 8, ValueType::Tombstone, b"")?;
    Table::open(writer.finish()?.expect("entries were written"))
}

fn text(bytes: &[u8]) -> &str {
    str::from_utf8(bytes).unwrap_or("?")
}

fn show(what: &str, item: &InternalValue) {
    let kind = match item.key.value_type {
        ValueType::Value => 1,
        ValueType::Tombstone => 2,
        ValueType::WeakTombstone => 3,
        ValueType::Indirection => 5,
    };
    println!("{what} {} {} {kind} {}", text(&item.key.user_key), item.key.seqno, text(&item.value));
}

/// Prints the version of a key that is visible at a snapshot.
fn read_key(table: &Table, key: &str, seqno: SeqNo) -> Result<(), Error> {
    match table.get(key.as_bytes(), seqno)? {
        Some(item) => show("found", &item),
        None => println!("none {key}"),
    }
    Ok(())
}

fn walk(items: impl Iterator<Item = Result<InternalValue, Error>>) -> Result<(), Error> {
    for item in items {
        show("walked", &item?);
    }
    Ok(())
}

/// Compacts all tables into a new one. Nobody reads older versions, so it has the newest values
/// only.
fn compact(runs: &Runs) -> Result<Table<'static>, Error> {
    let compacted = runs.compact(&Compaction {
        watermark: NEWEST,
        evict_tombstones: true,
        options: Options { id: 3, ..Options::default() },
        ..Compaction::default()
    })?;
    Table::open(&compacted.tables[0])
}

fn main() -> Result<(), Box<dyn std::error::Error>> {
    let (older, newer) = (write_older()?, write_newer()?);
    read_key(&older, "apple", NEWEST)?;
    read_key(&older, "apple", 5)?; // sees versions below 5
    read_key(&older, "fig", NEWEST)?;
    walk(older.range("pear"..)?.rev())?;
    let runs = Runs::from_tables([newer, older])?; // the newest first
    walk(runs.iter(NEWEST)?)?;
    let table = compact(&runs)?;
    println!("verified {}", table.verify()?.item_count);
    Ok(())
}
