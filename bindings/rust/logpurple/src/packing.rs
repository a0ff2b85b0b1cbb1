//! Packing tables into as few runs as possible.

use crate::error::test;
use crate::handle::{room, Handle};
use crate::Error;
use logpurple_sys as sys;

/// How tables are packed. A table is an index into the list of tables, from 0 on.
#[derive(Clone, Debug, PartialEq, Eq)]
pub struct Packing {
    /// The tables of each run, in key order.
    pub runs: Vec<Vec<usize>>,
    /// One table for each run. Each overlaps the next one, which is older, so there cannot be fewer
    /// runs.
    pub chain: Vec<usize>,
}

/// Returns how the tables of a list of runs are packed.
pub(crate) fn packing_of(runs: &Handle<'_>) -> Result<Packing, Error> {
    let packing = Handle::closed();
    // SAFETY: both are references of this call, and the second holds nothing.
    test(unsafe { sys::sst_packing_open(runs.words(), packing.words()) })?;
    // SAFETY: in each call the number is a reference of it.
    let count = told(|told| unsafe { sys::sst_packing_count(packing.words(), told) })?;
    let mut packed = Packing { runs: room(count)?, chain: room(count)? };
    for place in 0..count {
        packed.runs.push(run_of(&packing, place)?);
        // SAFETY: the number is a reference of the call.
        packed.chain.push(told(|told| unsafe {
            sys::sst_packing_chain(packing.words(), place as u64, told)
        })?);
    }
    Ok(packed)
}

fn run_of(packing: &Handle<'_>, run: usize) -> Result<Vec<usize>, Error> {
    // SAFETY: in each call the number is a reference of it.
    let count = told(|told| unsafe { sys::sst_packing_run(packing.words(), run as u64, told) })?;
    let mut tables = room(count)?;
    for place in 0..count {
        tables.push(told(|told| unsafe {
            sys::sst_packing_table(packing.words(), run as u64, place as u64, told)
        })?);
    }
    Ok(tables)
}

// Returns an index or a count of tables that a call reports. Each table is in memory, so it fits
// `usize`.
fn told(tell: impl FnOnce(*mut u64) -> u32) -> Result<usize, Error> {
    let mut told = 0;
    test(tell(&mut told))?;
    Ok(told as usize)
}
