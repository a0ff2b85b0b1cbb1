//! Ranges of several tables together with a memtable.

use crate::{Error, InternalValue, Range, SeqNo};
use std::cmp::Ordering;
use std::iter::{Fuse, FusedIterator};
use std::ops::Bound;

/// Iterates over the newest versions of several tables and a memtable together, from both ends, as
/// [`Runs::range_with`](crate::Runs::range_with) describes. After an error it is exhausted, from
/// both ends.
#[derive(Debug)]
pub struct RangeWith<'f, M> {
    memtable: Ends<Newest<M>, Found>,
    tables: Ends<Range<'f>, Found>,
    is_over: bool,
}

type Found = Result<InternalValue, Error>;

impl<'f, M: DoubleEndedIterator<Item = InternalValue>> RangeWith<'f, M> {
    pub(crate) fn of(
        tables: Range<'f>,
        memtable: M,
        bounds: (Bound<Vec<u8>>, Bound<Vec<u8>>),
        seqno: SeqNo,
    ) -> RangeWith<'f, M> {
        let newest = Newest { entries: Ends::of(memtable), bounds, seqno, first: None, last: None };
        RangeWith { memtable: Ends::of(newest), tables: Ends::of(tables), is_over: false }
    }

    /// Returns the next version at an end.
    fn step(&mut self, back: bool) -> Option<Found> {
        if self.is_over {
            return None;
        }
        let next = self.chosen(back);
        self.is_over = !matches!(next, Some(Ok(_)));
        next
    }

    fn chosen(&mut self, back: bool) -> Option<Found> {
        let order = match (self.memtable.peek(back), self.tables.peek(back)) {
            (None, _) => Ordering::Greater,
            (Some(_), None) => Ordering::Less,
            (Some(Ok(new)), Some(Ok(old))) => {
                let order = new.key.user_key.cmp(&old.key.user_key);
                if back {
                    order.reverse()
                } else {
                    order
                }
            }
            // An error of the tables comes before what the memtable has.
            (Some(_), Some(Err(_))) => Ordering::Greater,
            (Some(Err(_)), Some(_)) => Ordering::Less,
        };
        match order {
            Ordering::Less => self.memtable.take(back),
            Ordering::Greater => self.tables.take(back),
            Ordering::Equal => match (self.memtable.take(back), self.tables.take(back)) {
                (Some(Ok(new)), Some(Ok(old))) if old.key.seqno > new.key.seqno => Some(Ok(old)),
                (new, _) => new,
            },
        }
    }
}

impl<M: DoubleEndedIterator<Item = InternalValue>> Iterator for RangeWith<'_, M> {
    type Item = Found;

    fn next(&mut self) -> Option<Found> {
        self.step(false)
    }
}

impl<M: DoubleEndedIterator<Item = InternalValue>> DoubleEndedIterator for RangeWith<'_, M> {
    fn next_back(&mut self) -> Option<Found> {
        self.step(true)
    }
}

impl<M: DoubleEndedIterator<Item = InternalValue>> FusedIterator for RangeWith<'_, M> {}

/// Iterates over the newest version of each key of a memtable that is within bounds and visible.
#[derive(Debug)]
struct Newest<M> {
    entries: Ends<M, InternalValue>,
    bounds: (Bound<Vec<u8>>, Bound<Vec<u8>>),
    seqno: SeqNo,
    // The key that the front has yielded last, and the one that the back has.
    first: Option<Vec<u8>>,
    last: Option<Vec<u8>>,
}

impl<M: DoubleEndedIterator<Item = InternalValue>> Newest<M> {
    /// Takes the next entry at an end, which has to be in order with the one after it.
    fn take(&mut self, back: bool) -> Option<Found> {
        let entry = self.entries.take(back)?;
        let is_ordered = match self.entries.peek(back) {
            None => true,
            Some(next) if back => precedes(next, &entry),
            Some(next) => precedes(&entry, next),
        };
        Some(if is_ordered { Ok(entry) } else { Err(Error::OutOfOrder) })
    }

    fn is_visible(&self, entry: &InternalValue) -> bool {
        entry.key.seqno < self.seqno
    }

    /// Whether a key is below the lower bound, or the front has yielded it.
    fn is_before(&self, key: &[u8]) -> bool {
        let is_below = match &self.bounds.0 {
            Bound::Unbounded => false,
            Bound::Included(lower) => key < &lower[..],
            Bound::Excluded(lower) => key <= &lower[..],
        };
        is_below || self.first.as_ref().map_or(false, |first| key <= &first[..])
    }

    /// Whether a key is above the upper bound, or the back has yielded it.
    fn is_after(&self, key: &[u8]) -> bool {
        let is_above = match &self.bounds.1 {
            Bound::Unbounded => false,
            Bound::Included(upper) => key > &upper[..],
            Bound::Excluded(upper) => key >= &upper[..],
        };
        is_above || self.last.as_ref().map_or(false, |last| key >= &last[..])
    }
}

impl<M: DoubleEndedIterator<Item = InternalValue>> Iterator for Newest<M> {
    type Item = Found;

    fn next(&mut self) -> Option<Found> {
        loop {
            let entry = match self.take(false)? {
                Ok(entry) => entry,
                Err(error) => return Some(Err(error)),
            };
            if self.is_after(&entry.key.user_key) {
                return None;
            }
            if self.is_visible(&entry) && !self.is_before(&entry.key.user_key) {
                self.first = Some(entry.key.user_key.clone());
                return Some(Ok(entry));
            }
        }
    }
}

impl<M: DoubleEndedIterator<Item = InternalValue>> DoubleEndedIterator for Newest<M> {
    fn next_back(&mut self) -> Option<Found> {
        loop {
            let mut newest = match self.take(true)? {
                Ok(entry) => entry,
                Err(error) => return Some(Err(error)),
            };
            // The versions of a key come from the oldest to the newest.
            while matches!(self.entries.peek(true), Some(next)
                if next.key.user_key == newest.key.user_key)
            {
                match self.take(true)? {
                    Ok(entry) if self.is_visible(&entry) => newest = entry,
                    Ok(_) => {}
                    Err(error) => return Some(Err(error)),
                }
            }
            if self.is_before(&newest.key.user_key) {
                return None;
            }
            if self.is_visible(&newest) && !self.is_after(&newest.key.user_key) {
                self.last = Some(newest.key.user_key.clone());
                return Some(Ok(newest));
            }
        }
    }
}

/// Whether an entry may come before another one in a table.
fn precedes(entry: &InternalValue, other: &InternalValue) -> bool {
    let (key, other) = (&entry.key, &other.key);
    key.user_key < other.user_key || key.user_key == other.user_key && key.seqno > other.seqno
}

/// A double-ended iterator that can be peeked at both ends.
#[derive(Debug)]
struct Ends<I, T> {
    iter: Fuse<I>,
    // The next item at the front and at the back, if it was looked at.
    front: Option<T>,
    back: Option<T>,
}

impl<I: DoubleEndedIterator<Item = T>, T> Ends<I, T> {
    fn of(iter: I) -> Ends<I, T> {
        Ends { iter: iter.fuse(), front: None, back: None }
    }

    fn peek(&mut self, back: bool) -> Option<&T> {
        if back {
            if self.back.is_none() {
                self.back = self.iter.next_back().or_else(|| self.front.take());
            }
            self.back.as_ref()
        } else {
            if self.front.is_none() {
                self.front = self.iter.next().or_else(|| self.back.take());
            }
            self.front.as_ref()
        }
    }

    fn take(&mut self, back: bool) -> Option<T> {
        self.peek(back)?;
        if back {
            self.back.take()
        } else {
            self.front.take()
        }
    }
}
