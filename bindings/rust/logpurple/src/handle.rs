//! Handles of the library, and how calls use them.

use crate::error::test;
use crate::{Error, LentValue, SeqNo, ValueType};
use logpurple_sys as sys;
use std::cell::UnsafeCell;
use std::marker::PhantomData;
use std::ops::Bound;
use std::slice;
use std::sync::{Mutex, MutexGuard, Once, PoisonError};

/// A handle of the library, which is closed when it is dropped.
///
/// Only the calls write to its words, also through `&self`: a read keeps in the handle what it
/// found. So a handle is not `Sync`, and neither is a type that has one. One thread uses a handle
/// at a time.
///
/// A handle is `Send`, as its words are. Threads that use different handles need no
/// synchronization, whatever the handles share, as the header states. A table's bytes and blocks
/// are never written. Reference counts and the verified-block cache are updated atomically. Passing
/// a handle to another thread needs memory ordering, and sending in Rust always provides it.
///
/// Its content may read bytes that are borrowed for `'f`, without a copy. So it is dropped before
/// these are.
#[derive(Debug)]
pub(crate) struct Handle<'f> {
    words: UnsafeCell<sys::sst_handle>,
    kept: PhantomData<&'f [u8]>,
}

impl<'f> Handle<'f> {
    /// Returns a handle that holds nothing.
    pub(crate) fn closed() -> Handle<'f> {
        require_version();
        Handle { words: UnsafeCell::new(sys::sst_handle::default()), kept: PhantomData }
    }

    /// Returns the words, for one call.
    pub(crate) fn words(&self) -> *mut sys::sst_handle {
        self.words.get()
    }

    /// Borrows the entry that the last read through the handle found. `told` is what that read
    /// reported.
    ///
    /// # Safety
    ///
    /// `'l` ends before the next read through the handle, and before it is dropped.
    pub(crate) unsafe fn lend<'l>(
        &self,
        told: sys::sst_entry,
    ) -> Result<Option<LentValue<'l>>, Error> {
        // SAFETY: both are references of the call. The lent bytes are valid until the next read.
        unsafe { lent_by(told, |lent| sys::sst_found_lend(self.words(), lent)) }
    }
}

/// The handles of one table.
///
/// Each read through a reference has a handle for itself, so threads may read one table at the same
/// time. A handle that is not in use waits here for the next read.
#[derive(Debug)]
pub(crate) struct Handles<'f> {
    all: Mutex<All>,
    // The handles may read bytes borrowed for `'f`. In the lock they are `'static`, so that a table
    // of a longer lifetime is also one of a shorter.
    kept: PhantomData<&'f [u8]>,
}

#[derive(Debug)]
struct All {
    // Only short calls use it, and no other thread meanwhile.
    first: Handle<'static>,
    // Shares of it that no read is using.
    spare: Vec<Handle<'static>>,
}

impl<'f> Handles<'f> {
    /// Makes the handles of the table that a handle holds.
    ///
    /// # Safety
    ///
    /// The bytes that it reads are valid for `'f`.
    pub(crate) unsafe fn of(first: Handle<'static>) -> Handles<'f> {
        Handles { all: Mutex::new(All { first, spare: Vec::new() }), kept: PhantomData }
    }

    fn lock(&self) -> MutexGuard<'_, All> {
        // No call panics within the lock.
        self.all.lock().unwrap_or_else(PoisonError::into_inner)
    }

    /// Makes a short call with a handle. Other threads wait until it returns.
    pub(crate) fn briefly<T>(&self, call: impl FnOnce(&Handle<'f>) -> T) -> T {
        call(&self.lock().first)
    }

    /// Makes a call with a handle that no other call uses: a kept share, or a new one.
    pub(crate) fn with<T>(
        &self,
        call: impl FnOnce(&Handle<'f>) -> Result<T, Error>,
    ) -> Result<T, Error> {
        let spare = self.lock().spare.pop();
        let handle = match spare {
            Some(handle) => handle,
            None => self.share()?,
        };
        let result = call(&handle);
        let spare = &mut self.lock().spare;
        if spare.try_reserve(1).is_ok() {
            spare.push(handle);
        }
        result
    }

    /// Makes a further handle of the table.
    fn share(&self) -> Result<Handle<'static>, Error> {
        let handle = Handle::closed();
        // SAFETY: both are references of this call, and the handle holds nothing.
        test(self.briefly(|first| unsafe { sys::sst_table_share(first.words(), handle.words()) }))?;
        Ok(handle)
    }

    /// Makes further handles of the table.
    pub(crate) fn shared(&self) -> Result<Handles<'f>, Error> {
        // SAFETY: it reads what these handles do.
        self.share().map(|handle| unsafe { Handles::of(handle) })
    }

    /// Returns a handle for a caller that has exclusive access to the table.
    pub(crate) fn own(&mut self) -> &Handle<'f> {
        &self.all.get_mut().unwrap_or_else(PoisonError::into_inner).first
    }
}

impl Drop for Handle<'_> {
    fn drop(&mut self) {
        // SAFETY: the handle is owned, and nothing that it lent is in use.
        unsafe { sys::sst_close(self.words()) }
    }
}

impl Drop for Handles<'_> {
    /// Does nothing. Because of this implementation, the compiler requires `'f` to outlive the drop
    /// of the handles.
    fn drop(&mut self) {}
}

/// Panics unless the library has the calls that are declared here.
pub(crate) fn require_version() {
    static TESTED: Once = Once::new();
    TESTED.call_once(|| {
        assert_eq!(crate::version(), sys::SST_VERSION, "the library has other calls");
    });
}

/// Borrows the entry that a read reported, by a call that lends it. `None` if there is no entry.
///
/// # Safety
///
/// The bytes that the call lends are valid for `'l`.
pub(crate) unsafe fn lent_by<'l>(
    told: sys::sst_entry,
    lend: impl FnOnce(*mut sys::sst_lent) -> u32,
) -> Result<Option<LentValue<'l>>, Error> {
    if told.kind == sys::SST_NO_ENTRY {
        return Ok(None);
    }
    let value_type = ValueType::of_kind(told.kind).ok_or(Error::NoSuch)?;
    let none = [].as_ptr();
    let mut lent = sys::sst_lent { key: none, key_len: 0, value: none, value_len: 0 };
    test(lend(&mut lent))?;
    // SAFETY: the caller guarantees it.
    let (user_key, value) =
        unsafe { (bytes_at(lent.key, lent.key_len), bytes_at(lent.value, lent.value_len)) };
    Ok(Some(LentValue { user_key, seqno: told.seqno, value_type, value }))
}

// SAFETY of callers: `len` bytes at `at` are valid for `'l`. If `len` is 0, `at` is not used.
unsafe fn bytes_at<'l>(at: *const u8, len: u64) -> &'l [u8] {
    match usize::try_from(len) {
        Ok(len) if len > 0 => unsafe { slice::from_raw_parts(at, len) },
        _ => &[],
    }
}

/// A call that finds the newest version of a key below a sequence number.
type Get =
    unsafe extern "C" fn(*mut sys::sst_handle, *const u8, usize, u64, *mut sys::sst_entry) -> u32;

/// Makes such a call, and returns what it reports.
pub(crate) fn get(
    call: Get,
    handle: &Handle<'_>,
    key: &[u8],
    seqno: SeqNo,
) -> Result<sys::sst_entry, Error> {
    let mut told = sys::sst_entry::default();
    // SAFETY: the key is read during the call only, and the rest are references of this call.
    test(unsafe { call(handle.words(), key.as_ptr(), key.len(), seqno, &mut told) })?;
    Ok(told)
}

/// Returns the kind of a bound, and its key.
pub(crate) fn bound<K: AsRef<[u8]>>(bound: Bound<&K>) -> (u32, &[u8]) {
    match bound {
        Bound::Unbounded => (sys::SST_UNBOUNDED, &[]),
        Bound::Included(key) => (sys::SST_INCLUDED, key.as_ref()),
        Bound::Excluded(key) => (sys::SST_EXCLUDED, key.as_ref()),
    }
}

/// Returns an empty list with capacity for `len` items, or `OutOfMemory`.
pub(crate) fn room<T>(len: usize) -> Result<Vec<T>, Error> {
    let mut list = Vec::new();
    list.try_reserve_exact(len).map_err(|_| Error::OutOfMemory)?;
    Ok(list)
}

/// Copies bytes.
pub(crate) fn copy(bytes: &[u8]) -> Result<Vec<u8>, Error> {
    let mut copied = room(bytes.len())?;
    copied.extend_from_slice(bytes);
    Ok(copied)
}

/// Returns the least key above all that begin with a prefix; `None` if there is none.
pub(crate) fn after(prefix: &[u8]) -> Result<Option<Vec<u8>>, Error> {
    let len = prefix.iter().rposition(|byte| *byte < u8::MAX).map_or(0, |last| last + 1);
    let mut key = copy(&prefix[..len])?;
    let is_raised = key.last_mut().map(|last| *last += 1).is_some();
    Ok(is_raised.then_some(key))
}
