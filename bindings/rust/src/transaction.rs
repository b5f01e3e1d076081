use crate::array::Array;
use crate::device::Device;
use crate::raw;
use crate::status::{check, is_there, Result};
use std::fmt;
use std::mem;
use std::ops::{Bound, Deref, RangeBounds};

const VALUE_MAX: usize = 54;

/// A value: 1 to 54 bytes, each visible.
#[derive(Clone, Copy)]
pub struct Value {
    bytes: [u8; VALUE_MAX],
    len: usize,
}

impl Deref for Value {
    type Target = [u8];

    fn deref(&self) -> &[u8] {
        &self.bytes[..self.len]
    }
}

impl fmt::Debug for Value {
    fn fmt(&self, f: &mut fmt::Formatter<'_>) -> fmt::Result {
        write!(f, "{:?}", String::from_utf8_lossy(self))
    }
}

impl<T: AsRef<[u8]> + ?Sized> PartialEq<T> for Value {
    fn eq(&self, other: &T) -> bool {
        **self == *other.as_ref()
    }
}

/// A record: its key and its value.
pub type Row = (u64, Value);

/// A save of a transaction.
#[derive(Clone, Copy, Debug, PartialEq, Eq)]
pub struct Save(u32);

/// A transaction of a caller. It is dropped with its value, unless that is committed.
pub struct Transaction<'a, D: Device> {
    array: &'a Array<D>,
    caller: u8,
}

impl<'a, D: Device> Transaction<'a, D> {
    pub(crate) fn begin(array: &'a Array<D>, caller: u8) -> Result<Transaction<'a, D>> {
        // SAFETY: as in each function here, the array is as its opening and the calls since have left it, and no other thread uses it.
        check(unsafe { raw::mars_begin(array.mars(), caller) })?;
        Ok(Transaction { array, caller })
    }

    /// The value under a key.
    pub fn get(&self, table: &str, key: u64) -> Result<Option<Value>> {
        let (mut bytes, mut len) = ([0; VALUE_MAX], 0);
        // SAFETY: `bytes` has as many bytes as is said, and so has a string in each function here.
        let status =
            unsafe { raw::mars_get(self.array.mars(), self.caller, table.as_ptr(), table.len(), key, bytes.as_mut_ptr(), VALUE_MAX, &mut len) };
        Ok(is_there(status)?.then_some(Value { bytes, len: len as usize }))
    }

    /// Gives a key this value: 1 to 54 bytes, each from ! to ~.
    pub fn put(&mut self, table: &str, key: u64, value: &[u8]) -> Result<()> {
        // SAFETY: a slice has as many bytes as it says.
        check(unsafe { raw::mars_put(self.array.mars(), self.caller, table.as_ptr(), table.len(), key, value.as_ptr(), value.len()) })
    }

    /// Removes the record of a key, and gives whether there was one.
    pub fn delete(&mut self, table: &str, key: u64) -> Result<bool> {
        // SAFETY: as above.
        is_there(unsafe { raw::mars_del(self.array.mars(), self.caller, table.as_ptr(), table.len(), key) })
    }

    /// The records of these keys as they are now, by rising keys.
    pub fn rows(&self, table: &str, keys: impl RangeBounds<u64>) -> Result<Vec<Row>> {
        let (low, high) = bounds(keys);
        let mut count = 0;
        // SAFETY: as above.
        check(unsafe { raw::mars_scan(self.array.mars(), self.caller, table.as_ptr(), table.len(), low, high, &mut count) })?;
        (0..count).map(|at| self.row(at)).collect()
    }

    fn row(&self, at: u64) -> Result<Row> {
        let (mut key, mut bytes, mut len) = (0, [0; VALUE_MAX], 0);
        // SAFETY: `bytes` has as many bytes as is said.
        check(unsafe { raw::mars_row(self.array.mars(), at, &mut key, bytes.as_mut_ptr(), VALUE_MAX, &mut len) })?;
        Ok((key, Value { bytes, len: len as usize }))
    }

    /// The first record of these keys.
    pub fn first(&self, table: &str, keys: impl RangeBounds<u64>) -> Result<Option<Row>> {
        let (low, high) = bounds(keys);
        let (mars, mut key, mut bytes, mut len) = (self.array.mars(), 0, [0; VALUE_MAX], 0);
        // SAFETY: `bytes` has as many bytes as is said.
        let status =
            unsafe { raw::mars_next(mars, self.caller, table.as_ptr(), table.len(), low, high, &mut key, bytes.as_mut_ptr(), VALUE_MAX, &mut len) };
        Ok(is_there(status)?.then_some((key, Value { bytes, len: len as usize })))
    }

    /// The same records as of [`Transaction::rows`], each of which is read when it is asked for.
    pub fn cursor<'t>(&'t self, table: &'t str, keys: impl RangeBounds<u64>) -> Cursor<'t, D> {
        Cursor { work: self, table, left: Some(bounds(keys)) }
    }

    /// The long bytes under a key.
    pub fn get_bytes(&self, table: &str, key: u64) -> Result<Option<Vec<u8>>> {
        let size = match self.bytes_length(table, key)? {
            Some(size) => size as usize,
            None => return Ok(None),
        };
        let (mut room, mut len) = (vec![0; size], 0);
        // SAFETY: `room` has as many bytes as is said.
        let status =
            unsafe { raw::mars_get_bytes(self.array.mars(), self.caller, table.as_ptr(), table.len(), key, room.as_mut_ptr(), room.len(), &mut len) };
        check(status)?;
        Ok(Some(room))
    }

    /// Puts up to 16,384 bytes of any kind under a key below 2^55, in a table where nothing else is. It takes a save.
    pub fn put_bytes(&mut self, table: &str, key: u64, bytes: &[u8]) -> Result<()> {
        // SAFETY: a slice has as many bytes as it says.
        check(unsafe { raw::mars_put_bytes(self.array.mars(), self.caller, table.as_ptr(), table.len(), key, bytes.as_ptr(), bytes.len()) })
    }

    /// Removes long bytes, and gives whether there were some. It takes a save.
    pub fn delete_bytes(&mut self, table: &str, key: u64) -> Result<bool> {
        // SAFETY: as above.
        is_there(unsafe { raw::mars_del_bytes(self.array.mars(), self.caller, table.as_ptr(), table.len(), key) })
    }

    /// How many long bytes are under a key.
    pub fn bytes_length(&self, table: &str, key: u64) -> Result<Option<u64>> {
        let mut len = 0;
        // SAFETY: as above.
        let status = unsafe { raw::mars_bytes_length(self.array.mars(), self.caller, table.as_ptr(), table.len(), key, &mut len) };
        Ok(is_there(status)?.then_some(len))
    }

    /// Makes a save.
    pub fn save(&mut self) -> Result<Save> {
        let mut number = 0;
        // SAFETY: as above.
        check(unsafe { raw::mars_save(self.array.mars(), self.caller, &mut number) })?;
        Ok(Save(number as u32))
    }

    /// Goes back to a save, and forgets the later ones.
    pub fn back(&mut self, save: Save) -> Result<()> {
        // SAFETY: as above.
        check(unsafe { raw::mars_back(self.array.mars(), self.caller, save.0) })
    }

    /// Commits, makes that durable, and gives the number of the transaction since the opening.
    pub fn commit(self) -> Result<u64> {
        let array = self.array;
        let number = self.commit_unsynced()?;
        array.sync()?;
        Ok(number)
    }

    /// Commits. It is durable after a later [`Array::sync`].
    pub fn commit_unsynced(self) -> Result<u64> {
        let mut number = 0;
        // SAFETY: as above.
        check(unsafe { raw::mars_commit(self.array.mars(), self.caller, &mut number) })?;
        mem::forget(self);
        Ok(number)
    }

    /// Drops it.
    pub fn abort(self) {}

    /// Offers it for a group: the first that settles commits all that were offered, at once.
    pub fn offer(self) -> Result<Offered<'a, D>> {
        // SAFETY: as above.
        check(unsafe { raw::mars_offer(self.array.mars(), self.caller) })?;
        let offered = Offered { array: self.array, caller: self.caller };
        mem::forget(self);
        Ok(offered)
    }
}

// The first and the last of these keys; where there are none, a first one behind the last.
fn bounds(keys: impl RangeBounds<u64>) -> (u64, u64) {
    let low = match keys.start_bound() {
        Bound::Included(key) => Some(*key),
        Bound::Excluded(key) => key.checked_add(1),
        Bound::Unbounded => Some(0),
    };
    let high = match keys.end_bound() {
        Bound::Included(key) => Some(*key),
        Bound::Excluded(key) => key.checked_sub(1),
        Bound::Unbounded => Some(u64::MAX),
    };
    low.zip(high).unwrap_or((1, 0))
}

/// Records of a table, each of which is read when it is asked for.
pub struct Cursor<'t, D: Device> {
    work: &'t Transaction<'t, D>,
    table: &'t str,
    left: Option<(u64, u64)>,
}

impl<D: Device> Iterator for Cursor<'_, D> {
    type Item = Result<Row>;

    fn next(&mut self) -> Option<Result<Row>> {
        let (low, high) = self.left.take()?;
        let row = self.work.first(self.table, low..=high).transpose()?;
        if let Ok((key, _)) = row {
            self.left = key.checked_add(1).map(|next| (next, high)).filter(|left| left.0 <= left.1);
        }
        Some(row)
    }
}

impl<D: Device> Drop for Transaction<'_, D> {
    fn drop(&mut self) {
        // SAFETY: as above. Where the array has failed there is nothing left to drop.
        unsafe { raw::mars_abort(self.array.mars(), self.caller) };
    }
}

/// A transaction that was offered for a group. It is settled with its value at the latest, since it cannot be taken back.
pub struct Offered<'a, D: Device> {
    array: &'a Array<D>,
    caller: u8,
}

impl<D: Device> Offered<'_, D> {
    /// Commits all that were offered, unless another one did, makes that durable, and gives the number of this one.
    pub fn settle(self) -> Result<u64> {
        let array = self.array;
        let number = self.settle_unsynced()?;
        array.sync()?;
        Ok(number)
    }

    /// The same. It is durable after a later [`Array::sync`].
    pub fn settle_unsynced(self) -> Result<u64> {
        let number = self.end()?;
        mem::forget(self);
        Ok(number)
    }

    fn end(&self) -> Result<u64> {
        let mut number = 0;
        // SAFETY: as above.
        check(unsafe { raw::mars_settle(self.array.mars(), self.caller, &mut number) })?;
        Ok(number)
    }
}

impl<D: Device> Drop for Offered<'_, D> {
    fn drop(&mut self) {
        let _ = self.end();
    }
}
