use crate::device::{Device, File};
use crate::raw;
use crate::status::{check, Result, Status};
use crate::transaction::Transaction;
use std::cell::{Cell, RefCell, UnsafeCell};
use std::io;
use std::path::Path;
use std::ptr;

pub(crate) const NAME_MAX: usize = 16;

/// The numbers of an array, which stay what they are when it is made.
#[derive(Clone, Copy, Debug, PartialEq, Eq)]
pub struct Shape {
    /// 1 to 8.
    pub loggers: u8,
    /// How many callers may have a transaction at the same time: 1 to 64.
    pub callers: u8,
    /// How many writes a transaction may have at each logger: 8 to 64.
    pub entries: u16,
    /// How many pages of 512 bytes each logger has: an even number from 4 to 4,096.
    pub pages: u32,
}

impl Default for Shape {
    fn default() -> Shape {
        Shape { loggers: 1, callers: 8, entries: 64, pages: 64 }
    }
}

impl Shape {
    /// The bytes of a fresh array. Write them to the device, and make them durable.
    pub fn fresh(&self) -> Result<Vec<u8>> {
        let Shape { loggers, callers, entries, pages } = *self;
        // SAFETY: it takes numbers alone.
        let size = unsafe { raw::mars_size(loggers, callers, entries, pages) };
        let mut bytes = vec![0; size as usize];
        // SAFETY: `bytes` has as many bytes as is said.
        check(unsafe { raw::mars_format(bytes.as_mut_ptr(), bytes.len(), loggers, callers, entries, pages) })?;
        Ok(bytes)
    }

    /// Makes a fresh array in a new file.
    pub fn make(&self, path: impl AsRef<Path>) -> Result<()> {
        Ok(File::make(path, &self.fresh()?)?)
    }
}

/// An open array, on a device that it owns. One thread at a time uses it.
pub struct Array<D: Device> {
    mars: Handle,
    device: RefCell<D>,
    failure: Cell<Option<io::ErrorKind>>,
}

// What C has a pointer to stays where it is, and is closed at the end.
struct Handle(Box<UnsafeCell<raw::Mars>>);

// SAFETY: no part of the library belongs to a thread. A `Handle` is not `Sync`, and so `Array` is not.
unsafe impl Send for Handle {}

impl Drop for Handle {
    fn drop(&mut self) {
        // SAFETY: it is open or closed, and nobody uses it any more.
        unsafe { raw::mars_close(self.0.get()) }
    }
}

impl Array<File> {
    /// Opens the array in a file for so many callers.
    pub fn open_file(path: impl AsRef<Path>, callers: u8) -> Result<Array<File>> {
        Array::open(File::open(path)?, callers)
    }
}

impl<D: Device> Array<D> {
    /// Opens the array on a device for so many callers, and makes durable what the opening repaired.
    pub fn open(device: D, callers: u8) -> Result<Array<D>> {
        Array::open_late(device, callers, 0)
    }

    /// Opens it so that up to `depth` commits, 0 to 64, may wait for their write-back. They are durable all the same.
    pub fn open_late(mut device: D, callers: u8, depth: u8) -> Result<Array<D>> {
        let bytes = device.read()?;
        let mars = Handle(Box::new(UnsafeCell::new(raw::Mars { kept: ptr::null_mut(), is_open: false })));
        let array = Array { mars, device: RefCell::new(device), failure: Cell::new(None) };
        // SAFETY: it is closed, and `bytes` has as many bytes as is said.
        check(unsafe { raw::mars_open_late(array.mars(), bytes.as_ptr(), bytes.len(), callers, depth) })?;
        array.sync()?;
        Ok(array)
    }

    /// Begins a transaction of the caller, which is below the number that was said at the opening.
    pub fn begin(&self, caller: u8) -> Result<Transaction<'_, D>> {
        Transaction::begin(self, caller)
    }

    /// The names of the tables, by their numbers. The first is `main`.
    pub fn tables(&self) -> Result<Vec<String>> {
        let mut names = Vec::new();
        while let Some(name) = self.table(names.len() as u8)? {
            names.push(name);
        }
        Ok(names)
    }

    fn table(&self, number: u8) -> Result<Option<String>> {
        let (mut room, mut len) = ([0; NAME_MAX], 0);
        // SAFETY: `room` has as many bytes as is said.
        let status = unsafe { raw::mars_table(self.mars(), number, room.as_mut_ptr(), room.len(), &mut len) };
        if status == Status::NoTable as i32 {
            return Ok(None);
        }
        check(status)?;
        Ok(Some(String::from_utf8_lossy(&room[..len as usize]).into_owned()))
    }

    /// Makes a table, without records, and gives its number. No caller has a transaction: they are counted from 1 again.
    pub fn make(&self, table: &str) -> Result<u8> {
        let mut number = 0;
        self.sync()?;
        // SAFETY: the text has as many bytes as is said, and `number` may be written.
        check(unsafe { raw::mars_make(self.mars(), table.as_ptr(), table.len(), &mut number) })?;
        self.sync()?;
        Ok(number)
    }

    /// Takes the keys that have no record out of the index, and gives how many. The caller has no transaction.
    pub fn purge(&self, caller: u8) -> Result<u64> {
        let mut keys = 0;
        // SAFETY: `keys` may be written.
        check(unsafe { raw::mars_purge(self.mars(), caller, &mut keys) })?;
        self.sync()?;
        Ok(keys)
    }

    /// Takes the tape down: does on the device what is still to be done, so that all that was committed is durable. After a failure it is not tried
    /// again.
    pub fn sync(&self) -> Result<()> {
        if let Some(kind) = self.failure.get() {
            return Err(io::Error::new(kind, "the device failed before").into());
        }
        // A device that panics has failed too.
        self.failure.set(Some(io::ErrorKind::Other));
        let done = self.do_pieces();
        self.failure.set(done.as_ref().err().map(io::Error::kind));
        Ok(done?)
    }

    fn do_pieces(&self) -> io::Result<()> {
        let mut device = self.device.borrow_mut();
        let mut room = Vec::new();
        loop {
            let (mut at, mut len) = (0, 0);
            // SAFETY: both may be written.
            let kind = unsafe { raw::mars_piece(self.mars(), &mut at, &mut len) };
            let done = match kind {
                raw::NOTHING => return Ok(()),
                raw::WRITE => device.write(at, self.piece(len, &mut room)),
                _ => device.barrier(),
            };
            // SAFETY: the device has answered, and says whether it was done.
            unsafe {
                match done {
                    Ok(()) => raw::mars_piece_done(self.mars()),
                    Err(_) => raw::mars_piece_failed(self.mars()),
                }
            };
            done?;
        }
    }

    fn piece<'a>(&self, len: u64, room: &'a mut Vec<u8>) -> &'a [u8] {
        let mut told = 0;
        room.resize(len as usize, 0);
        // SAFETY: `room` has as many bytes as is said.
        unsafe { raw::mars_piece_bytes(self.mars(), 0, room.as_mut_ptr(), room.len(), &mut told) };
        room
    }

    /// The moment of the last call. What it answered is durable once `done_up_to` has reached that.
    pub fn moment(&self) -> u64 {
        // SAFETY: as for each call, the pointer leads to what `open` left.
        unsafe { raw::mars_moment(self.mars()) }
    }

    /// The moment up to which all was done on the device.
    pub fn done_up_to(&self) -> u64 {
        // SAFETY: as above.
        unsafe { raw::mars_done_up_to(self.mars()) }
    }

    /// Closes it, and gives the device back. What was not synced is not there.
    pub fn into_device(self) -> D {
        self.device.into_inner()
    }

    pub(crate) fn mars(&self) -> *mut raw::Mars {
        self.mars.0.get()
    }
}
