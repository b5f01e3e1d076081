use crate::raw;
use std::{error, fmt, io};

/// Why MARS refuses a call.
#[derive(Clone, Copy, Debug, PartialEq, Eq, Hash)]
#[non_exhaustive]
#[repr(i32)]
pub enum Status {
    /// There is no record.
    Absent = 1,
    /// The caller has no transaction, or has offered it.
    NoTransaction,
    /// There is no table of this name.
    NoTable,
    /// The caller has a transaction already.
    Already,
    /// The transaction has no such save.
    NoSave,
    /// The transaction has all the 32 saves that it may have.
    SavesFull,
    /// Another caller holds the key: abort, and try again.
    Busy,
    /// The transaction has written as much as it may: commit or abort.
    LogFull,
    /// The array is full for new keys. A purge takes out those that were deleted.
    SlotsFull,
    /// The index is full.
    PagesFull,
    /// The device failed, or memory ran out in a write: open the array anew.
    Media,
    /// So it was before.
    Dead,
    /// There is no memory.
    NoMemory,
    /// The records are damaged.
    Damaged,
    /// There is no such caller, or the array has not so many.
    BadCaller,
    /// The name of a table has 1 to 16 letters from a to z.
    BadName,
    /// A value has 1 to 54 bytes from ! to ~.
    BadValue,
    /// There is no array of this shape, or it has another length.
    BadShape,
    /// The bytes hold no array.
    NotMars,
    /// A row of the array is bad.
    BadRow,
    /// There is nothing to be done on the device.
    NoPiece,
    /// The system refused a file.
    File,
    /// The array is closed.
    IsClosed,
    /// The key of long bytes is below 2 to the power of 55.
    BadKey,
    /// Long bytes are at most 16,384.
    TooLong,
    /// The records under the key are not those of long bytes.
    Broken,
    /// The long bytes are half written, and the way back was refused: abort.
    Half,
    /// Some caller has a transaction: end all of them first.
    InUse,
    /// There is a table of this name.
    NameTaken,
    /// An array has at most 8 tables.
    TablesFull,
    /// The array is open.
    IsOpen,
    /// At most 64 commits may wait for their write-back.
    BadDepth,
    /// A status that this crate does not know.
    Unknown,
}

use Status::*;

/// Each status that mars.h has, by its number less one.
const ALL: [Status; 32] = [
    Absent,
    NoTransaction,
    NoTable,
    Already,
    NoSave,
    SavesFull,
    Busy,
    LogFull,
    SlotsFull,
    PagesFull,
    Media,
    Dead,
    NoMemory,
    Damaged,
    BadCaller,
    BadName,
    BadValue,
    BadShape,
    NotMars,
    BadRow,
    NoPiece,
    File,
    IsClosed,
    BadKey,
    TooLong,
    Broken,
    Half,
    InUse,
    NameTaken,
    TablesFull,
    IsOpen,
    BadDepth,
];

impl Status {
    /// Each status.
    pub fn all() -> impl Iterator<Item = Status> {
        ALL.iter().copied()
    }

    fn of(number: i32) -> Status {
        usize::try_from(number - 1).ok().and_then(|at| ALL.get(at).copied()).unwrap_or(Unknown)
    }
}

impl fmt::Display for Status {
    fn fmt(&self, f: &mut fmt::Formatter<'_>) -> fmt::Result {
        let mut room = [0; 100];
        let mut len = 0;
        // SAFETY: both lead to what is there, and `room` has as many bytes as is said.
        unsafe { raw::mars_text(*self as i32, room.as_mut_ptr(), room.len(), &mut len) };
        f.write_str(&String::from_utf8_lossy(&room[..room.len().min(len as usize)]))
    }
}

/// Why a call failed.
#[derive(Debug)]
pub enum Error {
    /// MARS refused it.
    Refused(Status),
    /// The device failed, now or before: close the array, and open it anew.
    Device(io::Error),
}

/// What a call gives.
pub type Result<T> = std::result::Result<T, Error>;

impl Error {
    /// The status, if MARS refused the call.
    pub fn status(&self) -> Option<Status> {
        match self {
            Error::Refused(status) => Some(*status),
            Error::Device(_) => None,
        }
    }
}

impl fmt::Display for Error {
    fn fmt(&self, f: &mut fmt::Formatter<'_>) -> fmt::Result {
        match self {
            Error::Refused(status) => status.fmt(f),
            Error::Device(error) => error.fmt(f),
        }
    }
}

impl error::Error for Error {
    fn source(&self) -> Option<&(dyn error::Error + 'static)> {
        match self {
            Error::Refused(_) => None,
            Error::Device(error) => Some(error),
        }
    }
}

impl From<io::Error> for Error {
    fn from(error: io::Error) -> Error {
        Error::Device(error)
    }
}

/// Gives what a status of mars.h says.
pub(crate) fn check(status: i32) -> Result<()> {
    if status == 0 {
        return Ok(());
    }
    Err(Error::Refused(Status::of(status)))
}

/// The same, where it may say that there is none.
pub(crate) fn is_there(status: i32) -> Result<bool> {
    if status == Absent as i32 {
        return Ok(false);
    }
    check(status).map(|()| true)
}
