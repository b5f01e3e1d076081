use std::fs;
use std::io;
use std::os::raw::c_int;
use std::os::unix::fs::FileExt;
use std::os::unix::io::AsRawFd;
use std::path::Path;

/// Where an array is kept. A call that fails is not made again.
pub trait Device {
    /// All bytes that it holds, which are durable.
    fn read(&mut self) -> io::Result<Vec<u8>>;

    /// Writes these bytes from the place `at` on. A loss of power before the next barrier may leave anything there.
    fn write(&mut self, at: u64, bytes: &[u8]) -> io::Result<()>;

    /// Makes durable all that was written.
    fn barrier(&mut self) -> io::Result<()>;
}

/// Bytes in memory, which are gone with the program.
impl Device for Vec<u8> {
    fn read(&mut self) -> io::Result<Vec<u8>> {
        Ok(self.clone())
    }

    fn write(&mut self, at: u64, bytes: &[u8]) -> io::Result<()> {
        let at = at as usize;
        self[at..at + bytes.len()].copy_from_slice(bytes);
        Ok(())
    }

    fn barrier(&mut self) -> io::Result<()> {
        Ok(())
    }
}

extern "C" {
    fn flock(file: c_int, operation: c_int) -> c_int;
}

const LOCK_EX: c_int = 2;
const LOCK_NB: c_int = 4;

/// A file that no other program has as an array (an advisory lock, as `mars` takes it).
#[derive(Debug)]
pub struct File {
    file: fs::File,
}

impl File {
    /// Opens a file that is there.
    pub fn open(path: impl AsRef<Path>) -> io::Result<File> {
        let file = fs::OpenOptions::new().read(true).write(true).open(path)?;
        // SAFETY: the file is open.
        if unsafe { flock(file.as_raw_fd(), LOCK_EX | LOCK_NB) } != 0 {
            return Err(io::Error::last_os_error());
        }
        Ok(File { file })
    }

    /// Makes a file with these bytes where there is none. If it fails, there is none.
    pub fn make(path: impl AsRef<Path>, bytes: &[u8]) -> io::Result<()> {
        let path = path.as_ref();
        let file = fs::OpenOptions::new().write(true).create_new(true).open(path)?;
        file.write_all_at(bytes, 0).and_then(|()| file.sync_all()).and_then(|()| sync_folder_of(path)).map_err(|error| {
            let _ = fs::remove_file(path);
            error
        })
    }
}

fn sync_folder_of(path: &Path) -> io::Result<()> {
    let folder = match path.parent() {
        Some(folder) if folder != Path::new("") => folder,
        _ => Path::new("."),
    };
    fs::File::open(folder)?.sync_all()
}

impl Device for File {
    fn read(&mut self) -> io::Result<Vec<u8>> {
        let mut bytes = vec![0; self.file.metadata()?.len() as usize];
        self.file.read_exact_at(&mut bytes, 0)?;
        Ok(bytes)
    }

    fn write(&mut self, at: u64, bytes: &[u8]) -> io::Result<()> {
        self.file.write_all_at(bytes, at)
    }

    fn barrier(&mut self) -> io::Result<()> {
        self.file.sync_data()
    }
}
