//! What the worker asks of a disk: the few calls that a decode with its record, and a count with its table, rest on. docs/PROMISES.md says what is
//! assumed of them.
use crate::memory::room;
use std::ffi::OsString;
use std::fs::{self, File, OpenOptions};
use std::io::{self, ErrorKind, Read};
use std::os::unix::fs::FileExt;
use std::os::unix::io::AsRawFd;
use std::path::Path;

/// A disk. What is written shows at once, and lasts from the next flush on.
pub trait Disk {
    /// An open file.
    type File;
    /// A lock that is held. Dropping it lets go, and so does the end of the worker that has it, whatever ends it.
    type Lock;
    /// Opens a file that is there, to write at places; what it holds stays.
    fn open(&self, path: &Path) -> io::Result<Self::File>;
    /// The same, of a file that is made, empty, where it is missing.
    fn open_or_make(&self, path: &Path) -> io::Result<Self::File>;
    /// Makes a file; one that is there already is an error.
    fn make(&self, path: &Path) -> io::Result<Self::File>;
    /// A file's length.
    fn length(&self, file: &Self::File) -> io::Result<u64>;
    /// Cuts a file off, or makes it longer by zeros.
    fn set_length(&self, file: &Self::File, length: u64) -> io::Result<()>;
    /// Writes all bytes from a place on.
    fn write_at(&self, file: &Self::File, bytes: &[u8], place: u64) -> io::Result<()>;
    /// Makes a file's bytes and length last.
    fn flush(&self, file: &Self::File) -> io::Result<()>;
    /// A file's bytes.
    fn read(&self, path: &Path) -> io::Result<Vec<u8>>;
    /// Gives a file another name in the same folder, at one instant; what had that name before loses it.
    fn rename(&self, from: &Path, to: &Path) -> io::Result<()>;
    /// Takes a file's name away.
    fn remove(&self, path: &Path) -> io::Result<()>;
    /// The names in a folder.
    fn names(&self, folder: &Path) -> io::Result<Vec<OsString>>;
    /// Makes a folder's names last.
    fn flush_folder(&self, folder: &Path) -> io::Result<()>;
    /// Takes the lock of a path, and waits while somebody else has it. Its file is made where it is missing, and nobody removes it: two workers would
    /// then lock two files of one name.
    fn lock(&self, path: &Path) -> io::Result<Self::Lock>;
}

/// The folder that a path names a file of.
pub fn folder(path: &Path) -> &Path {
    match path.parent() {
        Some(folder) if folder != Path::new("") => folder,
        _ => Path::new("."),
    }
}

/// A file's bytes; none where it is not there.
pub fn read_if_there<D: Disk>(disk: &D, path: &Path) -> io::Result<Option<Vec<u8>>> {
    match disk.read(path) {
        Err(error) if error.kind() == ErrorKind::NotFound => Ok(None),
        read => read.map(Some),
    }
}

/// The operating system's files.
pub struct RealDisk;

/// As many bytes take the disk longer than a call takes.
const MUCH: usize = 1 << 16;

impl Disk for RealDisk {
    type File = File;
    type Lock = File;

    fn open(&self, path: &Path) -> io::Result<File> {
        OpenOptions::new().write(true).open(path)
    }

    fn open_or_make(&self, path: &Path) -> io::Result<File> {
        OpenOptions::new()
            .write(true)
            .create(true)
            .truncate(false)
            .open(path)
    }

    fn make(&self, path: &Path) -> io::Result<File> {
        OpenOptions::new().write(true).create_new(true).open(path)
    }

    fn length(&self, file: &File) -> io::Result<u64> {
        Ok(file.metadata()?.len())
    }

    fn set_length(&self, file: &File, length: u64) -> io::Result<()> {
        file.set_len(length)
    }

    fn write_at(&self, file: &File, bytes: &[u8], place: u64) -> io::Result<()> {
        file.write_all_at(bytes, place)?;
        if bytes.len() >= MUCH {
            begin_to_flush(file, bytes.len(), place);
        }
        Ok(())
    }

    fn flush(&self, file: &File) -> io::Result<()> {
        file.sync_data()
    }

    fn read(&self, path: &Path) -> io::Result<Vec<u8>> {
        let mut file = File::open(path)?;
        let length = file.metadata()?.len() as usize;
        let mut bytes = room(length).ok_or(ErrorKind::OutOfMemory)?;
        file.read_to_end(&mut bytes)?;
        Ok(bytes)
    }

    fn rename(&self, from: &Path, to: &Path) -> io::Result<()> {
        fs::rename(from, to)
    }

    fn remove(&self, path: &Path) -> io::Result<()> {
        fs::remove_file(path)
    }

    fn names(&self, folder: &Path) -> io::Result<Vec<OsString>> {
        fs::read_dir(folder)?
            .map(|entry| entry.map(|entry| entry.file_name()))
            .collect()
    }

    fn flush_folder(&self, folder: &Path) -> io::Result<()> {
        File::open(folder)?.sync_all()
    }

    fn lock(&self, path: &Path) -> io::Result<File> {
        let file = self.open_or_make(path)?;
        loop {
            match lock_alone(&file) {
                Err(error) if error.kind() == ErrorKind::Interrupted => continue,
                locked => return locked.map(|()| file),
            }
        }
    }
}

/// Has the disk begin with bytes that a flush will wait for, while the decode goes on. Nothing rests on it, so its answer does not matter.
#[allow(unsafe_code)]
fn begin_to_flush(file: &File, length: usize, place: u64) {
    extern "C" {
        fn sync_file_range(descriptor: i32, place: i64, length: i64, flags: u32) -> i32;
    }
    const WRITE: u32 = 2;
    // SAFETY: it takes numbers, reads and writes no memory of this program, and leaves the file's bytes as they are
    unsafe { sync_file_range(file.as_raw_fd(), place as i64, length as i64, WRITE) };
}

/// Waits until nobody else has this file locked, and locks it until it is closed: by its owner, or by the system where its owner ends.
#[allow(unsafe_code)]
fn lock_alone(file: &File) -> io::Result<()> {
    extern "C" {
        fn flock(descriptor: i32, operation: i32) -> i32;
    }
    const ALONE: i32 = 2;
    // SAFETY: it takes numbers, and reads and writes no memory of this program
    match unsafe { flock(file.as_raw_fd(), ALONE) } {
        0 => Ok(()),
        _ => Err(io::Error::last_os_error()),
    }
}
