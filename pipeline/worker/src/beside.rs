//! A file replaced as a whole: written beside, flushed, renamed, its folder flushed. At every instant it has its old bytes or its new ones.
use crate::disk::{folder, Disk};
use std::collections::hash_map::RandomState;
use std::ffi::{OsStr, OsString};
use std::hash::{BuildHasher, Hasher};
use std::io::{self, ErrorKind};
use std::os::unix::ffi::OsStrExt;
use std::path::Path;

/// How the name of a file that was written beside ends.
const ENDING: &str = ".beside";

/// How many digits stand before that, to the base of 16.
const DIGITS: usize = 16;

/// Replaces the bytes of the file at `path`, which need not be there.
pub fn replace<D: Disk>(disk: &D, path: &Path, bytes: &[u8]) -> io::Result<()> {
    loop {
        let beside = write_beside(disk, path, bytes)?;
        return match disk.rename(beside.as_ref(), path) {
            Ok(()) => disk.flush_folder(folder(path)),
            // a worker that ended has swept it away: write it again
            Err(error) if error.kind() == ErrorKind::NotFound => continue,
            Err(error) => Err(not_left(disk, beside.as_ref(), error)),
        };
    }
}

/// Writes the bytes to a new file, and makes them last: its path.
fn write_beside<D: Disk>(disk: &D, path: &Path, bytes: &[u8]) -> io::Result<OsString> {
    let beside = name_beside(path);
    let file = disk.make(beside.as_ref())?;
    let written = disk.write_at(&file, bytes, 0);
    match written.and_then(|()| disk.flush(&file)) {
        Ok(()) => Ok(beside),
        Err(error) => Err(not_left(disk, beside.as_ref(), error)),
    }
}

/// The error, once the file written beside is gone: a disk that is full must not fill up with these.
fn not_left<D: Disk>(disk: &D, beside: &Path, error: io::Error) -> io::Error {
    let _ = disk.remove(beside);
    error
}

/// A name that nobody else takes: not even one that was swept away comes again, for its first owner would rename what the second has half written.
fn name_beside(path: &Path) -> OsString {
    let random = RandomState::new().build_hasher().finish();
    let mut name = path.as_os_str().to_owned();
    name.push(format!(".{random:0DIGITS$x}{ENDING}"));
    name
}

/// Whether this is such a name beside a file of the name `of`.
fn is_beside(name: &OsStr, of: &OsStr) -> bool {
    let digits = name
        .as_bytes()
        .strip_prefix(of.as_bytes())
        .and_then(|rest| rest.strip_prefix(b"."))
        .and_then(|rest| rest.strip_suffix(ENDING.as_bytes()));
    digits.map_or(false, |digits| {
        digits.len() == DIGITS && digits.iter().all(u8::is_ascii_hexdigit)
    })
}

/// Removes what killed workers left beside the file at `path`. A live one whose file it removes writes it again.
pub fn sweep<D: Disk>(disk: &D, path: &Path) -> io::Result<()> {
    let of = path.file_name().unwrap_or_default();
    for name in disk.names(folder(path))? {
        if is_beside(&name, of) {
            match disk.remove(&folder(path).join(&name)) {
                Err(error) if error.kind() != ErrorKind::NotFound => return Err(error),
                _ => {}
            }
        }
    }
    Ok(())
}
