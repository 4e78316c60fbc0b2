//! A disk in memory that forgets in a crash what was not flushed: bytes and lengths from a flush of their file on last, names from a flush of
//! their folder on.
use crate::pictures::some_bytes;
use crate::random::Random;
use std::ffi::OsString;
use std::io::{self, ErrorKind};
use std::path::{Path, PathBuf};
use worker::disk::folder;

/// Ranges, at most, of which a crash leaves each as it was at another moment.
const RANGES: usize = 6;

#[derive(Default)]
pub struct Forgetful {
    files: Vec<Bytes>,
    names: Vec<Name>,
}

/// A file's bytes at each moment since they were last flushed: the first last, the last one shows.
struct Bytes {
    moments: Vec<Vec<u8>>,
    /// Whether a write has made it longer: where that is not flushed, any bytes may stand there after a crash.
    grown: bool,
}

/// What a path named at each moment since its folder was flushed: the first lasts, the last one shows.
struct Name {
    path: PathBuf,
    moments: Vec<Option<usize>>,
}

/// What a crash has taken away.
#[derive(Default)]
pub struct Lost {
    /// Whether it was bytes, or the length, of a file that had a name.
    pub write: bool,
    /// The paths that no longer name what they did.
    pub names: Vec<PathBuf>,
}

impl Forgetful {
    /// Puts a file there that lasts.
    pub fn put(&mut self, path: &Path, bytes: Vec<u8>) {
        let file = self.new_file(bytes);
        self.names.push(Name {
            path: path.to_owned(),
            moments: vec![Some(file)],
        });
    }

    /// The bytes that a path shows.
    pub fn shown(&self, path: &Path) -> Option<&[u8]> {
        Some(self.files[self.named(path)?].shown())
    }

    /// Every name with the bytes that it shows.
    pub fn all_shown(&self) -> Vec<(PathBuf, Vec<u8>)> {
        let named = self.names.iter().filter_map(|name| {
            let file = name.shown()?;
            Some((name.path.clone(), self.files[file].shown().to_vec()))
        });
        named.collect()
    }

    /// The power is cut: what was not flushed is left as it was at any moment since, each range and each name for itself.
    pub fn crash(&mut self, random: &mut Random) -> Lost {
        let mut lost = Lost::default();
        let named: Vec<usize> = self.names.iter().filter_map(Name::shown).collect();
        for (file, bytes) in self.files.iter_mut().enumerate() {
            let left = bytes.torn(random);
            lost.write |= named.contains(&file) && left != bytes.shown();
            *bytes = Bytes::lasting(left);
        }
        for name in &mut self.names {
            let left = *random.pick(&name.moments);
            if left != name.shown() {
                lost.names.push(name.path.clone());
            }
            name.moments = vec![left];
        }
        self.names.retain(|name| name.shown().is_some());
        lost
    }

    /// Puts other bytes somewhere behind this place into a file that is there; they last.
    pub fn spoil(&mut self, path: &Path, place: usize, random: &mut Random) {
        if let Some(file) = self.named(path) {
            let mut bytes = self.files[file].shown().to_vec();
            if place < bytes.len() {
                let from = random.between(place, bytes.len() - 1);
                let to = random.between(from + 1, bytes.len());
                random.fill(&mut bytes[from..to]);
            }
            self.files[file] = Bytes::lasting(bytes);
        }
    }

    pub fn open(&self, path: &Path) -> io::Result<usize> {
        self.named(path).ok_or_else(|| ErrorKind::NotFound.into())
    }

    pub fn open_or_make(&mut self, path: &Path) -> io::Result<usize> {
        self.open(path).or_else(|_| self.make(path))
    }

    pub fn make(&mut self, path: &Path) -> io::Result<usize> {
        if self.named(path).is_some() {
            return Err(ErrorKind::AlreadyExists.into());
        }
        let file = self.new_file(Vec::new());
        self.give(path, Some(file));
        Ok(file)
    }

    pub fn length(&self, file: usize) -> u64 {
        self.files[file].shown().len() as u64
    }

    pub fn set_length(&mut self, file: usize, length: u64) {
        self.files[file].change(|bytes| bytes.resize(length as usize, 0));
    }

    pub fn write_at(&mut self, file: usize, written: &[u8], place: usize) {
        let end = place + written.len();
        let file = &mut self.files[file];
        file.grown |= end > file.shown().len();
        file.change(|bytes| {
            bytes.resize(end.max(bytes.len()), 0);
            bytes[place..end].copy_from_slice(written);
        });
    }

    pub fn flush(&mut self, file: usize) {
        let shown = self.files[file].shown().to_vec();
        self.files[file] = Bytes::lasting(shown);
    }

    pub fn read(&self, path: &Path) -> io::Result<Vec<u8>> {
        Ok(self.files[self.open(path)?].shown().to_vec())
    }

    pub fn rename(&mut self, from: &Path, to: &Path) -> io::Result<()> {
        let file = self.open(from)?;
        self.give(from, None);
        self.give(to, Some(file));
        Ok(())
    }

    pub fn remove(&mut self, path: &Path) -> io::Result<()> {
        self.open(path)?;
        self.give(path, None);
        Ok(())
    }

    pub fn names(&self, in_folder: &Path) -> Vec<OsString> {
        let shown = self.names.iter().filter(|name| name.shown().is_some());
        let inside = shown.filter(|name| folder(&name.path) == in_folder);
        inside
            .filter_map(|name| name.path.file_name().map(OsString::from))
            .collect()
    }

    pub fn flush_folder(&mut self, flushed: &Path) {
        for name in &mut self.names {
            if folder(&name.path) == flushed {
                name.moments = vec![name.shown()];
            }
        }
        self.names.retain(|name| name.moments != [None]);
    }

    fn new_file(&mut self, bytes: Vec<u8>) -> usize {
        self.files.push(Bytes::lasting(bytes));
        self.files.len() - 1
    }

    fn named(&self, path: &Path) -> Option<usize> {
        self.names.iter().find(|name| name.path == path)?.shown()
    }

    /// Lets a path name this file from now on, or none.
    fn give(&mut self, path: &Path, file: Option<usize>) {
        match self.names.iter_mut().find(|name| name.path == path) {
            Some(name) => name.moments.push(file),
            None => self.names.push(Name {
                path: path.to_owned(),
                moments: vec![None, file],
            }),
        }
    }
}

impl Name {
    fn shown(&self) -> Option<usize> {
        *self.moments.last().expect("a name has a moment")
    }
}

impl Bytes {
    fn lasting(bytes: Vec<u8>) -> Self {
        Self {
            moments: vec![bytes],
            grown: false,
        }
    }

    fn shown(&self) -> &[u8] {
        self.moments.last().expect("a file has a moment")
    }

    fn change(&mut self, change: impl FnOnce(&mut Vec<u8>)) {
        let mut bytes = self.shown().to_vec();
        change(&mut bytes);
        self.moments.push(bytes);
    }

    /// The length of one moment, and each range of another one's bytes.
    fn torn(&self, random: &mut Random) -> Vec<u8> {
        if self.moments.len() == 1 {
            return self.shown().to_vec();
        }
        let length = random.pick(&self.moments).len();
        let mut left = Vec::with_capacity(length);
        while left.len() < length {
            let from = left.len();
            let to = match random.one_in(RANGES) {
                true => length,
                false => random.between(from + 1, length),
            };
            let moment = random.pick(&self.moments);
            left.extend(&moment[from.min(moment.len())..to.min(moment.len())]);
            // past that moment's end: a length that came from no write brings zeros
            let missing = to - left.len();
            match self.grown && random.one_in(2) {
                true => left.extend(some_bytes(random, missing)),
                false => left.resize(to, 0),
            }
        }
        left
    }
}
