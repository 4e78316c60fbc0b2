//! Wrong workers, made of the right one by a disk that does its calls otherwise. A test that finds no fault with them is none.
use crate::turns::{Held, Seat};
use pivotshade::{Error, Record, Table};
use std::cell::Cell;
use std::ffi::OsString;
use std::io;
use std::path::Path;
use worker::decode::Job;
use worker::disk::Disk;
use worker::failure::Failure;
use worker::saved::{self, NoRecord};
use worker::table;

/// What a worker does wrong.
#[derive(Clone, Copy, PartialEq)]
pub enum Wrong {
    SavesFirst,
    RenamedUnflushed,
    RenameUnflushed,
    FolderUnflushed,
    NothingFlushed,
    AnyRecord,
    AlreadyUnflushed,
    Unlocked,
    InPlace,
    MarksFirst,
}

impl Wrong {
    pub const OF_A_DECODE: [Self; 6] = [
        Self::SavesFirst,
        Self::RenamedUnflushed,
        Self::RenameUnflushed,
        Self::FolderUnflushed,
        Self::NothingFlushed,
        Self::AnyRecord,
    ];

    pub const OF_A_COUNT: [Self; 6] = [
        Self::RenamedUnflushed,
        Self::RenameUnflushed,
        Self::AlreadyUnflushed,
        Self::Unlocked,
        Self::InPlace,
        Self::MarksFirst,
    ];

    /// A worker that does so, in words.
    pub fn words(self) -> &'static str {
        match self {
            Self::SavesFirst => "saves its record before it flushes the output",
            Self::RenamedUnflushed => "does not flush the file that it renames",
            Self::RenameUnflushed => "does not flush the folder after the rename",
            Self::FolderUnflushed => "flushes no folder",
            Self::NothingFlushed => "flushes nothing",
            Self::AnyRecord => "takes up a record of another message",
            Self::AlreadyUnflushed => "says 'counted already' and does not flush the folder",
            Self::Unlocked => "takes no lock",
            Self::InPlace => "writes the table in its place",
            Self::MarksFirst => "marks the hour before it adds the rain",
        }
    }
}

/// The disk that makes a worker wrong.
pub struct WrongDisk<'a> {
    seat: &'a Seat<'a>,
    wrong: Wrong,
    /// What it is to decode, if it is a decode.
    job: Option<&'a Job>,
    opened_output: Cell<Option<usize>>,
    /// The output, where its flush waits for the record's.
    held_back: Cell<Option<usize>>,
    /// Whether the last call for a folder was a rename.
    has_renamed: Cell<bool>,
}

impl<'a> WrongDisk<'a> {
    pub fn new(seat: &'a Seat<'a>, wrong: Wrong, job: Option<&'a Job>) -> Self {
        Self {
            seat,
            wrong,
            job,
            opened_output: Cell::new(None),
            held_back: Cell::new(None),
            has_renamed: Cell::new(false),
        }
    }

    fn opened(&self, path: &Path, file: usize) -> usize {
        if self.job.map_or(false, |job| job.output == path) {
            self.opened_output.set(Some(file));
        }
        file
    }

    /// A record's file; where it is of another message, as it would be of the one that is to be decoded.
    fn relabelled_record(&self, bytes: Vec<u8>, job: &Job) -> io::Result<Vec<u8>> {
        let number = match saved::from_bytes(&bytes, job.number) {
            Err(NoRecord::Refused(Error::OtherMessage { number })) => number,
            _ => return Ok(bytes),
        };
        let (record, _) = saved::from_bytes(&bytes, number).expect("it names this number");
        let record = record.as_bytes();
        let before = record.len() - number_bytes(number).len();
        let named = [&record[..before], &number_bytes(job.number)].concat();
        let named = Record::from_bytes(&named, job.number).expect("only its number is another");
        let message = self.seat.read(&job.message)?;
        Ok(saved::to_bytes(&named, saved::sum(&message)))
    }

    /// Writes the bytes of one file to another one.
    fn write_in_place(&self, from: &Path, to: &Path) -> io::Result<()> {
        let bytes = self.seat.read(from)?;
        let file = self.seat.open_or_make(to)?;
        self.seat.write_at(&file, &bytes, 0)?;
        self.seat.flush(&file)?;
        self.seat.remove(from)
    }

    /// Replaces a table by one that has the marks of another one, and its own totals still.
    fn mark_first(&self, marked: &Path, path: &Path) -> io::Result<()> {
        let marked = table::from_bytes(&self.seat.read(marked)?, marked).map_err(told)?;
        let totals = match table::read(self.seat, path).map_err(told)? {
            Some(table) => table.totals().to_vec(),
            None => vec![0; marked.totals().len()],
        };
        let first = Table::from_parts(totals, *marked.marks());
        table::write(self.seat, path, &first).map_err(told)
    }
}

/// A number as a record has it: seven bits a byte, the lowest first, the top bit set on all but the last byte.
fn number_bytes(mut number: u64) -> Vec<u8> {
    let mut bytes = Vec::new();
    while number >= 0x80 {
        bytes.push(number as u8 | 0x80);
        number >>= 7;
    }
    bytes.push(number as u8);
    bytes
}

fn told(failure: Failure) -> io::Error {
    io::Error::new(io::ErrorKind::Other, failure.to_string())
}

impl<'a> Disk for WrongDisk<'a> {
    type File = usize;
    type Lock = Option<Held<'a>>;

    fn flush(&self, file: &usize) -> io::Result<()> {
        let is_output = self.opened_output.get() == Some(*file);
        match self.wrong {
            Wrong::SavesFirst if is_output => self.held_back.set(Some(*file)),
            Wrong::RenamedUnflushed if !is_output => {}
            Wrong::NothingFlushed => {}
            _ => self.seat.flush(file)?,
        }
        Ok(())
    }

    fn flush_folder(&self, folder: &Path) -> io::Result<()> {
        let has_renamed = self.has_renamed.take();
        match self.wrong {
            Wrong::FolderUnflushed | Wrong::NothingFlushed => return Ok(()),
            Wrong::RenameUnflushed if has_renamed => return Ok(()),
            Wrong::AlreadyUnflushed if !has_renamed => return Ok(()),
            _ => {}
        }
        self.seat.flush_folder(folder)?;
        match self.held_back.take() {
            Some(output) => self.seat.flush(&output),
            None => Ok(()),
        }
    }

    fn open(&self, path: &Path) -> io::Result<usize> {
        Ok(self.opened(path, self.seat.open(path)?))
    }

    fn open_or_make(&self, path: &Path) -> io::Result<usize> {
        Ok(self.opened(path, self.seat.open_or_make(path)?))
    }

    fn make(&self, path: &Path) -> io::Result<usize> {
        self.seat.make(path)
    }

    fn length(&self, file: &usize) -> io::Result<u64> {
        self.seat.length(file)
    }

    fn set_length(&self, file: &usize, length: u64) -> io::Result<()> {
        self.seat.set_length(file, length)
    }

    fn write_at(&self, file: &usize, bytes: &[u8], place: u64) -> io::Result<()> {
        self.seat.write_at(file, bytes, place)
    }

    fn read(&self, path: &Path) -> io::Result<Vec<u8>> {
        let bytes = self.seat.read(path)?;
        match self.job {
            Some(job) if self.wrong == Wrong::AnyRecord && job.record == path => {
                self.relabelled_record(bytes, job)
            }
            _ => Ok(bytes),
        }
    }

    fn rename(&self, from: &Path, to: &Path) -> io::Result<()> {
        self.has_renamed.set(true);
        match self.wrong {
            Wrong::InPlace => return self.write_in_place(from, to),
            Wrong::MarksFirst => self.mark_first(from, to)?,
            _ => {}
        }
        self.seat.rename(from, to)
    }

    fn remove(&self, path: &Path) -> io::Result<()> {
        self.seat.remove(path)
    }

    fn names(&self, folder: &Path) -> io::Result<Vec<OsString>> {
        self.seat.names(folder)
    }

    fn lock(&self, path: &Path) -> io::Result<Self::Lock> {
        match self.wrong {
            Wrong::Unlocked => Ok(None),
            _ => self.seat.lock(path).map(Some),
        }
    }
}
