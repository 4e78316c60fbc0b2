//! Why the worker ended with another status than 0, in words and as that status.
use pivotshade::Error;
use std::fmt;
use std::io;
use std::path::Path;

/// The number of the refusal of a record.
const BAD_RECORD: u8 = 9;
/// The operating system's usual status for arguments that are wrong.
const USAGE: u8 = 64;
/// That for a file that holds something else than it should.
const DATA: u8 = 65;
/// That for a file that cannot be read or written.
const DISK: u8 = 74;

/// A status other than 0, and its words.
#[derive(Debug, PartialEq, Eq)]
pub struct Failure {
    status: u8,
    words: String,
}

impl Failure {
    /// The arguments are wrong.
    pub fn usage(words: impl Into<String>) -> Self {
        Self {
            status: USAGE,
            words: words.into(),
        }
    }

    /// What the file at `path` holds is refused.
    pub fn refused(path: &Path, error: Error) -> Self {
        Self {
            status: error.number() as u8,
            words: format!("{}: {error}", path.display()),
        }
    }

    /// The record, or the output that it speaks of, is not what a worker left.
    pub fn bad_record(path: &Path, words: &str) -> Self {
        Self {
            status: BAD_RECORD,
            words: format!("{}: {words}; --restart begins anew", path.display()),
        }
    }

    /// The record at `path` is damaged, or names no message; and what the reader told of it.
    pub fn damaged_record(path: &Path, told: Option<Error>) -> Self {
        let told = match told {
            None => String::new(),
            // a record ends without an offset in its header alone, which is at its byte 0
            Some(Error::UnexpectedBufferEnd) => ": record is bad at byte 0 (unexpected end)".into(),
            Some(error) => format!(": {error}"),
        };
        let words = format!("the record is damaged, or names no message{told}");
        Self::bad_record(path, &words)
    }

    /// The record at `path` is of the message with this number, which is another one.
    pub fn other_message(path: &Path, number: u64) -> Self {
        Self {
            status: Error::OtherMessage { number }.number() as u8,
            words: format!(
                "{}: the record is of another message, number {number}; --restart begins anew",
                path.display()
            ),
        }
    }

    /// What the file at `path` holds is no table as a worker left it.
    pub fn bad_table(path: &Path) -> Self {
        Self {
            status: DATA,
            words: format!("{}: the table is damaged, or this is none", path.display()),
        }
    }

    /// There is no memory for what the file at `path` holds or will hold.
    pub fn no_memory(path: &Path, length: usize) -> Self {
        Self {
            status: DISK,
            words: format!("{}: no memory for {length} bytes", path.display()),
        }
    }

    /// What stands at `path` is no file to write to.
    pub fn not_ordinary(path: &Path) -> Self {
        Self {
            status: DISK,
            words: format!("{} is no ordinary file", path.display()),
        }
    }

    /// What was to be done with the file at `path` failed.
    pub fn disk<'a>(doing: &'a str, path: &'a Path) -> impl FnOnce(io::Error) -> Self + 'a {
        move |error| Self {
            status: DISK,
            words: format!("{}: cannot {doing}: {error}", path.display()),
        }
    }

    /// The exit status: the number of a refusal, 64, 65 or 74.
    pub fn status(&self) -> u8 {
        self.status
    }
}

impl fmt::Display for Failure {
    fn fmt(&self, f: &mut fmt::Formatter) -> fmt::Result {
        f.write_str(&self.words)
    }
}
