//! The count that may be killed at any instant, by a kill or a power cut, and sent again as often as anyone likes: an hour is in the table once.
//!
//! The table stands in one file, which is replaced as a whole; so its totals and its marks are of one moment. A lock lets one worker at a time read
//! it and replace it, so that no hour is lost between two, and each knows what the one before has counted.
use crate::beside;
use crate::disk::{folder, Disk};
use crate::failure::Failure;
use crate::memory::zeros;
use crate::table;
use pivotshade::{decode_header, Counted, Table};
use std::path::{Path, PathBuf};

/// Bytes of a cell in a frame.
const CELL: usize = 4;

/// What to count, and where.
#[derive(Clone, Debug, PartialEq, Eq)]
pub struct Job {
    /// The path of the message.
    pub message: PathBuf,
    /// The hour whose frame it is.
    pub hour: u64,
    /// The path of the table.
    pub table: PathBuf,
}

/// What became of a message that was not refused. Either way the table has its hour, and that lasts.
#[derive(Clone, Copy, Debug, PartialEq, Eq)]
pub enum Outcome {
    /// It was counted.
    Counted {
        /// How many cells it has.
        cells: usize,
    },
    /// Its hour had been counted before.
    Already,
}

/// Counts a message. The first one that is accepted makes the table, of as many cells as it has pixels; one that is refused changes nothing.
pub fn count<D: Disk>(disk: &D, job: &Job) -> Result<Outcome, Failure> {
    let message = disk
        .read(&job.message)
        .map_err(Failure::disk("read", &job.message))?;
    let lock = lock_path(&job.table);
    let _held = disk.lock(&lock).map_err(Failure::disk("lock", &lock))?;
    // of a header that is refused nothing is needed: the count refuses it in its turn
    let pixels = decode_header(&message).map_or(0, |header| header.n_pixels());
    let mut table = match table::read(disk, &job.table)? {
        Some(table) => table,
        None => fresh(pixels, &job.table)?,
    };
    let room = pixels * CELL;
    let mut frame = zeros(room).ok_or_else(|| Failure::no_memory(&job.message, room))?;
    let counted = table
        .count(&message, job.hour, &mut frame)
        .map_err(|error| Failure::refused(&job.message, error))?;
    drop(frame);
    match counted {
        Counted::Now { .. } => {
            // with the lock held nobody writes beside; what cannot be swept away does no harm
            let _ = beside::sweep(disk, &job.table);
            table::write(disk, &job.table, &table)?;
            Ok(Outcome::Counted { cells: pixels })
        }
        Counted::Already => {
            // a worker that was killed may have renamed and not flushed: a crash could then bring back a table without the hour, which nobody
            // sends again once it is said to be counted
            disk.flush_folder(folder(&job.table))
                .map_err(Failure::disk("flush the folder of", &job.table))?;
            Ok(Outcome::Already)
        }
    }
}

/// The path of a table's lock, a file beside it that stays.
pub fn lock_path(table: &Path) -> PathBuf {
    let mut path = table.as_os_str().to_owned();
    path.push(".lock");
    path.into()
}

fn fresh(cells: usize, path: &Path) -> Result<Table, Failure> {
    let needed = cells * std::mem::size_of::<u64>();
    let totals = zeros(cells).ok_or_else(|| Failure::no_memory(path, needed))?;
    Ok(Table::from_parts(totals, [0; Table::HOURS]))
}
