//! The decode that may be killed at any instant, by a kill or a power cut, and that any worker goes on with.
//!
//! Where OUTPUT or the record is written or taken up, a comment names the constructor of `Stored` (crates/demands/specs/Flushing.antt) that it is. The
//! theorem on those histories is what makes the end right; docs/PROMISES.md says what it takes for granted of a disk, and what holds of two live workers.
use crate::beside;
use crate::disk::{folder, read_if_there, Disk};
use crate::failure::Failure;
use crate::memory::zeros;
use crate::saved::{self, NoRecord};
use pivotshade::{decode_header, run, start, Channels, Error, Ran, Record};
use std::io::{self, ErrorKind};
use std::path::PathBuf;

/// The most steps between two looks at the progress.
const AT_ONCE: u64 = 1 << 18;

/// The most pixels that a step does: those of the longest run.
const PIXELS_A_STEP: usize = 62;

/// The fewest bytes that are copied to OUTPUT between two records: towards the end runs become short.
const COPIED_AT_ONCE: usize = 1 << 12;

/// What to decode, and where to.
#[derive(Clone, Debug, PartialEq, Eq)]
pub struct Job {
    /// The path of the message.
    pub message: PathBuf,
    /// The path of the pixels.
    pub output: PathBuf,
    /// The path of the record.
    pub record: PathBuf,
    /// The number that the broker gave the message.
    pub number: u64,
    /// How many steps lie between two records, at least 1.
    pub every: u64,
    /// The channels to decode to: the header's own where none are given.
    pub channels: Option<Channels>,
    /// Whether a record that is there is passed over.
    pub restart: bool,
}

/// Decodes, from the record where there is one. `progress` is shown each record, saved or not.
pub fn decode<D: Disk>(
    disk: &D,
    job: &Job,
    progress: &mut dyn FnMut(&Record),
) -> Result<(), Failure> {
    let message = disk
        .read(&job.message)
        .map_err(Failure::disk("read", &job.message))?;
    let refused = |error| Failure::refused(&job.message, error);
    let channels = match job.channels {
        Some(channels) => channels,
        None => decode_header(&message).map_err(refused)?.channels,
    };
    let first = start(&message, job.number, channels).map_err(refused)?;
    let mut worker = Worker::new(disk, job, &message, first)?;
    let answer = worker.work(&message, progress)?;
    // all is done: what cannot be swept away does no harm
    let _ = beside::sweep(disk, &job.record);
    answer.map_err(refused)
}

/// A worker: memory of its own, to which it decodes, and OUTPUT, to which it copies what is done.
struct Worker<'a, D: Disk> {
    disk: &'a D,
    job: &'a Job,
    message_sum: u64,
    record: Record,
    /// Whether FILE has it.
    is_saved: bool,
    /// Steps since a record was saved.
    unsaved: u64,
    out: Vec<u8>,
    /// How many bytes of it OUTPUT shows.
    copied: usize,
    output: D::File,
    /// Whether OUTPUT may be one whose name and length do not last yet.
    is_new: bool,
}

impl<'a, D: Disk> Worker<'a, D> {
    /// Takes up the saved record, or begins with the first one.
    fn new(disk: &'a D, job: &'a Job, message: &[u8], first: Record) -> Result<Self, Failure> {
        let needed = first.required_buf_len();
        let out = zeros(needed).ok_or_else(|| Failure::no_memory(&job.output, needed))?;
        let message_sum = saved::sum(message);
        let saved = match job.restart {
            // saves: the first record, in the place of any other
            true => Some(save(disk, job, &first, message_sum).map(|()| first.clone())?),
            false => saved_record(disk, job, message_sum, &first)?,
        };
        make_record_last(disk, job)?;
        let is_saved = saved.is_some();
        let record = saved.unwrap_or(first);
        let copied = record.bytes_done();
        let output = match copied {
            // begun: on whatever OUTPUT holds
            0 => begun_output(disk, job, needed as u64)?,
            // taken-up: the bytes before the record's pixel stand there
            _ => left_output(disk, job, needed as u64)?,
        };
        Ok(Self {
            disk,
            job,
            message_sum,
            record,
            is_saved,
            unsaved: 0,
            out,
            copied,
            output,
            is_new: copied == 0,
        })
    }

    /// Works to the end: the message's own answer. The record then stands after the last pixel, or at the step that is refused.
    fn work(
        &mut self,
        message: &[u8],
        progress: &mut dyn FnMut(&Record),
    ) -> Result<pivotshade::Result<()>, Failure> {
        let mut at_once = AT_ONCE;
        loop {
            let steps = self.steps(at_once);
            match run(message, self.job.number, &self.record, &mut self.out, steps) {
                Ok(Ran::More(next)) => {
                    self.go_on(next, steps)?;
                    progress(&self.record);
                }
                Ok(Ran::Done { .. }) => return Ok(Ok(())),
                Err(error) if steps == 1 => {
                    self.keep()?;
                    return Ok(Err(error));
                }
                // one of these steps is refused: those before it are done in smaller runs
                Err(_) => at_once = steps / 2,
            }
        }
    }

    /// How many steps to run: never past the last pixel, but the marker's alone, so that a record is saved in between.
    fn steps(&self, at_once: u64) -> u64 {
        let sure = (self.record.pixels_left() + PIXELS_A_STEP - 1) / PIXELS_A_STEP;
        at_once
            .min(self.job.every - self.unsaved)
            .min(sure as u64)
            .max(1)
    }

    /// Goes on with what a run has done: copies it where it is much, and saves its record where it is time.
    fn go_on(&mut self, next: Record, steps: u64) -> Result<(), Failure> {
        self.record = next;
        self.is_saved = false;
        self.unsaved += steps;
        let done = self.record.bytes_done();
        if self.unsaved == self.job.every || done == self.out.len() {
            self.keep()?;
        } else if done - self.copied >= COPIED_AT_ONCE {
            self.copy()?;
        }
        Ok(())
    }

    /// Copies to OUTPUT what is done.
    fn copy(&mut self) -> Result<(), Failure> {
        let done = self.record.bytes_done();
        // stepped, once for each step since the last copy: OUTPUT shows its bytes
        self.disk
            .write_at(
                &self.output,
                &self.out[self.copied..done],
                self.copied as u64,
            )
            .map_err(Failure::disk("write", &self.job.output))?;
        self.copied = done;
        Ok(())
    }

    /// Makes OUTPUT and its record last, where they do not: first OUTPUT is flushed, then the record that speaks of it is saved.
    fn keep(&mut self) -> Result<(), Failure> {
        if self.is_saved && !self.is_new {
            return Ok(());
        }
        self.copy()?;
        // flushed: the bytes, and once the name of the file that has them
        self.flush()
            .map_err(Failure::disk("flush", &self.job.output))?;
        // saves: the record of the state at that flush
        save(self.disk, self.job, &self.record, self.message_sum)?;
        self.is_saved = true;
        self.unsaved = 0;
        Ok(())
    }

    fn flush(&mut self) -> io::Result<()> {
        self.disk.flush(&self.output)?;
        if self.is_new {
            self.disk.flush_folder(folder(&self.job.output))?;
            self.is_new = false;
        }
        Ok(())
    }
}

/// The record that a worker on this message and these channels has saved. The sum tests what is taken for granted of the broker: that one number always
/// comes with the same bytes.
fn saved_record<D: Disk>(
    disk: &D,
    job: &Job,
    message_sum: u64,
    first: &Record,
) -> Result<Option<Record>, Failure> {
    let bad = |words| Failure::bad_record(&job.record, words);
    let read = read_if_there(disk, &job.record).map_err(Failure::disk("read", &job.record))?;
    let bytes = match read {
        Some(bytes) => bytes,
        None => return Ok(None),
    };
    let damaged = |told| Failure::damaged_record(&job.record, told);
    let (record, sum) = saved::from_bytes(&bytes, job.number).map_err(|none| match none {
        NoRecord::Refused(Error::OtherMessage { number }) => {
            Failure::other_message(&job.record, number)
        }
        NoRecord::Refused(error) => damaged(Some(error)),
        NoRecord::Damaged { bad_at } => damaged(bad_at),
    })?;
    if sum != message_sum || record.header() != first.header() {
        return Err(bad("the record is of other bytes under the same number"));
    }
    if record.channels() != first.channels() {
        return Err(bad("the record is of a decode to other channels"));
    }
    Ok(Some(record))
}

fn save<D: Disk>(disk: &D, job: &Job, record: &Record, message_sum: u64) -> Result<(), Failure> {
    beside::replace(disk, &job.record, &saved::to_bytes(record, message_sum))
        .map_err(Failure::disk("save the record", &job.record))
}

/// Makes last what stands in FILE, or that it is not there. A worker that was killed may have renamed and not flushed: a crash could then bring back an
/// older record, which speaks of bytes that OUTPUT no longer has once this worker begins, or of fewer than are done.
fn make_record_last<D: Disk>(disk: &D, job: &Job) -> Result<(), Failure> {
    disk.flush_folder(folder(&job.record))
        .map_err(Failure::disk("flush the folder of", &job.record))
}

/// OUTPUT as a worker left it.
fn left_output<D: Disk>(disk: &D, job: &Job, needed: u64) -> Result<D::File, Failure> {
    let bad = |words| Failure::bad_record(&job.output, words);
    let file = match disk.open(&job.output) {
        Err(error) if error.kind() == ErrorKind::NotFound => {
            return Err(bad("the output is not there, though its record is"))
        }
        opened => opened.map_err(Failure::disk("open", &job.output))?,
    };
    let length = disk
        .length(&file)
        .map_err(Failure::disk("open", &job.output))?;
    if length != needed {
        return Err(bad("the output has another length than its record says"));
    }
    Ok(file)
}

/// OUTPUT with the needed length, made where it is missing.
fn begun_output<D: Disk>(disk: &D, job: &Job, needed: u64) -> Result<D::File, Failure> {
    let make = || {
        let file = disk.open_or_make(&job.output)?;
        if disk.length(&file)? != needed {
            disk.set_length(&file, needed)?;
        }
        Ok(file)
    };
    make().map_err(Failure::disk("make", &job.output))
}
