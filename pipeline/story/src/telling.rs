//! The story, with a line for each fact.
use crate::disk::{make_folder, open, read, remove, write};
use crate::picture::{draw, Panel};
use crate::sent::Sent;
use crate::words::{encoded, grouped, say, shown, time};
use crate::workers::{Files, Workers};
use pivotshade::{strict, Record};
use std::fs::File;
use std::os::unix::fs::FileExt;
use std::path::Path;
use std::time::Duration;

/// Worker 1 is killed where its record has a share of the pixels between these, in hundredths.
const FIRST_SHARE: usize = 40;
const LAST_SHARE: usize = 60;
/// How many records a decode saves at first, and how many times more at each further try to kill it.
const RECORDS: u64 = 64;
const MORE_RECORDS: u64 = 4;
/// How often it is tried to kill worker 1 on the way.
const TRIES: u32 = 6;
/// The status of a worker that finds the record of another message.
const OTHER_MESSAGE: i32 = 12;

/// Tells the story of what is sent as the message with this number, in a folder; or why it does not end well.
pub fn tell(sent: &Sent, number: u64, program: &Path, folder: &Path) -> Result<(), String> {
    make_folder(folder)?;
    let files = &Files::of(folder);
    let workers = &Workers {
        program,
        number,
        files,
    };
    let steps = encode(sent, workers)?;
    let cut = cut_off(sent, workers, steps)?;
    take_over(sent, workers, &cut)?;
    let left = compare(sent, workers)?;
    deliver_again(workers, &cut)?;
    deliver_the_next(workers, &cut)?;
    write(
        &files.picture,
        &draw(&sent.grid, &panels(sent, &cut, &left)),
    )?;
    say(format_args!(
        "files: {}: message.qoi, output, output.killed, record",
        shown(folder)
    ));
    say(format_args!(
        "picture: {}: what was sent, what worker 1 left, what worker 2 left",
        shown(&files.picture)
    ));
    Ok(())
}

/// Encodes what is sent: how many steps its decode takes.
fn encode(sent: &Sent, workers: &Workers) -> Result<u64, String> {
    say(format_args!(
        "{}: {} x {} {}, {} bytes",
        sent.title,
        grouped(sent.grid.width),
        grouped(sent.grid.height),
        sent.unit,
        grouped(sent.pixels.len())
    ));
    write(&workers.files.pixels, &sent.pixels)?;
    let encoder = workers
        .encode(sent.grid.width, sent.grid.height, sent.is_linear)?
        .well("the encoder")?;
    let message = read(&workers.files.message)?;
    say(format_args!(
        "{}, {}",
        encoded(message.len(), sent.pixels.len()),
        time(encoder.lived)
    ));
    let checked = strict(&message).map_err(|error| format!("the message is refused: {error}"))?;
    Ok(checked.chunks as u64)
}

/// What worker 1 left.
struct Cut {
    /// The steps between two of its records.
    every: u64,
    lived: Duration,
    record: Record,
    output: Vec<u8>,
    /// How many bytes of the output are right, from the first on.
    right: usize,
}

impl Cut {
    /// Whether there is something left to take over.
    fn is_on_the_way(&self) -> bool {
        self.record.bytes_done() < self.output.len()
    }
}

/// Starts worker 1 and kills it on the way, if it can.
fn cut_off(sent: &Sent, workers: &Workers, steps: u64) -> Result<Cut, String> {
    say(format_args!(
        "the output beforehand: {} bytes, each of them wrong",
        grouped(sent.pixels.len())
    ));
    let mut every = (steps / RECORDS).max(1);
    let mut tries = 1;
    let cut = loop {
        let cut = try_to_cut(sent, workers, every)?;
        if cut.is_on_the_way() || tries == TRIES {
            break cut;
        }
        every = (every / MORE_RECORDS).max(1);
        tries += 1;
    };
    write(&workers.files.killed, &cut.output)?;
    say_cut(sent, &cut);
    Ok(cut)
}

fn try_to_cut(sent: &Sent, workers: &Workers, every: u64) -> Result<Cut, String> {
    let path = &workers.files.output;
    // a byte that no worker writes is then found, and one that is right was written
    let wrong = sent.pixels.iter().map(|byte| !byte);
    write(path, &wrong.collect::<Vec<_>>())?;
    remove(&workers.files.record)?;
    let file = open(path)?;
    let worker = workers.decode_until(every, |record| is_time(sent, record, &file))?;
    let lived = worker.lived;
    if !worker.was_killed() {
        worker.well("worker 1")?;
    }
    let record = workers.record().ok_or("worker 1 left no record")?;
    let output = read(path)?;
    let right = same_bytes(&output, &sent.pixels);
    if right < record.bytes_done() {
        return Err(format!(
            "worker 1 broke its promise: its record says {} bytes, and {} are right",
            grouped(record.bytes_done()),
            grouped(right)
        ));
    }
    Ok(Cut {
        every,
        lived,
        record,
        output,
        right,
    })
}

/// Whether to kill worker 1: where its output is further than its record, from the first share on; at the last in any case.
fn is_time(sent: &Sent, record: &Record, output: &File) -> bool {
    let has = |share| 100 * record.pixels_done() >= share * sent.size();
    has(LAST_SHARE) || has(FIRST_SHARE) && is_further(sent, record, output)
}

/// Whether the first byte that the record does not speak of is right already.
fn is_further(sent: &Sent, record: &Record, output: &File) -> bool {
    let next = record.bytes_done();
    let mut byte = [0];
    let read = output.read_exact_at(&mut byte, next as u64);
    read.is_ok() && byte[0] == sent.pixels[next]
}

fn say_cut(sent: &Sent, cut: &Cut) {
    if !cut.is_on_the_way() {
        return say(format_args!(
            "worker 1 had done all before it could be killed, {TRIES} times: {} {}",
            grouped(sent.size()),
            sent.unit
        ));
    }
    say(format_args!(
        "worker 1 was killed (SIGKILL) after {}: its record says {} of {} {}",
        time(cut.lived),
        grouped(cut.record.pixels_done()),
        grouped(sent.size()),
        sent.unit
    ));
    say(format_args!(
        "the output then: {} bytes are right, {} of them past the record",
        grouped(cut.right),
        grouped(cut.right - cut.record.bytes_done())
    ));
}

/// Starts worker 2 on the same files.
fn take_over(sent: &Sent, workers: &Workers, cut: &Cut) -> Result<(), String> {
    let worker = workers.decode(cut.every)?.well("worker 2")?;
    let began = match cut.is_on_the_way() {
        true => format!(
            "took over after {} {}",
            grouped(cut.record.pixels_done()),
            sent.unit
        ),
        false => "had nothing left to do".into(),
    };
    say(format_args!(
        "worker 2 {began} and ended with status 0 after {}",
        time(worker.lived)
    ));
    Ok(())
}

/// Compares the output with what was sent: the output, where it is the same.
fn compare(sent: &Sent, workers: &Workers) -> Result<Vec<u8>, String> {
    let left = read(&workers.files.output)?;
    if left != sent.pixels {
        return Err(format!(
            "the output is not what was sent, from byte {} on",
            grouped(same_bytes(&left, &sent.pixels))
        ));
    }
    say("every byte is what was sent");
    Ok(left)
}

/// Starts worker 3, as if the message came once more.
fn deliver_again(workers: &Workers, cut: &Cut) -> Result<(), String> {
    let worker = workers.decode(cut.every)?.well("worker 3")?;
    say(format_args!(
        "message {} delivered again: status 0 after {}",
        workers.number,
        time(worker.lived)
    ));
    Ok(())
}

/// Starts worker 4 on the same files, as if they were the next message's: it must refuse the record and leave both as they are.
fn deliver_the_next(workers: &Workers, cut: &Cut) -> Result<(), String> {
    let files = workers.files;
    let before = (read(&files.output)?, read(&files.record)?);
    let next = Workers {
        number: workers.number + 1,
        ..*workers
    };
    let worker = next.decode(cut.every)?;
    if worker.output.status.code() != Some(OTHER_MESSAGE) {
        return Err(format!(
            "worker 4 did not refuse the record of another message: {}",
            worker.output.status
        ));
    }
    if (read(&files.output)?, read(&files.record)?) != before {
        return Err("worker 4 changed the output or the record of another message".into());
    }
    say(format_args!(
        "message {} with the same record: refused, status {OTHER_MESSAGE}; output and record are as they were",
        next.number
    ));
    Ok(())
}

fn panels<'a>(sent: &'a Sent, cut: &'a Cut, left: &'a [u8]) -> [Panel<'a>; 3] {
    let whole = |caption, bytes| Panel::whole(&sent.grid, caption, bytes);
    let middle = match cut.is_on_the_way() {
        true => Panel {
            written: cut.right / sent.grid.channels,
            recorded: Some(cut.record.pixels_done()),
            ..whole("when worker 1 was killed", &cut.output)
        },
        false => whole("what worker 1 left", &cut.output),
    };
    [
        whole("what was sent", &sent.pixels),
        middle,
        whole("what worker 2 left", left),
    ]
}

/// How many bytes are the same, from the first on.
fn same_bytes(a: &[u8], b: &[u8]) -> usize {
    a.iter().zip(b).take_while(|(a, b)| a == b).count()
}

#[cfg(test)]
mod tests {
    use super::*;

    #[test]
    fn bytes_are_the_same_up_to_the_first_other_one() {
        assert_eq!(same_bytes(b"abcd", b"abxd"), 2);
        assert_eq!(same_bytes(b"ab", b"abc"), 2);
    }
}
