//! The worker: `./worker` at the root builds and runs it. What it does stands in `arguments::USAGE`.
use pivotshade::{strict, ColorSpace, Encoder};
use std::env;
use std::fs;
use std::io::{self, stderr, stdout, BufWriter, Write};
use std::os::unix::fs::MetadataExt;
use std::path::{Path, PathBuf};
use std::process::ExitCode;
use worker::arguments::{parse, Command, USAGE};
use worker::beside;
use worker::count::{count, lock_path, Outcome};
use worker::decode::decode;
use worker::disk::{folder, Disk, RealDisk};
use worker::failure::Failure;
use worker::memory::zeros;
use worker::progress::Bar;
use worker::table;

fn main() -> ExitCode {
    match parse(env::args_os().skip(1)) {
        Ok(command) => ended(carry_out(command), ""),
        Err(failure) => ended(Err(failure), "; worker --help says what it takes"),
    }
}

/// The status, and the words of a failure with what is added to them.
fn ended(result: Result<(), Failure>, added: &str) -> ExitCode {
    match result {
        Ok(()) => ExitCode::SUCCESS,
        Err(failure) => {
            // where nobody reads the words, the status stays
            let _ = writeln!(stderr(), "worker: {failure}{added}");
            ExitCode::from(failure.status())
        }
    }
}

fn carry_out(command: Command) -> Result<(), Failure> {
    match command {
        Command::Help => say(USAGE.trim_end())?,
        Command::Encode {
            pixels,
            message,
            width,
            height,
            colorspace,
        } => {
            are_different(&[&pixels, &message])?;
            is_ordinary(&message)?;
            let data = read(&pixels)?;
            let encoded = encode(&data, width, height, colorspace, &pixels)?;
            beside::replace(&RealDisk, &message, &encoded)
                .map_err(Failure::disk("write", &message))?;
            // what cannot be swept away does no harm
            let _ = beside::sweep(&RealDisk, &message);
        }
        Command::Decode(job) => {
            are_different(&[&job.message, &job.output, &job.record])?;
            is_ordinary(&job.output)?;
            is_ordinary(&job.record)?;
            let mut bar = Bar::new();
            decode(&RealDisk, &job, &mut |record| bar.show(record))?;
        }
        Command::Check { message } => {
            let checked =
                strict(read(&message)?).map_err(|error| Failure::refused(&message, error))?;
            let header = checked.header;
            say(&format!(
                "ok {} {} {} {} {} {}",
                header.width,
                header.height,
                header.channels.as_u8(),
                header.colorspace.as_u8(),
                checked.chunks,
                checked.bytes
            ))?;
        }
        Command::Count(job) => {
            let lock = lock_path(&job.table);
            are_different(&[&job.message, &job.table, &lock])?;
            is_ordinary(&job.table)?;
            is_ordinary(&lock)?;
            let hour = job.hour;
            match count(&RealDisk, &job)? {
                Outcome::Counted { cells } => say(&format!("hour {hour} counted: {cells} cells"))?,
                Outcome::Already => say(&format!("hour {hour} was counted already"))?,
            }
        }
        Command::Totals { table } => {
            let table = table::from_bytes(&read(&table)?, &table)?;
            print_lines(table.totals()).map_err(not_printed())?;
        }
    }
    Ok(())
}

fn encode(
    data: &[u8],
    width: u32,
    height: u32,
    colorspace: ColorSpace,
    pixels: &Path,
) -> Result<Vec<u8>, Failure> {
    let refused = |error| Failure::refused(pixels, error);
    let encoder = Encoder::new(data, width, height).map_err(refused)?;
    let encoder = encoder.with_colorspace(colorspace);
    let room = encoder.required_buf_len();
    let mut message = zeros(room).ok_or_else(|| Failure::no_memory(pixels, room))?;
    let length = encoder.encode_to_buf(&mut message).map_err(refused)?;
    message.truncate(length);
    Ok(message)
}

/// Prints a line.
fn say(line: &str) -> Result<(), Failure> {
    writeln!(stdout(), "{line}").map_err(not_printed())
}

/// Prints numbers, one a line.
fn print_lines(numbers: &[u64]) -> io::Result<()> {
    let mut lines = BufWriter::new(stdout().lock());
    for number in numbers {
        writeln!(lines, "{number}")?;
    }
    lines.flush()
}

fn not_printed() -> impl FnOnce(io::Error) -> Failure {
    Failure::disk("write", Path::new("standard output"))
}

fn read(path: &Path) -> Result<Vec<u8>, Failure> {
    RealDisk.read(path).map_err(Failure::disk("read", path))
}

/// Whether a file may be written here: a device or a link would be replaced, a pipe would wait for ever.
fn is_ordinary(path: &Path) -> Result<(), Failure> {
    match fs::symlink_metadata(path) {
        Ok(there) if !there.is_file() => Err(Failure::not_ordinary(path)),
        _ => Ok(()),
    }
}

/// Whether no two of these paths name one file, which would be written over.
fn are_different(paths: &[&PathBuf]) -> Result<(), Failure> {
    for (place, path) in paths.iter().enumerate() {
        if paths[..place].iter().any(|other| are_one(other, path)) {
            return Err(Failure::usage(format!("{} is given twice", path.display())));
        }
    }
    Ok(())
}

fn are_one(a: &Path, b: &Path) -> bool {
    match (fs::metadata(a), fs::metadata(b)) {
        (Ok(a), Ok(b)) => (a.dev(), a.ino()) == (b.dev(), b.ino()),
        // one that is there and one that is not differ
        (Ok(_), Err(_)) | (Err(_), Ok(_)) => false,
        (Err(_), Err(_)) => real(a) == real(b),
    }
}

/// The path of a file that is not there, with no links in its folder.
fn real(path: &Path) -> PathBuf {
    match (fs::canonicalize(folder(path)), path.file_name()) {
        (Ok(folder), Some(name)) => folder.join(name),
        _ => path.to_owned(),
    }
}
