//! The real worker on real files: a message, an output and a record; or a month's messages and a table.
use crate::undisturbed::Undisturbed;
use pivotshade::Channels;
use std::fs::{self, File};
use std::io::{self, ErrorKind};
use std::os::unix::fs::FileExt;
use std::os::unix::process::ExitStatusExt;
use std::path::{Path, PathBuf};
use std::process::{Child, Command, Stdio};
use std::thread::sleep;
use std::time::Instant;
use worker::disk::folder;

/// The signal that nobody can catch.
const SIGKILL: i32 = 9;

pub struct Bench {
    worker: PathBuf,
    message: PathBuf,
    output: PathBuf,
    record: PathBuf,
}

/// How to start a worker.
#[derive(Clone, Copy)]
pub struct Order {
    pub number: u64,
    pub every: usize,
    pub channels: Channels,
    pub restart: bool,
}

/// How a worker ended.
pub struct Ended {
    /// None where it was killed.
    pub status: Option<i32>,
    /// What it printed.
    pub printed: String,
    /// What it said on standard error.
    pub words: String,
}

/// What stands in the output and in the record, where they are there.
#[derive(PartialEq)]
pub struct Pair {
    pub output: Option<Vec<u8>>,
    pub record: Option<Vec<u8>>,
}

impl Bench {
    /// Files in this folder, which is made; the record in one of its own there, or beside the output.
    pub fn new(worker: &Path, folder: &Path, is_apart: bool) -> Result<Self, String> {
        let records = match is_apart {
            true => folder.join("records"),
            false => folder.to_owned(),
        };
        fs::create_dir_all(&records).map_err(says(&records))?;
        Ok(Self {
            worker: worker.to_owned(),
            message: folder.join("message"),
            output: folder.join("output"),
            record: records.join("record"),
        })
    }

    /// A message, an output that holds these bytes or is not there, and no record.
    pub fn put(&self, decode: &Undisturbed, output: Option<&[u8]>) -> Result<(), String> {
        fs::write(&self.message, &decode.message).map_err(says(&self.message))?;
        self.put_pair(&Pair {
            output: output.map(<[u8]>::to_vec),
            record: None,
        })
    }

    /// Puts an output and a record there, or takes them away.
    pub fn put_pair(&self, pair: &Pair) -> Result<(), String> {
        put(&self.output, pair.output.as_deref())?;
        put(&self.record, pair.record.as_deref())
    }

    pub fn pair(&self) -> Result<Pair, String> {
        Ok(Pair {
            output: got(&self.output)?,
            record: got(&self.record)?,
        })
    }

    /// The files that workers have written beside the record.
    pub fn beside(&self) -> Result<Vec<String>, String> {
        beside(&self.record)
    }

    pub fn start(&self, order: Order) -> Result<Child, String> {
        let mut command = Command::new(&self.worker);
        command.arg("decode").arg(&self.message).arg(&self.output);
        command.arg("--record").arg(&self.record);
        command.args(["--number", &order.number.to_string()]);
        command.args(["--every", &order.every.to_string()]);
        command.args(["--channels", &order.channels.as_u8().to_string()]);
        if order.restart {
            command.arg("--restart");
        }
        started(command)
    }

    /// Waits until a byte of the output is there, or the worker has ended: so the worker is often in the middle of the write that brings it.
    pub fn watch(&self, worker: &mut Child, place: usize, byte: u8) -> Result<(), String> {
        while worker.try_wait().map_err(says(&self.worker))?.is_none() {
            let mut read = [!byte];
            // it may not be made yet, or be too short
            let output = File::open(&self.output);
            let _ = output.and_then(|output| output.read_at(&mut read, place as u64));
            if read == [byte] {
                break;
            }
        }
        Ok(())
    }

    /// A worker that nobody kills.
    pub fn work(&self, order: Order) -> Result<Ended, String> {
        wait(self.start(order)?)
    }
}

/// The real worker on a real table, and the messages in another folder.
pub struct TableBench {
    worker: PathBuf,
    messages: PathBuf,
    table: PathBuf,
}

impl TableBench {
    /// Files in this folder, which is made.
    pub fn new(worker: &Path, folder: &Path) -> Result<Self, String> {
        let messages = folder.join("messages");
        fs::create_dir_all(&messages).map_err(says(&messages))?;
        Ok(Self {
            worker: worker.to_owned(),
            messages,
            table: folder.join("table"),
        })
    }

    /// These messages, each under its number, and no table.
    pub fn put<'a>(&self, messages: impl Iterator<Item = &'a [u8]>) -> Result<(), String> {
        self.remove_table()?;
        for (number, message) in messages.enumerate() {
            let path = self.message(number);
            fs::write(&path, message).map_err(says(&path))?;
        }
        Ok(())
    }

    /// What stands in the table's file, where it is there.
    pub fn table(&self) -> Result<Option<Vec<u8>>, String> {
        got(&self.table)
    }

    /// Takes the table away.
    pub fn remove_table(&self) -> Result<(), String> {
        put(&self.table, None)
    }

    /// The files that workers have written beside the table.
    pub fn beside(&self) -> Result<Vec<String>, String> {
        beside(&self.table)
    }

    /// Starts a worker that counts the message of this number.
    pub fn start(&self, number: usize, hour: u64) -> Result<Child, String> {
        let mut command = Command::new(&self.worker);
        command.arg("count").arg(self.message(number));
        command.args(["--hour", &hour.to_string()]);
        command.arg("--table").arg(&self.table);
        started(command)
    }

    /// A worker that prints the totals.
    pub fn totals(&self) -> Result<Ended, String> {
        let mut command = Command::new(&self.worker);
        command.arg("totals").arg("--table").arg(&self.table);
        wait(started(command)?)
    }

    fn message(&self, number: usize) -> PathBuf {
        self.messages.join(number.to_string())
    }
}

/// The files that workers have written beside this one.
fn beside(path: &Path) -> Result<Vec<String>, String> {
    let entries = fs::read_dir(folder(path)).map_err(says(path))?;
    let names = entries.filter_map(|entry| entry.ok()?.file_name().into_string().ok());
    Ok(names.filter(|name| name.ends_with(".beside")).collect())
}

fn started(mut command: Command) -> Result<Child, String> {
    command.stdin(Stdio::null()).stdout(Stdio::piped());
    let started = command.stderr(Stdio::piped()).spawn();
    started.map_err(says(command.get_program().as_ref()))
}

/// A worker, when to kill it, and what it works at.
pub struct Timed<T> {
    pub kill_at: Option<Instant>,
    pub worker: Child,
    pub work: T,
}

/// Kills each worker at its time, the earliest first, and waits for those that have none: how each ended, as soon as it has.
pub fn killed_in_time<T>(
    mut workers: Vec<Timed<T>>,
) -> impl Iterator<Item = Result<(T, Ended), String>> {
    workers.sort_by_key(|timed| (timed.kill_at.is_none(), timed.kill_at));
    workers.into_iter().map(|mut timed| {
        if let Some(time) = timed.kill_at {
            sleep(time.saturating_duration_since(Instant::now()));
            // one that has ended by itself cannot be killed, and is waited for all the same
            let _ = timed.worker.kill();
        }
        Ok((timed.work, wait(timed.worker)?))
    })
}

/// Waits until a worker ends, or is dead.
pub fn wait(worker: Child) -> Result<Ended, String> {
    let ended = worker
        .wait_with_output()
        .map_err(|error| error.to_string())?;
    let [printed, words] =
        [ended.stdout, ended.stderr].map(|bytes| String::from_utf8_lossy(&bytes).into_owned());
    match (ended.status.code(), ended.status.signal()) {
        (None, signal) if signal != Some(SIGKILL) => {
            Err(format!("a worker broke off: {}, {words}", ended.status))
        }
        (status, _) => Ok(Ended {
            status,
            printed,
            words,
        }),
    }
}

fn put(path: &Path, bytes: Option<&[u8]>) -> Result<(), String> {
    let done = match bytes {
        Some(bytes) => fs::write(path, bytes),
        None => fs::remove_file(path),
    };
    match done {
        Err(error) if bytes.is_none() && error.kind() == ErrorKind::NotFound => Ok(()),
        done => done.map_err(says(path)),
    }
}

fn got(path: &Path) -> Result<Option<Vec<u8>>, String> {
    match fs::read(path) {
        Err(error) if error.kind() == ErrorKind::NotFound => Ok(None),
        read => read.map(Some).map_err(says(path)),
    }
}

/// What the operating system says of a file.
pub fn says(path: &Path) -> impl Fn(io::Error) -> String + '_ {
    move |error| format!("{}: {error}", path.display())
}
