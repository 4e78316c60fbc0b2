//! The workers: processes of their own, some of which are killed.
use pivotshade::Record;
use std::fs;
use std::os::unix::process::ExitStatusExt;
use std::path::{Path, PathBuf};
use std::process::{Child, Command, Output, Stdio};
use std::thread::sleep;
use std::time::{Duration, Instant};
use worker::saved;

/// The signal that cannot be caught.
const SIGKILL: i32 = 9;

/// Between two looks at the record.
const LOOK: Duration = Duration::from_micros(20);

/// The files of one delivery.
pub struct Files {
    /// What is sent.
    pub pixels: PathBuf,
    /// The message.
    pub message: PathBuf,
    /// What the workers write.
    pub output: PathBuf,
    /// The output as it stood when worker 1 was killed.
    pub killed: PathBuf,
    /// How far they are.
    pub record: PathBuf,
    /// The picture.
    pub picture: PathBuf,
}

impl Files {
    /// Those of a folder.
    pub fn of(folder: &Path) -> Self {
        Self {
            pixels: folder.join("pixels"),
            message: folder.join("message.qoi"),
            output: folder.join("output"),
            killed: folder.join("output.killed"),
            record: folder.join("record"),
            picture: folder.join("story.png"),
        }
    }
}

/// A worker that ended, and when.
pub struct Ended {
    /// Its status and its words.
    pub output: Output,
    /// How long it lived.
    pub lived: Duration,
}

impl Ended {
    /// The same, if it did what it was asked; or else its words.
    pub fn well(self, who: &str) -> Result<Self, String> {
        match self.output.status.success() {
            true => Ok(self),
            false => Err(format!(
                "{who} ended, {}: {}",
                self.output.status,
                String::from_utf8_lossy(&self.output.stderr).trim_end()
            )),
        }
    }

    /// What it printed.
    pub fn words(&self) -> String {
        String::from_utf8_lossy(&self.output.stdout).into_owned()
    }

    /// Whether the kill reached it before its own end.
    pub fn was_killed(&self) -> bool {
        self.output.status.signal() == Some(SIGKILL)
    }
}

/// The worker's program, and what each one of them is given.
#[derive(Clone, Copy)]
pub struct Workers<'a> {
    /// The program.
    pub program: &'a Path,
    /// The number that the queue gave the message: each delivery of it has the same.
    pub number: u64,
    /// The files.
    pub files: &'a Files,
}

impl Workers<'_> {
    /// Has one encode the pixels.
    pub fn encode(&self, width: usize, height: usize, is_linear: bool) -> Result<Ended, String> {
        let mut command = self.command("encode", [&self.files.pixels, &self.files.message]);
        command.args(["--width", &width.to_string()]);
        command.args(["--height", &height.to_string()]);
        if is_linear {
            command.arg("--linear");
        }
        Started::new(command)?.end()
    }

    /// Has one decode the message, undisturbed.
    pub fn decode(&self, every: u64) -> Result<Ended, String> {
        self.start_decode(every)?.end()
    }

    /// Has one decode the message and kills it, once it is time by what it saved last.
    pub fn decode_until(
        &self,
        every: u64,
        is_time: impl Fn(&Record) -> bool,
    ) -> Result<Ended, String> {
        let mut worker = self.start_decode(every)?;
        while worker.is_alive()? && !self.record().map_or(false, |record| is_time(&record)) {
            sleep(LOOK);
        }
        worker.kill()?;
        worker.end()
    }

    /// The record that stands there.
    pub fn record(&self) -> Option<Record> {
        let bytes = fs::read(&self.files.record).ok()?;
        let (record, _) = saved::from_bytes(&bytes, self.number).ok()?;
        Some(record)
    }

    fn start_decode(&self, every: u64) -> Result<Started, String> {
        let mut command = self.command("decode", [&self.files.message, &self.files.output]);
        command.arg("--record").arg(&self.files.record);
        command.args(["--number", &self.number.to_string()]);
        command.args(["--every", &every.to_string()]);
        Started::new(command)
    }

    fn command(&self, name: &str, paths: [&PathBuf; 2]) -> Command {
        let mut command = Command::new(self.program);
        command.arg(name).args(paths);
        command
    }
}

/// The worker's program, and the table that those of the month share.
pub struct Counters<'a> {
    /// The program.
    pub program: &'a Path,
    /// The table.
    pub table: &'a Path,
}

impl Counters<'_> {
    /// Starts one on the message of an hour.
    pub fn start(&self, message: &Path, hour: usize) -> Result<Started, String> {
        let mut command = self.command("count");
        command.arg(message).args(["--hour", &hour.to_string()]);
        Started::new(command)
    }

    /// The totals, as one of them prints the table.
    pub fn totals(&self) -> Result<Vec<u64>, String> {
        let printer = Started::new(self.command("totals"))?.end()?;
        let printed = printer.well("the worker that prints the totals")?.words();
        let total = |line: &str| line.parse().map_err(|_| format!("{line} is no total"));
        printed.lines().map(total).collect()
    }

    fn command(&self, name: &str) -> Command {
        let mut command = Command::new(self.program);
        command.arg(name).arg("--table").arg(self.table);
        command
    }
}

/// A worker that was started.
pub struct Started {
    child: Child,
    since: Instant,
}

impl Started {
    fn new(mut command: Command) -> Result<Self, String> {
        // what it says is shown where it fails; a progress bar would stay where it is killed
        command.stdin(Stdio::null());
        command.stdout(Stdio::piped()).stderr(Stdio::piped());
        let since = Instant::now();
        let child = command.spawn().map_err(cannot("start a worker"))?;
        Ok(Self { child, since })
    }

    fn is_alive(&mut self) -> Result<bool, String> {
        let status = self.child.try_wait();
        Ok(status.map_err(cannot("wait for a worker"))?.is_none())
    }

    /// Kills it, unless it has ended.
    pub fn kill(&mut self) -> Result<(), String> {
        match self.is_alive()? {
            true => self.child.kill().map_err(cannot("kill a worker")),
            false => Ok(()),
        }
    }

    /// Waits for its end.
    pub fn end(self) -> Result<Ended, String> {
        let output = self.child.wait_with_output();
        Ok(Ended {
            output: output.map_err(cannot("wait for a worker"))?,
            lived: self.since.elapsed(),
        })
    }
}

fn cannot(what: &str) -> impl FnOnce(std::io::Error) -> String + '_ {
    move |error| format!("cannot {what}: {error}")
}
