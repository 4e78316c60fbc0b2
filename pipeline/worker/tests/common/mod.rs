// What the tests share: a folder in which the program is run.
#![allow(dead_code)] // no test uses all of it

use std::env;
use std::fs;
use std::path::PathBuf;
use std::process::{self, Command, Output};

/// A folder of the test's own, removed at its end.
pub struct Folder(PathBuf);

impl Folder {
    pub fn new(test: &str) -> Self {
        let path = env::temp_dir().join(format!("worker-{}-{test}", process::id()));
        fs::create_dir(&path).unwrap();
        Self(path)
    }

    pub fn path(&self, name: &str) -> PathBuf {
        self.0.join(name)
    }

    pub fn write(&self, name: &str, bytes: &[u8]) {
        fs::write(self.path(name), bytes).unwrap();
    }

    pub fn read(&self, name: &str) -> Vec<u8> {
        fs::read(self.path(name)).unwrap()
    }

    pub fn names(&self) -> Vec<String> {
        let entries = fs::read_dir(&self.0).unwrap();
        let mut names: Vec<String> = entries
            .map(|entry| entry.unwrap().file_name().into_string().unwrap())
            .collect();
        names.sort();
        names
    }

    /// The worker that is to run in the folder.
    pub fn command(&self, line: &str) -> Command {
        let mut command = Command::new(env!("CARGO_BIN_EXE_worker"));
        command.args(line.split_whitespace()).current_dir(&self.0);
        command
    }

    /// Runs the worker: its status, what it printed, and its words.
    pub fn worker(&self, line: &str) -> (i32, String, String) {
        answer(self.command(line).output().unwrap())
    }

    /// Runs the worker, which must succeed and print this.
    pub fn prints(&self, line: &str, printed: &str) {
        assert_eq!(
            self.worker(line),
            (0, printed.to_owned(), String::new()),
            "{line}"
        );
    }

    /// Runs the worker, which must succeed and say nothing.
    pub fn works(&self, line: &str) {
        self.prints(line, "");
    }

    /// Runs the worker, which must end with a status and its words.
    pub fn refuses(&self, line: &str, status: i32, words: &str) {
        let words = format!("worker: {words}\n");
        assert_eq!(self.worker(line), (status, String::new(), words), "{line}");
    }
}

/// The status of a worker that has ended, what it printed, and its words.
pub fn answer(ended: Output) -> (i32, String, String) {
    let text = |bytes| String::from_utf8(bytes).unwrap();
    (
        ended.status.code().unwrap(),
        text(ended.stdout),
        text(ended.stderr),
    )
}

impl Drop for Folder {
    fn drop(&mut self) {
        let _ = fs::remove_dir_all(&self.0);
    }
}
