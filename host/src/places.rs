// The programs of ./bench: the same host, its code linked at four places, which times a row at each of them. `host
// race` is one of them: it says where its code lies, reads rows that are asked for, one a line, and prints the
// figures of each, one line too. They wait while another one times.
use crate::oracle;
use crate::port;
use crate::race::{race, Table, TABLES};
use crate::samples;
use std::io::{self, BufRead, BufReader, Write};
use std::path::Path;
use std::process::{Child, ChildStdout, Command, ExitCode, Stdio};

/// What code is fetched by, in bytes, and how far each program's code lies from that of the one before it.
const LINE: usize = 64;
const STEP: usize = 16;

/// Where our code and the Rust's lie, modulo the line.
fn places() -> [usize; 2] {
    [port::place() % LINE, oracle::place() % LINE]
}

fn numbers<T: std::str::FromStr>(line: &str) -> Option<Vec<T>> {
    line.split_whitespace()
        .map(|word| word.parse().ok())
        .collect()
}

/// One of the programs: answers what it is asked until its input ends.
pub fn serve(folder: &Path) -> ExitCode {
    let (large, small) = (samples::large(folder), samples::small());
    let [ours, rust] = places();
    println!("{ours} {rust}");
    for line in io::stdin().lock().lines() {
        let line = line.expect("a line");
        let asked: Vec<usize> = numbers(&line).expect("table, row and wanted");
        let (table, row, wanted) = (TABLES[asked[0]], asked[1], asked[2] as u64);
        let samples = if table.word == "small" {
            &small
        } else {
            &large
        };
        let figures = race(table, &samples[row], wanted);
        let words: Vec<String> = figures.iter().map(f64::to_string).collect();
        println!("{}", words.join(" "));
    }
    ExitCode::SUCCESS
}

pub struct Program {
    name: String,
    child: Child,
    answers: BufReader<ChildStdout>,
}

impl Program {
    fn start(name: &str, folder: &Path) -> Result<Self, String> {
        let mut child = Command::new(name)
            .arg("race")
            .arg(folder)
            .stdin(Stdio::piped())
            .stdout(Stdio::piped())
            .spawn()
            .map_err(|e| format!("{name}: {e}"))?;
        let answers = BufReader::new(child.stdout.take().expect("it is piped"));
        Ok(Self {
            name: name.to_string(),
            child,
            answers,
        })
    }

    fn answer<T: std::str::FromStr>(&mut self) -> Result<Vec<T>, String> {
        let mut line = String::new();
        let length = self.answers.read_line(&mut line);
        match (length, numbers(&line)) {
            (Ok(1..), Some(numbers)) => Ok(numbers),
            _ => Err(format!("{} broke off", self.name)),
        }
    }

    /// What `race` gives there for a row of a table.
    pub fn race(&mut self, table: &Table, row: usize, wanted: u64) -> Result<Vec<f64>, String> {
        let is_it = |other: &&Table| other.word == table.word;
        let table = TABLES.iter().position(is_it).expect("one of them");
        let input = self.child.stdin.as_mut().expect("it is piped");
        writeln!(input, "{table} {row} {wanted}").map_err(|e| format!("{}: {e}", self.name))?;
        self.answer()
    }
}

impl Drop for Program {
    fn drop(&mut self) {
        // its input ends, and so does it
        drop(self.child.stdin.take());
        let _ = self.child.wait();
    }
}

/// Starts them. The code of each, ours and the Rust's, must lie a step further than that of the one before it.
pub fn start(names: &[&str], folder: &Path) -> Result<Vec<Program>, String> {
    let mut programs = Vec::new();
    let mut expected = None;
    for name in names {
        let mut program = Program::start(name, folder)?;
        let found: Vec<usize> = program.answer()?;
        let expected = expected.get_or_insert_with(|| found.clone());
        if found != *expected {
            return Err(format!(
                "{name}: our code and the Rust's lie at {found:?} modulo {LINE}, not at {expected:?}"
            ));
        }
        for place in expected {
            *place = (*place + STEP) % LINE;
        }
        programs.push(program);
    }
    Ok(programs)
}
