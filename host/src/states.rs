// The command `states`: has the program `states` of crates/ run states that it makes up, and holds its lines to what document 01's rules and the
// Rust's decode say. No record says how many pixels are left, so no exported function takes a state of which that is wrong; the program gives its own
// Decoder any number.
use crate::answer::Answer;
use crate::messages::{any_message, any_number, other_number};
use crate::port::MORE;
use crate::random::Random;
use crate::record::Record;
use crate::trace::Trace;
use std::io::{BufRead, BufReader, Write};
use std::process::{Command, ExitCode, Stdio};
use std::thread;

/// What the program is lent for an output, and what it fills it with.
const ROOM: u64 = 4096;
const FILL: u8 = 0xee;

/// Where the parts of an entry stand, and its length.
const MORE_LEFT: usize = 302;
const NUMBER: usize = 310;
const STEPS: usize = 318;
const MESSAGE: usize = 319;
const ENTRY: usize = 1024;

/// So many differences are shown.
const SHOWN: u64 = 5;

/// A state: a record and the message that it is of, how many pixels more are left than the picture has from
/// the pixel position on, the number that the message came under, and steps to run.
struct State {
    message: Vec<u8>,
    record: Record,
    more: u64,
    number: u64,
    steps: u8,
    /// The line that the program must print.
    line: String,
    adds_up: bool,
    /// Whether its record has a fault of state.
    is_faulty: bool,
}

/// Bytes after their length.
fn put(entry: &mut [u8], bytes: &[u8]) {
    entry[..2].copy_from_slice(&(bytes.len() as u16).to_be_bytes());
    entry[2..][..bytes.len()].copy_from_slice(bytes);
}

impl State {
    fn any(random: &mut Random) -> Self {
        loop {
            let message = any_message(random);
            let wanted = 3 + random.below(2) as u64;
            match Trace::new(&message, wanted, ROOM) {
                Ok(trace) if message.len() <= ENTRY - MESSAGE - 2 && trace.answer.number != 7 => {
                    return Self::of(random, message, &trace);
                }
                _ => {}
            }
        }
    }

    /// A state of a decode, with the pixels left that it has, or with others; or one that is faulty as its record has it, or of another message.
    fn of(random: &mut Random, message: Vec<u8>, trace: &Trace) -> Self {
        let done = random.below(trace.steps() + 1);
        let named = any_number(random);
        let (mut record, left) = (trace.record(done, named), trace.missing(done) as u64);
        let pixels = record.pixel + left;
        let steps = random.below(6) as u8;
        let more = match random.below(8) {
            0 => 1,
            1 => u64::MAX,
            2 => left.wrapping_neg(),
            3 => record.pixel,
            4 => random.next() >> random.below(64),
            _ => 0,
        };
        let is_faulty = random.one_in(16);
        if is_faulty {
            match random.below(4) {
                0 => record.at = random.below(14) as u64,
                1 if record.wanted == 3 => record.current[3] = random.below(255) as u8,
                _ => record.pixel = pixels + 1 + (random.next() >> random.between(1, 63)),
            }
        }
        let number = match random.one_in(8) {
            true => other_number(random, named),
            false => named,
        };
        let bytes = record.write();
        let line = match Record::read(&bytes, number) {
            Err(refusal) => line(refusal),
            Ok(_) if more != 0 => {
                let left = left.wrapping_add(more);
                // no steps test nothing
                let ran = match steps {
                    0 => Answer::refused(MORE, [record.at, record.pixel, left, number]),
                    _ => BAD,
                };
                format!("{} 0 {}", line(ran), line(BAD))
            }
            Ok(_) => {
                let (ran, changed) = ran(trace, done, steps.into(), number);
                let written = Answer::accepted([bytes.len() as u64, 0, 0, 0]);
                format!("{} {changed} {}", line(ran), line(written))
            }
        };
        Self {
            message,
            record,
            more,
            number,
            steps,
            line,
            adds_up: more == 0,
            is_faulty,
        }
    }

    fn entry(&self) -> [u8; ENTRY] {
        let mut entry = [0; ENTRY];
        put(&mut entry, &self.record.write());
        entry[MORE_LEFT..NUMBER].copy_from_slice(&self.more.to_be_bytes());
        entry[NUMBER..STEPS].copy_from_slice(&self.number.to_be_bytes());
        entry[STEPS] = self.steps;
        put(&mut entry[MESSAGE..], &self.message);
        entry
    }
}

/// A bad state, which no record gave.
const BAD: Answer = Answer::refused(9, [0; 4]);

/// An answer as the program prints it: its number and four figures.
fn line(answer: Answer) -> String {
    let [a, b, c, d] = answer.figures;
    format!("{} {a} {b} {c} {d}", answer.number)
}

/// What some steps answer, and how many bytes they change in an output that holds `FILL` alone.
fn ran(trace: &Trace, done: usize, steps: usize, number: u64) -> (Answer, usize) {
    let last = trace.steps().min(done + steps);
    let written = &trace.written[trace.bytes(done)..trace.bytes(last)];
    let changed = written.iter().filter(|&&byte| byte != FILL).count();
    if done + steps > trace.steps() {
        return (trace.answer, changed);
    }
    let next = trace.record(last, number);
    let figures = [next.at, next.pixel, trace.missing(last) as u64, number];
    (Answer::refused(MORE, figures), changed)
}

/// Runs so many states by the program, and counts the lines that are others than they must be.
pub fn run(count: u64, seed: u64, program: &[&str]) -> ExitCode {
    let mut random = Random::new(seed);
    let states: Vec<State> = (0..count).map(|_| State::any(&mut random)).collect();
    let (first, rest) = match program {
        [first, rest @ ..] => (first, rest),
        [] => return crate::usage(),
    };
    let mut child = Command::new(first)
        .args(rest)
        .stdin(Stdio::piped())
        .stdout(Stdio::piped())
        .spawn()
        .expect("the program runs");
    let mut input = child.stdin.take().expect("it was asked for");
    let list: Vec<u8> = states.iter().flat_map(State::entry).collect();
    let writer = thread::spawn(move || input.write_all(&list));
    let output = BufReader::new(child.stdout.take().expect("it was asked for"));
    let mut lines = output.lines().map(|line| line.expect("text"));
    let mut differences = 0;
    for state in &states {
        let printed = lines.next().unwrap_or_default();
        if printed.trim_end() != state.line {
            differences += 1;
            if differences <= SHOWN {
                let (more, number, steps) = (state.more, state.number, state.steps);
                println!(
                    "{more} pixels more left, message {number}, {steps} steps: {printed:?} and not {:?}",
                    state.line
                );
                println!("  of {:?}", state.record);
            }
        }
    }
    differences += lines.count() as u64;
    writer.join().expect("it ends").expect("all is read");
    let is_well = child.wait().expect("it ends").success();
    let odd = states.iter().filter(|state| !state.adds_up).count();
    let is_anothers = |state: &&State| state.record.number != state.number;
    let others = states.iter().filter(is_anothers).count();
    let faulty = states.iter().filter(|state| state.is_faulty).count();
    println!(
        "of these {odd} that do not add up, {others} of another message, {faulty} of records that are refused at a byte"
    );
    println!("{count} made-up states, {differences} differences");
    ExitCode::from(u8::from(differences > 0 || !is_well))
}
