// One output that outlives its workers: each run is held to the trace of the Rust's decode, in answer, record and every byte of memory.
use crate::answer::Answer;
use crate::oracle;
use crate::port::{self, MORE};
use crate::random::Random;
use crate::record::{of_another, LONGEST};
use crate::trace::Trace;

/// Bytes before and after what is lent, which no call may touch.
pub const MARGIN: usize = 16;

/// The room that a run is lent for the next record.
#[derive(Clone, Copy)]
pub enum Next {
    /// Just enough, and none where the run ends.
    Exact,
    Longer,
    /// Too short: the worker does its steps and dies before it leaves a record.
    Short,
}

impl Next {
    /// For a record of `length` bytes.
    fn room(self, random: &mut Random, length: usize) -> usize {
        match self {
            Next::Exact => length,
            Next::Longer => LONGEST + random.below(10),
            Next::Short => random.below(length.max(1)),
        }
    }
}

#[derive(PartialEq, Eq)]
pub enum Ran {
    /// The steps done since the start, and the record that says so.
    More(usize, Vec<u8>),
    /// Steps were done, and no record of them is left.
    Lost,
    Ended,
}

/// Where a worker stands: at the record that was written after `steps` steps.
#[derive(Clone, Copy)]
pub struct Stand<'a> {
    pub message: &'a [u8],
    pub number: u64,
    pub trace: &'a Trace,
    pub done: usize,
    pub record: &'a [u8],
}

/// What a run must answer, how many steps since the start are then done, and the room that `next` has.
struct Expected {
    answer: Answer,
    reached: usize,
    room: usize,
    ran: Ran,
}

impl Expected {
    /// 7 for an output too short; the Rust's answer where the steps reach the end; else one record more, or 7 where it has no room.
    fn of(random: &mut Random, stand: Stand, steps: u64, room: usize, next: Next) -> Self {
        let trace = stand.trace;
        let is_short = steps > 0 && (room as u64) < trace.needed;
        let left = trace.steps() - stand.done;
        if is_short || steps > left as u64 {
            let required = [room as u64, trace.needed, 0, 0];
            return Self {
                answer: if is_short {
                    Answer::refused(7, required)
                } else {
                    trace.answer
                },
                reached: if is_short { stand.done } else { trace.steps() },
                room: next.room(random, 0),
                ran: Ran::Ended,
            };
        }
        let reached = stand.done + steps as usize;
        let record = trace.record(reached, stand.number).write();
        let (length, room) = (record.len() as u64, next.room(random, record.len()));
        let (answer, ran) = if room < record.len() {
            (Answer::refused(7, [room as u64, length, 0, 0]), Ran::Lost)
        } else {
            (
                Answer::refused(MORE, [length, 0, 0, 0]),
                Ran::More(reached, record),
            )
        };
        Self {
            answer,
            reached,
            room,
            ran,
        }
    }
}

#[derive(Clone, PartialEq, Eq)]
pub struct Output {
    memory: Vec<u8>,
    /// What the memory must hold.
    model: Vec<u8>,
    /// What it held when something else than a worker last wrote there.
    ground: Vec<u8>,
}

/// Or how they differ.
pub fn is_same(ours: Answer, expected: Answer) -> Result<(), String> {
    if ours == expected {
        Ok(())
    } else {
        Err(format!("port {ours}, expected {expected}"))
    }
}

/// The port's first record, in an output of `room` bytes.
pub fn start(
    message: &[u8],
    number: u64,
    trace: &Result<Trace, Answer>,
    wanted: u64,
    room: usize,
    fill: u8,
) -> Result<Vec<u8>, String> {
    let mut memory = vec![fill; MARGIN + room + MARGIN];
    let mut model = memory.clone();
    let (expected, record) = match trace {
        Err(refusal) => (*refusal, Vec::new()),
        Ok(trace) => {
            let record = trace.record(0, number).write();
            let length = record.len() as u64;
            if record.len() > room {
                (Answer::refused(7, [room as u64, length, 0, 0]), Vec::new())
            } else {
                (Answer::accepted([length, 0, 0, 0]), record)
            }
        }
    };
    model[MARGIN..][..record.len()].copy_from_slice(&record);
    let ours = port::start(message, number, wanted, &mut memory[MARGIN..][..room]);
    is_same(ours, expected).map_err(|text| format!("start into {room} bytes: {text}"))?;
    if memory != model {
        return Err(format!(
            "start into {room} bytes: both {ours}, another record or bytes beside it"
        ));
    }
    Ok(record)
}

impl Output {
    /// Holds anything at first.
    pub fn new(random: &mut Random, room: usize) -> Self {
        let mut memory = vec![0; MARGIN + room + MARGIN];
        random.fill(&mut memory);
        Self {
            model: memory.clone(),
            ground: memory.clone(),
            memory,
        }
    }

    fn room(&self) -> usize {
        self.memory.len() - 2 * MARGIN
    }

    /// Everything from a byte on is overwritten.
    pub fn scribble(&mut self, random: &mut Random, from: usize) {
        let end = MARGIN + self.room();
        random.fill(&mut self.memory[MARGIN + from..end]);
        self.model.copy_from_slice(&self.memory);
        self.ground.copy_from_slice(&self.memory);
    }

    /// The bytes before a place become those of the uncut decode, as another copy of the output would have them.
    pub fn restore(&mut self, trace: &Trace, to: usize) {
        self.memory[MARGIN..][..to].copy_from_slice(&trace.written[..to]);
        self.model.copy_from_slice(&self.memory);
        self.ground.copy_from_slice(&self.memory);
    }

    /// A run of at most `steps` steps.
    pub fn run(
        &mut self,
        random: &mut Random,
        stand: Stand,
        steps: u64,
        next: Next,
    ) -> Result<Ran, String> {
        let room = self.room();
        let expected = Expected::of(random, stand, steps, room, next);
        let (from, to) = (
            stand.trace.bytes(stand.done),
            stand.trace.bytes(expected.reached),
        );
        self.model[MARGIN + from..MARGIN + to].copy_from_slice(&stand.trace.written[from..to]);
        let mut nexts = vec![random.byte(); MARGIN + expected.room + MARGIN];
        let mut nexts_model = nexts.clone();
        if let Ran::More(_, record) = &expected.ran {
            nexts_model[MARGIN..][..record.len()].copy_from_slice(record);
        }
        let ours = port::run(
            stand.message,
            stand.number,
            stand.record,
            &mut self.memory[MARGIN..][..room],
            steps,
            &mut nexts[MARGIN..][..expected.room],
        );
        let fault = if ours != expected.answer {
            format!("port {ours}, expected {}", expected.answer)
        } else if let Some(place) = place_of_difference(&nexts, &nexts_model, MARGIN) {
            format!("{ours}, next is wrong at byte {place}")
        } else if let Some(place) = place_of_difference(&self.memory, &self.model, MARGIN) {
            format!("{ours}, the output is wrong at byte {place}")
        } else {
            return Ok(expected.ran);
        };
        Err(format!(
            "run of {steps} steps after {}, output of {room} bytes, next of {}: {fault}",
            stand.done, expected.room
        ))
    }

    /// A run from another message's record, which comes with the number that it names: it is refused, and nothing is written.
    pub fn refuses(
        &mut self,
        random: &mut Random,
        message: &[u8],
        number: u64,
        (other, record): &(u64, Vec<u8>),
        steps: u64,
    ) -> Result<(), String> {
        let (room, next_room) = (self.room(), random.between(LONGEST - 30, LONGEST));
        let mut nexts = vec![random.byte(); MARGIN + next_room + MARGIN];
        let nexts_model = nexts.clone();
        let ours = port::run(
            message,
            number,
            record,
            &mut self.memory[MARGIN..][..room],
            steps,
            &mut nexts[MARGIN..][..next_room],
        );
        let expected = of_another(*other);
        let fault = if ours != expected {
            format!("port {ours}, expected {expected}")
        } else if nexts != nexts_model || self.memory != self.model {
            format!("{ours}, and something is written")
        } else {
            return Ok(());
        };
        Err(format!(
            "run of {steps} steps for message {number} from a record of message {other}: {fault}"
        ))
    }

    /// What the Rust's uncut decode leaves over what something else than a worker left here last; and the same of the port's.
    pub fn is_as_uncut(&self, message: &[u8], wanted: u64, trace: &Trace) -> Result<(), String> {
        let room = self.room();
        type Decode = fn(&[u8], u64, &mut [u8]) -> Answer;
        for (whose, decode) in [("Rust", oracle::decode as Decode), ("port", port::decode)] {
            let mut memory = self.ground.clone();
            let mut answer = decode(message, wanted, &mut memory[MARGIN..][..room]);
            if answer.is_accepted() && whose == "Rust" {
                // it does not say how many bytes it used
                answer.figures[1] = trace.answer.figures[1];
            }
            if trace.needed <= room as u64 {
                is_same(trace.answer, answer)
                    .map_err(|text| format!("uncut, {whose}'s: {text}"))?;
            }
            if let Some(place) = place_of_difference(&self.memory, &memory, MARGIN) {
                return Err(format!(
                    "at the end byte {place} is not that of the {whose}'s uncut decode"
                ));
            }
        }
        Ok(())
    }
}

/// Where, counted from the first that is lent, which stands at `start`.
pub fn place_of_difference<T: PartialEq>(one: &[T], other: &[T], start: usize) -> Option<isize> {
    if one == other {
        return None;
    }
    let place = one.iter().zip(other).position(|(a, b)| a != b);
    Some(place.expect("they differ") as isize - start as isize)
}
