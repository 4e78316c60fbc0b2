// One case: the port and the Rust are called on the same input, over memory that holds the same bytes before, and any difference is kept.
use crate::answer::Answer;
use crate::port::{COUNTED_ALREADY, MORE};
use crate::random::Random;
use crate::table::Fault;
use crate::{oracle, port, strict, words};
use std::fmt::Write;

pub const MARKER: [u8; 8] = [0, 0, 0, 0, 0, 0, 0, 1];

/// Bytes before and after an output, which no call may touch.
const MARGIN: usize = 64;

/// So many patterns stand in memory by turns.
const PATTERNS: usize = 1021;

/// How many differences are kept, those of the shortest inputs, and how many bytes of an input are shown.
const KEPT: usize = 5;
const SHOWN: usize = 2000;

/// What a count can answer.
const COUNTS: [u64; 12] = [0, COUNTED_ALREADY, 1, 2, 3, 4, 5, 7, 8, 19, 20, 21];

/// How many cases the Rust answered with each number (of records and the strict check: the rules), how many of them were encodes, strict checks and
/// refusals in words; how often a history's worker found a record of the previous hour; how many records are refused with an offset in them; the
/// months, and how the ledger answered their calls, in the order of `COUNTS`; and how often the port did otherwise.
#[derive(Clone, Copy, Default)]
pub struct Tally {
    pub answers: [u64; 13],
    pub encodes: u64,
    pub stricts: u64,
    pub texts: u64,
    pub previous: u64,
    pub offsets: u64,
    pub months: u64,
    pub counts: [u64; COUNTS.len()],
    pub differences: u64,
}

impl Tally {
    pub fn cases(&self) -> u64 {
        self.answers.iter().sum::<u64>() + self.months
    }

    pub fn add(&mut self, other: &Tally) {
        let sums = self.answers.iter_mut().chain(&mut self.counts);
        for (sum, more) in sums.zip(other.answers.iter().chain(&other.counts)) {
            *sum += more;
        }
        self.encodes += other.encodes;
        self.stricts += other.stricts;
        self.texts += other.texts;
        self.previous += other.previous;
        self.offsets += other.offsets;
        self.months += other.months;
        self.differences += other.differences;
    }
}

pub struct Difference {
    length: usize,
    pub text: String,
}

#[derive(Default)]
pub struct Check {
    tally: Tally,
    kind: String,
    found: Vec<Difference>,
    turn: usize,
    pattern: Vec<u8>,
    ours: Vec<u8>,
    rusts: Vec<u8>,
}

impl Check {
    /// The cases from here on are of this kind.
    pub fn begin(&mut self, kind: &str) {
        self.kind = kind.to_string();
        self.tally = Tally::default();
    }

    pub fn tally(&self) -> Tally {
        self.tally
    }

    pub fn found(&self) -> &[Difference] {
        &self.found
    }

    /// A case of the header.
    pub fn header(&mut self, message: &[u8]) {
        let (ours, rusts) = (port::header(message), oracle::header(message));
        self.tally.answers[rusts.number as usize] += 1;
        if ours != rusts {
            self.differs("header", &format!("port {ours}, Rust {rusts}"), message);
        }
    }

    /// A case of decode, into an output of `room` bytes.
    pub fn decode(&mut self, message: &[u8], wanted: u64, room: usize) {
        let (rusts, result) = self.both_decode(message, wanted, room);
        self.tally.answers[rusts.number as usize] += 1;
        if let Err(text) = result.and_then(|ours| self.used(ours, message, wanted, room)) {
            self.differs(
                &format!("decode to {wanted} channels, output of {room} bytes"),
                &text,
                message,
            );
        }
    }

    /// A case of encode, into an output of `room` bytes.
    pub fn encode(&mut self, pixels: &[u8], size: (u32, u32), colorspace: u64, room: usize) {
        let (width, height) = size;
        let (rusts, result) = self.both(
            room,
            |out| port::encode(pixels, width, height, colorspace, out),
            |out, _| oracle::encode(pixels, width, height, colorspace, out),
        );
        self.tally.answers[rusts.number as usize] += 1;
        self.tally.encodes += 1;
        if let Err(text) = result.and_then(|ours| self.comes_back(ours, pixels, size)) {
            let call = format!(
                "encode of {width}x{height}, colour space {colorspace}, output of {room} bytes"
            );
            self.differs_on(&call, &text, "picture", pixels);
        }
    }

    /// A case of the strict check: what must be answered.
    pub fn strict(&mut self, message: &[u8]) -> Answer {
        let (expected, result) = strict::judge(message);
        self.tally.stricts += 1;
        self.case(expected.number, result, "strict", "message", message);
        expected
    }

    /// A case of a refusal in words, into an output of `room` bytes.
    pub fn text(&mut self, number: u64, told: &[u64; 4], words: &str, room: usize) {
        let (expected, result) = self.both(
            room,
            |out| port::text(number, told, out),
            |out, _| words::put(words, out),
        );
        self.tally.answers[expected.number as usize] += 1;
        self.tally.texts += 1;
        if let Err(text) = result {
            let call = format!("text of {number} {told:?}, output of {room} bytes");
            self.differs_on(&call, &text, "words", words.as_bytes());
        }
    }

    /// A case of a month: what its calls were answered, and what was found otherwise.
    pub fn month(&mut self, answers: &[Answer], result: Result<(), Fault>) {
        self.tally.months += 1;
        for answer in answers {
            let place = COUNTS.iter().position(|n| *n == answer.number);
            self.tally.counts[place.expect("an answer of count")] += 1;
        }
        if let Err(fault) = result {
            self.differs(&fault.call, &fault.text, &fault.message);
        }
    }

    /// A case of any other kind: the number that was expected, more to do being none, and what was found otherwise.
    pub fn case(
        &mut self,
        number: u64,
        result: Result<(), String>,
        call: &str,
        name: &str,
        input: &[u8],
    ) {
        let number = if number == MORE { 0 } else { number };
        self.tally.answers[number as usize] += 1;
        if let Err(text) = result {
            self.differs_on(call, &text, name, input);
        }
    }

    /// Adds the records of the previous hour that a history found.
    pub fn found_previous(&mut self, times: u64) {
        self.tally.previous += times;
    }

    /// A case of a record that is read: the answer that was expected, and what was found otherwise.
    pub fn record(
        &mut self,
        expected: Answer,
        result: Result<(), String>,
        call: &str,
        record: &[u8],
    ) {
        let [offset, ..] = expected.figures;
        self.tally.offsets += u64::from([1, 9].contains(&expected.number) && offset > 0);
        self.case(expected.number, result, call, "record", record);
    }

    /// What else was expected of a call, beside the Rust's answer.
    pub fn expect(&mut self, holds: bool, what: &str, message: &[u8]) {
        if !holds {
            self.differs(what, "expected otherwise", message);
        }
    }

    /// The Rust's answer, and the port's if it is the same in number, figures and memory. The Rust's call is told the port's answer; of a refusal in
    /// words it is `words::put`.
    fn both(
        &mut self,
        room: usize,
        port: impl FnOnce(&mut [u8]) -> Answer,
        rust: impl FnOnce(&mut [u8], Answer) -> Answer,
    ) -> (Answer, Result<Answer, String>) {
        self.turn += 1;
        let start = MARGIN + self.turn % 8;
        let end = start + room;
        let shift = self.turn % PATTERNS;
        self.stretch_pattern(end + MARGIN + PATTERNS);
        let before = &self.pattern[shift..shift + end + MARGIN];
        for memory in [&mut self.ours, &mut self.rusts] {
            memory.clear();
            memory.extend_from_slice(before);
        }
        let ours = port(&mut self.ours[start..end]);
        let rusts = rust(&mut self.rusts[start..end], ours);
        if ours != rusts {
            return (rusts, Err(format!("port {ours}, expected {rusts}")));
        }
        // how far the output may be written, by the answer
        let most = match ours.number {
            0 => ours.figures[0] as usize,
            2..=7 => 0,
            _ => room,
        };
        let result = if self.ours != self.rusts {
            let place = (0..before.len())
                .find(|&i| self.ours[i] != self.rusts[i])
                .expect("they differ");
            let (o, r, b) = (self.ours[place], self.rusts[place], before[place]);
            Err(format!(
                "both {ours}; output byte {}: port {o:02x}, expected {r:02x}, before {b:02x}",
                place as isize - start as isize
            ))
        } else if self.ours[start + most..] != before[start + most..] {
            Err(format!("both {ours}, and both wrote after {most} bytes"))
        } else {
            Ok(ours)
        };
        (rusts, result)
    }

    fn both_decode(
        &mut self,
        message: &[u8],
        wanted: u64,
        room: usize,
    ) -> (Answer, Result<Answer, String>) {
        let rust = |out: &mut [u8], ours: Answer| {
            let mut rusts = oracle::decode(message, wanted, out);
            if rusts.is_accepted() {
                // the Rust does not say how many bytes it used: `used` finds out
                rusts.figures[1] = ours.figures[1];
            }
            rusts
        };
        self.both(room, |out| port::decode(message, wanted, out), rust)
    }

    /// What an accepted encode wrote is, to its last byte, a message of the same picture, for the port and for the Rust, and passes the strict check.
    fn comes_back(
        &mut self,
        ours: Answer,
        pixels: &[u8],
        (width, height): (u32, u32),
    ) -> Result<(), String> {
        if !ours.is_accepted() {
            return Ok(());
        }
        let [size, ..] = ours.figures;
        let message = self.written(size as usize).to_vec();
        let length = pixels.len() as u64;
        let channels = length / (u64::from(width) * u64::from(height));
        let again = self.both_decode(&message, channels, pixels.len()).1?;
        if again != Answer::accepted([length, size, 0, 0]) || self.written(pixels.len()) != pixels {
            return Err(format!(
                "both {ours}, but decoded {again}, or to another picture"
            ));
        }
        let (checked, expected) = (port::strict(&message), strict::by_rules(&message));
        if checked != expected || !checked.is_accepted() {
            return Err(format!(
                "both {ours}, but strict {checked}, by the rules {expected}"
            ));
        }
        Ok(())
    }

    /// An accepted answer's `used`: that part of the message ends with the marker and is accepted with the same bytes written, and one byte
    /// less is cut short; by the port and by the Rust.
    fn used(
        &mut self,
        ours: Answer,
        message: &[u8],
        wanted: u64,
        room: usize,
    ) -> Result<(), String> {
        if !ours.is_accepted() {
            return Ok(());
        }
        let [size, used, _, _] = ours.figures;
        let part = match message.get(..used as usize) {
            Some(part) if part.ends_with(&MARKER) => part,
            _ => {
                return Err(format!(
                    "port {ours}: used is no part of the message that ends with the marker"
                ))
            }
        };
        let pixels = self.written(size as usize).to_vec();
        let again = self.both_decode(part, wanted, room).1?;
        if again != ours || self.written(size as usize) != pixels {
            return Err(format!(
                "port {ours}, but for the used part alone {again}, or other pixels"
            ));
        }
        let less = self.both_decode(&part[..part.len() - 1], wanted, room).1?;
        if less.number != 1 {
            return Err(format!(
                "port {ours}, but {less} for one byte less than the used part"
            ));
        }
        Ok(())
    }

    /// What the port's last call wrote.
    fn written(&self, size: usize) -> &[u8] {
        &self.ours[MARGIN + self.turn % 8..][..size]
    }

    fn stretch_pattern(&mut self, length: usize) {
        if self.pattern.len() < length {
            let mut random = Random::new(self.pattern.len() as u64);
            self.pattern
                .resize_with(length.next_power_of_two(), || random.byte());
        }
    }

    fn differs(&mut self, call: &str, text: &str, message: &[u8]) {
        self.differs_on(call, text, "message", message);
    }

    fn differs_on(&mut self, call: &str, text: &str, name: &str, input: &[u8]) {
        self.tally.differences += 1;
        // a month's call tells its table too
        let length = call.len() + input.len();
        if self.found.len() == KEPT && self.found[KEPT - 1].length <= length {
            return;
        }
        let mut shown = format!(
            "{}: {call}: {text}; {name} of {} bytes:\n   ",
            self.kind,
            input.len()
        );
        for byte in input.iter().take(SHOWN) {
            write!(shown, " {byte:02x}").expect("a string has room");
        }
        self.found.push(Difference {
            length,
            text: shown,
        });
        self.found.sort_by_key(|d| d.length);
        self.found.truncate(KEPT);
    }
}
