// The host's own ledger of rain, in 128-bit numbers over the Rust's decode: what each call of count must answer and leave.
use crate::answer::Answer;
use crate::oracle;
use crate::port::{COUNTED_ALREADY, HOURS};
use crate::trace::Trace;

/// One call: a message for an hour, and the length of the buffer for its frame.
#[derive(Clone)]
pub struct Delivery {
    pub hour: u64,
    pub message: Vec<u8>,
    pub room: usize,
}

impl Delivery {
    /// The rain of each cell, where the message can be counted on a table of so many cells at all: it is decoded wholly, has four channels, and a
    /// pixel for each cell.
    pub fn rain(&self, cells: usize) -> Option<Vec<u128>> {
        let header = oracle::header(&self.message);
        let [width, height, channels, _] = header.figures;
        let is_of_size = (width * height, channels) == (cells as u64, 4);
        if !header.is_accepted() || !is_of_size || self.room < 4 * cells {
            return None;
        }
        let mut frame = vec![0; 4 * cells];
        let decoded = oracle::decode(&self.message, 4, &mut frame);
        decoded.is_accepted().then(|| rain(&frame))
    }
}

/// Each cell's four bytes as one number, the first of them counting most.
fn rain(frame: &[u8]) -> Vec<u128> {
    let number = |cell: &[u8]| {
        cell.iter()
            .fold(0, |sum, byte| 256 * sum + u128::from(*byte))
    };
    frame.chunks_exact(4).map(number).collect()
}

/// How many bytes of a message a decode uses that is accepted.
fn used(message: &[u8]) -> u64 {
    let trace = Trace::new(message, 4, u64::MAX).expect("it was accepted");
    trace.answer.figures[1]
}

#[derive(Clone, PartialEq, Eq)]
pub struct Ledger {
    /// One for each cell.
    pub totals: Vec<u128>,
    pub marks: [u8; HOURS],
}

impl Ledger {
    /// All zeros, nothing marked.
    pub fn fresh(cells: usize) -> Self {
        Self {
            totals: vec![0; cells],
            marks: [0; HOURS],
        }
    }

    pub fn cells(&self) -> usize {
        self.totals.len()
    }

    /// The totals with one frame more.
    fn grown(&self, rain: &[u128]) -> Vec<u128> {
        self.totals.iter().zip(rain).map(|(t, r)| t + r).collect()
    }

    /// What the call must answer; the ledger and the frame's buffer are left as the call must leave table and buffer.
    pub fn count(&mut self, delivery: &Delivery, frame: &mut [u8]) -> Answer {
        let (hour, message) = (delivery.hour, &delivery.message[..]);
        if hour >= HOURS as u64 {
            return Answer::refused(19, [hour, 0, 0, 0]);
        }
        let hour = hour as usize;
        if self.marks[hour] != 0 {
            return Answer::refused(COUNTED_ALREADY, [0; 4]);
        }
        let decoded = oracle::decode(message, 4, frame);
        if !decoded.is_accepted() {
            return decoded;
        }
        let [width, height, channels, _] = oracle::header(message).figures;
        if channels == 3 {
            return Answer::refused(2, [3, 0, 0, 0]);
        }
        let (pixels, cells) = (width * height, self.cells() as u64);
        if pixels != cells {
            return Answer::refused(20, [pixels, cells, 0, 0]);
        }
        let grown = self.grown(&rain(&frame[..4 * self.cells()]));
        if let Some(cell) = grown.iter().position(|total| *total > u64::MAX.into()) {
            return Answer::refused(21, [cell as u64, 0, 0, 0]);
        }
        self.totals = grown;
        self.marks[hour] = 1;
        Answer::accepted([used(message), 0, 0, 0])
    }

    /// What a table that stands like this must hold after all of these, each of which can be counted: of each hour that is not marked the first is
    /// added, in one go.
    pub fn with_firsts(&self, fit: &[&Delivery]) -> Self {
        let mut sum = self.clone();
        for hour in (0..HOURS).filter(|hour| self.marks[*hour] == 0) {
            if let Some(first) = fit.iter().find(|d| d.hour == hour as u64) {
                let rain = first.rain(self.cells()).expect("it can be counted");
                sum.totals = sum.grown(&rain);
                sum.marks[hour] = 1;
            }
        }
        sum
    }
}
