// The list: what crate qoi answered to an input, one case to a line, in pages that a reader can take one by one.
use crate::refusal::number_and_figures;
use std::collections::{BTreeMap, HashSet};

/// No case crosses a multiple of this many bytes.
const PAGE: usize = 65_536;

/// What a lent output holds before a call.
pub const FILL: u8 = 0xa5;

/// 0 and the accepted answer's figures, or the refusal's number and figures, zeros after them.
pub struct Answer {
    pub number: u64,
    pub figures: [u64; 4],
}

pub fn accepted(figures: [u64; 4]) -> Answer {
    Answer { number: 0, figures }
}

/// What the Rust answered, with the figures that its accepted answer has.
pub fn answer<T>(result: qoi::Result<T>, figures: impl FnOnce(T) -> [u64; 4]) -> Answer {
    match result {
        Ok(value) => accepted(figures(value)),
        Err(error) => {
            let (number, figures) = number_and_figures(&error);
            Answer { number, figures }
        }
    }
}

#[derive(Default)]
pub struct List {
    text: String,
    known: HashSet<(char, Vec<u8>)>,
    counts: BTreeMap<char, usize>,
}

impl List {
    /// Adds a case, unless the group has one of this input already.
    pub fn case(&mut self, group: char, answer: &Answer, input: &[u8]) {
        if !self.known.insert((group, input.to_vec())) {
            return;
        }
        let mut line = format!("{group}{:02x}", answer.number);
        for figure in answer.figures {
            line += &format!("{figure:016x}");
        }
        for byte in input {
            line += &format!("{byte:02x}");
        }
        line.push('\n');
        assert!(line.len() <= PAGE, "a case is longer than a page");
        let room = PAGE - self.text.len() % PAGE;
        if room < line.len() {
            self.text += &"\n".repeat(room);
        }
        self.text += &line;
        *self.counts.entry(group).or_default() += 1;
    }

    pub fn text(&self) -> &str {
        &self.text
    }

    pub fn counts(&self) -> &BTreeMap<char, usize> {
        &self.counts
    }
}
