//! The ledger of a month: by which frame each hour is in the table, and the totals that this makes, in numbers of 128 bits. A table is held to it.
use crate::month::{Holds, Month};
use pivotshade::Table;
use std::collections::{BTreeMap, BTreeSet};
use std::path::Path;
use worker::table;

/// What a worker said at its end.
#[derive(Clone, Copy, PartialEq)]
pub enum Answer {
    Counted,
    Already,
    Refused(u8),
}

/// A message that a worker was given, and what the worker said; nothing where it was cut off.
pub type Delivery = (usize, Option<Answer>);

/// What workers said, and what those did that were cut off.
#[derive(Default)]
pub struct Told {
    pub counted: usize,
    pub already: usize,
    pub refused: usize,
    /// Hours that a worker counted which was cut off before it could say so.
    pub unsaid: usize,
}

pub struct Ledger {
    pub month: Month,
    /// The hours in the table, and the message that was counted for each.
    held: BTreeMap<u64, usize>,
    totals: Vec<u128>,
    /// The hours of which a worker has said that they are counted: no crash may take one away.
    said: BTreeSet<u64>,
    /// What `held` was when this round began.
    before: BTreeMap<u64, usize>,
    /// The messages that workers have this round.
    delivered: Vec<usize>,
}

impl Ledger {
    /// There is no table yet.
    pub fn new(month: Month) -> Self {
        Self {
            totals: vec![0; month.cells],
            month,
            held: BTreeMap::new(),
            said: BTreeSet::new(),
            before: BTreeMap::new(),
            delivered: Vec::new(),
        }
    }

    pub fn has_table(&self) -> bool {
        !self.held.is_empty()
    }

    /// Whether a message brings the rain of an hour that is not in the table.
    pub fn is_new(&self, message: usize) -> bool {
        let hour = self.month.messages[message].hour;
        self.month.rain(message).is_some() && !self.held.contains_key(&hour)
    }

    /// What `worker totals` must print.
    pub fn lines(&self) -> String {
        self.totals
            .iter()
            .map(|total| format!("{total}\n"))
            .collect()
    }

    /// Workers get these messages.
    pub fn begin_round(&mut self, delivered: &[usize]) {
        self.before = self.held.clone();
        self.delivered = delivered.to_vec();
    }

    /// All workers of the round have ended or are cut off, by a crash too: whether the table is right, and what each said.
    pub fn end_round(
        &mut self,
        deliveries: &[Delivery],
        table: Option<&[u8]>,
        has_crashed: bool,
        told: &mut Told,
    ) -> Result<(), String> {
        for &(message, answer) in deliveries {
            if let Some(Answer::Counted | Answer::Already) = answer {
                self.said.insert(self.month.messages[message].hour);
            }
        }
        self.look(table, has_crashed)?;
        for &(message, answer) in deliveries {
            match answer {
                Some(Answer::Counted) => told.counted += 1,
                Some(Answer::Already) => told.already += 1,
                Some(Answer::Refused(_)) => told.refused += 1,
                None => {}
            }
            answer.map_or(Ok(()), |answer| self.check_answer(message, answer))?;
        }
        told.unsaid += self.check_new_hours(deliveries)?;
        self.delivered.clear();
        Ok(())
    }

    /// Whether a table is a right one, at any moment: whole or not there; each hour of before in it, but for what a crash may take; each other hour
    /// one that a worker was given; and each total the sum of the hours' frames, in exactly one way.
    pub fn look(&mut self, table: Option<&[u8]>, has_crashed: bool) -> Result<(), String> {
        let table = match table {
            None => return self.check_lasts(&BTreeSet::new(), has_crashed),
            Some(bytes) => table::from_bytes(bytes, Path::new("table"))
                .map_err(|failure| failure.to_string())?,
        };
        if let Some(mark) = table.marks().iter().find(|&&mark| mark > 1) {
            return Err(format!("a mark is {mark}"));
        }
        let hours = 0..Table::HOURS as u64;
        let marked: BTreeSet<u64> = hours.filter(|&hour| table.is_marked(hour)).collect();
        let cells = table.totals().len();
        if marked.is_empty() || cells != self.month.cells {
            let hours = marked.len();
            return Err(format!("the table has {hours} hours and {cells} cells"));
        }
        self.check_lasts(&marked, has_crashed)?;
        for (hour, message) in self.found(&marked, table.totals())? {
            self.held.insert(hour, message);
            add(&mut self.totals, self.month.rain(message), |a, b| a + b);
        }
        Ok(())
    }

    /// Whether no hour is gone that must be there; those that a crash took are taken out of the ledger.
    fn check_lasts(&mut self, marked: &BTreeSet<u64>, has_crashed: bool) -> Result<(), String> {
        if let Some(hour) = self.said.difference(marked).next() {
            return Err(format!(
                "a worker said that hour {hour} is counted, and it is not in the table"
            ));
        }
        let gone = self.held.iter().filter(|(hour, _)| !marked.contains(hour));
        let gone: Vec<(u64, usize)> = gone.map(|(&hour, &message)| (hour, message)).collect();
        for (hour, message) in gone {
            if !has_crashed {
                return Err(format!("hour {hour} was in the table and is not any more"));
            }
            self.held.remove(&hour);
            add(&mut self.totals, self.month.rain(message), |a, b| a - b);
        }
        Ok(())
    }

    /// The messages of the hours that are new in the table: those with which the totals are right.
    fn found(&self, marked: &BTreeSet<u64>, totals: &[u64]) -> Result<Vec<(u64, usize)>, String> {
        let mut choices = vec![Vec::new()];
        for &hour in marked.iter().filter(|hour| !self.held.contains_key(hour)) {
            let candidates = self.candidates(hour);
            let with = |choice: &Vec<(u64, usize)>, message| {
                let mut longer = choice.clone();
                longer.push((hour, message));
                longer
            };
            choices = choices
                .iter()
                .flat_map(|choice| candidates.iter().map(move |&message| with(choice, message)))
                .collect();
            if choices.is_empty() {
                return Err(format!("hour {hour} is marked, and no worker had it"));
            }
        }
        let (first, all) = (choices[0].clone(), choices.len());
        choices.retain(|choice| self.first_wrong(choice, totals).is_none());
        match (choices.pop(), choices.is_empty()) {
            (Some(choice), true) => Ok(choice),
            (Some(_), false) => Err("two choices of frames make these totals".into()),
            (None, _) => Err(match self.first_wrong(&first, totals) {
                Some((cell, right)) if all == 1 => format!(
                    "the total of cell {cell} is {} and not {right}, the sum over the marked hours",
                    totals[cell]
                ),
                _ => "no choice of frames for the marked hours makes these totals".into(),
            }),
        }
    }

    /// The messages with rain that workers have for an hour.
    fn candidates(&self, hour: u64) -> BTreeSet<usize> {
        let delivered = self.delivered.iter().copied();
        delivered
            .filter(|&message| self.month.messages[message].hour == hour)
            .filter(|&message| self.month.rain(message).is_some())
            .collect()
    }

    /// The first cell whose total is not what the hours held and these make, and what they make.
    fn first_wrong(&self, added: &[(u64, usize)], totals: &[u64]) -> Option<(usize, u128)> {
        let frames: Vec<&[u32]> = added
            .iter()
            .filter_map(|&(_, message)| self.month.rain(message))
            .collect();
        let right = |cell: usize| {
            let more = frames.iter().map(|frame| u128::from(frame[cell]));
            self.totals[cell] + more.sum::<u128>()
        };
        (0..totals.len())
            .map(|cell| (cell, right(cell)))
            .find(|&(cell, right)| u128::from(totals[cell]) != right)
    }

    /// Whether a worker may have said this. That an hour said to be counted is in the table is known.
    fn check_answer(&self, message: usize, answer: Answer) -> Result<(), String> {
        let hour = self.month.messages[message].hour;
        let was_held = self.before.contains_key(&hour);
        match (answer, &self.month.messages[message].holds) {
            (Answer::Counted, _) if was_held => {
                Err(format!("hour {hour} was counted before, and is once more"))
            }
            (Answer::Counted, _) if self.held.get(&hour) != Some(&message) => Err(format!(
                "hour {hour} was counted by another frame than was said"
            )),
            (Answer::Refused(_), _) if was_held => Err(format!(
                "a message for hour {hour} is refused, though the hour was counted before"
            )),
            (Answer::Refused(number), Holds::Refused(right)) if number == *right => Ok(()),
            (Answer::Refused(number), _) => Err(format!(
                "a message for hour {hour} is refused with {number}, which is wrong"
            )),
            _ => Ok(()),
        }
    }

    /// Whether each hour that is new in the table was counted once: by one worker that said so, or by one that was cut off. How many these are.
    fn check_new_hours(&self, deliveries: &[Delivery]) -> Result<usize, String> {
        let mut unsaid = 0;
        for (hour, message) in &self.held {
            if self.before.contains_key(hour) {
                continue;
            }
            let sayings = deliveries.iter().filter(|&&(said, answer)| {
                answer == Some(Answer::Counted) && self.month.messages[said].hour == *hour
            });
            match sayings.count() {
                0 if deliveries.contains(&(*message, None)) => unsaid += 1,
                0 => return Err(format!("hour {hour} is in the table, and nobody said so")),
                1 => {}
                _ => return Err(format!("two workers said that they counted hour {hour}")),
            }
        }
        Ok(unsaid)
    }

    /// Whether every hour that has rain is in the table: the month is over.
    pub fn check_end(&self) -> Result<(), String> {
        for (number, message) in self.month.messages.iter().enumerate() {
            let is_missing = !self.held.contains_key(&message.hour);
            if is_missing && self.month.rain(number).is_some() {
                return Err(format!(
                    "hour {} is not in the table at the end",
                    message.hour
                ));
            }
        }
        Ok(())
    }
}

/// Adds a frame's cells to the totals, or takes them away.
fn add(totals: &mut [u128], rain: Option<&[u32]>, with: impl Fn(u128, u128) -> u128) {
    for (total, &cell) in totals.iter_mut().zip(rain.unwrap_or_default()) {
        *total = with(*total, u128::from(cell));
    }
}
