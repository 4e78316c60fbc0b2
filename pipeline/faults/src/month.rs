//! A month's messages: for each hour one frame of rain or two, and for some also what is refused; and the queue that delivers them, in any order, each
//! twice or more, and again where a worker is cut off.
use crate::pictures::{cut_short, encoded, message, pixels, with_wrong_marker, FAMILIES};
use crate::random::Random;
use pivotshade::{Channels, Table};
use std::collections::BTreeSet;

/// The numbers of the refusals: of a message cut short, of three channels, of a wrong end marker, of an hour, of a number of cells.
const CUT_SHORT: u8 = 1;
const THREE_CHANNELS: u8 = 2;
const WRONG_MARKER: u8 = 8;
const WRONG_HOUR: u8 = 19;
const WRONG_SIZE: u8 = 20;

/// Bytes of a cell.
const CELL: usize = 4;

pub struct Month {
    pub cells: usize,
    pub messages: Vec<Message>,
}

pub struct Message {
    pub hour: u64,
    pub bytes: Vec<u8>,
    pub holds: Holds,
}

/// What a message brings where its hour is not counted yet.
pub enum Holds {
    /// Each cell's rain.
    Rain(Vec<u32>),
    /// The number of its refusal.
    Refused(u8),
}

impl Month {
    /// A month of fields of this size, with as many hours that have rain; the first and the last hour are among them.
    pub fn new(random: &mut Random, width: usize, height: usize, hours: usize) -> Self {
        let last = Table::HOURS as u64 - 1;
        let mut chosen = BTreeSet::from([0, last]);
        while chosen.len() < hours {
            chosen.insert(random.below(Table::HOURS) as u64);
        }
        let mut messages = Vec::new();
        for &hour in &chosen {
            messages.push(frame(random, hour, width, height));
            if random.one_in(3) {
                messages.push(frame(random, hour, width, height));
            }
            if random.one_in(3) {
                messages.push(refused(random, hour, width, height));
            }
        }
        for hour in [last + 1, u64::MAX] {
            messages.push(Message {
                holds: Holds::Refused(WRONG_HOUR),
                ..frame(random, hour, width, height)
            });
        }
        Self {
            cells: width * height,
            messages,
        }
    }

    /// The rain of a message, where it brings some.
    pub fn rain(&self, message: usize) -> Option<&[u32]> {
        match &self.messages[message].holds {
            Holds::Rain(cells) => Some(cells),
            Holds::Refused(_) => None,
        }
    }

    /// Whether a worker must not get it while there is no table: it would make one, of its own size.
    fn needs_a_table(&self, message: usize) -> bool {
        matches!(self.messages[message].holds, Holds::Refused(WRONG_SIZE))
    }
}

/// A frame of rain. No other one has its first cells, so that totals tell which frames are in them; another cell has the least rain or the most.
fn frame(random: &mut Random, hour: u64, width: usize, height: usize) -> Message {
    let family = *random.pick(&FAMILIES);
    let mut bytes = pixels(random, family, Channels::Rgba, width, height);
    random.fill(&mut bytes[..2 * CELL]);
    let extreme = random.between(2, width * height - 1) * CELL;
    bytes[extreme..extreme + CELL].fill(*random.pick(&[0, 0xff]));
    let cells = bytes.chunks_exact(CELL).map(|cell| {
        let higher = |sum: u32, &byte: &u8| sum * 256 + u32::from(byte);
        cell.iter().fold(0, higher)
    });
    Message {
        hour,
        holds: Holds::Rain(cells.collect()),
        bytes: encoded(&bytes, width, height),
    }
}

/// What is no frame of such a field.
fn refused(random: &mut Random, hour: u64, width: usize, height: usize) -> Message {
    let (number, channels, height) = *random.pick(&[
        (CUT_SHORT, Channels::Rgba, height),
        (WRONG_MARKER, Channels::Rgba, height),
        (THREE_CHANNELS, Channels::Rgb, height),
        (WRONG_SIZE, Channels::Rgba, height - 1),
        (WRONG_SIZE, Channels::Rgba, height + 1),
    ]);
    let family = *random.pick(&FAMILIES);
    let whole = message(random, family, channels, width, height);
    let bytes = match number {
        CUT_SHORT => cut_short(random, whole),
        WRONG_MARKER => with_wrong_marker(random, whole),
        _ => whole,
    };
    Message {
        hour,
        bytes,
        holds: Holds::Refused(number),
    }
}

/// What is still to be delivered, as numbers of messages.
pub struct Queue(Vec<usize>);

impl Queue {
    /// Each message twice or three times, in any order; of some hours first what is refused.
    pub fn new(random: &mut Random, month: &Month) -> Self {
        let mut timed = Vec::new();
        let mut refused_first = false;
        for (number, message) in month.messages.iter().enumerate() {
            if number == 0 || month.messages[number - 1].hour != message.hour {
                refused_first = random.one_in(2);
            }
            let is_late = refused_first && month.rain(number).is_some();
            for _ in 0..random.between(2, 3) {
                timed.push((is_late, random.next(), number));
            }
        }
        // taken from the end
        timed.sort_unstable_by(|a, b| b.cmp(a));
        Self(timed.into_iter().map(|(_, _, number)| number).collect())
    }

    pub fn is_empty(&self) -> bool {
        self.0.is_empty()
    }

    /// As many as there are, up to so many, for workers at once: often of one hour.
    pub fn take(
        &mut self,
        random: &mut Random,
        month: &Month,
        has_table: bool,
        several: usize,
    ) -> Vec<usize> {
        let hour_of = |message: usize| month.messages[message].hour;
        let may_come = |message: &usize| has_table || !month.needs_a_table(*message);
        let mut taken: Vec<usize> = Vec::new();
        while taken.len() < several {
            let is_like = |&message: &usize| {
                let mut hours = taken.iter().map(|&one| hour_of(one));
                hours.any(|hour| hour == hour_of(message))
            };
            let waiting = || self.0.iter();
            let like = waiting().rposition(|message| may_come(message) && is_like(message));
            let place = match like {
                Some(_) if random.one_in(2) => like,
                _ => waiting().rposition(may_come),
            };
            match place {
                Some(place) => taken.push(self.0.remove(place)),
                None => break,
            }
        }
        taken
    }

    /// Delivers a message again, at once or some time.
    pub fn put_back(&mut self, random: &mut Random, message: usize) {
        let all = self.0.len();
        let some_place = random.below(all + 1);
        let place = *random.pick(&[all, some_place]);
        self.0.insert(place, message);
    }
}
