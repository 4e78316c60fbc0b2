// One table that count is called on again and again: each call is held to the ledger, in answer, figures and every byte of memory.
use crate::answer::Answer;
use crate::ledger::{Delivery, Ledger};
use crate::output::{is_same, place_of_difference, MARGIN};
use crate::port::{self, HOURS};
use crate::random::Random;
use std::fmt::Display;

/// How many totals are shown of a table on which a call went wrong.
const SHOWN: usize = 100;

/// Memory that a call is lent, and what it must hold then; with more before and after it, which no call may touch.
struct Lent<T> {
    memory: Vec<T>,
    model: Vec<T>,
    /// Where the part that is lent starts, and its length.
    start: usize,
    length: usize,
}

impl<T: Copy + PartialEq + Display> Lent<T> {
    /// With `shift` more before it than there need be, so that its address is now this and now that.
    fn new(shift: usize, content: &[T], mut any: impl FnMut() -> T) -> Self {
        let start = MARGIN + shift;
        let mut memory: Vec<T> = (0..start).map(|_| any()).collect();
        memory.extend_from_slice(content);
        memory.extend((0..MARGIN).map(|_| any()));
        Self {
            model: memory.clone(),
            memory,
            start,
            length: content.len(),
        }
    }

    fn lend(&mut self) -> &mut [T] {
        &mut self.memory[self.start..][..self.length]
    }

    fn expected(&mut self) -> &mut [T] {
        &mut self.model[self.start..][..self.length]
    }

    fn holds(&self, name: &str) -> Result<(), String> {
        match place_of_difference(&self.memory, &self.model, self.start) {
            None => Ok(()),
            Some(place) => {
                let at = (self.start as isize + place) as usize;
                let (port, expected) = (self.memory[at], self.model[at]);
                Err(format!("{name} {place}: port {port}, expected {expected}"))
            }
        }
    }
}

/// Bytes that are lent.
fn lent_bytes(random: &mut Random, content: &[u8]) -> Lent<u8> {
    Lent::new(random.below(8), content, || random.byte())
}

/// A call that went wrong: the call and what was wrong, in words, and the message.
pub struct Fault {
    pub call: String,
    pub text: String,
    pub message: Vec<u8>,
}

impl Fault {
    /// A call on a table that stood as `before`: all that it depends on, so that it can be tried alone.
    pub fn new(delivery: &Delivery, before: &Ledger, text: String) -> Self {
        let Delivery { hour, room, .. } = *delivery;
        let mark = before.marks.get(hour as usize);
        let mark = mark.map_or_else(|| "none".to_string(), |mark| mark.to_string());
        let cells = before.cells();
        let totals = &before.totals[..cells.min(SHOWN)];
        Self {
            call: format!("count for hour {hour}, its mark {mark}, frame's buffer of {room} bytes, {cells} totals {totals:?}"),
            text,
            message: delivery.message.clone(),
        }
    }
}

/// The totals as the port holds them.
fn narrow(totals: &[u128]) -> Vec<u64> {
    let total = |total: &u128| u64::try_from(*total).expect("no total passes 2^64-1");
    totals.iter().map(total).collect()
}

pub struct Table {
    totals: Lent<u64>,
    marks: Lent<u8>,
    /// What totals and marks must be.
    ledger: Ledger,
}

impl Table {
    pub fn new(random: &mut Random, start: &Ledger) -> Self {
        Self {
            totals: Lent::new(random.below(2), &narrow(&start.totals), || random.next()),
            marks: lent_bytes(random, &start.marks),
            ledger: start.clone(),
        }
    }

    /// What the port's memory holds.
    pub fn held(&mut self) -> Ledger {
        Ledger {
            totals: self.totals.lend().iter().map(|t| (*t).into()).collect(),
            marks: self.marks.lend().try_into().expect("a mark an hour"),
        }
    }

    /// A call, with anything in the frame's buffer beforehand.
    pub fn count(&mut self, random: &mut Random, delivery: &Delivery) -> Result<Answer, Fault> {
        let before = self.ledger.clone();
        let mut message = lent_bytes(random, &delivery.message);
        let mut filling = vec![0; delivery.room];
        random.fill(&mut filling);
        let mut frame = lent_bytes(random, &filling);
        let expected = self.ledger.count(delivery, frame.expected());
        let totals = narrow(&self.ledger.totals);
        self.totals.expected().copy_from_slice(&totals);
        self.marks.expected().copy_from_slice(&self.ledger.marks);
        let marks: &mut [u8; HOURS] = self.marks.lend().try_into().expect("a mark an hour");
        let answer = port::count(
            message.lend(),
            delivery.hour,
            frame.lend(),
            self.totals.lend(),
            marks,
        );
        is_same(answer, expected)
            .and_then(|()| message.holds("message byte"))
            .and_then(|()| frame.holds("frame byte"))
            .and_then(|()| self.totals.holds("total"))
            .and_then(|()| self.marks.holds("mark"))
            .map(|()| answer)
            .map_err(|text| Fault::new(delivery, &before, text))
    }
}
