// Months: sequences of counts on one table. Each call is held to the ledger, and the table that is left to the sum of what was sent.
use crate::answer::Answer;
use crate::cases::{one_of, room, Cases};
use crate::check::Check;
use crate::images::Image;
use crate::ledger::{Delivery, Ledger};
use crate::messages::{any_header, chunked_message, damage, damage_marker, damage_some, put_after};
use crate::pictures::Picture;
use crate::port::HOURS;
use crate::random::Random;
use crate::table::{Fault, Table};

pub const KINDS: [(&str, Cases); 4] = [
    ("any calls", Cases::Fewer(100, any)),
    ("again and in any order", Cases::Fewer(100, again)),
    ("totals nearly full", Cases::Fewer(100, nearly_full)),
    ("faults combined", Cases::All(COMBINED, combined)),
];

/// Cells, calls and hours of a month, at most; one month in so many has each of its hours as well.
const CELLS: usize = 60;
const CALLS: usize = 40;
const FEW_HOURS: usize = 12;
const WHOLE: usize = 300;

// What is sent

fn some_cells(random: &mut Random) -> usize {
    match random.below(32) {
        0 => 0,
        1..=10 => random.between(1, 4),
        _ => random.between(1, CELLS),
    }
}

fn every_hour() -> impl Iterator<Item = u64> {
    0..HOURS as u64
}

/// Mostly one of a few, so that it comes again; at times the last, or one that no month has, of which a part is an hour.
fn some_hour(random: &mut Random, hours: &[u64]) -> u64 {
    match random.below(24) {
        0 => *random.pick(&[744, 745, 1 << 32, (1 << 32) | 743, 1 << 63, u64::MAX]),
        1 => 743,
        2 => random.below(HOURS) as u64,
        _ => *random.pick(hours),
    }
}

/// The rain of so many pixels: of any size, with the last amount often again, as the encoder takes it.
fn encoded_rain(random: &mut Random, pixels: usize, channels: u8) -> Vec<u8> {
    let mut last = 0;
    let mut cell = || {
        match random.below(16) {
            0 => last = u32::MAX,
            1..=5 => {}
            _ => last = random.next() as u32 >> random.below(32),
        }
        last.to_be_bytes()
    };
    let cells: Vec<[u8; 4]> = (0..pixels).map(|_| cell()).collect();
    Picture::row(channels.into(), &cells).encoded(random.below(2) as u8)
}

/// An accepted message of so many pixels, in any width that divides them.
fn frame(random: &mut Random, pixels: usize, channels: u8) -> Vec<u8> {
    let mut message = if random.one_in(2) {
        encoded_rain(random, pixels, channels)
    } else {
        chunked_message(random, pixels, channels)
    };
    let widths: Vec<usize> = (1..=pixels).filter(|w| pixels % w == 0).collect();
    let width = *random.pick(&widths);
    message[4..8].copy_from_slice(&(width as u32).to_be_bytes());
    message[8..12].copy_from_slice(&((pixels / width) as u32).to_be_bytes());
    message
}

/// A message that can be counted on so many cells, or has three channels, pixels too many or too few, a header that is wrong, or is cut or damaged.
fn some_message(random: &mut Random, cells: usize) -> Vec<u8> {
    let pixels = match random.below(16) {
        0 => cells + 1,
        1 => cells.saturating_sub(1),
        2 => random.between(1, 2 * cells + 1),
        _ => cells,
    };
    let channels = if random.one_in(16) { 3 } else { 4 };
    let mut message = frame(random, pixels.max(1), channels);
    match random.below(24) {
        0 => message.truncate(random.below(message.len())),
        1 | 2 => damage_some(random, &mut message, 14),
        3 => damage(random, &mut message, 0),
        4 => message[..14].copy_from_slice(&any_header(random)),
        5 | 6 => damage_marker(random, &mut message),
        7 | 8 => put_after(random, &mut message),
        _ => {}
    }
    message
}

/// A message for the hour, mostly with just the room that its frame takes.
fn some_delivery(random: &mut Random, cells: usize, hour: u64) -> Delivery {
    let message = some_message(random, cells);
    let needed = room(&message, 4);
    let room = match random.below(16) {
        0 => needed - random.pick(&[1, 4]),
        1 => random.below(needed),
        2..=4 => needed + random.between(1, 40),
        _ => needed,
    };
    Delivery {
        hour,
        message,
        room,
    }
}

/// New messages, and what was sent before: the same again, for another hour, or with room enough.
fn some_deliveries(random: &mut Random, cells: usize) -> Vec<Delivery> {
    let hours: Vec<u64> = (0..random.between(1, FEW_HOURS))
        .map(|_| random.below(HOURS) as u64)
        .collect();
    let hour = some_hour(random, &hours);
    let mut sent = vec![some_delivery(random, cells, hour)];
    for _ in 0..random.below(CALLS) {
        let hour = some_hour(random, &hours);
        let mut next = random.pick(&sent).clone();
        match random.below(16) {
            0..=3 => {}
            4 => next.hour = hour,
            5 => next.room = room(&next.message, 4),
            _ => next = some_delivery(random, cells, hour),
        }
        sent.push(next);
    }
    if random.one_in(WHOLE) {
        sent.extend(every_hour().map(|hour| some_delivery(random, cells, hour)));
        random.shuffle(&mut sent);
    }
    sent
}

/// A fresh table, or one in use: marks are any bytes then, and totals so small that none can come to pass 2^64-1.
fn some_table(random: &mut Random, cells: usize) -> Ledger {
    let mut table = Ledger::fresh(cells);
    if random.one_in(2) {
        return table;
    }
    let most = random.between(1, 63);
    table.totals.fill_with(|| (random.next() >> most).into());
    let marked = *random.pick(&[20, HOURS]);
    for _ in 0..random.below(marked) {
        table.marks[random.below(HOURS)] = random.byte();
    }
    table
}

// How it is played

struct Month {
    start: Ledger,
    table: Table,
    /// So far, and what each was answered.
    sent: Vec<Delivery>,
    answers: Vec<Answer>,
}

impl Month {
    fn new(random: &mut Random, start: &Ledger) -> Self {
        Self {
            start: start.clone(),
            table: Table::new(random, start),
            sent: Vec::new(),
            answers: Vec::new(),
        }
    }

    fn deliver(&mut self, random: &mut Random, sent: &[Delivery]) -> Result<(), Fault> {
        for delivery in sent {
            self.answers.push(self.table.count(random, delivery)?);
            self.sent.push(delivery.clone());
        }
        Ok(())
    }

    /// Everything once more, in any order: the table must stay as it is.
    fn deliver_again(&mut self, random: &mut Random) -> Result<(), Fault> {
        let left = self.table.held();
        let mut again = self.sent.clone();
        random.shuffle(&mut again);
        self.deliver(random, &again)?;
        self.must_hold(&left, "what it was before everything came again")
    }

    /// The table must be the sum of each hour's first delivery: the first that can be counted at all or, where totals are full, that was counted.
    fn adds_up(&mut self, is_full: bool) -> Result<(), Fault> {
        let cells = self.start.cells();
        let answered = self.sent.iter().zip(&self.answers);
        let fit = answered.filter(|(delivery, answer)| match is_full {
            true => answer.is_accepted(),
            false => delivery.rain(cells).is_some(),
        });
        let fit: Vec<&Delivery> = fit.map(|(delivery, _)| delivery).collect();
        let sum = self.start.with_firsts(&fit);
        self.must_hold(&sum, "the sum of each hour's first frame")
    }

    /// Where the table holds something else, the month is shown by its messages, one after another.
    fn must_hold(&mut self, expected: &Ledger, what: &str) -> Result<(), Fault> {
        if self.table.held() == *expected {
            return Ok(());
        }
        let hours: Vec<u64> = self.sent.iter().map(|d| d.hour).collect();
        let cells = expected.cells();
        Err(Fault {
            call: format!("counts on {cells} cells, for the hours {hours:?}"),
            text: format!("the table is not {what}"),
            message: self.sent.iter().flat_map(|d| d.message.clone()).collect(),
        })
    }
}

/// A case of a month, at times with everything delivered again: the table that it leaves.
fn play(
    check: &mut Check,
    random: &mut Random,
    start: &Ledger,
    sent: &[Delivery],
    is_full: bool,
) -> Ledger {
    let mut month = Month::new(random, start);
    let mut result = month.deliver(random, sent);
    if random.one_in(4) {
        result = result.and_then(|()| month.deliver_again(random));
    }
    result = result.and_then(|()| month.adds_up(is_full));
    check.month(&month.answers, result);
    month.table.held()
}

fn any(check: &mut Check, random: &mut Random) {
    let cells = some_cells(random);
    let start = some_table(random, cells);
    let sent = some_deliveries(random, cells);
    play(check, random, &start, &sent, false);
}

/// One message for each of some hours: delivered once and in order, and at least once in any order, they must leave the same table.
fn again(check: &mut Check, random: &mut Random) {
    let cells = some_cells(random);
    let start = some_table(random, cells);
    let mut hours: Vec<u64> = every_hour().collect();
    if !random.one_in(WHOLE) {
        random.shuffle(&mut hours);
        hours.truncate(random.between(1, CALLS / 2));
        hours.sort_unstable();
    }
    let hour = |hour: &u64| some_delivery(random, cells, *hour);
    let once: Vec<Delivery> = hours.iter().map(hour).collect();
    let mut often = once.clone();
    for _ in 0..random.below(2 * once.len()) {
        often.push(random.pick(&once).clone());
    }
    random.shuffle(&mut often);
    let left = play(check, random, &start, &once, false);
    let mut month = Month::new(random, &start);
    let result = month.deliver(random, &often);
    let what = "that of a month delivered once and in order";
    let result = result.and_then(|()| month.must_hold(&left, what));
    check.month(&month.answers, result);
}

/// Some totals start where what is sent brings them just to 2^64-1, or one above or below, at this or that call.
fn nearly_full(check: &mut Check, random: &mut Random) {
    let cells = some_cells(random).max(1);
    let sent = some_deliveries(random, cells);
    let mut start = some_table(random, cells);
    let mut ledger = Ledger {
        totals: vec![0; cells],
        ..start.clone()
    };
    let mut sums = vec![ledger.totals.clone()];
    for delivery in &sent {
        ledger.count(delivery, &mut vec![0; delivery.room]);
        sums.push(ledger.totals.clone());
    }
    for _ in 0..random.between(1, 4) {
        let any = random.below(cells);
        let cell = *random.pick(&[0, cells / 2, cells - 1, any]);
        let sum = random.pick(&sums)[cell];
        let left = match random.below(4) {
            0 => sum.saturating_sub(1),
            1 => sum + random.below(1000) as u128,
            _ => sum,
        };
        start.totals[cell] = u128::from(u64::MAX) - left;
    }
    play(check, random, &start, &sent, true);
}

// One message, faults combined

const RAIN: [u32; 6] = [1, u32::MAX, 0, 256, 0x0102_0304, 7];
const PIXELS: usize = RAIN.len();
const ROOMS: [usize; 4] = [4 * PIXELS, 4 * PIXELS + 9, 4 * PIXELS - 1, 0];
const TABLES: [usize; 4] = [PIXELS, PIXELS - 1, PIXELS + 1, 0];
const SOME_HOURS: [u64; 4] = [0, 743, 744, u64::MAX];
const MARKS: [u8; 3] = [0, 1, 0x80];
const OTHER_MARKS: [u8; 2] = [0, 0xff];

/// Nothing, and a fault of each kind.
const FAULTS: [fn(&mut Vec<u8>); 11] = [
    |_| {},
    |message| message.push(0),
    |message| message.clear(),
    |message| message.truncate(13),
    |message| message.truncate(20),
    |message| message.truncate(message.len() - 1),
    |message| message[0] = b'f',
    |message| message[12] = 5,
    |message| message[13] = 2,
    |message| message[7] = 0,
    |message| *message.last_mut().expect("a marker") = 2,
];

/// Whether the totals would come just to 2^64-1, or start at zero; and the cells in which they would pass it by one.
const TOTALS: [(bool, &[usize]); 7] = [
    (false, &[]),
    (true, &[]),
    (true, &[0]),
    (false, &[3]),
    (true, &[5]),
    (false, &[1, 4]),
    (true, &[0, 1, 3, 4, 5]),
];

const COMBINED: u64 = 2
    * (FAULTS.len() * ROOMS.len() * TABLES.len() * SOME_HOURS.len()) as u64
    * (MARKS.len() * OTHER_MARKS.len() * TOTALS.len()) as u64;

fn combined(check: &mut Check, mut number: u64) {
    let mut random = Random::new(number);
    let channels = one_of(&mut number, &[3, 4]);
    let mut message = Picture::row(channels, &RAIN.map(u32::to_be_bytes)).encoded(0);
    one_of(&mut number, &FAULTS)(&mut message);
    let delivery = Delivery {
        hour: one_of(&mut number, &SOME_HOURS),
        message,
        room: one_of(&mut number, &ROOMS),
    };
    let mut start = Ledger::fresh(one_of(&mut number, &TABLES));
    let (is_full, passing) = one_of(&mut number, &TOTALS);
    for (cell, (total, rain)) in start.totals.iter_mut().zip(RAIN).enumerate() {
        let full = u128::from(u64::MAX) - u128::from(rain);
        *total = match passing.contains(&cell) {
            true => full + 1,
            false if is_full => full,
            false => 0,
        };
    }
    start.marks = [one_of(&mut number, &OTHER_MARKS); HOURS];
    if let Some(mark) = start.marks.get_mut(delivery.hour as usize) {
        *mark = one_of(&mut number, &MARKS);
    }
    play(check, &mut random, &start, &[delivery], true);
}

// The published images

/// On a table of an image's pixels: cut, with its own channels, with four, again, and for another hour.
pub fn of_images(check: &mut Check, random: &mut Random, images: &[Image]) {
    for image in images {
        for (_, picture) in image.pictures() {
            let message = picture.encoded(0);
            let room = 4 * picture.pixels.len() / picture.channels;
            let cut = message[..message.len() / 2].to_vec();
            let calls = [
                (17, cut),
                (17, image.message.clone()),
                (17, message.clone()),
                (17, message.clone()),
                (743, message),
            ];
            let delivery = |(hour, message)| Delivery {
                hour,
                message,
                room,
            };
            let start = Ledger::fresh(room / 4);
            play(check, random, &start, &calls.map(delivery), false);
        }
    }
}
