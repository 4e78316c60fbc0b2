// The kinds of cases of the strict check: the families of messages that decode is called on, runs of each length, and what encode writes.
use crate::cases::{digit, one_of};
use crate::check::{Check, MARKER};
use crate::families;
use crate::messages::{self, accepted_message, any_message, good_message, header};
use crate::pictures::{self, Picture};
use crate::port;
use crate::random::Random;

// Families, by number

pub fn header_bytes(check: &mut Check, number: u64) {
    check.strict(&families::header_byte(number));
}

pub fn short(check: &mut Check, number: u64) {
    check.strict(&families::short(number));
}

pub fn three_bytes(check: &mut Check, number: u64) {
    check.strict(&families::three_bytes(number));
}

pub fn chunk_sequences(check: &mut Check, number: u64) {
    check.strict(&families::chunk_sequence(number));
}

// Families, at random

pub fn cut_headers(check: &mut Check, random: &mut Random) {
    for message in families::cuts(&families::headed(random)) {
        check.strict(message);
    }
}

pub fn random_chunks(check: &mut Check, random: &mut Random) {
    check.strict(&families::random_chunks(random));
}

pub fn truncations(check: &mut Check, random: &mut Random) {
    for message in families::cuts(&good_message(random, 60)) {
        check.strict(message);
    }
}

fn each(check: &mut Check, family: Vec<Vec<u8>>) {
    for message in family {
        check.strict(&message);
    }
}

pub fn damaged(check: &mut Check, random: &mut Random) {
    each(check, families::damaged(random));
}

pub fn stuck(check: &mut Check, random: &mut Random) {
    each(check, families::stuck(random));
}

pub fn markers(check: &mut Check, random: &mut Random) {
    each(check, families::markers(random));
}

pub fn runs_past(check: &mut Check, random: &mut Random) {
    check.strict(&messages::run_past(random));
}

pub fn empty_slots(check: &mut Check, random: &mut Random) {
    check.strict(&messages::empty_slots(random));
}

pub fn bytes_after(check: &mut Check, random: &mut Random) {
    check.strict(&messages::bytes_after(random));
}

pub fn accepted(check: &mut Check, random: &mut Random) {
    let most = if random.one_in(16) { 4000 } else { 400 };
    must_accept(check, &accepted_message(random, most));
}

pub fn any(check: &mut Check, random: &mut Random) {
    check.strict(&any_message(random));
}

/// A case whose message must be accepted.
fn must_accept(check: &mut Check, message: &[u8]) {
    let is_accepted = check.strict(message).is_accepted();
    check.expect(is_accepted, "strict on a good message", message);
}

// Runs

/// What stands before the run, and its pixels.
const BEFORE: [(&[u8], u32); 4] = [
    (&[], 0),
    (&[0xfe, 9, 9, 9], 1),
    (&[0xfd], 62),
    (&[0xa0, 0x88, 0x35], 2),
];

/// What stands between the run and the marker.
const BETWEEN: [&[u8]; 4] = [&[], &[0xc0], &[0x40], &[0xfd]];

/// The marker cut to each length, with a bit flipped in each byte, and with bytes after it.
fn one_marker(number: &mut u64) -> Vec<u8> {
    let mut marker = MARKER.to_vec();
    match digit(number, MARKERS) as usize {
        length @ 0..=7 => marker.truncate(length),
        place @ 8..=15 => marker[place - 8] ^= 0x80 >> (place - 8),
        16 => marker.push(0),
        17 => marker.extend(MARKER),
        _ => {}
    }
    marker
}

const MARKERS: u64 = 19;
const LONGEST: u64 = 62;
/// From a run too long by two to one that leaves more pixels than the marker's bytes would bring.
const LEFT: u64 = 12;
pub const RUNS: u64 = 2 * LONGEST * LEFT * MARKERS * (BEFORE.len() * BETWEEN.len()) as u64;

/// A run of each length where more pixels are left, just as many, or fewer.
pub fn runs(check: &mut Check, mut number: u64) {
    let channels = 3 + digit(&mut number, 2) as u8;
    let run = 1 + digit(&mut number, LONGEST) as u32;
    let left = (run + digit(&mut number, LEFT) as u32).saturating_sub(2);
    let (before, pixels) = one_of(&mut number, &BEFORE);
    let mut message = header(pixels + left.max(1), 1, channels, 0);
    message.extend(before);
    message.push(0xc0 + run as u8 - 1);
    message.extend(one_of(&mut number, &BETWEEN));
    message.extend(one_marker(&mut number));
    check.strict(&message);
}

// Many pixels

/// More than sixteen bits count, and the most that a header may have.
const SIZES: [(u32, u32); 3] = [(66_000, 1), (1, 65_537), (20_000, 20_000)];
pub const LARGE: u64 = 2 * 6 * SIZES.len() as u64;

/// Runs of a whole picture, and in turn: a run too long by one, a run too few, a byte less, a byte more, another marker.
pub fn large(check: &mut Check, mut number: u64) {
    let (width, height) = one_of(&mut number, &SIZES);
    let mut message = header(width, height, 3 + digit(&mut number, 2) as u8, 0);
    let pixels = width * height;
    message.resize(14 + (pixels / 62) as usize, 0xfd);
    message.push(0xc0 + (pixels % 62) as u8 - 1);
    let last = message.len() - 1;
    message.extend(MARKER);
    match number {
        0 => return must_accept(check, &message),
        1 => message[last] += 1,
        2 => drop(message.remove(14)),
        3 => drop(message.pop()),
        4 => message.push(0),
        _ => message[last + 8] = 2,
    }
    check.strict(&message);
}

// What the port encodes

pub fn encoded(check: &mut Check, random: &mut Random) {
    let picture = match random.below(8) {
        0 => pictures::part_of_rain(random, 400),
        1 => pictures::textured(random, 400),
        _ => pictures::textured(random, 60),
    };
    let colorspace = random.below(2) as u64;
    check_encoded(check, &picture, colorspace);
}

/// A case on the port's own stream of a picture.
pub fn check_encoded(check: &mut Check, picture: &Picture, colorspace: u64) {
    let (width, height) = picture.size();
    let mut message = vec![0; picture.room()];
    let answer = port::encode(&picture.pixels, width, height, colorspace, &mut message);
    message.truncate(answer.figures[0] as usize);
    must_accept(check, &message);
}
