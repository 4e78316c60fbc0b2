// The kinds of cases of refusals in words: which numbers and figures are told, and into which outputs.
use crate::cases::{digit, one_of};
use crate::check::Check;
use crate::random::Random;
use crate::record::LONGEST;
use crate::words;

/// The numbers of refusals.
const REFUSALS: [u64; 15] = [1, 2, 3, 4, 5, 6, 7, 8, 9, 10, 11, 12, 19, 20, 21];

/// The ends of the Rust's types for figures, and what they do not hold; the low half of the last but one is 9.
const ENDS: [u64; 10] = [
    255,
    256,
    65_535,
    65_536,
    (1 << 32) - 1,
    1 << 32,
    (1 << 63) - 1,
    1 << 63,
    (1 << 32) + 9,
    u64::MAX,
];

/// The powers of ten that 64 bits hold, each with one less, and the ends.
const FIGURES: u64 = 2 * 20 + ENDS.len() as u64;

fn figure(number: &mut u64) -> u64 {
    match digit(number, FIGURES) {
        n @ 0..=39 => 10_u64.pow(n as u32 / 2) - n % 2,
        n => ENDS[n as usize - 40],
    }
}

/// Room for the words: just enough, one byte less, none, more.
const ROOMS: u64 = 4;

fn room(number: &mut u64, words: &str) -> usize {
    match digit(number, ROOMS) {
        0 => words.len(),
        1 => words.len() - 1,
        2 => 0,
        _ => words.len() + 17,
    }
}

pub const EDGES: u64 = ROOMS * REFUSALS.len() as u64 * FIGURES * FIGURES * FIGURES;

/// Each refusal with figures at range ends, and a fourth, which none has. Those that the refusal does not have must not matter.
pub fn edges(check: &mut Check, mut number: u64) {
    let refusal = one_of(&mut number, &REFUSALS);
    let [a, b, c] = [(); 3].map(|()| figure(&mut number));
    let told = [a, b, c, !a];
    let words = words::of(refusal, &told);
    check.text(refusal, &told, &words, room(&mut number, &words));
}

/// The refusals of a record that tell an offset in it, or none, which is 0.
const OF_A_RECORD: [u64; 2] = [1, 9];

/// Each place in a record and the one after it.
const PLACES: u64 = LONGEST as u64 + 1;

pub const OFFSETS: u64 = ROOMS * OF_A_RECORD.len() as u64 * (PLACES + FIGURES) * FIGURES;

/// Each offset that a record can be bad at, and figures at range ends; before figures that do not matter.
pub fn offsets(check: &mut Check, mut number: u64) {
    let refusal = one_of(&mut number, &OF_A_RECORD);
    let offset = match digit(&mut number, PLACES + FIGURES) {
        place if place < PLACES => place,
        n => figure(&mut (n - PLACES)),
    };
    let other = figure(&mut number);
    let told = [offset, other, other, !other];
    let words = words::of(refusal, &told);
    check.text(refusal, &told, &words, room(&mut number, &words));
}

/// Bytes next to where a decimal grows by a digit, and the ends.
const BYTES: [u64; 12] = [0, 1, 9, 10, 11, 99, 100, 101, 199, 200, 254, 255];

pub const MAGICS: u64 = ROOMS * 3 * 12 * 12 * 12 * 12;

/// Each of the four bytes told of a magic, and the same with bytes above them.
pub fn magics(check: &mut Check, mut number: u64) {
    let above = one_of(&mut number, &[0, 1, 0xffff_ffff]);
    let magic = (0..4).fold(above, |sum, _| 256 * sum + one_of(&mut number, &BYTES));
    let told = [magic, 1, 2, 3];
    let words = words::of(4, &told);
    check.text(4, &told, &words, room(&mut number, &words));
}

/// A number of any size, a range end, or a byte.
fn any_figure(random: &mut Random) -> u64 {
    match random.below(4) {
        0 => figure(&mut random.next()),
        1 => random.byte().into(),
        2 => u64::from(random.next() as u32),
        _ => random.next() >> random.below(64),
    }
}

/// Into outputs of any room.
fn tell(check: &mut Check, random: &mut Random, number: u64) {
    let told = [(); 4].map(|()| any_figure(random));
    let words = words::of(number, &told);
    let length = words.len();
    let room = match random.below(8) {
        0..=2 => length,
        3 => length - 1,
        4 => random.below(length),
        5 => length + random.between(1, 40),
        6 => 1000,
        _ => 0,
    };
    check.text(number, &told, &words, room);
}

pub fn any_figures(check: &mut Check, random: &mut Random) {
    let number = *random.pick(&REFUSALS);
    tell(check, random, number);
}

/// 0, numbers between refusals' and above the last, and large ones of which a part is a refusal's.
pub fn no_refusals(check: &mut Check, random: &mut Random) {
    let number = match random.below(4) {
        0 => *random.pick(&[0, 13, 18, 22, 255, 256, 257, u64::MAX]),
        1 => (1 << random.between(4, 63)) | random.pick(&REFUSALS),
        2 => 13 + random.below(300) as u64,
        _ => any_figure(random),
    };
    if !REFUSALS.contains(&number) {
        tell(check, random, number);
    }
}
