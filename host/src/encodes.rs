// The kinds of cases of encode: which pixels, dimensions, colour spaces and outputs the port and the Rust are called with.
use crate::cases::{digit, one_of, sequence};
use crate::check::Check;
use crate::messages;
use crate::oracle;
use crate::pictures::{self, Picture};
use crate::random::Random;

type Colour = [u8; 4];

/// The start pixel, and the pixel that equals a slot never stored.
const START: Colour = [0, 0, 0, 255];
const NOTHING: Colour = [0; 4];

const RED: Colour = [100, 0, 0, 255];
const WHITE: Colour = [255; 4];

/// Into an output of just the room that is asked for.
fn encode_exact(check: &mut Check, picture: &Picture, colorspace: u64) {
    check.encode(&picture.pixels, picture.size(), colorspace, picture.room());
}

fn encode_row(check: &mut Check, channels: usize, colours: &[Colour]) {
    let colorspace = colours.len() as u64 % 2;
    encode_exact(check, &Picture::row(channels, colours), colorspace);
}

// One pixel, after the start pixel

pub const EVERY_RGB: u64 = 1 << 24;

pub fn one_rgb(check: &mut Check, number: u64) {
    check.encode(&number.to_le_bytes()[..3], (1, 1), 0, 26);
}

/// Differences next to the ends of DIFF's and LUMA's ranges: green's own, and red's and blue's where green's is an end.
const EDGES: [i8; 48] = [
    -128, -127, -42, -41, -40, -39, -38, -34, -33, -32, -31, -30, -26, -25, -24, -23, -22, -11,
    -10, -9, -8, -7, -4, -3, -2, -1, 0, 1, 2, 3, 6, 7, 8, 9, 10, 22, 23, 24, 25, 30, 31, 32, 33,
    37, 38, 39, 40, 127,
];

const ALPHAS: [u8; 8] = [255, 254, 253, 128, 127, 2, 1, 0];

pub const EDGES_RGBA: u64 = (EDGES.len() * EDGES.len() * EDGES.len() * ALPHAS.len()) as u64;

pub fn one_rgba(check: &mut Check, mut number: u64) {
    let [r, g, b] = [(); 3].map(|()| one_of(&mut number, &EDGES) as u8);
    let alpha = one_of(&mut number, &ALPHAS);
    check.encode(&[r, g, b, alpha], (1, 1), 1, 27);
}

// Two pixels and more, by their differences

/// The first of two: the second lies on both sides of 0 and 255.
const FIRSTS: [Colour; 8] = [
    START,
    WHITE,
    NOTHING,
    [1, 254, 128, 0],
    [127, 128, 0, 254],
    [250, 3, 40, 255],
    [20, 230, 235, 1],
    [200, 100, 10, 128],
];

pub const NEAR_PAIRS: u64 = FIRSTS.len() as u64 * 3 * 72 * 24 * 24;

/// Every difference that DIFF or LUMA holds, and those up to four beyond; of three channels, of four, and with alpha changed as well.
pub fn near_pairs(check: &mut Check, mut number: u64) {
    let first = one_of(&mut number, &FIRSTS);
    let way = digit(&mut number, 3);
    let green = (digit(&mut number, 72) as u8).wrapping_sub(36);
    let mut against_green = || {
        green
            .wrapping_add(digit(&mut number, 24) as u8)
            .wrapping_sub(12)
    };
    let differences = [against_green(), green, against_green(), u8::from(way == 2)];
    let second = moved(first, differences);
    encode_row(check, if way == 0 { 3 } else { 4 }, &[first, second]);
}

fn moved(colour: Colour, differences: [u8; 4]) -> Colour {
    let mut moved = colour;
    for (byte, difference) in moved.iter_mut().zip(differences) {
        *byte = byte.wrapping_add(difference);
    }
    moved
}

/// A difference of each colour that is an end of a range, or next to one; alpha's mostly 0.
fn edge_differences(random: &mut Random) -> [u8; 4] {
    let edge = |random: &mut Random| *random.pick(&EDGES) as u8;
    let green = edge(random);
    let mut other = || match random.below(2) {
        0 => edge(random),
        _ => green.wrapping_add(*random.pick(&[-9, -8, -7, 6, 7, 8, 0_i8]) as u8),
    };
    let [red, blue] = [other(), other()];
    let alpha = *random.pick(&[0, 0, 0, 0, 0, 1, 2, 127, 128, 255]);
    [red, green, blue, alpha]
}

pub fn edge_rows(check: &mut Check, random: &mut Random) {
    let mut colours = vec![*random.pick(&FIRSTS)];
    for _ in 0..random.between(1, 3) {
        let last = colours[colours.len() - 1];
        colours.push(moved(last, edge_differences(random)));
    }
    encode_row(check, random.between(3, 4), &colours);
}

/// RED and the start pixel each with one more colour of their slot and one a small step away; alpha at its ends and between.
const FEW: [Colour; 12] = [
    START,
    NOTHING,
    RED,
    WHITE,
    [100, 64, 0, 255],
    [101, 255, 0, 255],
    [100, 0, 0, 254],
    [64, 0, 0, 255],
    [1, 255, 0, 255],
    [10, 12, 9, 255],
    [0, 0, 0, 128],
    [64, 0, 0, 0],
];

pub const FEW_ROWS: u64 = 2 * (12 + 144 + 1_728 + 20_736 + 248_832);

pub fn few_rows(check: &mut Check, mut number: u64) {
    let channels = 3 + digit(&mut number, 2) as usize;
    let colours: Vec<Colour> = sequence(number + 1, FEW.len() as u64)
        .into_iter()
        .map(|letter| FEW[usize::from(letter)])
        .collect();
    encode_row(check, channels, &colours);
}

// Runs

/// What stands before the run, and what ends it.
const BEFORE: [&[Colour]; 6] = [
    &[],
    &[START],
    &[RED],
    &[WHITE, RED],
    &[RED, START],
    &[NOTHING],
];
const AFTER: [&[Colour]; 6] = [
    &[],
    &[START],
    &[RED],
    &[NOTHING],
    &[WHITE, RED],
    &[[101, 0, 0, 255], START],
];
const REPEATED: [Colour; 5] = [START, RED, NOTHING, WHITE, [0, 0, 0, 128]];
/// A second run, of the last pixel.
const SECOND: [usize; 6] = [0, 1, 2, 61, 62, 63];

const LONGEST: u64 = 190;
pub const RUNS: u64 =
    2 * LONGEST * (BEFORE.len() * AFTER.len() * REPEATED.len() * SECOND.len()) as u64;

pub fn runs(check: &mut Check, mut number: u64) {
    let channels = 3 + digit(&mut number, 2) as usize;
    let length = 1 + digit(&mut number, LONGEST) as usize;
    let before = one_of(&mut number, &BEFORE);
    let after = one_of(&mut number, &AFTER);
    let repeated = one_of(&mut number, &REPEATED);
    let run = vec![repeated; length];
    let mut colours = [before, &run, after].concat();
    let last = colours[colours.len() - 1];
    colours.resize(colours.len() + one_of(&mut number, &SECOND), last);
    encode_row(check, channels, &colours);
}

// Pictures at random

/// Alpha alone changes, or hardly anything else.
pub fn alphas(check: &mut Check, random: &mut Random) {
    let mut colour = *random.pick(&FEW);
    let mut colours = Vec::new();
    for _ in 0..random.between(1, 40) {
        match random.below(8) {
            0 => colour = *random.pick(&FEW),
            1 | 2 => {}
            3 | 4 => colour[3] = colour[3].wrapping_add(*random.pick(&[1, 255])),
            5 => colour[3] = random.byte(),
            _ => colour[3] = *random.pick(&ALPHAS),
        }
        colours.push(colour);
    }
    encode_row(check, 4, &colours);
}

/// A colour of this slot. Red moves it to any slot, since 3 times 43 is 1 modulo 64.
fn colour_of_slot(random: &mut Random, slot: u8, channels: usize) -> Colour {
    let [r, g, b, a] = (random.next() as u32).to_le_bytes();
    let a = if channels == 3 || random.one_in(2) {
        255
    } else {
        a
    };
    let factors = [(r, 3), (g, 5), (b, 7), (a, 11)];
    let sum = factors.iter().fold(0, |sum: u8, &(byte, factor)| {
        sum.wrapping_add(byte.wrapping_mul(factor))
    });
    [
        r.wrapping_add(slot.wrapping_sub(sum).wrapping_mul(43)),
        g,
        b,
        a,
    ]
}

/// Colours that drive each other out of one slot, or of two.
pub fn collisions(check: &mut Check, random: &mut Random) {
    let channels = random.between(3, 4);
    let slots = [0, 53, random.byte() % 64];
    let (most, one) = (*random.pick(&slots), *random.pick(&slots));
    let mut palette = vec![START, NOTHING];
    for _ in 0..random.between(2, 6) {
        palette.push(colour_of_slot(random, most, channels));
    }
    palette.push(colour_of_slot(random, one, channels));
    // with the first two, with the second of them, with neither
    let first = random.below(3);
    let colours: Vec<Colour> = (0..random.between(2, 40))
        .map(|_| *random.pick(&palette[first..]))
        .collect();
    encode_row(check, channels, &colours);
}

/// More pixels than sixteen bits count, mostly in runs.
fn wide(random: &mut Random) -> Picture {
    let mut colours = Vec::new();
    while colours.len() < 66_000 {
        let colour = *random.pick(&FEW);
        colours.resize(colours.len() + random.between(1, 1500), colour);
    }
    Picture::row(random.between(3, 4), &colours)
}

pub fn textured(check: &mut Check, random: &mut Random) {
    let picture = match random.below(4000) {
        0 => wide(random),
        1..=9 => pictures::textured(random, 4000),
        10..=300 => pictures::textured(random, 400),
        _ => pictures::textured(random, 60),
    };
    encode_exact(check, &picture, random.below(2) as u64);
}

pub fn rain(check: &mut Check, random: &mut Random) {
    let most = if random.one_in(100) { 2000 } else { 60 };
    let picture = pictures::part_of_rain(random, most);
    encode_exact(check, &picture, random.below(2) as u64);
}

/// Each pixel takes the longest chunk, so that the last byte of the room is written.
pub fn longest(check: &mut Check, random: &mut Random) {
    let mut colour = START;
    let colours: Vec<Colour> = (0..random.between(1, 40))
        .map(|_| {
            let [r, g, b, a] = (random.next() as u32).to_le_bytes();
            let green = 40 + g % 176;
            colour = moved(colour, [r, green, b, 1 + a % 255]);
            colour
        })
        .collect();
    encode_row(check, random.between(3, 4), &colours);
}

// Outputs

pub fn short_outputs(check: &mut Check, random: &mut Random) {
    let picture = pictures::textured(random, 60);
    let needed = picture.room();
    // room for this stream is not room enough
    let stream = picture.encoded(0).len().min(needed - 1);
    for room in [needed - 1, stream, random.below(needed), 14, 0] {
        check.encode(&picture.pixels, picture.size(), 0, room);
    }
}

pub fn longer_outputs(check: &mut Check, random: &mut Random) {
    let picture = pictures::textured(random, 60);
    for more in [1, 4, random.between(1, 100), 1000] {
        let room = picture.room() + more;
        check.encode(&picture.pixels, picture.size(), 1, room);
    }
}

// Refusals

/// Good dimensions; none; too many pixels; and products that keep little in 32 bits.
const SIZES: [(u32, u32); 16] = [
    (1, 1),
    (2, 1),
    (3, 5),
    (1, 16),
    (20_000, 20_000),
    (1, 400_000_000),
    (20_000, 20_001),
    (400_000_001, 1),
    (0, 0),
    (0, 1),
    (1, 0),
    (u32::MAX, 0),
    (u32::MAX, u32::MAX),
    (65_536, 65_536),
    (2, 2_147_483_648),
    (3, 1_431_655_766),
];

/// Bytes for each pixel.
const QUOTIENTS: [usize; 14] = [0, 1, 2, 3, 4, 5, 6, 7, 254, 255, 256, 257, 259, 300];

const COLOUR_SPACES: [u64; 13] = [
    0,
    1,
    2,
    3,
    128,
    255,
    256,
    257,
    1 << 32,
    (1 << 32) + 1,
    1 << 63,
    (1 << 63) + 1,
    u64::MAX,
];

/// No more bytes of pixels are lent than this.
const MOST: usize = 6000;

/// `quotient` bytes for each pixel, and `more` besides; few bytes where the pixels are none or too many.
fn some_pixels(size: (u32, u32), quotient: usize, more: isize) -> Vec<u8> {
    let pixels = size.0 as usize * size.1 as usize;
    let length = if pixels == 0 || pixels > MOST / 300 {
        quotient
    } else {
        pixels * quotient
    };
    let length = (length as isize + more).max(0) as usize;
    (0..length).map(|i| (i * i / 3) as u8).collect()
}

/// What these channels ask for; little where the pixels are too many.
fn room_for(size: (u32, u32), channels: usize) -> usize {
    match size.0 as usize * size.1 as usize {
        pixels if pixels <= MOST => oracle::room_to_encode(size.0, size.1, channels),
        _ => 40,
    }
}

const MORE: [isize; 4] = [0, 1, -1, 2];

pub const FAULTS: u64 =
    (SIZES.len() * QUOTIENTS.len() * MORE.len() * COLOUR_SPACES.len() * 6) as u64;

/// Every combination of dimensions, length, colour space and room: the first fault decides.
pub fn faults(check: &mut Check, mut number: u64) {
    let size = one_of(&mut number, &SIZES);
    let pixels = some_pixels(
        size,
        one_of(&mut number, &QUOTIENTS),
        one_of(&mut number, &MORE),
    );
    let colorspace = one_of(&mut number, &COLOUR_SPACES);
    let (three, four) = (room_for(size, 3), room_for(size, 4));
    let rooms = [0, three - 1, three, four - 1, four, four + 9];
    check.encode(&pixels, size, colorspace, one_of(&mut number, &rooms));
}

pub fn random_faults(check: &mut Check, random: &mut Random) {
    let size = match random.below(8) {
        0 => messages::dimensions(random),
        1 => *random.pick(&SIZES),
        _ => (random.between(1, 6) as u32, random.between(1, 3) as u32),
    };
    let quotient = match random.below(4) {
        0 => *random.pick(&QUOTIENTS),
        1 => random.below(310),
        _ => random.between(3, 4),
    };
    let more = match random.below(3) {
        0 => random.below(40) as isize - 20,
        _ => 0,
    };
    let colorspace = match random.below(4) {
        0 => *random.pick(&COLOUR_SPACES),
        1 => random.next() >> random.below(64),
        _ => random.below(2) as u64,
    };
    let room = match random.below(4) {
        0 => random.below(200),
        1 => room_for(size, 3) + random.below(3),
        _ => room_for(size, 4),
    };
    check.encode(&some_pixels(size, quotient, more), size, colorspace, room);
}

/// Each length about those of three and of four channels, and multiples of the pixels that are no channels.
pub fn wrong_lengths(check: &mut Check, random: &mut Random) {
    let size = (random.between(1, 7) as u32, random.between(1, 5) as u32);
    let pixels = (size.0 * size.1) as usize;
    let room = room_for(size, 4) + random.below(2);
    let lengths = [
        0,
        1,
        3 * pixels - 1,
        3 * pixels + 1,
        4 * pixels - 1,
        4 * pixels + 1,
    ];
    let multiples = QUOTIENTS.map(|quotient| quotient * pixels);
    for length in lengths.into_iter().chain(multiples) {
        let data = vec![random.byte(); length];
        check.encode(&data, size, 0, room);
    }
    let data = vec![random.byte(); random.below(5 * pixels)];
    check.encode(&data, size, 0, room);
}
