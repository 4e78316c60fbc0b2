// Families of messages, which decode and the strict check are both called on: by number where every one of them is, otherwise at random.
use crate::cases::{digit, sequence};
use crate::check::MARKER;
use crate::messages::{
    self, accepted_message, any_header, damage_some, good_message, header, random_message,
};
use crate::random::Random;

/// Every truncation of a message, itself too.
pub fn cuts(message: &[u8]) -> impl Iterator<Item = &[u8]> {
    (0..=message.len()).map(move |length| &message[..length])
}

// Headers

pub const HEADER_BYTES: u64 = 10 * 14 * 256;

/// A header in which one byte has any value, a run and the marker.
pub fn header_byte(mut number: u64) -> Vec<u8> {
    let mut message = match digit(&mut number, 10) {
        0 => header(1, 1, 3, 0),
        1 => header(5, 3, 4, 1),
        2 => header(800, 600, 4, 0),
        3 => header(20_000, 20_000, 3, 1),
        4 => header(20_000, 20_001, 4, 0),
        5 => header(0, 1, 3, 0),
        6 => header(65_536, 65_536, 5, 2),
        7 => header(1, 400_000_000, 3, 0),
        8 => header(400_000_000, 1, 4, 1),
        _ => [&b"fioq"[..], &header(2, 2, 4, 0)[4..]].concat(),
    };
    let place = digit(&mut number, 14) as usize;
    message[place] = number as u8;
    message.push(0xfd);
    message.extend(MARKER);
    message
}

/// Any header, a few runs and the marker.
pub fn headed(random: &mut Random) -> Vec<u8> {
    let mut message = any_header(random);
    message.extend([0xc0; 3]);
    message.extend(MARKER);
    message
}

// Short messages, every one

pub const SHORT: u64 = 8 * (1 + 256 + 65_536);

pub fn short(mut number: u64) -> Vec<u8> {
    let width = 1 + digit(&mut number, 2) as u32;
    let channels = 3 + digit(&mut number, 2) as u8;
    let is_marked = digit(&mut number, 2) == 1;
    let mut message = header(width, 1, channels, 0);
    message.extend(sequence(number, 256));
    if is_marked {
        message.extend(MARKER);
    }
    message
}

pub const THREE_BYTES: u64 = 2 * 16_777_216;

pub fn three_bytes(mut number: u64) -> Vec<u8> {
    let channels = 3 + digit(&mut number, 2) as u8;
    let mut message = header(3, 1, channels, 0);
    message.extend(&number.to_le_bytes()[..3]);
    message.extend(MARKER);
    message
}

/// INDEX 35 is the start pixel's slot, 13 and 1e those of (10,0,0) opaque and half transparent; 6a and a088 are differences of nothing.
const CHUNKS: [&[u8]; 18] = [
    &[0x00],
    &[0x13],
    &[0x1e],
    &[0x35],
    &[0x40],
    &[0x6a],
    &[0x7f],
    &[0x80, 0x0f],
    &[0xa0, 0x88],
    &[0xbf, 0xf0],
    &[0xc0],
    &[0xc1],
    &[0xfd],
    &[0xfe, 0, 0, 0],
    &[0xfe, 10, 0, 0],
    &[0xff, 0, 0, 0, 0],
    &[0xff, 0, 0, 0, 0xff],
    &[0xff, 10, 0, 0, 0x80],
];

pub const CHUNK_SEQUENCES: u64 = 10 * (1 + 18 + 324 + 5_832 + 104_976);

pub fn chunk_sequence(mut number: u64) -> Vec<u8> {
    let width = 1 + digit(&mut number, 5) as u32;
    let channels = 3 + digit(&mut number, 2) as u8;
    let mut message = header(width, 1, channels, 1);
    for letter in sequence(number, CHUNKS.len() as u64) {
        message.extend(CHUNKS[usize::from(letter)]);
    }
    message.extend(MARKER);
    message
}

// Random messages and good ones

/// Chunks of all kinds; at times cut anywhere, or in the marker, or with bytes after it.
pub fn random_chunks(random: &mut Random) -> Vec<u8> {
    let mut message = random_message(random);
    match random.below(8) {
        0 => message.truncate(14 + random.below(message.len() - 13)),
        1 => message.truncate(message.len() - random.between(1, 8)),
        2 => (0..random.between(1, 9)).for_each(|_| message.push(random.byte())),
        _ => {}
    }
    message
}

/// A good message, damaged in eight ways.
pub fn damaged(random: &mut Random) -> Vec<Vec<u8>> {
    let good = good_message(random, 200);
    let one = |_| {
        let mut message = good.clone();
        let start = if random.one_in(8) { 0 } else { 14 };
        damage_some(random, &mut message, start);
        message
    };
    (0..8).map(one).collect()
}

// Single rules: of chunks, of the marker

/// ff in a three-channel source, followed by none to nine bytes.
pub fn stuck(random: &mut Random) -> Vec<Vec<u8>> {
    let start = messages::stuck(random);
    let after: [[u8; 9]; 5] = [
        [0, 0, 0, 0, 0, 0, 0, 1, 0],
        [0xc0, 0, 0, 0, 0, 0, 0, 0, 1],
        [0; 9],
        [0xff; 9],
        [(); 9].map(|()| random.byte()),
    ];
    let followed = |bytes: &[u8]| [&start[..], bytes].concat();
    after
        .iter()
        .flat_map(|bytes| cuts(bytes).map(followed))
        .collect()
}

/// Each bit of the marker flipped, zeros left out and zeros put in.
pub fn markers(random: &mut Random) -> Vec<Vec<u8>> {
    let message = accepted_message(random, 20);
    let start = message.len() - 8;
    let mut family = Vec::new();
    for bit in 0..64 {
        let mut message = message.clone();
        message[start + bit / 8] ^= 1 << (bit % 8);
        family.push(message);
    }
    for zeros in [0, 1, 5, 6, 8, 9, 16] {
        let mut message = message[..start].to_vec();
        message.resize(start + zeros, 0);
        message.push(1);
        family.push(message.clone());
        message.push(0);
        family.push(message);
    }
    family
}
