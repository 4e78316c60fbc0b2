// How messages are made: good ones and random ones, chunk by chunk, and what damages them; and the numbers that a broker may give them.
use crate::check::MARKER;
use crate::pictures;
use crate::random::Random;

pub fn header(width: u32, height: u32, channels: u8, colorspace: u8) -> Vec<u8> {
    let mut bytes = b"qoif".to_vec();
    bytes.extend(width.to_be_bytes());
    bytes.extend(height.to_be_bytes());
    bytes.extend([channels, colorspace]);
    bytes
}

/// About 400,000,000 pixels, none, any number, or a small picture.
pub fn dimensions(random: &mut Random) -> (u32, u32) {
    let any = random.next() as u32;
    let (one, other) = match random.below(4) {
        0 => {
            let one = 1 + (any >> random.between(4, 31));
            (one, 399_999_999 / one + random.below(3) as u32)
        }
        1 => (0, any),
        2 => (any, random.next() as u32),
        _ => (random.between(1, 20) as u32, random.between(1, 20) as u32),
    };
    if random.one_in(2) {
        (one, other)
    } else {
        (other, one)
    }
}

/// A header, right or wrong in up to several places.
pub fn any_header(random: &mut Random) -> Vec<u8> {
    let (width, height) = dimensions(random);
    let channels = *random.pick(&[3, 3, 3, 4, 4, 4, 0, 5, 255]);
    let colorspace = *random.pick(&[0, 0, 0, 1, 1, 1, 2, 128, 255]);
    let mut bytes = header(width, height, channels, colorspace);
    for _ in 0..random.below(6).saturating_sub(3) {
        let place = random.below(14);
        bytes[place] = random.byte();
    }
    bytes
}

/// Chunks one after another, how many pixels they bring, and slots that they have filled.
#[derive(Default)]
pub struct Chunks {
    pub bytes: Vec<u8>,
    pub pixels: usize,
    filled: Vec<u8>,
}

impl Chunks {
    /// One chunk.
    pub fn push(&mut self, bytes: &[u8], pixels: usize) {
        self.bytes.extend(bytes);
        self.pixels += pixels;
    }

    /// RGB, or RGBA where the source has four channels; colours of few numbers come again.
    pub fn colour(&mut self, random: &mut Random, channels: u8) {
        let few = if random.one_in(2) { 2 } else { 255 };
        let [r, g, b, a] = (random.next() as u32).to_le_bytes().map(|byte| byte % few);
        let is_rgba = channels == 4 && random.one_in(2);
        if is_rgba {
            self.push(&[0xff, r, g, b, a], 1);
        } else {
            self.push(&[0xfe, r, g, b], 1);
        }
        let alpha = if is_rgba { a } else { 255 };
        let sum = 3 * u32::from(r) + 5 * u32::from(g) + 7 * u32::from(b) + 11 * u32::from(alpha);
        self.filled.push((sum % 64) as u8);
    }

    /// INDEX, mostly of a slot that a colour filled.
    pub fn index(&mut self, random: &mut Random) {
        let slot = if self.filled.is_empty() || random.one_in(3) {
            random.byte() % 64
        } else {
            *random.pick(&self.filled)
        };
        self.push(&[slot], 1);
    }

    /// RUN.
    pub fn run(&mut self, random: &mut Random, most: usize) {
        let run = random.between(1, most.min(62));
        self.push(&[0xc0 + run as u8 - 1], run);
    }

    /// DIFF or LUMA.
    pub fn step(&mut self, random: &mut Random) {
        let [a, b, ..] = random.next().to_le_bytes();
        if random.one_in(2) {
            self.push(&[0x40 + a % 64], 1);
        } else {
            self.push(&[0x80 + a % 64, b], 1);
        }
    }

    /// Any of them, and now and then ff in a three-channel source.
    pub fn any(&mut self, random: &mut Random, channels: u8) {
        match random.below(16) {
            0..=3 => self.index(random),
            4..=7 => self.step(random),
            8..=10 => self.run(random, 4),
            11 => self.run(random, 62),
            12..=14 => self.colour(random, channels),
            _ if channels == 3 && !random.one_in(8) => self.step(random),
            _ => self.push(&[0xff, random.byte(), 0, 0, random.byte()], 1),
        }
    }
}

/// Chunks that bring exactly this many pixels.
pub fn chunks_for(random: &mut Random, pixels: usize, channels: u8) -> Chunks {
    let mut chunks = Chunks::default();
    while chunks.pixels < pixels {
        let left = pixels - chunks.pixels;
        match random.below(8) {
            0 | 1 => chunks.colour(random, channels),
            2 | 3 => chunks.step(random),
            4 | 5 => chunks.index(random),
            _ => chunks.run(random, left.min(7)),
        }
    }
    chunks
}

/// A small picture in chunks of all kinds, too few at times, and the marker.
pub fn random_message(random: &mut Random) -> Vec<u8> {
    let channels = 3 + random.below(2) as u8;
    let (width, height) = (random.between(1, 24), random.between(1, 8));
    let mut message = header(width as u32, height as u32, channels, random.below(2) as u8);
    let mut chunks = Chunks::default();
    while chunks.pixels < width * height && !random.one_in(400) {
        chunks.any(random, channels);
    }
    message.extend(chunks.bytes);
    message.extend(MARKER);
    message
}

/// A message that the Rust's own encoder wrote.
pub fn good_message(random: &mut Random, most: usize) -> Vec<u8> {
    let colorspace = random.below(2) as u8;
    pictures::textured(random, most).encoded(colorspace)
}

/// A message that is accepted: of the encoder, or of random chunks.
pub fn accepted_message(random: &mut Random, most: usize) -> Vec<u8> {
    if random.one_in(2) {
        return good_message(random, most);
    }
    let channels = 3 + random.below(2) as u8;
    let pixels = random.between(1, most);
    chunked_message(random, pixels, channels)
}

/// An accepted message of random chunks, so many pixels in one row.
pub fn chunked_message(random: &mut Random, pixels: usize, channels: u8) -> Vec<u8> {
    let mut message = header(pixels as u32, 1, channels, 0);
    message.extend(chunks_for(random, pixels, channels).bytes);
    message.extend(MARKER);
    message
}

/// A message that is accepted, or one that is cut short or loses its marker.
pub fn mostly_accepted(random: &mut Random) -> Vec<u8> {
    let mut message = accepted_message(random, 60);
    match random.below(4) {
        0 => message.truncate(14 + random.below(message.len() - 13)),
        1 => damage(random, &mut message, 14),
        _ => {}
    }
    message
}

/// Overwrites, flips a bit, leaves out, puts in or swaps; anywhere from `start` on.
pub fn damage(random: &mut Random, message: &mut Vec<u8>, start: usize) {
    let place = random.between(start, message.len() - 1);
    match random.below(8) {
        0..=2 => message[place] = random.byte(),
        3 | 4 => message[place] ^= 1 << random.below(8),
        5 => drop(message.remove(place)),
        6 => message.insert(place, random.byte()),
        _ => {
            let other = random.between(start, message.len() - 1);
            message.swap(place, other);
        }
    }
}

/// Damaged in one to four places.
pub fn damage_some(random: &mut Random, message: &mut Vec<u8>, start: usize) {
    for _ in 0..random.between(1, 4) {
        damage(random, message, start);
    }
}

/// Flips a bit of the marker that the message ends with.
pub fn damage_marker(random: &mut Random, message: &mut [u8]) {
    let place = message.len() - random.between(1, 8);
    message[place] ^= 1 << random.below(8);
}

/// Ends in a run that is longer than the pixels left.
pub fn run_past(random: &mut Random) -> Vec<u8> {
    let channels = 3 + random.below(2) as u8;
    let before = random.below(100);
    let left = random.between(1, 61);
    let mut message = header((before + left) as u32, 1, channels, 0);
    message.extend(chunks_for(random, before, channels).bytes);
    message.push(0xc0 + random.between(left + 1, 62) as u8 - 1);
    message.extend(MARKER);
    if random.one_in(8) {
        message.truncate(message.len() - random.between(1, 8));
    }
    message
}

/// Mostly INDEX chunks, of any slot.
pub fn empty_slots(random: &mut Random) -> Vec<u8> {
    let channels = 3 + random.below(2) as u8;
    let mut chunks = Chunks::default();
    for _ in 0..random.between(1, 40) {
        match random.below(8) {
            0 => chunks.step(random),
            1 => chunks.colour(random, channels),
            2 => chunks.run(random, 3),
            3 => chunks.index(random),
            _ => chunks.push(&[random.byte() % 64], 1),
        }
    }
    let mut message = header(1, chunks.pixels as u32, channels, 1);
    message.extend(chunks.bytes);
    message.extend(MARKER);
    message
}

/// A three-channel source that has come to an ff, after some pixels and before some others.
pub fn stuck(random: &mut Random) -> Vec<u8> {
    let before = random.below(8);
    let left = random.between(1, 8);
    let mut message = header((before + left) as u32, 1, 3, 0);
    message.extend(chunks_for(random, before, 3).bytes);
    message.push(0xff);
    message
}

/// An accepted message, and bytes after its marker.
pub fn bytes_after(random: &mut Random) -> Vec<u8> {
    let mut message = accepted_message(random, 60);
    put_after(random, &mut message);
    message
}

/// Another marker, another message, one byte some times, or any bytes.
pub fn put_after(random: &mut Random, message: &mut Vec<u8>) {
    match random.below(4) {
        0 => message.extend(MARKER),
        1 => message.extend(accepted_message(random, 10)),
        2 => message.resize(message.len() + random.between(1, 40), random.byte()),
        _ => (0..random.between(1, 40)).for_each(|_| message.push(random.byte())),
    }
}

/// More pixels than sixteen bits count, in few chunks: mostly runs.
fn wide(random: &mut Random) -> Vec<u8> {
    let channels = 3 + random.below(2) as u8;
    let mut chunks = Chunks::default();
    while chunks.pixels < 66_000 {
        chunks.push(&[0xfd], 62);
        if random.one_in(4) {
            chunks.colour(random, channels);
            chunks.index(random);
        }
    }
    let mut message = header(2, chunks.pixels as u32 / 2, channels, 0);
    message.extend(chunks.bytes);
    message.extend(MARKER);
    message
}

/// Of every kind: accepted and refused, whole, cut and damaged.
pub fn any_message(random: &mut Random) -> Vec<u8> {
    if random.one_in(500) {
        return wide(random);
    }
    let mut message = match random.below(12) {
        0 => good_message(random, 200),
        1 => accepted_message(random, 400),
        2 => random_message(random),
        3 => run_past(random),
        4 => empty_slots(random),
        5 => bytes_after(random),
        6 => {
            let mut message = stuck(random);
            let few = if random.one_in(2) { 2 } else { 255 };
            (0..random.below(20)).for_each(|_| message.push(random.byte() % few));
            message
        }
        7 => {
            let mut message = accepted_message(random, 60);
            damage_marker(random, &mut message);
            message
        }
        _ => return mostly_damaged(random),
    };
    if random.one_in(16) {
        message.truncate(random.below(message.len() + 1));
    }
    message
}

/// A message with the same header, as the previous hour's: a good one, or the beginning of one where the picture is large.
pub fn previous_hour(random: &mut Random, message: &[u8]) -> Vec<u8> {
    let header = &message[..14];
    let side = |at: usize| u32::from_be_bytes(header[at..at + 4].try_into().expect("four"));
    let pixels = (side(4) as usize).saturating_mul(side(8) as usize);
    let chunks = chunks_for(random, pixels.min(200), header[12]);
    [header, &chunks.bytes, &MARKER].concat()
}

/// A number that a broker may give a message: 0, the largest, the first or the last of any length in bits, or any.
pub fn any_number(random: &mut Random) -> u64 {
    let power = 1 << random.below(64);
    match random.below(6) {
        0 => power,
        1 => power - 1,
        2 => *random.pick(&[0, u64::MAX]),
        _ => random.next() >> random.below(64),
    }
}

/// Another number: often one off, or one bit off.
pub fn other_number(random: &mut Random, number: u64) -> u64 {
    let other = match random.below(4) {
        0 => number.wrapping_add(1),
        1 => number.wrapping_sub(1),
        2 => number ^ (1 << random.below(64)),
        _ => any_number(random),
    };
    if other == number {
        !number
    } else {
        other
    }
}

/// A good message, cut anywhere or damaged in up to four places.
fn mostly_damaged(random: &mut Random) -> Vec<u8> {
    let mut message = good_message(random, 200);
    if random.one_in(3) {
        message.truncate(14 + random.below(message.len() - 13));
        return message;
    }
    let start = if random.one_in(8) { 0 } else { 14 };
    damage_some(random, &mut message, start);
    message
}
