//! Pictures, and the messages made of them: whole, cut short, or with a wrong end marker.
use crate::random::Random;
use pivotshade::{encode_to_vec, Channels};

/// Bytes of the header, and of the end marker.
const HEADER: usize = 14;
const MARKER: usize = 8;

/// What a picture is like, which decides how many pixels a chunk brings and how many bytes it takes.
#[derive(Clone, Copy)]
pub enum Family {
    /// A field of rain: long runs with now and then a drop.
    Rain,
    /// A photograph: each pixel near the last one.
    Photo,
    /// Every pixel another colour.
    Noise,
}

pub const FAMILIES: [Family; 3] = [Family::Rain, Family::Photo, Family::Noise];

/// The message of such a picture.
pub fn message(
    random: &mut Random,
    family: Family,
    channels: Channels,
    width: usize,
    height: usize,
) -> Vec<u8> {
    encoded(
        &pixels(random, family, channels, width, height),
        width,
        height,
    )
}

/// The message of these pixels.
pub fn encoded(pixels: &[u8], width: usize, height: usize) -> Vec<u8> {
    encode_to_vec(pixels, width as u32, height as u32).expect("its length is right")
}

/// The pixels of such a picture. No byte of them is 0, so that what is missing in a new output is seen.
pub fn pixels(
    random: &mut Random,
    family: Family,
    channels: Channels,
    width: usize,
    height: usize,
) -> Vec<u8> {
    let mut pixels = Vec::with_capacity(width * height * usize::from(channels.as_u8()));
    let mut last = [20, 30, 40, 255];
    for place in 0..width * height {
        last = next(random, family, last, place % width).map(|byte| byte.max(1));
        pixels.extend(&last[..channels.as_u8().into()]);
    }
    pixels
}

/// The pixel after `last`, in this column.
fn next(random: &mut Random, family: Family, last: [u8; 4], column: usize) -> [u8; 4] {
    let noise = random.next().to_le_bytes();
    match family {
        Family::Rain if random.one_in(150) => [noise[0], noise[0], 200, 255 - noise[1] / 8],
        Family::Rain if random.one_in(4) && last[2] == 200 => [20, 30, 40, 255],
        Family::Rain => last,
        Family::Photo => {
            let near = |at: usize, spread: u8| last[at].wrapping_add(noise[at] % spread);
            let alpha = if column == 0 { near(3, 3) } else { last[3] };
            [near(0, 3), near(1, 4), near(2, 3), alpha]
        }
        Family::Noise => [noise[0], noise[1], noise[2], noise[3]],
    }
}

/// The message as it may arrive: most often whole, otherwise cut short among its chunks, or with a wrong end marker.
pub fn as_delivered(random: &mut Random, message: Vec<u8>) -> Vec<u8> {
    match random.below(6) {
        0 => cut_short(random, message),
        1 => with_wrong_marker(random, message),
        _ => message,
    }
}

/// The message cut short among its chunks.
pub fn cut_short(random: &mut Random, mut message: Vec<u8>) -> Vec<u8> {
    message.truncate(random.between(HEADER, message.len() - MARKER - 1));
    message
}

/// The message with a wrong bit in its end marker.
pub fn with_wrong_marker(random: &mut Random, mut message: Vec<u8>) -> Vec<u8> {
    let place = message.len() - MARKER + random.below(MARKER);
    message[place] ^= 1 << random.below(8);
    message
}

/// Whether a chunk ends after so many pixels: nowhere else can a run stop, or a record stand.
pub fn a_chunk_ends_after(message: &[u8], pixels: usize) -> bool {
    let (mut place, mut brought) = (HEADER, 0);
    while brought < pixels {
        let (bytes, more) = match message.get(place) {
            None => return false,
            Some(0xfe) => (4, 1),
            Some(0xff) => (5, 1),
            Some(tag) if tag >> 6 == 0b10 => (2, 1),
            Some(tag) if tag >> 6 == 0b11 => (1, usize::from(tag & 0x3f) + 1),
            Some(_) => (1, 1),
        };
        place += bytes;
        brought += more;
    }
    brought == pixels
}

/// Bytes like no others.
pub fn some_bytes(random: &mut Random, length: usize) -> Vec<u8> {
    let mut bytes = vec![0; length];
    random.fill(&mut bytes);
    bytes
}
