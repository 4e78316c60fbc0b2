// The cases of decodes, groups j to l: accepted, refused, and the corners that no encoder makes.
// The input of a case: a byte, the channels wanted; a byte, how many bytes the lent output is short of the needed; two, the message's length,
// big-endian; the message; and the output's bytes as the Rust left them, which were all 0xa5 before. Accepted figures: bytes written, message bytes used.
use crate::list::{answer, List, FILL};
use crate::pictures::{pixels, Numbers, Texture, COLOURS, TEXTURES};
use qoi::{Channels, ColorSpace, Decoder, Encoder};

/// The most that a message has, and an output.
const MOST: usize = 2048;

const MARKER: [u8; 8] = [0, 0, 0, 0, 0, 0, 0, 1];

/// The four ways from source channels to wanted ones.
const WAYS: [(u8, u8); 4] = [(3, 3), (3, 4), (4, 3), (4, 4)];

/// The Rust's decode to wanted channels: how many bytes it wrote.
fn decode(message: &[u8], wanted: u8, out: &mut [u8]) -> qoi::Result<usize> {
    let decoder = Decoder::new(message)?;
    let channels = Channels::try_from(wanted)?;
    decoder.with_channels(channels).decode_to_buf(out)
}

/// The length of the output that a message needs; 64 where its header is refused. The Rust must not be lent more.
fn needed(message: &[u8], wanted: u8) -> usize {
    match Decoder::new(message) {
        Ok(decoder) => decoder.header().n_pixels() * usize::from(wanted),
        Err(_) => 64,
    }
}

/// How many bytes an accepted message uses, which the Rust does not say: as many as the shortest start of it has that the Rust accepts.
fn used(message: &[u8], wanted: u8, size: usize) -> usize {
    (0..=message.len())
        .find(|&n| decode(&message[..n], wanted, &mut vec![FILL; size]).is_ok())
        .expect("the whole message is accepted")
}

/// A case of a group, or of j where it is accepted and of k where it is refused; none where it is too large for the list.
fn case(list: &mut List, group: Option<char>, message: &[u8], wanted: u8, short: u8) {
    let needed = needed(message, wanted);
    if MOST < needed || MOST < message.len() {
        return;
    }
    let mut out = vec![FILL; needed - usize::from(short)];
    let result = decode(message, wanted, &mut out);
    let by_answer = if result.is_ok() { 'j' } else { 'k' };
    let answer = answer(result, |size| {
        [size as u64, used(message, wanted, size) as u64, 0, 0]
    });
    let mut input = vec![wanted, short];
    input.extend((message.len() as u16).to_be_bytes());
    input.extend(message);
    input.extend(out);
    list.case(group.unwrap_or(by_answer), &answer, &input);
}

/// A case of the group that the answer names, with all of the output lent.
fn plain(list: &mut List, message: &[u8], wanted: u8) {
    case(list, None, message, wanted, 0);
}

fn corner(list: &mut List, message: &[u8], wanted: u8) {
    case(list, Some('l'), message, wanted, 0);
}

fn header(size: (u32, u32), channels: u8) -> Vec<u8> {
    let mut bytes = b"qoif".to_vec();
    bytes.extend(size.0.to_be_bytes());
    bytes.extend(size.1.to_be_bytes());
    bytes.extend([channels, 0]);
    bytes
}

/// A row of pixels with these chunks, and the marker.
fn row(width: u32, channels: u8, chunks: &[u8]) -> Vec<u8> {
    [&header((width, 1), channels), chunks, &MARKER].concat()
}

/// The message that the Rust's encoder makes of a picture.
fn encoded(texture: Texture, size: (u32, u32), channels: u8) -> Vec<u8> {
    let pixels = pixels(texture, size, channels);
    let encoder = Encoder::new(&pixels, size.0, size.1).unwrap();
    let space = if size.0 % 2 == 0 {
        ColorSpace::Linear
    } else {
        ColorSpace::Srgb
    };
    encoder.with_colorspace(space).encode_to_vec().unwrap()
}

/// Messages of the Rust's encoder, alone and with bytes after the marker.
fn pictures(list: &mut List) {
    let afters = [&[0x00][..], &[0xff, 0xfe, 0x01], &MARKER, b"qoif"];
    for (i, texture) in TEXTURES.into_iter().enumerate() {
        for (channels, wanted) in WAYS {
            for size in [(1, 1), (2, 1), (1, 3), (4, 4), (5, 7), (9, 2)] {
                plain(list, &encoded(texture, size, channels), wanted);
            }
            for size in [(3, 2), (6, 3)] {
                let message = encoded(texture, size, channels);
                plain(list, &[&message[..], afters[i % 4]].concat(), wanted);
            }
        }
    }
    for width in [61, 62, 63, 64, 124, 125] {
        plain(list, &encoded(Texture::Black, (width, 1), 3), 3);
        plain(list, &encoded(Texture::Runs, (width, 1), 4), 4);
    }
    // as much as a case lends
    plain(list, &encoded(Texture::Runs, (16, 32), 4), 4);
    plain(list, &encoded(Texture::FewColours, (32, 16), 4), 4);
    plain(list, &encoded(Texture::Slow, (31, 22), 3), 3);
    plain(list, &encoded(Texture::Noise, (20, 20), 4), 3);
}

/// Every first byte after one pixel, with bytes that make its chunk whole, and every second byte of LUMA; every fifth where the channels change.
fn every_byte(list: &mut List) {
    for (channels, wanted) in WAYS {
        for first in (0..=255).step_by(if channels == wanted { 1 } else { 5 }) {
            let after: &[u8] = match first {
                0x80..=0xbf => &[0x4b],
                0xfe => &[1, 2, 250],
                0xff => &[1, 2, 250, 77],
                _ => &[],
            };
            let chunks = [&[0xfe, 3, 254, 129, first], after].concat();
            plain(list, &row(2, channels, &chunks), wanted);
        }
    }
    for second in 0..=255 {
        plain(list, &row(2, 4, &[0xfe, 3, 254, 129, 0xa3, second]), 4);
    }
}

/// Small messages with each kind of chunk.
fn small() -> [Vec<u8>; 3] {
    [
        row(
            7,
            3,
            &[0xfe, 100, 0, 0, 0x76, 0xac, 0x65, 0x21, 0xc1, 0xfe, 9, 8, 7],
        ),
        row(
            6,
            4,
            &[
                0xff, 10, 0, 0, 128, 0xc0, 0x7f, 0x80, 0x0f, 0x1e, 0xfe, 1, 2, 3,
            ],
        ),
        encoded(Texture::Faded, (3, 2), 4),
    ]
}

/// Every start of a message, and copies with one byte changed.
fn damaged(list: &mut List) {
    for message in small() {
        for wanted in [3, 4] {
            for length in 0..message.len() {
                plain(list, &message[..length], wanted);
            }
        }
    }
    for message in &small()[..2] {
        for place in 0..message.len() {
            for (flip, wanted) in [(0x01, 3), (0x01, 4), (0x80, 4), (0x3f, 3), (0xc0, 4)] {
                let mut copy = message.clone();
                copy[place] ^= flip;
                plain(list, &copy, wanted);
            }
        }
    }
}

/// ff in a source of three channels, with 0 to 9 bytes after it.
fn ff_in_three(list: &mut List) {
    for wanted in [3, 4] {
        for (width, before) in [(1, &[][..]), (3, &[0xfe, 100, 0, 0]), (3, &[0x76, 0xc0])] {
            let after = [&[][..], &MARKER, &[0]].concat();
            for left in 0..=9 {
                let head = header((width, 1), 3);
                plain(
                    list,
                    &[&head[..], before, &[0xff], &after[..left]].concat(),
                    wanted,
                );
                plain(
                    list,
                    &[&head[..], before, &[0xff; 10][..=left]].concat(),
                    wanted,
                );
            }
        }
    }
}

/// No marker, part of one, or another.
fn markers(list: &mut List) {
    for (channels, wanted) in WAYS {
        let start = [&header((2, 1), channels)[..], &[0x76, 0xac, 0x65]].concat();
        for place in 0..8 {
            let mut wrong = MARKER;
            wrong[place] ^= if place == 7 { 0x03 } else { 0x01 };
            plain(list, &[&start[..], &wrong].concat(), wanted);
            plain(list, &[&start[..], &wrong, &MARKER].concat(), wanted);
        }
        for other in [
            &[][..],
            &MARKER[1..],
            &MARKER[..7],
            &[0; 8],
            &[0xff; 8],
            &[0; 9],
        ] {
            plain(list, &[&start[..], other].concat(), wanted);
        }
    }
}

/// Outputs that are too short, headers and wanted channels that are refused, and several faults at once.
fn refused_at_once(list: &mut List) {
    let cut = |message: &[u8]| message[..message.len() - 9].to_vec();
    for message in small() {
        for wanted in [3, 4] {
            let whole = needed(&message, wanted) as u8;
            for short in [1, 2, 3, 4, whole - 1, whole] {
                case(list, None, &message, wanted, short);
            }
            case(list, None, &cut(&message), wanted, 1);
        }
        for wanted in [0, 1, 2, 5] {
            plain(list, &message, wanted);
            plain(list, &cut(&message), wanted);
        }
        case(list, None, &message, 5, 1);
    }
    let message = row(1, 3, &[0x76]);
    for wanted in [0, 1, 2, 5, 127, 255] {
        plain(list, &message, wanted);
    }
    let faults = [
        (0, b'Q'),
        (3, 0),
        (7, 0),
        (11, 0),
        (12, 0),
        (12, 2),
        (12, 5),
        (12, 255),
        (13, 2),
        (13, 255),
    ];
    for (place, byte) in faults {
        let mut copy = message.clone();
        copy[place] = byte;
        for wanted in [3, 4, 5] {
            plain(list, &copy, wanted);
        }
        case(list, None, &copy, 4, 1);
        case(list, None, &copy, 3, 64);
    }
    for size in [
        (20_000, 20_001),
        (4_294_967_295, 4_294_967_295),
        (0, 0),
        (65_536, 65_536),
    ] {
        let message = [&header(size, 4)[..], &[0xfd], &MARKER].concat();
        plain(list, &message, 3);
        plain(list, &message, 4);
    }
}

/// What document 01 has of messages, and more of the same: the chunks of a row, with its width and its source channels.
fn rows(list: &mut List) {
    let rows: [(u32, u8, &[u8]); 36] = [
        (1, 3, &[0xc0]),
        (1, 4, &[0x00]),
        (1, 3, &[0x76]),
        (1, 3, &[0xac, 0x65]),
        (1, 3, &[0xfe, 100, 0, 0]),
        (1, 4, &[0xff, 0, 0, 0, 128]),
        (63, 3, &[0xfd, 0xc0]),
        (62, 3, &[0xfd]),
        (5, 3, &[0xfe, 100, 0, 0, 0xfe, 0, 0, 0, 0x21, 0x21, 0x35]),
        // RUN does not store
        (2, 4, &[0xc0, 0x35]),
        (2, 3, &[0xc0, 0x35]),
        (3, 4, &[0xc1, 0x35]),
        // the slot by alpha 255 where three channels are wanted
        (3, 4, &[0xff, 10, 0, 0, 128, 0xff, 0, 0, 0, 255, 0x1e]),
        (3, 4, &[0xff, 10, 0, 0, 128, 0xff, 0, 0, 0, 255, 0x13]),
        // INDEX of slots that nothing filled, and what builds on them
        (1, 3, &[0x05]),
        (1, 4, &[0x05]),
        (1, 3, &[0x00]),
        (1, 3, &[0x3f]),
        (2, 3, &[0x05, 0x76]),
        (2, 4, &[0x05, 0x76]),
        (4, 3, &[0x05, 0x7a, 0xfe, 9, 9, 9]),
        (4, 3, &[0x05, 0x7a, 0xfe, 9, 9, 9, 0x03]),
        (4, 3, &[0x05, 0x7a, 0xfe, 9, 9, 9, 0x38]),
        (4, 4, &[0x05, 0x7a, 0xfe, 9, 9, 9, 0x03]),
        (4, 4, &[0x05, 0x7a, 0xfe, 9, 9, 9, 0x38]),
        (4, 4, &[0x05, 0xc0, 0xfe, 9, 9, 9, 0x1f]),
        (4, 4, &[0x05, 0xc0, 0xfe, 9, 9, 9, 0x20]),
        // INDEX does not store
        (3, 4, &[0xff, 0, 0, 0, 128, 0x05, 0x00]),
        (3, 4, &[0xff, 0, 0, 0, 128, 0x05, 0x00, 0x00]),
        // runs past the picture
        (1, 3, &[0xfd]),
        (1, 4, &[0xfd]),
        (3, 3, &[0x76, 0xfd]),
        (3, 4, &[0xff, 1, 2, 3, 4, 0xc2]),
        (3, 4, &[0xc1, 0xc1]),
        (64, 3, &[0xfd, 0xfd]),
        // chunks past the picture
        (1, 3, &[0xc0, 0xc0]),
    ];
    for (width, channels, chunks) in rows {
        for wanted in [3, 4] {
            corner(list, &row(width, channels, chunks), wanted);
        }
    }
    for run in 0xc0..=0xfd {
        corner(list, &row(3, 4, &[0xff, 1, 2, 3, 4, run]), 4);
        corner(list, &row(4, 3, &[0x76, run]), 3);
    }
}

/// Chunks that no encoder chose, many of them INDEX: what is stored, where, and with what alpha. Only every other message has RGBA, which three
/// channels refuse.
fn mixed(list: &mut List) {
    let mut numbers = Numbers(0x2545_f491_4f6c_dd1d);
    for n in 0..24 {
        let mut chunks = Vec::new();
        let mut width = 18;
        let mut known = vec![0x35, 0x00];
        for _ in 0..18 {
            match numbers.below(10) {
                0 => chunks.push(numbers.below(64) as u8),
                1 => chunks.push(0x40 + numbers.below(64) as u8),
                2 => chunks.extend([0x80 + numbers.below(64) as u8, numbers.byte()]),
                3 => {
                    let more = numbers.below(3) as u8;
                    chunks.push(0xc0 + more);
                    width += u32::from(more);
                }
                4 | 5 => {
                    let [r, g, b, _] = COLOURS[numbers.below(5) as usize];
                    chunks.extend([0xfe, r, g, b]);
                    let sum = 3 * u32::from(r) + 5 * u32::from(g) + 7 * u32::from(b);
                    known.extend([0, 128, 255].map(|alpha| ((sum + 11 * alpha) % 64) as u8));
                }
                6 if n % 2 == 0 => chunks.extend([0xff, numbers.byte() % 4, 0, 9, numbers.byte()]),
                _ => chunks.push(known[numbers.below(known.len() as u64) as usize]),
            }
        }
        for (channels, wanted) in WAYS {
            corner(list, &row(width, channels, &chunks), wanted);
        }
    }
}

pub fn record(list: &mut List) {
    pictures(list);
    every_byte(list);
    damaged(list);
    ff_in_three(list);
    markers(list);
    refused_at_once(list);
    rows(list);
    mixed(list);
}
