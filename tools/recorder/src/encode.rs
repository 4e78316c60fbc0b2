// The cases of encodes, groups m to o: accepted, refused, and rows that show single rules.
// The input of a case: four bytes, the width; four, the height; one, the colour space; two, the length of the pixels' bytes, all big-endian; those
// bytes; and to the end the lent output's bytes as the Rust left them, which were all 0xa5 before. Accepted figure: bytes written.
use crate::list::{answer, List, FILL};
use crate::pictures::{pixels, TEXTURES};
use qoi::{ColorSpace, Encoder};

/// The most that the bytes of a picture are, and an output.
const MOST: usize = 2048;

type Colour = [u8; 4];

const BLACK: Colour = [0, 0, 0, 255];
const RED: Colour = [100, 0, 0, 255];
const WHITE: Colour = [255; 4];
const NOTHING: Colour = [0; 4];

struct Picture {
    size: (u32, u32),
    colorspace: u8,
    pixels: Vec<u8>,
}

/// The Rust's encode: how many bytes it wrote. A colour space comes after what the Rust refuses of the pixels, and before the room.
fn encode(picture: &Picture, out: &mut [u8]) -> qoi::Result<usize> {
    let encoder = Encoder::new(&picture.pixels, picture.size.0, picture.size.1)?;
    let colorspace = ColorSpace::try_from(picture.colorspace)?;
    encoder.with_colorspace(colorspace).encode_to_buf(out)
}

/// A case of a group, or of m where it is accepted and of n where it is refused.
fn case(list: &mut List, group: Option<char>, picture: &Picture, room: usize) {
    assert!(
        picture.pixels.len() <= MOST && room <= MOST,
        "a case is too large"
    );
    let mut out = vec![FILL; room];
    let result = encode(picture, &mut out);
    let by_answer = if result.is_ok() { 'm' } else { 'n' };
    let answer = answer(result, |size| [size as u64, 0, 0, 0]);
    let mut input = picture.size.0.to_be_bytes().to_vec();
    input.extend(picture.size.1.to_be_bytes());
    input.push(picture.colorspace);
    input.extend((picture.pixels.len() as u16).to_be_bytes());
    input.extend(&picture.pixels);
    input.extend(out);
    list.case(group.unwrap_or(by_answer), &answer, &input);
}

/// The room that `pixels` pixels of `length` bytes in all ask for.
fn room(pixels: usize, length: usize) -> usize {
    22 + pixels + length
}

/// A row of colours that shows a rule, in a room that is just enough.
fn row(list: &mut List, channels: usize, colours: &[Colour]) {
    let pixels: Vec<u8> = colours
        .iter()
        .flat_map(|colour| &colour[..channels])
        .copied()
        .collect();
    let room = room(colours.len(), pixels.len());
    let picture = Picture {
        size: (colours.len() as u32, 1),
        colorspace: 0,
        pixels,
    };
    case(list, Some('o'), &picture, room);
}

fn both_rows(list: &mut List, colours: &[Colour]) {
    row(list, 3, colours);
    row(list, 4, colours);
}

/// Pictures of each texture, in a room that is just enough and in larger ones.
fn pictures(list: &mut List) {
    for (i, texture) in TEXTURES.into_iter().enumerate() {
        for channels in [3, 4] {
            for (j, size) in [(1, 1), (1, 3), (5, 3)].into_iter().enumerate() {
                let pixels = pixels(texture, size, channels);
                let room = room((size.0 * size.1) as usize, pixels.len());
                let more = [0, 1, 0, 9][(i + j) % 4];
                let picture = Picture {
                    size,
                    colorspace: (i % 2) as u8,
                    pixels,
                };
                case(list, None, &picture, room + more);
            }
        }
    }
}

/// One pixel after the start pixel, and two pixels: differences at the ends of DIFF's and LUMA's ranges, and one beyond.
fn differences(list: &mut List) {
    let ends: [[i8; 3]; 30] = [
        [-2, -2, -2],
        [1, 1, 1],
        [-3, 0, 0],
        [2, 0, 0],
        [0, -3, 0],
        [0, 2, 0],
        [0, 0, -3],
        [0, 0, 2],
        [-2, 1, 0],
        [0, 0, 1],
        [-32, -32, -32],
        [31, 31, 31],
        [-33, -33, -33],
        [32, 32, 32],
        [-40, -32, -25],
        [-41, -32, -25],
        [-40, -32, -24],
        [23, 31, 38],
        [22, 31, 38],
        [23, 31, 39],
        [-8, 0, 7],
        [7, 0, -8],
        [-9, 0, 0],
        [8, 0, 0],
        [0, 0, -9],
        [0, 0, 8],
        [-128, -128, -128],
        [127, 127, 127],
        [-128, 0, 0],
        [0, -128, 0],
    ];
    let moved = |mut colour: Colour, difference: [i8; 3]| {
        for (byte, difference) in colour.iter_mut().zip(difference) {
            *byte = byte.wrapping_add(difference as u8);
        }
        colour
    };
    for (i, difference) in ends.into_iter().enumerate() {
        row(list, 3, &[moved(BLACK, difference)]);
        let first = [WHITE, [200, 100, 10, 128]][i % 2];
        row(list, 3 + i % 2, &[first, moved(first, difference)]);
    }
}

/// Runs at the start, after another pixel, and before one; one more than 62, ended by a pixel and by the picture.
fn runs(list: &mut List) {
    for length in [1, 2, 61, 62, 63, 124, 125] {
        for repeated in [BLACK, RED] {
            let run = vec![repeated; length];
            row(list, 3, &run);
            row(list, 3, &[&run[..], &[WHITE]].concat());
            if length < 63 {
                row(list, 4, &[&[WHITE], &run[..]].concat());
            }
        }
        let after = [&[RED][..], &vec![RED; length], &[BLACK]].concat();
        row(list, 3, &after);
    }
}

/// INDEX of colours stored, driven out and never stored; and runs of one.
fn slots(list: &mut List) {
    // the first has the slot of RED, the second that of black, the third that of nothing
    let (red_too, black_too, nothing_too) = ([100, 64, 0, 255], [64, 0, 0, 255], [64, 0, 0, 0]);
    let rows: [&[Colour]; 14] = [
        &[RED, BLACK, RED, RED, BLACK],
        &[RED, red_too, RED, red_too, red_too, RED],
        &[black_too, BLACK, black_too, BLACK, BLACK, RED],
        &[BLACK, black_too, BLACK, BLACK, RED],
        &[BLACK, BLACK, RED, BLACK, RED],
        &[BLACK, RED, RED, WHITE, WHITE, WHITE],
        &[NOTHING],
        &[NOTHING, NOTHING],
        &[NOTHING, NOTHING, RED],
        &[NOTHING, BLACK, NOTHING, NOTHING, BLACK],
        &[nothing_too, NOTHING, nothing_too, NOTHING],
        &[NOTHING, nothing_too, nothing_too, NOTHING],
        &[RED, RED, RED, BLACK, RED],
        &[WHITE, [254; 4], WHITE, [254; 4]],
    ];
    for colours in rows {
        both_rows(list, colours);
    }
}

/// Alpha alone changes, and with a colour.
fn alphas(list: &mut List) {
    for alpha in [0, 1, 127, 128, 254] {
        row(list, 4, &[[0, 0, 0, alpha]]);
        row(list, 4, &[[100, 0, 0, alpha]]);
        row(list, 4, &[RED, [100, 0, 0, alpha], [101, 0, 0, alpha], RED]);
        row(
            list,
            4,
            &[[1, 1, 1, alpha], [1, 1, 1, 255], [1, 1, 1, alpha]],
        );
    }
}

/// What document 01 has of single pixels.
fn single_pixels(list: &mut List) {
    for colour in [BLACK, [1, 255, 0, 255], [10, 12, 9, 255], RED] {
        both_rows(list, &[colour]);
    }
    row(list, 4, &[NOTHING]);
    row(list, 4, &[[0, 0, 0, 128]]);
}

/// A picture of this length: refused, or accepted where nothing is wrong with it.
fn of_length(list: &mut List, size: (u32, u32), length: usize, colorspace: u8, room: usize) {
    let picture = Picture {
        size,
        colorspace,
        pixels: (0..length).map(|i| (i * 37) as u8).collect(),
    };
    case(list, None, &picture, room);
}

/// Dimensions, lengths, colour spaces and rooms that are refused, alone and together: the first fault decides.
fn refused(list: &mut List) {
    let sizes = [
        (0, 0),
        (0, 1),
        (1, 0),
        (4_294_967_295, 0),
        (20_000, 20_001),
        (1, 400_000_001),
        (400_000_001, 1),
        (65_536, 65_536),
        (2, 2_147_483_648),
        (4_294_967_295, 4_294_967_295),
    ];
    for size in sizes {
        of_length(list, size, 6, 0, 40);
    }
    for size in [(20_000, 20_000), (1, 400_000_000)] {
        for length in [0, 1, 4] {
            of_length(list, size, length, 0, 40);
        }
    }
    for length in [0, 1, 2, 5, 6, 255, 256, 300] {
        of_length(list, (1, 1), length, 0, 40);
    }
    for length in [1, 2, 5, 7, 9, 10, 11] {
        of_length(list, (2, 1), length, 0, 40);
    }
    for colorspace in [2, 3, 127, 128, 255] {
        of_length(list, (1, 1), 3, colorspace, 40);
    }
    for (length, required) in [(3, 26), (4, 27)] {
        for room in [0, 14, 23, required - 1, required] {
            of_length(list, (1, 1), length, 1, room);
        }
    }
    // two faults and more: no pixels, a length, a quotient, a colour space, a room
    for size in [(0, 3), (3, 2)] {
        for length in [18, 24, 19, 6] {
            for colorspace in [1, 2] {
                for room in [45, 52] {
                    of_length(list, size, length, colorspace, room);
                }
            }
        }
    }
}

pub fn record(list: &mut List) {
    single_pixels(list);
    differences(list);
    runs(list);
    slots(list);
    alphas(list);
    pictures(list);
    refused(list);
}
