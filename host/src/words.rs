// Refusals in words: the Rust's own wherever it has the refusal and the figures fit its types, otherwise a sentence written by hand here.
use crate::answer::Answer;
use qoi::Error;

/// The Rust's refusal; none where it has none of this number, or holds no figures as large.
fn rusts(number: u64, told: &[u64; 4]) -> Option<Error> {
    let [a, b, c, _] = *told;
    Some(match number {
        // with an offset it is of a record
        1 if a == 0 => Error::UnexpectedBufferEnd,
        2 => Error::InvalidChannels {
            channels: a.try_into().ok()?,
        },
        3 => Error::InvalidColorSpace {
            colorspace: a.try_into().ok()?,
        },
        4 => Error::InvalidMagic {
            magic: a.try_into().ok()?,
        },
        5 => Error::InvalidImageDimensions {
            width: a.try_into().ok()?,
            height: b.try_into().ok()?,
        },
        6 => Error::InvalidImageLength {
            size: a.try_into().ok()?,
            width: b.try_into().ok()?,
            height: c.try_into().ok()?,
        },
        7 => Error::OutputBufferTooSmall {
            size: a.try_into().ok()?,
            required: b.try_into().ok()?,
        },
        8 => Error::InvalidPadding,
        _ => return None,
    })
}

/// The Rust's sentences with larger figures, of which a magic's four low bytes are told; and those of the numbers that the Rust lacks.
fn by_hand(number: u64, told: &[u64; 4]) -> String {
    let [a, b, c, _] = told;
    match number {
        1 => format!("record is bad at byte {a} (unexpected end)"),
        2 => format!("invalid number of channels: {a}"),
        3 => format!("invalid color space: {a} (expected 0 or 1)"),
        4 => {
            let [.., w, x, y, z] = a.to_be_bytes();
            format!("invalid magic: expected 1903126886, got [{w}, {x}, {y}, {z}]")
        }
        5 => format!("invalid image dimensions: {a}x{b}"),
        6 => format!("invalid image length: {a} bytes for {b}x{c}"),
        9 if *a == 0 => "invalid decoder state".to_string(),
        9 => format!("record is bad at byte {a}"),
        10 => "invalid run (longer than the pixels left)".to_string(),
        11 => "invalid length (bytes after the stream end marker)".to_string(),
        12 => format!("record of another message: {a}"),
        19 => format!("invalid hour: {a} (expected 0 to 743)"),
        20 => format!("invalid number of cells: {a} pixels for {b} cells"),
        21 => format!("total too large: cell {a} would pass 18446744073709551615"),
        _ => format!("unknown refusal: {number}"),
    }
}

/// What must be said of a number and its figures.
pub fn of(number: u64, told: &[u64; 4]) -> String {
    match rusts(number, told) {
        Some(error) => error.to_string(),
        None => by_hand(number, told),
    }
}

/// The answer for this output: the words' length, and they are written; or 7, and nothing is.
pub fn put(words: &str, out: &mut [u8]) -> Answer {
    let (room, length) = (out.len() as u64, words.len() as u64);
    match out.get_mut(..words.len()) {
        Some(part) => {
            part.copy_from_slice(words.as_bytes());
            Answer::accepted([length, 0, 0, 0])
        }
        None => Answer::refused(7, [room, length, 0, 0]),
    }
}
