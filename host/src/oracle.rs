// The Rust: what crate qoi 0.4.1 answers, in document 01's numbers. The bytes are what it leaves in the output that it is lent.
use crate::answer::Answer;
use crate::refusal::number_and_figures;
use qoi::{Channels, ColorSpace, Decoder, Encoder, Error};

fn refused(error: &Error) -> Answer {
    let (number, figures) = number_and_figures(error);
    Answer { number, figures }
}

/// Width, height, channels and colour space.
pub fn header(message: &[u8]) -> Answer {
    match qoi::decode_header(message) {
        Ok(h) => Answer::accepted([
            h.width.into(),
            h.height.into(),
            h.channels.as_u8().into(),
            h.colorspace.as_u8().into(),
        ]),
        Err(e) => refused(&e),
    }
}

/// An output longer than needed is lent only as far as needed: document 01 leaves a longer one out, and the Rust reads the marker as chunks there.
/// The Rust's own type holds no `wanted` other than 3 and 4, and its refusal of other bytes is what such a number is answered with.
fn decoded(message: &[u8], wanted: u64, out: &mut [u8]) -> qoi::Result<usize> {
    let decoder = Decoder::new(message)?;
    let channels = Channels::try_from(wanted.min(255) as u8)?;
    let mut decoder = decoder.with_channels(channels);
    let lent = out.len().min(decoder.required_buf_len());
    decoder.decode_to_buf(&mut out[..lent])
}

/// Bytes written; how many bytes of the message were used the Rust does not say, and 0 stands there.
pub fn decode(message: &[u8], wanted: u64, out: &mut [u8]) -> Answer {
    match decoded(message, wanted, out) {
        Ok(size) => Answer::accepted([size as u64, 0, 0, 0]),
        Err(e) => refused(&e),
    }
}

/// Where the decode's code lies.
pub fn place() -> usize {
    decode as *const () as usize
}

/// How many bytes the decode needs, where the header is good.
pub fn needed(message: &[u8], wanted: u64) -> Option<u64> {
    let header = qoi::decode_header(message).ok()?;
    Some((header.n_pixels() as u64).saturating_mul(wanted))
}

/// The Rust's own type holds no colour space other than 0 and 1, and its refusal of other bytes is what such a number is answered with: after what
/// the Rust refuses of the pixels, before the room.
fn encoded(
    pixels: &[u8],
    width: u32,
    height: u32,
    colorspace: u64,
    out: &mut [u8],
) -> qoi::Result<usize> {
    let encoder = Encoder::new(pixels, width, height)?;
    let colorspace = ColorSpace::try_from(colorspace.min(255) as u8)?;
    encoder.with_colorspace(colorspace).encode_to_buf(out)
}

/// Bytes written.
pub fn encode(pixels: &[u8], width: u32, height: u32, colorspace: u64, out: &mut [u8]) -> Answer {
    match encoded(pixels, width, height, colorspace, out) {
        Ok(size) => Answer::accepted([size as u64, 0, 0, 0]),
        Err(e) => refused(&e),
    }
}

/// The room that the Rust asks for to encode a picture.
pub fn room_to_encode(width: u32, height: u32, channels: usize) -> usize {
    qoi::encode_max_len(width, height, channels as u8)
}

/// A good message: pixels of three or four channels, encoded by the Rust.
pub fn message(pixels: &[u8], width: u32, height: u32, colorspace: u8) -> Vec<u8> {
    let colorspace = ColorSpace::try_from(colorspace).expect("a colour space");
    let encoder = Encoder::new(&pixels, width, height).expect("a picture");
    encoder
        .with_colorspace(colorspace)
        .encode_to_vec()
        .expect("a vector has room")
}
