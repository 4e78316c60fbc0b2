// Every mirrored item, used as users of crate qoi use it. Without its line `use pivotshade as qoi;` it compiles and passes with crate qoi as well.
#![allow(clippy::needless_borrows_for_generic_args)] // every way to hand bytes over is meant
#![allow(clippy::unnecessary_to_owned)]
use pivotshade as qoi;

use qoi::{
    decode_header, decode_to_buf, decode_to_vec, encode_max_len, encode_to_buf, encode_to_vec,
};
use qoi::{Channels, ColorSpace, Decoder, Encoder, Error, Header, Result};
use std::collections::HashSet;

const PIXELS: [u8; 6] = [1, 2, 3, 200, 100, 50];

/// What can be called in a `const`.
const MADE: Result<Header> = Header::try_new(2, 1, Channels::Rgb, ColorSpace::Srgb);
const HEADER: Header = Header {
    width: 2,
    height: 1,
    channels: Channels::Rgb,
    colorspace: ColorSpace::Srgb,
}
.with_channels(Channels::Rgba)
.with_colorspace(ColorSpace::Linear);
const SUMS: (usize, usize) = (HEADER.n_pixels(), HEADER.n_bytes());
const NUMBERS: (u8, u8) = (Channels::Rgba.as_u8(), ColorSpace::Linear.as_u8());
const KINDS: [bool; 4] = [
    Channels::Rgb.is_rgb(),
    Channels::Rgb.is_rgba(),
    ColorSpace::Srgb.is_srgb(),
    ColorSpace::Srgb.is_linear(),
];

#[test]
fn in_a_const() {
    let made = MADE.unwrap().with_channels(Channels::Rgba);
    assert_eq!(made.with_colorspace(ColorSpace::Linear), HEADER);
    assert_eq!(SUMS, (2, 8));
    assert_eq!(NUMBERS, (4, 1));
    assert_eq!(KINDS, [true, false, true, false]);
}

#[test]
fn functions_take_what_can_be_lent_as_bytes() -> Result<()> {
    let encoded: Vec<u8> = encode_to_vec(PIXELS, 2, 1)?;
    assert_eq!(encode_to_vec(&PIXELS, 2, 1)?, encoded);
    assert_eq!(encode_to_vec(&PIXELS[..], 2, 1)?, encoded);
    assert_eq!(encode_to_vec(PIXELS.to_vec(), 2, 1)?, encoded);
    assert_eq!(encode_to_vec(Box::<[u8]>::from(PIXELS), 2, 1)?, encoded);

    let mut array = [0; 64];
    let mut vector = vec![0; encode_max_len(2, 1, Channels::Rgb)];
    let size: usize = encode_to_buf(&mut array, PIXELS, 2, 1)?;
    assert_eq!(array[..size], encoded);
    let size = encode_to_buf(&mut vector, &PIXELS, 2, 1)?;
    assert_eq!(vector[..size], encoded);
    let size = encode_to_buf(vector.as_mut_slice(), PIXELS.to_vec(), 2, 1)?;
    assert_eq!(vector[..size], encoded);

    let header: Header = decode_header(&encoded)?;
    assert_eq!(decode_header(&encoded[..])?, header);
    assert_eq!(decode_header(encoded.clone())?, header);
    let mut out = [0; 6];
    assert_eq!(decode_to_buf(&mut out, &encoded)?, header);
    assert_eq!(decode_to_buf(&mut out[..], &encoded[..])?, header);
    assert_eq!(out, PIXELS);
    assert_eq!(decode_to_vec(&encoded)?, (header, PIXELS.to_vec()));
    assert_eq!(decode_to_vec(encoded)?, (header, PIXELS.to_vec()));
    Ok(())
}

#[test]
fn encode_max_len_takes_channels_and_bytes() {
    assert_eq!(encode_max_len(2, 3, Channels::Rgba), 52);
    assert_eq!(encode_max_len(2, 3, 3), 46);
    assert_eq!(HEADER.encode_max_len(), 32);
}

#[test]
fn decoder() -> Result<()> {
    let encoded = encode_to_vec(PIXELS, 2, 1)?;
    let decoder = Decoder::new(&encoded)?;
    assert_eq!(decoder.data(), &encoded[14..]);
    let mut decoder = decoder.with_channels(Channels::Rgba);
    let header: &Header = decoder.header();
    assert_eq!((header.width, header.height), (2, 1));
    assert_eq!(header.channels, Channels::Rgb);
    assert_eq!(decoder.channels(), Channels::Rgba);
    assert_eq!(decoder.required_buf_len(), 8);
    let mut out = vec![0; decoder.required_buf_len()];
    assert_eq!(decoder.decode_to_buf(&mut out)?, 8);
    assert_eq!(out, [1, 2, 3, 255, 200, 100, 50, 255]);

    let mut decoder = Decoder::new(&encoded[..])?;
    assert_eq!(decoder.decode_to_vec()?, PIXELS);
    Ok(())
}

#[test]
fn encoder() -> Result<()> {
    let encoder = Encoder::new(&PIXELS, 2, 1)?.with_colorspace(ColorSpace::Linear);
    assert_eq!(encoder.channels(), Channels::Rgb);
    let header = Header {
        width: 2,
        height: 1,
        channels: Channels::Rgb,
        colorspace: ColorSpace::Linear,
    };
    assert_eq!(*encoder.header(), header);
    assert_eq!(encoder.required_buf_len(), 30);
    let mut out = vec![0; encoder.required_buf_len()];
    let size = encoder.encode_to_buf(&mut out)?;
    assert_eq!(encoder.encode_to_vec()?, out[..size]);
    assert_eq!(decode_header(&out)?, header);
    assert!(Encoder::new(&PIXELS[..], 2, 1).is_ok());
    assert!(Encoder::new(&PIXELS.to_vec(), 2, 1).is_ok());
    Ok(())
}

#[test]
fn header_and_its_parts_are_plain_data() {
    let default = Header::default();
    assert_eq!((default.width, default.height), (1, 1));
    assert_eq!(default.channels, Channels::default());
    assert_eq!(default.colorspace, ColorSpace::default());
    assert_eq!(Channels::default(), Channels::Rgb);
    assert_eq!(ColorSpace::default(), ColorSpace::Srgb);
    assert!(Channels::Rgb < Channels::Rgba && ColorSpace::Srgb < ColorSpace::Linear);
    let copy = default;
    assert_eq!(HashSet::from([default, copy, HEADER]).len(), 2);
    assert_eq!(HashSet::from([Channels::Rgb, Channels::Rgba]).len(), 2);
    assert_eq!(
        HashSet::from([ColorSpace::Srgb, ColorSpace::Linear]).len(),
        2
    );
    assert_eq!(
        format!("{default:?}"),
        "Header { width: 1, height: 1, channels: Rgb, colorspace: Srgb }"
    );
}

#[test]
fn numbers_of_channels_and_color_spaces() {
    assert_eq!(u8::from(Channels::Rgba), 4);
    assert_eq!(u8::from(ColorSpace::Linear), 1);
    let channels: Result<Channels> = 3.try_into();
    assert_eq!(channels.unwrap(), Channels::Rgb);
    assert_eq!(ColorSpace::try_from(0).unwrap(), ColorSpace::Srgb);
    assert!(matches!(
        Channels::try_from(5),
        Err(Error::InvalidChannels { channels: 5 })
    ));
    assert!(matches!(
        ColorSpace::try_from(2),
        Err(Error::InvalidColorSpace { colorspace: 2 })
    ));
}

/// Each variant with its fields, and what the words of a refusal are made of.
fn described(error: &Error) -> String {
    match *error {
        Error::InvalidMagic { magic } => format!("magic {magic:08x}"),
        Error::InvalidChannels { channels } => format!("channels {channels}"),
        Error::InvalidColorSpace { colorspace } => format!("color space {colorspace}"),
        Error::InvalidImageDimensions { width, height } => format!("dimensions {width}x{height}"),
        Error::InvalidImageLength {
            size,
            width,
            height,
        } => format!("{size} bytes of {width}x{height}"),
        Error::OutputBufferTooSmall { size, required } => format!("{size} of {required}"),
        Error::UnexpectedBufferEnd => "end".to_string(),
        Error::InvalidPadding => "padding".to_string(),
        _ => "another".to_string(),
    }
}

#[test]
fn error_is_an_error() {
    fn fails() -> std::result::Result<(), Box<dyn std::error::Error + Send + Sync>> {
        decode_header(b"qoif")?;
        Ok(())
    }
    let error = fails().unwrap_err();
    let words = "unexpected input buffer end while decoding";
    assert_eq!(error.to_string(), words);
    let error = error.downcast::<Error>().unwrap();
    assert_eq!(described(&error), "end");
    assert_eq!(format!("{error:?}"), "UnexpectedBufferEnd");
    assert_eq!(
        described(&decode_to_buf([0; 5], encode_to_vec(PIXELS, 2, 1).unwrap()).unwrap_err()),
        "5 of 6"
    );
}

#[test]
fn what_cannot_fail_converts() {
    fn header_of<T: TryInto<u32>>(width: T) -> Result<Header>
    where
        Error: From<T::Error>,
    {
        Header::try_new(width.try_into()?, 1, Channels::Rgb, ColorSpace::Srgb)
    }
    assert_eq!(header_of(7_u8).unwrap().width, 7);
}
