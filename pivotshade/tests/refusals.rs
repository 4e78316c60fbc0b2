// Every refusal: from a call that is refused so, with its number, its figures and its words.
mod common;

use common::{header, message};
use pivotshade::{
    decode_header, decode_to_buf, decode_to_vec, encode_to_buf, encode_to_vec, run, start, strict,
    Channels, ColorSpace, Encoder, Error, Header, Record, Table,
};
use std::num::NonZeroUsize;

/// A refusal that came, and what it must be and say.
fn is(came: Error, error: Error, number: u64, figures: [u64; 4], words: &str) {
    assert_eq!(came, error);
    assert_eq!((came.number(), came.figures()), (number, figures));
    assert_eq!(came.to_string(), words);
    // width and fill are not looked at, as crate qoi's `Display` does not
    assert_eq!(format!("{came:_>200}"), words);
}

#[test]
fn unexpected_buffer_end() {
    is(
        decode_header(&header(b"qoif", 1, 1, 3, 0)[..13]).unwrap_err(),
        Error::UnexpectedBufferEnd,
        1,
        [0; 4],
        "unexpected input buffer end while decoding",
    );
    // the pixels of the chunks that are there are written
    let cut = [header(b"qoif", 2, 1, 3, 0), vec![0xfe, 7, 8, 9, 0xfe]].concat();
    let mut out = [0xee; 6];
    let refused = decode_to_buf(&mut out, cut);
    assert_eq!(refused, Err(Error::UnexpectedBufferEnd));
    assert_eq!(out, [7, 8, 9, 0xee, 0xee, 0xee]);
    // a record's header is at its byte 0, so it is told as a message's
    let record = start(message(1, 3, &[0xc0]), 17, Channels::Rgb).unwrap();
    let refused = Record::from_bytes(&record.as_bytes()[..13], 17);
    assert_eq!(refused, Err(Error::UnexpectedBufferEnd));
}

#[test]
fn cut_record() {
    let record = start(message(1, 3, &[0xc0]), 17, Channels::Rgb).unwrap();
    let at = NonZeroUsize::new(17).unwrap();
    is(
        Record::from_bytes(&record.as_bytes()[..20], 17).unwrap_err(),
        Error::CutRecord { at },
        1,
        [17, 0, 0, 0],
        "record is bad at byte 17 (unexpected end)",
    );
}

#[test]
fn invalid_channels() {
    is(
        decode_header(header(b"nope", 0, 1, 5, 2)).unwrap_err(),
        Error::InvalidChannels { channels: 5 },
        2,
        [5, 0, 0, 0],
        "invalid number of channels: 5",
    );
    for (length, channels) in [(0, 0), (5, 5), (255, 255), (1000, 255)] {
        let refused = encode_to_vec(vec![0; length], 1, 1);
        assert_eq!(refused, Err(Error::InvalidChannels { channels }));
    }
}

#[test]
fn invalid_color_space() {
    is(
        decode_header(header(b"nope", 0, 1, 3, 2)).unwrap_err(),
        Error::InvalidColorSpace { colorspace: 2 },
        3,
        [2, 0, 0, 0],
        "invalid color space: 2 (expected 0 or 1)",
    );
}

#[test]
fn invalid_magic() {
    is(
        decode_header(header(b"nope", 0, 1, 3, 0)).unwrap_err(),
        Error::InvalidMagic { magic: 0x6e6f7065 },
        4,
        [0x6e6f7065, 0, 0, 0],
        "invalid magic: expected 1903126886, got [110, 111, 112, 101]",
    );
}

#[test]
fn invalid_image_dimensions() {
    let error = Error::InvalidImageDimensions {
        width: 20000,
        height: 20001,
    };
    is(
        decode_header(header(b"qoif", 20000, 20001, 3, 0)).unwrap_err(),
        error,
        5,
        [20000, 20001, 0, 0],
        "invalid image dimensions: 20000x20001",
    );
    assert_eq!(encode_to_vec([], 20000, 20001), Err(error));
}

#[test]
fn invalid_image_length() {
    is(
        encode_to_vec([0; 7], 2, 1).unwrap_err(),
        Error::InvalidImageLength {
            size: 7,
            width: 2,
            height: 1,
        },
        6,
        [7, 2, 1, 0],
        "invalid image length: 7 bytes for 2x1",
    );
    assert!(Encoder::new(&[0; 7], 2, 1).is_err());
}

#[test]
fn output_buffer_too_small() {
    let mut out = [0xee; 25];
    is(
        encode_to_buf(&mut out, [0; 3], 1, 1).unwrap_err(),
        Error::OutputBufferTooSmall {
            size: 25,
            required: 26,
        },
        7,
        [25, 26, 0, 0],
        "output buffer size too small: 25 (required: 26)",
    );
    assert_eq!(out, [0xee; 25]);
    let mut out = [0xee; 2];
    let refused = decode_to_buf(&mut out, message(1, 3, &[0xc0]));
    let (size, required) = (2, 3);
    assert_eq!(refused, Err(Error::OutputBufferTooSmall { size, required }));
    assert_eq!(out, [0xee; 2]);
}

#[test]
fn invalid_padding() {
    // ff is no chunk of a message of three channels: its pixel is written, and the marker is not there
    let mut bytes = header(b"qoif", 1, 1, 3, 0);
    bytes.extend([0xff, 0, 0, 0, 0, 0, 0, 0]);
    let mut out = [0xee; 3];
    is(
        decode_to_buf(&mut out, &bytes).unwrap_err(),
        Error::InvalidPadding,
        8,
        [0; 4],
        "invalid padding (stream end marker mismatch)",
    );
    assert_eq!(out, [0; 3]);
    bytes.pop();
    assert_eq!(decode_to_vec(bytes), Err(Error::UnexpectedBufferEnd));
}

#[test]
fn bad_record() {
    let record = start(message(1, 3, &[0xc0]), 17, Channels::Rgb).unwrap();
    let mut clear = record.as_bytes().to_vec();
    // the current pixel's alpha
    clear[20] = 254;
    is(
        Record::from_bytes(&clear, 17).unwrap_err(),
        Error::BadRecord { at: 17 },
        9,
        [17, 0, 0, 0],
        "record is bad at byte 17",
    );
}

#[test]
fn run_past_image() {
    let bytes = message(1, 3, &[0xfd]);
    assert_eq!(decode_to_vec(&bytes).unwrap().1, [0; 3]);
    is(
        strict(bytes).unwrap_err(),
        Error::RunPastImage,
        10,
        [0; 4],
        "invalid run (longer than the pixels left)",
    );
}

#[test]
fn bytes_after_marker() {
    let mut bytes = message(1, 3, &[0xc0]);
    bytes.push(0);
    assert_eq!(decode_to_vec(&bytes).unwrap().1, [0; 3]);
    is(
        strict(bytes).unwrap_err(),
        Error::BytesAfterMarker,
        11,
        [0; 4],
        "invalid length (bytes after the stream end marker)",
    );
}

#[test]
fn other_message() {
    let sent = message(1, 3, &[0xc0]);
    let record = start(&sent, 17, Channels::Rgb).unwrap();
    let error = Error::OtherMessage { number: 17 };
    is(
        Record::from_bytes(record.as_bytes(), 18).unwrap_err(),
        error,
        12,
        [17, 0, 0, 0],
        "record of another message: 17",
    );
    let mut out = [0xee; 3];
    assert_eq!(run(&sent, 18, &record, &mut out, 9), Err(error));
    // the output's fault comes after the record's
    assert_eq!(run(&sent, 18, &record, &mut out[..2], 9), Err(error));
    assert_eq!(out, [0xee; 3]);
}

#[test]
fn invalid_hour() {
    let refused = |hour| Table::fresh(1).count([], hour, &mut []).unwrap_err();
    is(
        refused(744),
        Error::InvalidHour { hour: 744 },
        19,
        [744, 0, 0, 0],
        "invalid hour: 744 (expected 0 to 743)",
    );
    assert_eq!(refused(743), Error::UnexpectedBufferEnd);
}

#[test]
fn invalid_cell_count() {
    let mut frame = [0xee; 24];
    is(
        Table::fresh(4)
            .count(message(6, 4, &[0xc5]), 0, &mut frame)
            .unwrap_err(),
        Error::InvalidCellCount {
            pixels: 6,
            cells: 4,
        },
        20,
        [6, 4, 0, 0],
        "invalid number of cells: 6 pixels for 4 cells",
    );
    assert_eq!(frame, [[0, 0, 0, 255]; 6].concat()[..]);
}

#[test]
fn total_too_large() {
    let mut totals = vec![0; 18];
    totals[17] = u64::MAX - 254;
    let mut table = Table::from_parts(totals, [0; Table::HOURS]);
    let mut frame = [0xee; 72];
    is(
        table
            .count(message(18, 4, &[0xd1]), 0, &mut frame)
            .unwrap_err(),
        Error::TotalTooLarge { cell: 17 },
        21,
        [17, 0, 0, 0],
        "total too large: cell 17 would pass 18446744073709551615",
    );
    assert_eq!(frame, [[0, 0, 0, 255]; 18].concat()[..]);
}

#[test]
fn figures_of_any_size_have_words() {
    let (size, required) = (usize::MAX, usize::MAX);
    let (width, height) = (u32::MAX, u32::MAX);
    for (error, words) in [
        (
            Error::OutputBufferTooSmall { size, required },
            "output buffer size too small: 18446744073709551615 (required: 18446744073709551615)",
        ),
        (
            Error::InvalidImageLength {
                size,
                width,
                height,
            },
            "invalid image length: 18446744073709551615 bytes for 4294967295x4294967295",
        ),
        (
            Error::InvalidMagic { magic: u32::MAX },
            "invalid magic: expected 1903126886, got [255, 255, 255, 255]",
        ),
        (
            Error::CutRecord {
                at: NonZeroUsize::new(usize::MAX).unwrap(),
            },
            "record is bad at byte 18446744073709551615 (unexpected end)",
        ),
        (
            Error::BadRecord { at: usize::MAX },
            "record is bad at byte 18446744073709551615",
        ),
        (Error::BadRecord { at: 0 }, "invalid decoder state"),
        (
            Error::OtherMessage { number: u64::MAX },
            "record of another message: 18446744073709551615",
        ),
        (
            Error::InvalidHour { hour: u64::MAX },
            "invalid hour: 18446744073709551615 (expected 0 to 743)",
        ),
        (
            Error::InvalidCellCount {
                pixels: usize::MAX,
                cells: usize::MAX,
            },
            "invalid number of cells: 18446744073709551615 pixels for 18446744073709551615 cells",
        ),
        (
            Error::TotalTooLarge { cell: usize::MAX },
            "total too large: cell 18446744073709551615 would pass 18446744073709551615",
        ),
    ] {
        assert_eq!(error.to_string(), words);
    }
}

/// What is decided in Rust, since the shape asks for it, is held to the proved reading of a header.
#[test]
fn rust_decides_as_the_proved_header() {
    for byte in 0..=255 {
        let read = decode_header(header(b"qoif", 1, 1, byte, 0));
        assert_eq!(Channels::try_from(byte), read.map(|header| header.channels));
        let read = decode_header(header(b"qoif", 1, 1, 3, byte));
        assert_eq!(
            ColorSpace::try_from(byte),
            read.map(|header| header.colorspace)
        );
    }
    let edges = [
        0,
        1,
        2,
        19_999,
        20_000,
        20_001,
        399_999_999,
        400_000_000,
        400_000_001,
        u32::MAX,
    ];
    for width in edges {
        for height in edges {
            let made = Header::try_new(width, height, Channels::Rgba, ColorSpace::Linear);
            assert_eq!(made, decode_header(header(b"qoif", width, height, 4, 1)));
            let pixels = u64::from(width) * u64::from(height);
            assert_eq!(made.is_ok(), (1..=400_000_000).contains(&pixels));
        }
    }
}
