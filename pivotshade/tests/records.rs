// Records as they are, cut, lengthened and damaged in every byte, and of other messages.
mod common;

use common::{picture, Random};
use pivotshade::{encode_to_vec, run, start, strict, Channels, Error, Ran, Record};
use std::num::NonZeroUsize;

/// Where the parts of a record stand whose numbers are a byte each.
const WANTED: usize = 14;
const POSITION: usize = 15;
const PIXEL: usize = 16;
const CURRENT: usize = 17;
const ALPHA: usize = 20;
const SLOTS: usize = 21;
const NUMBER: usize = 277;

/// The number of the messages here.
const SENT: u64 = 7;

/// Numbers of every length, from one byte to ten.
fn each_length() -> impl Iterator<Item = u64> {
    let ends = (1..64).map(|bits| 1 << bits);
    ends.flat_map(|end| [end - 1, end]).chain([0, u64::MAX])
}

/// Cut short in the field that starts there, which is not the header.
fn cut(at: usize) -> Error {
    let at = NonZeroUsize::new(at).unwrap();
    Error::CutRecord { at }
}

fn bad(at: usize) -> Error {
    Error::BadRecord { at }
}

/// The record of a 1x1 message before its first chunk.
fn first(channels: Channels) -> Vec<u8> {
    let message = encode_to_vec([0, 0, 0], 1, 1).unwrap();
    start(message, SENT, channels).unwrap().as_bytes().to_vec()
}

/// What is read of a record in which the bytes from a place on are replaced by others.
fn replaced(channels: Channels, at: usize, old: usize, new: &[u8]) -> Result<Vec<u8>, Error> {
    let mut bytes = first(channels);
    bytes.splice(at..at + old, new.iter().copied());
    let record = Record::from_bytes(&bytes, SENT)?;
    assert_eq!(record.as_bytes(), bytes);
    Ok(bytes)
}

#[test]
fn first_record() {
    let mut expected = common::header(b"qoif", 1, 1, 3, 0);
    expected.extend([4, 14, 0]);
    expected.extend([0, 0, 0, 255]);
    expected.extend([0; 256]);
    expected.extend([7]);
    assert_eq!(first(Channels::Rgba), expected);
}

#[test]
fn numbers_of_more_than_a_byte() {
    let mut random = Random::new(8);
    let pixels = picture(&mut random, 100_000, 3);
    let message = encode_to_vec(&pixels, 1000, 100).unwrap();
    let mut out = vec![0; 400_000];
    let mut record = start(&message, SENT, Channels::Rgba).unwrap();
    let mut longest = 0;
    while let Ran::More(next) = run(&message, SENT, &record, &mut out, 777).unwrap() {
        record = Record::from_bytes(next.as_bytes(), SENT).unwrap();
        assert_eq!(record, next);
        assert_eq!(record.number(), SENT);
        assert_eq!(record.bytes_done(), 4 * record.pixels_done());
        assert_eq!(record.pixels_done() + record.pixels_left(), 100_000);
        assert_eq!(record.required_buf_len(), out.len());
        // up to the record's pixel the picture stands there
        let at = record.pixels_done() - 1;
        assert_eq!(out[4 * at..4 * at + 3], pixels[3 * at..3 * at + 3]);
        longest = longest.max(record.as_bytes().len());
    }
    assert_eq!(longest, 278 + 2 + 2);
    assert!(longest <= Record::MAX_LEN);

    // as many steps as there are chunks: every pixel is done, and the marker is still to test
    let chunks = strict(&message).unwrap().chunks as u64;
    let record = start(&message, SENT, Channels::Rgba).unwrap();
    let record = match run(&message, SENT, &record, &mut out, chunks).unwrap() {
        Ran::More(next) => next,
        done => panic!("{done:?} before the marker"),
    };
    assert_eq!((record.pixels_done(), record.pixels_left()), (100_000, 0));
    assert_eq!(record.bytes_done(), 400_000);
    assert_eq!(record.as_bytes()[18..21], [0xa0, 0x8d, 0x06]);
    assert_eq!(
        format!("{:?}", start(&message, SENT, Channels::Rgba).unwrap()),
        "Record { number: 7, header: Header { width: 1000, height: 100, channels: Rgb, colorspace: Srgb }, channels: Rgba, pixels_done: 0, .. }"
    );
}

#[test]
fn every_number_is_kept() {
    let message = encode_to_vec([1, 2, 3, 4, 5, 6], 2, 1).unwrap();
    let mut lengths = Vec::new();
    for number in each_length() {
        let mut out = [0; 6];
        let record = start(&message, number, Channels::Rgb).unwrap();
        let next = match run(&message, number, &record, &mut out, 1).unwrap() {
            Ran::More(next) => next,
            done => panic!("{done:?} before the second pixel"),
        };
        for record in [record, next.clone()] {
            let bytes = record.as_bytes();
            assert_eq!(record.number(), number);
            assert_eq!(Record::from_bytes(bytes, number), Ok(record.clone()));
            lengths.push(bytes.len());
        }
        let ended = Ran::Done {
            size: out.len(),
            used: message.len(),
        };
        assert_eq!(run(&message, number, &next, &mut out, 2), Ok(ended));
        assert_eq!(out, [1, 2, 3, 4, 5, 6]);
    }
    lengths.sort_unstable();
    lengths.dedup();
    assert_eq!(lengths, (278..=287).collect::<Vec<_>>());
}

/// Read or run for any other number, a record is refused with its own, and nothing is written.
#[test]
fn of_another_message() {
    let message = encode_to_vec([1, 2, 3, 4, 5, 6], 2, 1).unwrap();
    for number in each_length() {
        let record = start(&message, number, Channels::Rgb).unwrap();
        let refused = Error::OtherMessage { number };
        let one_bit_off = (0..64).map(|bit| number ^ (1 << bit));
        let one_off = [number.wrapping_add(1), number.wrapping_sub(1)];
        for other in one_bit_off.chain(one_off).chain([!number]) {
            let read = Record::from_bytes(record.as_bytes(), other);
            assert_eq!(read, Err(refused));
            for steps in [0, 1, u64::MAX] {
                let mut out = [0xee; 6];
                assert_eq!(run(&message, other, &record, &mut out, steps), Err(refused));
                assert_eq!(out, [0xee; 6]);
            }
        }
    }
}

/// That it is of another message is said of a whole record alone.
#[test]
fn other_faults_come_before_another_number() {
    let refused = |bytes: &[u8]| Record::from_bytes(bytes, SENT + 1).unwrap_err().number();
    let bytes = first(Channels::Rgb);
    assert_eq!(refused(&bytes), 12);
    assert_eq!(refused(&[&bytes[..], &[0]].concat()), 9);
    assert_eq!(refused(&bytes[..NUMBER]), 1);
    for (at, byte, number) in [
        (0, b'p', 4),
        (WANTED, 5, 2),
        (POSITION, 13, 9),
        (PIXEL, 2, 9),
    ] {
        let mut bad = bytes.clone();
        bad[at] = byte;
        assert_eq!(refused(&bad), number);
        // its number comes before the faults of its state
        bad.truncate(NUMBER);
        assert_eq!(refused(&bad), if number == 9 { 1 } else { number });
    }
}

#[test]
fn cut_at_every_byte() {
    let bytes = first(Channels::Rgba);
    // as long as all but the number, it is a record of a format that had none
    assert_eq!(bytes.len(), NUMBER + 1);
    for length in 0..bytes.len() {
        let refused = if length < WANTED {
            Error::UnexpectedBufferEnd
        } else if (CURRENT..SLOTS).contains(&length) {
            cut(CURRENT)
        } else if (SLOTS..NUMBER).contains(&length) {
            cut(SLOTS)
        } else {
            cut(length)
        };
        let read = Record::from_bytes(&bytes[..length], SENT);
        assert_eq!(read, Err(refused));
    }
}

#[test]
fn lengthened() {
    for more in [1, 13, 14, 1000] {
        let mut bytes = first(Channels::Rgba);
        let length = bytes.len();
        bytes.resize(length + more, 0);
        assert_eq!(Record::from_bytes(&bytes, SENT), Err(bad(length)));
    }
}

#[test]
fn each_fault() {
    let wanted = |new: &[u8]| replaced(Channels::Rgb, WANTED, 1, new).map(|_| ());
    assert_eq!(wanted(&[4]), Ok(()));
    assert_eq!(wanted(&[5]), Err(Error::InvalidChannels { channels: 5 }));
    // 300, which is told as 255
    let most = Error::InvalidChannels { channels: 255 };
    assert_eq!(wanted(&[0xac, 0x02]), Err(most));
    // 3, but not in the shortest form
    assert_eq!(wanted(&[0x83, 0x00]), Err(bad(WANTED)));

    let position = |new: &[u8]| replaced(Channels::Rgb, POSITION, 1, new).map(|_| ());
    assert_eq!(position(&[13]), Err(bad(POSITION)));
    assert_eq!(position(&[0x80, 0x01]), Ok(()));
    let mut largest = [0xff; 10];
    largest[9] = 1;
    assert_eq!(position(&largest), Ok(()));
    largest[9] = 2;
    assert_eq!(position(&largest), Err(bad(POSITION)));

    let pixel = |new: &[u8]| replaced(Channels::Rgb, PIXEL, 1, new).map(|_| ());
    assert_eq!(pixel(&[1]), Ok(()));
    assert_eq!(pixel(&[2]), Err(bad(PIXEL)));

    let alpha = |channels, new| replaced(channels, ALPHA, 1, &[new]).map(|_| ());
    assert_eq!(alpha(Channels::Rgb, 254), Err(bad(CURRENT)));
    assert_eq!(alpha(Channels::Rgba, 254), Ok(()));

    let number = |new: &[u8]| replaced(Channels::Rgb, NUMBER, 1, new).map(|_| ());
    assert_eq!(number(&[8]), Err(Error::OtherMessage { number: 8 }));
    assert_eq!(number(&[0x87]), Err(cut(NUMBER)));
    assert_eq!(number(&[0x87, 0x00]), Err(bad(NUMBER)));
    largest[9] = 1;
    let most = Error::OtherMessage { number: u64::MAX };
    assert_eq!(number(&largest), Err(most));
    largest[9] = 2;
    assert_eq!(number(&largest), Err(bad(NUMBER)));

    let header = |at, new| replaced(Channels::Rgb, at, 1, &[new]).map(|_| ());
    let (width, height) = (0, 1);
    assert_eq!(
        header(7, 0),
        Err(Error::InvalidImageDimensions { width, height })
    );
    assert_eq!(header(12, 2), Err(Error::InvalidChannels { channels: 2 }));
    let colorspace = 9;
    assert_eq!(header(13, 9), Err(Error::InvalidColorSpace { colorspace }));
    let magic = u32::from_be_bytes(*b"poif");
    assert_eq!(header(0, b'p'), Err(Error::InvalidMagic { magic }));
}

/// A record of a byte position past the message is a record; its run is refused, and nothing is written.
#[test]
fn position_past_the_message() {
    let bytes = replaced(Channels::Rgb, POSITION, 1, &[0x7f]).unwrap();
    let record = Record::from_bytes(&bytes, SENT).unwrap();
    let message = encode_to_vec([0, 0, 0], 1, 1).unwrap();
    let mut out = [0xee; 3];
    assert_eq!(
        run(message, SENT, &record, &mut out, 1),
        Err(Error::UnexpectedBufferEnd)
    );
    assert_eq!(out, [0xee; 3]);
}

/// Each byte changed to each value: read as it is, or refused by a refusal that a record has; and what is read can be run on anything.
#[test]
fn damaged_in_every_byte() {
    let message = encode_to_vec([9; 12], 2, 2).unwrap();
    let mut out = [0; 16];
    let mut record = start(&message, SENT, Channels::Rgb).unwrap();
    if let Ran::More(next) = run(&message, SENT, &record, &mut out, 1).unwrap() {
        record = next;
    }
    assert_eq!(record.pixels_done(), 1);
    let (mut read, mut refused) = (0, 0);
    let length = record.as_bytes().len();
    for at in 0..length {
        for byte in 0..=255 {
            let mut bytes = record.as_bytes().to_vec();
            bytes[at] = byte;
            match Record::from_bytes(&bytes, SENT) {
                Ok(other) => {
                    assert_eq!(other.as_bytes(), bytes);
                    let pixels = other.pixels_done() + other.pixels_left();
                    assert_eq!(pixels, other.header().n_pixels());
                    let ran = run(&message, SENT, &other, &mut out, 0);
                    assert_eq!(ran, Ok(Ran::More(other.clone())));
                    if let Err(error) = run(&message, SENT, &other, &mut out, u64::MAX) {
                        assert!([1, 7, 8].contains(&error.number()));
                    }
                    read += 1;
                }
                Err(error) => {
                    assert!([1, 2, 3, 4, 5, 9, 12].contains(&error.number()));
                    match error {
                        Error::BadRecord { at: start } => {
                            assert!((WANTED..length).contains(&start));
                        }
                        Error::CutRecord { at: start } => {
                            assert!((WANTED..=length).contains(&start.get()));
                        }
                        _ => {}
                    }
                    refused += 1;
                }
            }
        }
    }
    // every slot and three bytes of the colour may hold anything; so many at least are read, and the magic's changes refused
    assert!(read >= 256 * (256 + 3) && refused >= 4 * 255);
    assert_eq!(read + refused, 256 * length);
}
