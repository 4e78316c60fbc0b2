// Decodes that are cut into runs, cut off, overwritten and taken up again from old records: their end is that of one undisturbed decode.
mod common;

use common::{picture, Random};
use pivotshade::{encode_to_vec, run, start, Channels, Decoder, Error, Ran, Record, Result};

/// The number of the messages here; another test tries others.
const NUMBER: u64 = 17;

/// The size and the bytes used of a whole decode over `out`.
fn undisturbed(message: &[u8], channels: Channels, out: &mut [u8]) -> Result<(usize, usize)> {
    let mut decoder = Decoder::new(message)?.with_channels(channels);
    let size = decoder.decode_to_buf(out)?;
    Ok((size, message.len() - decoder.data().len()))
}

/// The bytes that a saved record says are done.
fn done(saved: &[u8]) -> usize {
    Record::from_bytes(saved, NUMBER).unwrap().bytes_done()
}

/// Random runs, with the output scribbled over from the record's pixel on before some, and with old records taken up: the end, and what the output
/// must hold then.
fn disturbed(
    random: &mut Random,
    message: &[u8],
    channels: Channels,
    out: &mut [u8],
) -> (Result<(usize, usize)>, Vec<u8>) {
    let first = start(message, NUMBER, channels).unwrap();
    let mut saved = vec![first.as_bytes().to_vec()];
    let mut found = out.to_vec();
    loop {
        // most often the last one, so that it gets on
        let taken = match random.below(4) {
            0 => random.below(saved.len()),
            _ => saved.len() - 1,
        };
        let record = Record::from_bytes(&saved[taken], NUMBER).unwrap();
        assert_eq!((record.number(), record.channels()), (NUMBER, channels));
        if random.below(2) == 0 {
            random.fill(&mut out[record.bytes_done()..]);
            // of those that are further on, the output before their pixel is lost
            saved.retain(|other| done(other) <= record.bytes_done());
        }
        let before = out[..record.bytes_done()].to_vec();
        found.copy_from_slice(out);
        let steps = random.next() >> (52 + random.below(12));
        let ran = run(message, NUMBER, &record, out, steps);
        assert_eq!(out[..record.bytes_done()], before);
        match ran {
            Ok(Ran::More(next)) => {
                // each step brings a pixel
                let done = next.pixels_done() as u64;
                assert!(done >= record.pixels_done() as u64 + steps);
                assert_eq!(next.header(), record.header());
                saved.push(next.as_bytes().to_vec());
            }
            Ok(Ran::Done { size, used }) => {
                assert_eq!(size, record.required_buf_len());
                return (Ok((size, used)), found);
            }
            Err(error) => return (Err(error), found),
        }
    }
}

#[test]
fn ends_as_one_decode() {
    let mut random = Random::new(6);
    let (mut accepted, mut refused) = (0, 0);
    for _ in 0..3000 {
        let stored = 3 + random.below(2);
        let pixels = 1 + random.below(300);
        let picture = picture(&mut random, pixels, stored);
        let mut message = encode_to_vec(&picture, pixels as u32, 1).unwrap();
        // some are cut short, some damaged, some have more after them
        match random.below(6) {
            0 => message.truncate(14 + random.below(message.len() - 14)),
            1 => {
                let at = 14 + random.below(message.len() - 14);
                message[at] = random.next() as u8;
            }
            2 => message.extend(b"and more"),
            _ => {}
        }
        let channels = Channels::try_from(3 + random.below(2) as u8).unwrap();
        let mut out = vec![0; pixels * usize::from(channels.as_u8()) + random.below(3)];
        random.fill(&mut out);

        let (end, mut expected) = disturbed(&mut random, &message, channels, &mut out);
        assert_eq!(end, undisturbed(&message, channels, &mut expected));
        assert_eq!(out, expected);
        match end {
            Ok(_) => accepted += 1,
            Err(error) => {
                assert!(matches!(
                    error,
                    Error::UnexpectedBufferEnd | Error::InvalidPadding
                ));
                refused += 1;
            }
        }
    }
    assert!(accepted > 1000 && refused > 100);
}

#[test]
fn step_by_step() {
    let mut random = Random::new(7);
    let picture = picture(&mut random, 500, 4);
    let message = encode_to_vec(&picture, 20, 25).unwrap();
    let chunks = pivotshade::strict(&message).unwrap().chunks;
    let mut out = vec![0; picture.len()];
    let mut record = start(&message, NUMBER, Channels::Rgba).unwrap();
    assert_eq!((record.pixels_done(), record.bytes_done()), (0, 0));
    assert_eq!(record.required_buf_len(), picture.len());
    for _ in 0..chunks {
        record = match run(&message, NUMBER, &record, &mut out, 1).unwrap() {
            Ran::More(next) => next,
            done => panic!("{done:?} before the marker"),
        };
        let done = record.bytes_done();
        assert_eq!(out[..done], picture[..done]);
    }
    // the marker test is a step of its own, and the same again
    let done = Ran::Done {
        size: picture.len(),
        used: message.len(),
    };
    for steps in [1, u64::MAX] {
        let ran = run(&message, NUMBER, &record, &mut out, steps);
        assert_eq!(ran, Ok(done.clone()));
    }
    assert_eq!(out, picture);
}

#[test]
fn output_too_small_is_left_as_it_was() {
    let message = encode_to_vec([1, 2, 3, 4, 5, 6], 2, 1).unwrap();
    let record = start(&message, NUMBER, Channels::Rgb).unwrap();
    let mut out = [0xee; 5];
    let (size, required) = (5, 6);
    assert_eq!(
        run(&message, NUMBER, &record, &mut out, 9),
        Err(Error::OutputBufferTooSmall { size, required })
    );
    assert_eq!(out, [0xee; 5]);
}

#[test]
fn start_refuses_as_the_header() {
    let refused = start([], NUMBER, Channels::Rgb);
    assert_eq!(refused, Err(Error::UnexpectedBufferEnd));
    let refused = start(common::header(b"qoif", 0, 1, 3, 0), NUMBER, Channels::Rgb);
    let (width, height) = (0, 1);
    assert_eq!(
        refused,
        Err(Error::InvalidImageDimensions { width, height })
    );
}
