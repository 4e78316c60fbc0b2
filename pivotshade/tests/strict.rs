// The strict check beside a decode: what it refuses that a decode accepts, and that it accepts nothing else than a decode does.
mod common;

use common::{header, message, picture, Random};
use pivotshade::{decode_to_vec, encode_to_vec, strict, Channels, Decoder, Error};

#[test]
fn runs_up_to_the_last_pixel() {
    assert_eq!(strict(message(62, 3, &[0xfd])).unwrap().chunks, 1);
    assert_eq!(strict(message(61, 3, &[0xfd])), Err(Error::RunPastImage));
    // of a chunk's own refusals the run's comes after the end's; the marker is looked at later
    let unmarked = [header(b"qoif", 1, 1, 3, 0), vec![0xfd]].concat();
    assert_eq!(strict(&unmarked), Err(Error::RunPastImage));
    assert_eq!(decode_to_vec(&unmarked), Err(Error::UnexpectedBufferEnd));
}

#[test]
fn damaged_messages() {
    let mut random = Random::new(5);
    let (mut accepted, mut strictly, mut past) = (0, 0, 0);
    for _ in 0..20_000 {
        let channels = 3 + random.below(2);
        let pixels = 1 + random.below(12);
        let picture = picture(&mut random, pixels, channels);
        let mut bytes = encode_to_vec(picture, pixels as u32, 1).unwrap();
        for _ in 0..random.below(3) {
            let at = 14 + random.below(bytes.len() - 14);
            bytes[at] = random.next() as u8;
        }
        bytes.truncate(bytes.len() - random.below(4) / 3);
        bytes.resize(bytes.len() + random.below(4) / 3, 0);

        let mut three = Decoder::new(&bytes).unwrap().with_channels(Channels::Rgb);
        let mut four = three.clone().with_channels(Channels::Rgba);
        let decoded = three.decode_to_vec().map(|_| ());
        assert_eq!(four.decode_to_vec().map(|_| ()), decoded);
        match strict(&bytes) {
            Ok(checked) => {
                assert_eq!(decoded, Ok(()));
                assert!(three.data().is_empty() && four.data().is_empty());
                assert_eq!(
                    (checked.header, checked.bytes),
                    (*three.header(), bytes.len())
                );
                strictly += 1;
            }
            Err(Error::BytesAfterMarker) => {
                assert_eq!(decoded, Ok(()));
                assert!(!three.data().is_empty());
            }
            // the run is refused before the marker is looked at, whatever that brings
            Err(Error::RunPastImage) => {
                past += 1;
                assert!(matches!(
                    decoded,
                    Ok(()) | Err(Error::UnexpectedBufferEnd | Error::InvalidPadding)
                ));
            }
            Err(error) => assert_eq!(decoded, Err(error)),
        }
        accepted += usize::from(decoded.is_ok());
    }
    assert!(0 < strictly && strictly < accepted && accepted < 20_000 && 0 < past);
}
