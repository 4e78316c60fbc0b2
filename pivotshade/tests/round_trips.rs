// What is encoded comes back: pictures of every small shape, of all chunks, at both channel counts and in both colour spaces.
mod common;

use common::{picture, Random};
use pivotshade::{
    decode_header, decode_to_buf, decode_to_vec, encode_max_len, encode_to_buf, encode_to_vec,
    rest, strict, Channels, ColorSpace, Decoder, Encoder, Header,
};

const REST: u8 = 0xee;

/// Encodes, checks and decodes a picture, to longer outputs whose end must stay.
fn comes_back(random: &mut Random, header: Header) {
    let channels = usize::from(header.channels.as_u8());
    let pixels = picture(random, header.n_pixels(), channels);
    let encoder = Encoder::new(&pixels, header.width, header.height)
        .unwrap()
        .with_colorspace(header.colorspace);
    assert_eq!(*encoder.header(), header);
    let message = encoder.encode_to_vec().unwrap();

    let required = encoder.required_buf_len();
    assert_eq!(required, header.encode_max_len());
    let mut out = vec![REST; required + 3];
    assert_eq!(encoder.encode_to_buf(&mut out), Ok(message.len()));
    assert_eq!(out[..message.len()], message);
    assert!(out[message.len()..].iter().all(|byte| *byte == REST));

    assert_eq!(decode_header(&message), Ok(header));
    let checked = strict(&message).unwrap();
    assert_eq!((checked.header, checked.bytes), (header, message.len()));
    assert!(checked.chunks <= header.n_pixels());

    assert_eq!(decode_to_vec(&message), Ok((header, pixels.clone())));
    let mut out = vec![REST; pixels.len() + 2];
    assert_eq!(decode_to_buf(&mut out, &message), Ok(header));
    assert_eq!(out[..pixels.len()], pixels);
    assert_eq!(out[pixels.len()..], [REST; 2]);
}

#[test]
fn every_small_shape() {
    let mut random = Random::new(1);
    for width in 1..=17 {
        for height in 1..=17 {
            for channels in [Channels::Rgb, Channels::Rgba] {
                for colorspace in [ColorSpace::Srgb, ColorSpace::Linear] {
                    let header = Header {
                        width,
                        height,
                        channels,
                        colorspace,
                    };
                    comes_back(&mut random, header);
                }
            }
        }
    }
}

#[test]
fn some_larger_shapes() {
    let mut random = Random::new(2);
    for (width, height) in [(1, 5000), (5000, 1), (300, 200), (257, 129)] {
        for channels in [Channels::Rgb, Channels::Rgba] {
            let header = Header::try_new(width, height, channels, ColorSpace::Srgb).unwrap();
            comes_back(&mut random, header);
        }
    }
}

#[test]
fn one_colour_in_runs() {
    // runs are of 62 pixels at most
    for (pixels, chunks) in [(1, 1), (62, 1), (63, 2), (124, 2), (125, 3)] {
        let black = vec![0; 3 * pixels];
        let message = encode_to_vec(&black, pixels as u32, 1).unwrap();
        assert_eq!(strict(&message).unwrap().chunks, chunks);
        assert_eq!(decode_to_vec(&message).unwrap().1, black);
    }
}

#[test]
fn worked_example() {
    // document 01's: A B A A B
    let pixels = [100, 0, 0, 0, 0, 0, 100, 0, 0, 100, 0, 0, 0, 0, 0];
    let chunks = [0xfe, 0x64, 0, 0, 0xfe, 0, 0, 0, 0x21, 0x21, 0x35];
    let message = encode_to_vec(pixels, 5, 1).unwrap();
    assert_eq!(message, common::message(5, 3, &chunks));
    assert_eq!(strict(&message).unwrap().chunks, 5);
}

#[test]
fn other_channels_than_the_headers() {
    let mut random = Random::new(3);
    for pixels in 1..200 {
        let rgb = picture(&mut random, pixels, 3);
        let with_alpha: Vec<u8> = rgb
            .chunks(3)
            .flat_map(|colour| [colour[0], colour[1], colour[2], 255])
            .collect();
        let message = encode_to_vec(&rgb, pixels as u32, 1).unwrap();
        let mut decoder = Decoder::new(&message)
            .unwrap()
            .with_channels(Channels::Rgba);
        assert_eq!(decoder.required_buf_len(), with_alpha.len());
        assert_eq!(decoder.decode_to_vec().unwrap(), with_alpha);

        let message = encode_to_vec(&with_alpha, pixels as u32, 1).unwrap();
        let mut decoder = Decoder::new(&message).unwrap().with_channels(Channels::Rgb);
        assert_eq!(decoder.decode_to_vec().unwrap(), rgb);
    }
}

#[test]
fn alpha_counts_as_opaque_where_three_are_wanted() {
    // document 01's case: the third pixel is black, where the QOI Specification has (10, 0, 0)
    let chunks = [0xff, 0x0a, 0, 0, 0x80, 0xff, 0, 0, 0, 0xff, 0x1e];
    let message = common::message(3, 4, &chunks);
    let mut decoder = Decoder::new(&message).unwrap().with_channels(Channels::Rgb);
    assert_eq!(
        decoder.decode_to_vec().unwrap(),
        [10, 0, 0, 0, 0, 0, 0, 0, 0]
    );
}

#[test]
fn messages_one_after_another() {
    let mut random = Random::new(4);
    let pictures: Vec<_> = (1..20).map(|n| picture(&mut random, n, 4)).collect();
    let mut messages = Vec::new();
    for pixels in &pictures {
        messages.extend(encode_to_vec(pixels, pixels.len() as u32 / 4, 1).unwrap());
    }
    let mut left = &messages[..];
    for pixels in &pictures {
        let mut decoder = Decoder::new(left).unwrap();
        assert_eq!(decoder.data(), &left[14..]);
        assert_eq!(decoder.decode_to_vec().unwrap(), *pixels);
        left = decoder.data();
        // a second decode is the same again
        assert_eq!(decoder.decode_to_vec().unwrap(), *pixels);
        assert_eq!(decoder.data(), left);
    }
    assert!(left.is_empty());
    assert_eq!(rest(&messages, 14), &messages[14..]);
    assert!(rest(&messages, messages.len()).is_empty());
    assert!(rest(&messages, usize::MAX).is_empty());
}

#[test]
fn a_refused_decode_leaves_data() {
    let mut message = common::message(1, 3, &[0xc0]);
    message.pop();
    let mut decoder = Decoder::new(&message).unwrap();
    assert!(decoder.decode_to_vec().is_err());
    assert_eq!(decoder.data(), &message[14..]);
}

#[test]
fn sums_that_stop() {
    assert_eq!(encode_max_len(1 << 31, 1 << 31, 3), usize::MAX);
    assert_eq!(encode_max_len(u32::MAX, 858_993_460, 4), usize::MAX);
    assert_eq!(encode_max_len(u32::MAX, u32::MAX, 0), 18446744065119617047);
    let made_up = Header {
        width: 1 << 31,
        height: 1 << 31,
        channels: Channels::Rgba,
        colorspace: ColorSpace::Srgb,
    };
    assert_eq!(made_up.n_pixels(), 1 << 62);
    assert_eq!(made_up.n_bytes(), usize::MAX);
    assert_eq!(made_up.encode_max_len(), usize::MAX);
}

#[test]
fn room_is_what_encode_asks_for() {
    for (width, height) in [(1, 1), (3, 7), (100, 1)] {
        for channels in [3, 4] {
            let pixels = vec![0; (width * height * channels) as usize];
            let required = encode_max_len(width, height, channels as u8);
            let refused = encode_to_buf(vec![0; required - 1], &pixels, width, height);
            assert_eq!(refused.unwrap_err().figures(), {
                [required as u64 - 1, required as u64, 0, 0]
            });
            assert!(encode_to_buf(vec![0; required], &pixels, width, height).is_ok());
        }
    }
}
