// The cases of headers, groups a to i: read, made, written, the room they ask for, and the bytes of channels and colour space.
use crate::list::{accepted, answer, List};
use qoi::{Channels, ColorSpace, Encoder, Header};

const CHANNELS: [u8; 2] = [3, 4];
const COLOR_SPACES: [u8; 2] = [0, 1];

/// From 1 to 400,000,000 pixels, both ends among them.
const GOOD: [(u32, u32); 14] = [
    (1, 1),
    (3, 5),
    (800, 600),
    (255, 256),
    (256, 255),
    (65_535, 6_103),
    (65_536, 6_103),
    (16_777_216, 23),
    (16_384, 16_384),
    (2, 200_000_000),
    (19_999, 20_000),
    (20_000, 20_000),
    (1, 400_000_000),
    (400_000_000, 1),
];

/// No pixels, or more than 400,000,000; the last three are 0, 0 and 2 pixels where a product keeps 32 bits alone.
const BAD: [(u32, u32); 13] = [
    (0, 0),
    (0, 1),
    (1, 0),
    (0, 4_294_967_295),
    (4_294_967_295, 0),
    (20_000, 20_001),
    (20_001, 20_000),
    (1, 400_000_001),
    (400_000_001, 1),
    (4_294_967_295, 4_294_967_295),
    (65_536, 65_536),
    (2, 2_147_483_648),
    (3, 1_431_655_766),
];

/// The fields of a header as they are written, right or wrong.
#[derive(Clone, Copy)]
struct Fields {
    magic: [u8; 4],
    size: (u32, u32),
    channels: u8,
    colorspace: u8,
}

const PLAIN: Fields = Fields {
    magic: *b"qoif",
    size: (800, 600),
    channels: 4,
    colorspace: 1,
};

impl Fields {
    fn bytes(&self) -> Vec<u8> {
        let mut bytes = self.magic.to_vec();
        bytes.extend(self.size.0.to_be_bytes());
        bytes.extend(self.size.1.to_be_bytes());
        bytes.extend([self.channels, self.colorspace]);
        bytes
    }
}

fn both() -> impl Iterator<Item = (u8, u8)> {
    CHANNELS
        .into_iter()
        .flat_map(|c| COLOR_SPACES.into_iter().map(move |s| (c, s)))
}

fn figures(header: Header) -> [u64; 4] {
    [
        header.width.into(),
        header.height.into(),
        header.channels.as_u8().into(),
        header.colorspace.as_u8().into(),
    ]
}

/// A header read; a group of its own for each kind of input.
fn read(list: &mut List, group: char, message: &[u8]) {
    list.case(
        group,
        &answer(qoi::decode_header(message), figures),
        message,
    );
}

/// a: fewer than fourteen bytes.
fn cut_short(list: &mut List) {
    let wholes = [
        PLAIN.bytes(),
        Fields {
            channels: 5,
            ..PLAIN
        }
        .bytes(),
        Fields {
            magic: *b"fioq",
            ..PLAIN
        }
        .bytes(),
        Fields {
            size: (0, 0),
            ..PLAIN
        }
        .bytes(),
        vec![0x00; 14],
        vec![0xff; 14],
    ];
    for whole in wholes {
        for length in 0..14 {
            read(list, 'a', &whole[..length]);
        }
    }
}

fn plain_with(channels: u8, colorspace: u8) -> Vec<u8> {
    Fields {
        channels,
        colorspace,
        ..PLAIN
    }
    .bytes()
}

/// b: one fault alone.
fn one_fault(list: &mut List) {
    for colorspace in COLOR_SPACES {
        for channels in [0, 1, 2, 5, 127, 255] {
            read(list, 'b', &plain_with(channels, colorspace));
        }
    }
    for channels in CHANNELS {
        for colorspace in [2, 3, 128, 255] {
            read(list, 'b', &plain_with(channels, colorspace));
        }
    }
    let mut magics = vec![[0x00; 4], [0xff; 4], *b"fioq", *b"QOIF"];
    for place in 0..4 {
        for flip in [0x01, 0x80] {
            let mut magic = *b"qoif";
            magic[place] ^= flip;
            magics.push(magic);
        }
    }
    for magic in magics {
        read(list, 'b', &Fields { magic, ..PLAIN }.bytes());
    }
    for size in BAD {
        for (channels, colorspace) in both() {
            read(
                list,
                'b',
                &Fields {
                    size,
                    channels,
                    colorspace,
                    ..PLAIN
                }
                .bytes(),
            );
        }
    }
}

/// c: every combination of two faults and more; the first of each array stands for no fault.
fn several_faults(list: &mut List) {
    for channels in [4, 0, 5, 255] {
        for colorspace in [1, 2, 128, 255] {
            for magic in [*b"qoif", *b"poif", *b"qoig", [0x00; 4]] {
                for size in [
                    (800, 600),
                    (0, 1),
                    (20_000, 20_001),
                    (4_294_967_295, 4_294_967_295),
                ] {
                    let fields = Fields {
                        magic,
                        size,
                        channels,
                        colorspace,
                    };
                    let faults = usize::from(channels != PLAIN.channels)
                        + usize::from(colorspace != PLAIN.colorspace)
                        + usize::from(magic != PLAIN.magic)
                        + usize::from(size != PLAIN.size);
                    if 2 <= faults {
                        read(list, 'c', &fields.bytes());
                    }
                    if 1 <= faults {
                        read(list, 'c', &fields.bytes()[..13]);
                        read(list, 'c', &fields.bytes()[..12]);
                    }
                }
            }
        }
    }
}

/// d: good headers, alone and with bytes after them.
fn good(list: &mut List) {
    for size in GOOD {
        for (channels, colorspace) in both() {
            for after in [&[][..], &[0xff], &[0, 0, 0, 0, 0, 0, 0, 1]] {
                let mut message = Fields {
                    size,
                    channels,
                    colorspace,
                    ..PLAIN
                }
                .bytes();
                message.extend(after);
                read(list, 'd', &message);
            }
        }
    }
}

/// The ten bytes that name a header: width, height, channels, colour space.
fn named(size: (u32, u32), channels: u8, colorspace: u8) -> Vec<u8> {
    Fields {
        size,
        channels,
        colorspace,
        ..PLAIN
    }
    .bytes()[4..]
        .to_vec()
}

fn types(channels: u8, colorspace: u8) -> (Channels, ColorSpace) {
    (
        Channels::try_from(channels).unwrap(),
        ColorSpace::try_from(colorspace).unwrap(),
    )
}

/// e: headers made of their figures, and the sums over them.
fn made(list: &mut List) {
    for size in GOOD.into_iter().chain(BAD) {
        for (channels, colorspace) in both() {
            let (c, s) = types(channels, colorspace);
            let sums = |h: Header| {
                [
                    h.n_pixels() as u64,
                    h.n_bytes() as u64,
                    h.encode_max_len() as u64,
                    0,
                ]
            };
            let result = answer(Header::try_new(size.0, size.1, c, s), sums);
            list.case('e', &result, &named(size, channels, colorspace));
        }
    }
}

/// f: the room for any figures, but those at which the Rust's sum overflows.
fn room(list: &mut List) {
    // the largest without an overflow for this width, at one channel, at four and at 255
    let edges = [
        (4_294_967_295, 2_147_483_648),
        (4_294_967_295, 858_993_459),
        (4_294_967_295, 16_777_216),
    ];
    for size in GOOD.into_iter().chain(BAD).chain(edges) {
        for channels in [0_u8, 1, 2, 3, 4, 5, 127, 255] {
            let sum = u128::from(size.0) * u128::from(size.1) * (u128::from(channels) + 1) + 22;
            if sum <= u128::from(u64::MAX) {
                let most = qoi::encode_max_len(size.0, size.1, channels);
                let input = &named(size, channels, 0)[..9];
                list.case('f', &accepted([most as u64, 0, 0, 0]), input);
            }
        }
    }
}

/// g: the fourteen bytes that the encoder writes, after the ten that name the header.
fn written(list: &mut List) {
    let sizes = [
        (1, 1),
        (2, 1),
        (1, 2),
        (3, 5),
        (255, 1),
        (256, 1),
        (1, 257),
        (258, 259),
        (65_535, 1),
        (1, 65_535),
        (65_536, 1),
        (1, 65_537),
        (66_051, 1),
        (1, 66_051),
        (16_702_650, 1),
        (1, 16_702_650),
        (16_909_060, 1),
        (1, 16_909_060),
    ];
    for size in sizes {
        for (channels, colorspace) in both() {
            let pixels = vec![0; size.0 as usize * size.1 as usize * usize::from(channels)];
            let encoder = Encoder::new(&pixels, size.0, size.1).unwrap();
            let encoder = encoder.with_colorspace(types(channels, colorspace).1);
            let message = encoder.encode_to_vec().unwrap();
            let mut input = named(size, channels, colorspace);
            input.extend(&message[..14]);
            list.case('g', &accepted([0; 4]), &input);
        }
    }
}

/// h and i: every byte as channels, and as a colour space.
fn bytes(list: &mut List) {
    for byte in 0..=255 {
        let channels = answer(Channels::try_from(byte), |c| [c.as_u8().into(), 0, 0, 0]);
        list.case('h', &channels, &[byte]);
    }
    for byte in 0..=255 {
        let colorspace = answer(ColorSpace::try_from(byte), |s| [s.as_u8().into(), 0, 0, 0]);
        list.case('i', &colorspace, &[byte]);
    }
}

pub fn record(list: &mut List) {
    cut_short(list);
    one_fault(list);
    several_faults(list);
    good(list);
    made(list);
    room(list);
    written(list);
    bytes(list);
}
