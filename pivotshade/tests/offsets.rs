// Where a damaged record is bad: cut at every byte, each number spoilt in its place, each fault of state and bytes after the record, alone and together,
// in records whose numbers have other lengths.
mod common;

use common::header;
use pivotshade::{Error, Record};
use std::num::NonZeroUsize;

/// The fields of a record, by their order.
const WANTED: usize = 1;
const POSITION: usize = 2;
const PIXEL: usize = 3;
const CURRENT: usize = 4;
const NUMBER: usize = 6;
const NUMBERS: [usize; 4] = [WANTED, POSITION, PIXEL, NUMBER];

/// The pixels of the pictures here, and the number that is expected.
const PIXELS: u64 = 400_000_000;
const SENT: u64 = 300;

/// A number in its shortest form.
fn shortest(mut number: u64) -> Vec<u8> {
    let mut bytes = Vec::new();
    while number > 127 {
        bytes.push(number as u8 | 0x80);
        number /= 128;
    }
    bytes.push(number as u8);
    bytes
}

/// A record's fields, each in its bytes.
#[derive(Clone)]
struct Fields([Vec<u8>; 7]);

impl Fields {
    fn new(wanted: u64, position: u64, pixel: u64) -> Self {
        Self([
            header(b"qoif", 20_000, 20_000, 4, 0),
            shortest(wanted),
            shortest(position),
            shortest(pixel),
            vec![1, 2, 3, 255],
            vec![7; 256],
            shortest(SENT),
        ])
    }

    /// The same with other bytes in a field.
    fn with(&self, field: usize, bytes: &[u8]) -> Self {
        let mut other = self.clone();
        other.0[field] = bytes.to_vec();
        other
    }

    fn bytes(&self) -> Vec<u8> {
        self.0.concat()
    }

    fn start(&self, field: usize) -> usize {
        self.0[..field].iter().map(Vec::len).sum()
    }

    /// It is refused at a field's start, also with bytes after it.
    fn is_bad_at(&self, field: usize) {
        let bytes = self.bytes();
        is_bad(&bytes, self.start(field));
        is_bad(&[&bytes[..], &[0; 3]].concat(), self.start(field));
    }
}

/// Records that are whole, with numbers of one byte and of as many as they can have.
fn whole() -> Vec<Fields> {
    let mut all = Vec::new();
    for wanted in [3, 4] {
        for position in [14, 127, 128, 1 << 32, 1 << 63, u64::MAX] {
            for pixel in [0, 127, 128, PIXELS] {
                all.push(Fields::new(wanted, position, pixel));
            }
        }
    }
    all
}

fn is_bad(bytes: &[u8], at: usize) {
    let error = Record::from_bytes(bytes, SENT).unwrap_err();
    assert_eq!(error, Error::BadRecord { at });
    assert_eq!((error.number(), error.figures()), (9, [at as u64, 0, 0, 0]));
    assert_eq!(error.to_string(), format!("record is bad at byte {at}"));
}

fn is_cut(bytes: &[u8], at: usize) {
    let error = Record::from_bytes(bytes, SENT).unwrap_err();
    let (expected, words) = match NonZeroUsize::new(at) {
        Some(at) => (
            Error::CutRecord { at },
            format!("record is bad at byte {at} (unexpected end)"),
        ),
        None => (
            Error::UnexpectedBufferEnd,
            "unexpected input buffer end while decoding".to_owned(),
        ),
    };
    assert_eq!(error, expected);
    assert_eq!((error.number(), error.figures()), (1, [at as u64, 0, 0, 0]));
    assert_eq!(error.to_string(), words);
}

/// Forms of a number that are none: not the shortest, of every length, and a tenth byte other than 01.
fn spoilt(good: &[u8]) -> Vec<Vec<u8>> {
    let mut forms = Vec::new();
    let mut longer = good.to_vec();
    while longer.len() < 10 {
        *longer.last_mut().unwrap() |= 0x80;
        longer.push(0);
        forms.push(longer.clone());
    }
    for low in [0x80, 0xff] {
        for tenth in (0..=255).filter(|&tenth| tenth != 1) {
            forms.push([vec![low; 9], vec![tenth]].concat());
        }
    }
    forms
}

#[test]
fn whole_ones_are_read() {
    for fields in whole() {
        let bytes = fields.bytes();
        let record = Record::from_bytes(&bytes, SENT).unwrap();
        assert_eq!(record.as_bytes(), bytes);
    }
}

#[test]
fn cut_at_every_byte() {
    for fields in whole() {
        let bytes = fields.bytes();
        for field in 0..fields.0.len() {
            let start = fields.start(field);
            for length in start..start + fields.0[field].len() {
                is_cut(&bytes[..length], start);
            }
        }
    }
}

#[test]
fn numbers_spoilt_in_each_place() {
    for fields in whole() {
        for field in NUMBERS {
            for form in spoilt(&fields.0[field]) {
                fields.with(field, &form).is_bad_at(field);
            }
        }
    }
}

/// Ten bytes with the top bit set and no end are a tenth byte other than 01; fewer are cut.
#[test]
fn numbers_without_an_end() {
    for fields in whole() {
        let before = &fields.bytes()[..fields.start(NUMBER)];
        for length in 0..=12 {
            let bytes = [before, &vec![0x81; length]].concat();
            if length < 10 {
                is_cut(&bytes, before.len());
            } else {
                is_bad(&bytes, before.len());
            }
        }
    }
}

#[test]
fn bytes_after_the_record() {
    for fields in whole() {
        let bytes = fields.bytes();
        for more in [&[0][..], &[1], &[0x80], &[0xff; 10], &bytes] {
            is_bad(&[&bytes[..], more].concat(), bytes.len());
        }
    }
}

/// Each fault of state, of which the first is told; the message's number is read before any of them.
#[test]
fn faults_of_state() {
    let positions = (0..14).chain([500]);
    let pixels = [0, PIXELS, PIXELS + 1, 1 << 32, u64::MAX];
    for (position, pixel) in positions.flat_map(|at| pixels.map(|pixel| (at, pixel))) {
        for (wanted, alpha) in [(3, 255), (3, 254), (3, 0), (4, 0)] {
            let fields = Fields::new(wanted, position, pixel).with(CURRENT, &[1, 2, 3, alpha]);
            let faults = [
                (position < 14, POSITION),
                (pixel > PIXELS, PIXEL),
                (wanted == 3 && alpha != 255, CURRENT),
            ];
            let first = match faults.iter().find(|(is_fault, _)| *is_fault) {
                Some(&(_, field)) => field,
                None => continue,
            };
            fields.is_bad_at(first);
            let (_, cut) = fields.0[NUMBER].split_last().unwrap();
            is_cut(&fields.with(NUMBER, cut).bytes(), fields.start(NUMBER));
            fields.with(NUMBER, &[0x80, 0]).is_bad_at(NUMBER);
        }
    }
}

/// Of two numbers that are spoilt, the first is told, and it comes before what a later one would be refused with.
#[test]
fn the_first_spoilt_number_is_told() {
    for fields in whole() {
        for (place, &first) in NUMBERS.iter().enumerate() {
            let spoilt = fields.with(first, &[0x80, 0]);
            for &second in &NUMBERS[place + 1..] {
                spoilt.with(second, &[0x80, 0]).is_bad_at(first);
            }
            if first < PIXEL {
                spoilt.with(PIXEL, &shortest(u64::MAX)).is_bad_at(first);
            }
            is_bad(
                &spoilt.bytes()[..spoilt.start(first) + 2],
                spoilt.start(first),
            );
        }
    }
}
