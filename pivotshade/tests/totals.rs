// Rain totals: every answer, in its order, with what the frame and the table hold after it; and months beside a ledger of the test's own.
mod common;

use common::{header, message, picture, Random};
use pivotshade::{
    decode_header, encode_to_vec, Channels, Counted, Decoder, Error, Header, Result, Table,
};
use std::collections::HashMap;

/// What a count must answer, from a decode to four channels and sums of 128 bits; it leaves in `frame` and `table` what must stand there then.
fn as_promised(table: &mut Table, message: &[u8], hour: u64, frame: &mut [u8]) -> Result<Counted> {
    if hour > 743 {
        return Err(Error::InvalidHour { hour });
    }
    if table.marks()[hour as usize] != 0 {
        return Ok(Counted::Already);
    }
    let mut decoder = Decoder::new(message)?.with_channels(Channels::Rgba);
    decoder.decode_to_buf(&mut *frame)?;
    if decoder.header().channels.is_rgb() {
        return Err(Error::InvalidChannels { channels: 3 });
    }
    let (pixels, cells) = (decoder.header().n_pixels(), table.totals().len());
    if pixels != cells {
        return Err(Error::InvalidCellCount { pixels, cells });
    }
    let rain = cells_of(frame).into_iter().map(u128::from);
    let sums = table.totals().iter().zip(rain);
    let sums: Vec<u128> = sums
        .map(|(&total, rain)| u128::from(total) + rain)
        .collect();
    if let Some(cell) = sums.iter().position(|&sum| sum >= 1 << 64) {
        return Err(Error::TotalTooLarge { cell });
    }
    let mut marks = *table.marks();
    marks[hour as usize] = 1;
    *table = Table::from_parts(sums.into_iter().map(|sum| sum as u64).collect(), marks);
    let used = message.len() - decoder.data().len();
    Ok(Counted::Now { used })
}

/// A frame's cells: four bytes each, the first one highest.
fn cells_of(frame: &[u8]) -> Vec<u32> {
    let cells = frame.chunks_exact(4);
    cells
        .map(|cell| u32::from_be_bytes(cell.try_into().unwrap()))
        .collect()
}

/// Counts with a frame of so many bytes, which hold something already, and holds answer, frame and table to what is promised.
fn count(table: &mut Table, message: &[u8], hour: u64, room: usize) -> Result<Counted> {
    let mut frame: Vec<u8> = (0..room).map(|place| place as u8 ^ 0xa5).collect();
    let (mut promised, mut left) = (table.clone(), frame.clone());
    let answer = table.count(message, hour, &mut frame);
    let expected = as_promised(&mut promised, message, hour, &mut left);
    assert_eq!(answer, expected);
    assert_eq!(frame, left);
    assert_eq!(table.totals(), promised.totals());
    assert_eq!(table.marks(), promised.marks());
    answer
}

/// A message of four cells in one row.
fn four_cells(cells: [u32; 4]) -> Vec<u8> {
    encode_to_vec(cells.map(u32::to_be_bytes).concat(), 4, 1).unwrap()
}

/// Room for its frame, and some bytes more.
const ROOM: usize = 20;

/// A table of four cells that are full but for this, with nothing marked.
fn all_but(left: [u64; 4]) -> Table {
    Table::from_parts(left.map(|left| u64::MAX - left).to_vec(), [0; Table::HOURS])
}

#[test]
fn cells_are_big_endian_and_added() {
    let mut table = Table::fresh(4);
    let first = four_cells([1, 0x0102_0304, u32::MAX, 0]);
    let used = first.len();
    let longer = [&first[..], b"and more"].concat();
    assert_eq!(
        count(&mut table, &longer, 743, ROOM),
        Ok(Counted::Now { used })
    );
    assert_eq!(table.totals(), [1, 16_909_060, 4_294_967_295, 0]);
    let second = four_cells([2, 0, u32::MAX, 256]);
    let used = second.len();
    assert_eq!(
        count(&mut table, &second, 0, ROOM),
        Ok(Counted::Now { used })
    );
    assert_eq!(table.totals(), [3, 16_909_060, 8_589_934_590, 256]);
    let marked: Vec<u64> = (0..1000).filter(|&hour| table.is_marked(hour)).collect();
    assert_eq!(marked, [0, 743]);
    assert!(!table.is_marked(u64::MAX));
}

/// In each row all that is refused later is wrong as well.
#[test]
fn refused_in_this_order() {
    let mut marks = [0; Table::HOURS];
    marks[17] = 1;
    let mut table = Table::from_parts(vec![u64::MAX; 3], marks);
    let mut refuses = |message: &[u8], hour, room, error| {
        assert_eq!(count(&mut table, message, hour, room), Err(error));
    };
    let hours = [744, 745, 1000, 1 << 32, (1 << 32) + 17, u64::MAX];
    for hour in hours {
        refuses(b"", hour, 0, Error::InvalidHour { hour });
    }
    refuses(b"", 18, 0, Error::UnexpectedBufferEnd);
    let channels = header(b"nope", 0, 1, 5, 2);
    refuses(&channels, 18, 0, Error::InvalidChannels { channels: 5 });
    let colours = header(b"nope", 0, 1, 3, 2);
    refuses(&colours, 18, 0, Error::InvalidColorSpace { colorspace: 2 });
    let magic = header(b"nope", 0, 1, 3, 0);
    refuses(&magic, 18, 0, Error::InvalidMagic { magic: 0x6e6f7065 });
    let (width, height) = (0, 1);
    refuses(
        &header(b"qoif", width, height, 3, 0),
        18,
        0,
        Error::InvalidImageDimensions { width, height },
    );
    let three = [header(b"qoif", 2, 1, 3, 0), vec![0xfe, 7, 8, 9, 0xfe]].concat();
    let (size, required) = (7, 8);
    let too_small = Error::OutputBufferTooSmall { size, required };
    refuses(&three, 18, size, too_small);
    refuses(&three, 18, ROOM, Error::UnexpectedBufferEnd);
    let mut unmarked = message(2, 3, &[0xc1]);
    *unmarked.last_mut().unwrap() = 0;
    refuses(&unmarked, 18, ROOM, Error::InvalidPadding);
    let three = message(2, 3, &[0xc1]);
    refuses(&three, 18, ROOM, Error::InvalidChannels { channels: 3 });
    let (pixels, cells) = (2, 3);
    let two = message(2, 4, &[0xc1]);
    let cell_count = Error::InvalidCellCount { pixels, cells };
    refuses(&two, 18, ROOM, cell_count);
    let rain = message(3, 4, &[0xfe, 0, 0, 1, 0xc1]);
    refuses(&rain, 18, ROOM, Error::TotalTooLarge { cell: 0 });
    assert_eq!(count(&mut table, b"", 17, 0), Ok(Counted::Already));
}

#[test]
fn totals_up_to_the_largest() {
    let rain = four_cells([5, 6, 0, u32::MAX]);
    let used = rain.len();
    let mut full = all_but([5, 6, 0, u64::from(u32::MAX)]);
    assert_eq!(count(&mut full, &rain, 9, ROOM), Ok(Counted::Now { used }));
    assert_eq!(full.totals(), [u64::MAX; 4]);
    let dry = four_cells([0; 4]);
    let used = dry.len();
    assert_eq!(count(&mut full, &dry, 10, ROOM), Ok(Counted::Now { used }));
    // the first cell that would pass is told, whichever do
    for (left, cell) in [
        ([5, 5, 0, 0], 1),
        ([4, 5, 0, 0], 0),
        ([5, 6, 0, u64::from(u32::MAX) - 1], 3),
        ([0; 4], 0),
    ] {
        let mut table = all_but(left);
        let refused = count(&mut table, &rain, 9, ROOM);
        assert_eq!(refused, Err(Error::TotalTooLarge { cell }));
        assert_eq!(table, all_but(left));
    }
}

#[test]
fn any_mark_but_zero_is_one() {
    let rain = four_cells([1; 4]);
    let used = rain.len();
    for mark in 1..=255 {
        let mut marks = [mark; Table::HOURS];
        marks[100] = 0;
        let mut table = Table::from_parts(vec![0; 4], marks);
        assert!(table.is_marked(99) && !table.is_marked(100));
        for hour in [0, 99, 101, 743] {
            assert_eq!(count(&mut table, &rain, hour, ROOM), Ok(Counted::Already));
        }
        assert_eq!(
            count(&mut table, &rain, 100, ROOM),
            Ok(Counted::Now { used })
        );
        marks[100] = 1;
        assert_eq!(table.marks(), &marks);
    }
}

/// A frame of the month, or what stands in its place: cut short, of three channels, of another size.
fn delivered(random: &mut Random, cells: usize) -> Vec<u8> {
    let channels = if random.one_in(10) { 3 } else { 4 };
    let pixels = if random.one_in(10) { cells + 1 } else { cells };
    let picture = picture(random, pixels, channels);
    let mut message = encode_to_vec(picture, pixels as u32, 1).unwrap();
    if random.one_in(10) {
        message.truncate(random.below(message.len()));
    }
    message
}

#[test]
fn months_total_as_each_hour_once() {
    let mut random = Random::new(13);
    let (mut counted, mut already, mut refused) = (0, 0, 0);
    for _ in 0..100 {
        let cells = random.between(1, 40);
        let mut table = Table::fresh(cells);
        let mut first: HashMap<u64, Vec<u32>> = HashMap::new();
        for _ in 0..random.below(200) {
            // some hours are no hours, and most come again
            let hour = random.below(50) as u64 * 16;
            let message = delivered(&mut random, cells);
            let room = decode_header(&message).map_or(0, |header: Header| header.n_pixels() * 4);
            match count(&mut table, &message, hour, room) {
                Ok(Counted::Now { .. }) => {
                    let frame = Decoder::new(&message).unwrap().decode_to_vec().unwrap();
                    assert_eq!(first.insert(hour, cells_of(&frame)), None);
                    counted += 1;
                }
                Ok(Counted::Already) => {
                    assert!(first.contains_key(&hour));
                    already += 1;
                }
                Err(_) => refused += 1,
            }
        }
        for (cell, &total) in table.totals().iter().enumerate() {
            let sum: u64 = first.values().map(|rain| u64::from(rain[cell])).sum();
            assert_eq!(total, sum);
        }
        for hour in 0..800 {
            assert_eq!(table.is_marked(hour), first.contains_key(&hour));
        }
    }
    assert!(counted > 1000 && already > 1000 && refused > 1000);
}
