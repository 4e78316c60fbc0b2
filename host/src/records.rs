// Starts, and records as they are, damaged and of other messages: what the port answers is held to the Rust's reading of headers and to the reader of
// record.rs.
use crate::answer::Answer;
use crate::cases::{digit, one_of};
use crate::check::Check;
use crate::messages::{any_header, any_message, any_number, damage, header, other_number};
use crate::output::{self, is_same};
use crate::port::{self, MORE};
use crate::random::Random;
use crate::record::{first_length, of_another, put_number, Record, LONGEST};
use crate::trace::{Trace, MOST};

/// Some records that are damaged in every byte, by their messages' numbers.
const FEW: [u64; 8] = [
    0,
    127,
    128,
    1 << 32,
    1 << 63,
    u64::MAX,
    u64::MAX >> 1,
    16_384,
];

/// A record as a decode may leave it, or made up with numbers of any size.
fn any_record(random: &mut Random) -> Record {
    let wanted = 3 + random.below(2) as u64;
    let mut record = loop {
        if let Ok(trace) = Trace::new(&any_message(random), wanted, MOST) {
            let number = any_number(random);
            break trace.record(random.below(trace.steps() + 1), number);
        }
    };
    if random.one_in(3) {
        made_up(random, &mut record);
    }
    record
}

/// Other numbers, pixel and slots; the state is well formed.
fn made_up(random: &mut Random, record: &mut Record) {
    let (width, height) = *random.pick(&[(1, 1), (300, 7), (20_000, 20_000), (1, 400_000_000)]);
    let colorspace = random.below(2) as u8;
    let bytes = header(width, height, 3 + random.below(2) as u8, colorspace);
    record.header.copy_from_slice(&bytes);
    record.at = 14.max(random.next() >> random.below(64));
    let pixels = u64::from(width) * u64::from(height);
    record.pixel = pixels.min(random.next() >> random.below(64));
    record.slots = [(); 64].map(|()| (random.next() as u32).to_le_bytes());
    record.current = record.slots[0];
    if record.wanted == 3 {
        record.current[3] = 255;
    }
}

/// A number to expect: most often the record's.
fn some_expected(random: &mut Random, record: &Record) -> u64 {
    if random.one_in(4) {
        other_number(random, record.number)
    } else {
        record.number
    }
}

/// A run of no steps: it reads the record and writes it again, and looks at neither message nor output.
fn read(check: &mut Check, random: &mut Random, bytes: &[u8], number: u64) {
    let mut message = [0; 40];
    random.fill(&mut message);
    let message = &message[..random.below(40)];
    let room = match random.below(8) {
        0 => random.below(bytes.len() + 1),
        1..=3 => bytes.len() + random.below(20),
        _ => bytes.len(),
    };
    let [fill, output, ..] = random.next().to_le_bytes();
    let mut out = [output; 20];
    let mut next = vec![fill; room];
    let lent = random.below(out.len() + 1);
    let ours = port::run(message, number, bytes, &mut out[..lent], 0, &mut next);
    let found = Record::read(bytes, number);
    let length = bytes.len() as u64;
    let expected = match &found {
        Err(refusal) => *refusal,
        Ok(_) if room < bytes.len() => Answer::refused(7, [room as u64, length, 0, 0]),
        Ok(_) => Answer::refused(MORE, [length, 0, 0, 0]),
    };
    let written = if expected.number == MORE {
        bytes.len()
    } else {
        0
    };
    let result = is_same(ours, expected).and_then(|()| {
        if next[..written] != bytes[..written] {
            Err("another record comes back".to_string())
        } else if next[written..].iter().any(|&byte| byte != fill) {
            Err(format!("{ours}, and next is written to"))
        } else if out != [output; 20] {
            Err(format!("{ours}, and the output is written to"))
        } else if found.map_or(false, |record| record.write() != bytes) {
            Err("the host's own reader and writer of records differ".to_string())
        } else {
            Ok(())
        }
    });
    let call = format!("run of no steps, message {number}, next of {room} bytes");
    check.record(expected, result, &call, bytes);
}

/// Records of the first and the last place, of numbers of one byte and of ten, for three channels and for four.
fn one_of_few(which: u64) -> Record {
    let wanted = 3 + which % 2;
    let (width, height, at, pixel) = match which / 2 {
        0 => (2, 2, 14, 0),
        1 => (100, 3, 127, 300),
        2 => (20_000, 20_000, 1 << 63, 400_000_000),
        _ => (400_000_000, 1, u64::MAX, 16_384),
    };
    let mut random = Random::new(which);
    let mut record = Record {
        header: [0; 14],
        wanted,
        at,
        pixel,
        current: [1, 2, 3, 255],
        slots: [(); 64].map(|()| (random.next() as u32).to_le_bytes()),
        number: FEW[which as usize],
    };
    let bytes = header(width, height, 3 + (which / 4) as u8, (which / 4) as u8);
    record.header.copy_from_slice(&bytes);
    record
}

pub const EACH_BYTE: u64 = 2 * (LONGEST as u64 + 1) * 256 * FEW.len() as u64;

/// Each value of each byte of a few records, and of one more byte after them; for their own message, and for another one.
pub fn each_byte(check: &mut Check, case: u64) {
    let mut number = case;
    let is_own = digit(&mut number, 2) == 0;
    let place = digit(&mut number, LONGEST as u64 + 1);
    let value = digit(&mut number, 256) as u8;
    let record = one_of_few(number);
    let mut bytes = record.write();
    match bytes.get_mut(place as usize) {
        Some(byte) => *byte = value,
        None => bytes.push(value),
    }
    let expected = record.number ^ u64::from(!is_own);
    read(check, &mut Random::new(case), &bytes, expected);
}

/// The first and the last number of each length in bits, and 0.
const NUMBERS: u64 = 2 * 64 + 1;

fn number_of_length(number: &mut u64) -> u64 {
    match digit(number, NUMBERS) {
        0 => 0,
        n if n % 2 == 1 => 1 << (n / 2),
        n => u64::MAX >> (64 - n / 2),
    }
}

/// The same number, each one bit off, one more, one less, and the ends.
const EXPECTED: u64 = 1 + 64 + 4;

pub const EVERY_NUMBER: u64 = EXPECTED * NUMBERS * FEW.len() as u64;

/// Records of numbers of every length, and each number to expect that is near theirs.
pub fn every_number(check: &mut Check, case: u64) {
    let mut number = case;
    let off = digit(&mut number, EXPECTED);
    let named = number_of_length(&mut number);
    let record = Record {
        number: named,
        ..one_of_few(number)
    };
    let expected = match off {
        0 => named,
        bit @ 1..=64 => named ^ (1 << (bit - 1)),
        _ => one_of(
            &mut (off - 65),
            &[named.wrapping_add(1), named.wrapping_sub(1), 0, u64::MAX],
        ),
    };
    read(check, &mut Random::new(case), &record.write(), expected);
}

/// Records of another message than the one expected, whole ones and damaged ones: of these other faults are told.
pub fn other_messages(check: &mut Check, random: &mut Random) {
    let record = any_record(random);
    for _ in 0..20 {
        let mut bytes = record.write();
        if random.one_in(2) {
            damage_before_slots(random, &mut bytes);
        }
        let expected = other_number(random, record.number);
        read(check, random, &bytes, expected);
    }
}

pub fn truncations(check: &mut Check, random: &mut Random) {
    let record = any_record(random);
    let (bytes, expected) = (record.write(), some_expected(random, &record));
    for length in 0..=bytes.len() {
        read(check, random, &bytes[..length], expected);
    }
}

/// The slots are nine tenths of a record, and hardly any value of theirs is a fault.
fn damage_before_slots(random: &mut Random, bytes: &mut Vec<u8>) {
    let slots = bytes.split_off(35);
    for _ in 0..random.between(1, 3) {
        damage(random, bytes, 0);
    }
    bytes.extend(slots);
}

pub fn damaged(check: &mut Check, random: &mut Random) {
    let record = any_record(random);
    let good = record.write();
    for _ in 0..20 {
        let mut bytes = good.clone();
        damage_before_slots(random, &mut bytes);
        if random.one_in(4) {
            damage(random, &mut bytes, 0);
        }
        let expected = some_expected(random, &record);
        read(check, random, &bytes, expected);
    }
}

/// A number's bytes, right or wrong: not shortest, too large, cut short.
fn any_number_bytes(random: &mut Random, usual: u64) -> Vec<u8> {
    let mut bytes = Vec::new();
    let power = 1_u64 << random.below(64);
    match random.below(8) {
        0 => put_number(&mut bytes, power),
        1 => put_number(&mut bytes, power - 1),
        2 => put_number(&mut bytes, *random.pick(&[1 << 63, u64::MAX, u64::MAX - 1])),
        3 => {
            bytes.resize(9, *random.pick(&[0x80, 0xff]));
            bytes.push(*random.pick(&[0, 1, 2, 3, 0x7f, 0x80, 0x81, 0xff]));
        }
        4 => {
            // zeros put in after the last group
            put_number(&mut bytes, power % 100_000);
            *bytes.last_mut().expect("at least one") |= 0x80;
            bytes.resize(bytes.len() + random.below(10), 0x80);
            bytes.push(0);
        }
        _ => put_number(&mut bytes, usual),
    }
    bytes
}

pub fn numbers(check: &mut Check, random: &mut Random) {
    let record = any_record(random);
    for _ in 0..20 {
        let mut bytes = record.header.to_vec();
        for usual in [record.wanted, record.at, record.pixel] {
            bytes.extend(any_number_bytes(random, usual));
        }
        if random.one_in(8) {
            bytes.truncate(14 + random.below(bytes.len() - 13));
        } else {
            bytes.extend(record.current);
            bytes.extend(record.slots.concat());
            bytes.extend(any_number_bytes(random, record.number));
        }
        let expected = some_expected(random, &record);
        read(check, random, &bytes, expected);
    }
}

/// How a number stands in a record: as it is, not in the shortest form, with a tenth byte other than 01.
const FORMS: u64 = 3;

fn number_in_form(random: &mut Random, form: u64, number: u64) -> Vec<u8> {
    let mut bytes = Vec::new();
    match form {
        0 => put_number(&mut bytes, number),
        1 => {
            put_number(&mut bytes, number % (1 << 56));
            *bytes.last_mut().expect("at least one") |= 0x80;
            bytes.resize(random.between(bytes.len(), 9), 0x80);
            bytes.push(0);
        }
        _ => {
            bytes.resize(9, *random.pick(&[0x80, 0xff]));
            bytes.push(*random.pick(&[0, 2, 3, 0x7f, 0x80, 0x81, 0xff]));
        }
    }
    bytes
}

/// Each number in each form; wanted other than 3 and 4; each fault of state; the record whole, cut anywhere, with some bytes more; for its own message,
/// and for another one.
pub const FAULTS: u64 = FORMS * FORMS * FORMS * FORMS * 2 * 2 * 2 * 2 * 4 * 2 * FEW.len() as u64;

/// Every two faults of a record, and more at once.
pub fn faults(check: &mut Check, case: u64) {
    let mut number = case;
    let forms = [(); 4].map(|()| digit(&mut number, FORMS));
    let [is_five, is_before, is_past, is_clear] = [(); 4].map(|()| digit(&mut number, 2) == 1);
    let end = digit(&mut number, 4);
    let is_own = digit(&mut number, 2) == 0;
    let mut random = Random::new(case);
    let mut record = one_of_few(number);
    let expected = record.number ^ u64::from(!is_own);
    if is_five {
        record.wanted = 5;
    }
    if is_before {
        record.at = random.below(14) as u64;
    }
    if is_past {
        record.pixel = 400_000_001 + (random.next() >> random.between(1, 63));
    }
    if is_clear {
        record.current[3] = random.below(255) as u8;
    }
    let all = [record.wanted, record.at, record.pixel, record.number];
    let mut numbers = all.iter().zip(forms);
    let mut next = || {
        let (number, form) = numbers.next().expect("four");
        number_in_form(&mut random, form, *number)
    };
    let mut bytes = [&record.header[..], &next(), &next(), &next()].concat();
    bytes.extend(record.current);
    bytes.extend(record.slots.concat());
    bytes.extend(next());
    match end {
        0 => {}
        1 => bytes.truncate(random.below(bytes.len())),
        2 => bytes.push(random.byte()),
        _ => bytes.resize(bytes.len() + random.between(2, 40), random.byte()),
    }
    read(check, &mut random, &bytes, expected);
}

/// Any header, number, wanted and room for the record.
pub fn starts(check: &mut Check, random: &mut Random) {
    let mut message = match random.below(3) {
        0 => any_message(random),
        1 => any_header(random),
        _ => header(random.between(1, 9) as u32, 1, 3, 0),
    };
    if random.one_in(8) {
        message.truncate(random.below(15));
    }
    for _ in 0..10 {
        let wanted = match random.below(8) {
            0 => random.next() >> random.below(64),
            1 => (1 << random.between(8, 63)) | random.between(3, 4) as u64,
            2 => random.below(6) as u64,
            _ => random.between(3, 4) as u64,
        };
        let number = any_number(random);
        let length = first_length(number);
        let room = match random.below(2) {
            0 => length - 1 + random.below(3),
            _ => *random.pick(&[0, 14, 277, LONGEST, 1000]),
        };
        let trace = Trace::new(&message, wanted, MOST);
        let answer = match &trace {
            Err(refusal) => refusal.number,
            Ok(_) if room < length => 7,
            Ok(_) => 0,
        };
        let fill = random.byte();
        let result = output::start(&message, number, &trace, wanted, room, fill).map(drop);
        let call = format!("message {number} to {wanted} channels");
        check.case(answer, result, &call, "message", &message);
    }
}

/// Runs on an output too short, on a message that ends before the byte position, or on both; and the same for another message, which is told first.
pub fn short_runs(check: &mut Check, random: &mut Random) {
    let message = any_message(random);
    let wanted = 3 + random.below(2) as u64;
    let trace = match Trace::new(&message, wanted, MOST) {
        Ok(trace) if trace.answer.number != 7 => trace,
        _ => return,
    };
    for _ in 0..10 {
        let named = any_number(random);
        let record = trace.record(random.below(trace.steps() + 1), named);
        let number = some_expected(random, &record);
        let needed = trace.written.len();
        let room = match random.below(3) {
            0 => needed - 1,
            1 => random.below(needed),
            _ => needed + random.below(3),
        };
        let is_cut = room >= needed || random.one_in(2);
        let length = if is_cut {
            record.at as usize - random.between(1, record.at as usize)
        } else {
            message.len()
        };
        let steps = 1 + (random.next() >> random.below(64)) / 2;
        let expected = if number != named {
            of_another(named)
        } else if room < needed {
            Answer::refused(7, [room as u64, needed as u64, 0, 0])
        } else {
            Answer::refused(1, [0; 4])
        };
        let [fill, output, ..] = random.next().to_le_bytes();
        let mut out = vec![output; room];
        let mut next = [fill; LONGEST];
        let bytes = record.write();
        let ours = port::run(
            &message[..length],
            number,
            &bytes,
            &mut out,
            steps,
            &mut next,
        );
        let result = is_same(ours, expected).and_then(|()| {
            if next.iter().any(|&b| b != fill) || out.iter().any(|&b| b != output) {
                return Err(format!("{ours}, and something is written"));
            }
            Ok(())
        });
        let call =
            format!("run of {steps} steps, message {number} of {length} bytes, output of {room}");
        check.case(expected.number, result, &call, "record", &bytes);
    }
}
