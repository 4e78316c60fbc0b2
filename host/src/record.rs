// Checkpoint records, written and read from the rules of document 01 and of document 02's alone: what the port's records, and its refusals
// of bad ones with the places in them, are held to.
use crate::answer::Answer;
use crate::oracle;

/// The most bytes that a record has, and those of a first one before its message's number.
pub const LONGEST: usize = 300;
const BEFORE_NUMBER: usize = 277;

/// The state that a record holds.
#[derive(Clone, Debug, PartialEq, Eq)]
pub struct Record {
    pub header: [u8; 14],
    pub wanted: u64,
    pub at: u64,
    pub pixel: u64,
    pub current: [u8; 4],
    pub slots: [[u8; 4]; 64],
    /// The message's.
    pub number: u64,
}

/// A record that is cut short in the field that starts at this byte of it.
fn cut_at(start: usize) -> Answer {
    Answer::refused(1, [start as u64, 0, 0, 0])
}

/// A record of which a field is bad that starts at this byte of it, or what follows it.
fn bad_at(start: usize) -> Answer {
    Answer::refused(9, [start as u64, 0, 0, 0])
}

/// A record of the message with this number, which is not the one expected.
pub fn of_another(number: u64) -> Answer {
    Answer::refused(12, [number, 0, 0, 0])
}

/// A number in groups of seven bits, the low group first, the top bit set on all bytes but the last.
pub fn put_number(bytes: &mut Vec<u8>, mut number: u64) {
    while number >= 0x80 {
        bytes.push(number as u8 | 0x80);
        number >>= 7;
    }
    bytes.push(number as u8);
}

/// The length of the first record of the message with this number.
pub fn first_length(number: u64) -> usize {
    let mut bytes = Vec::new();
    put_number(&mut bytes, number);
    BEFORE_NUMBER + bytes.len()
}

impl Record {
    pub fn write(&self) -> Vec<u8> {
        let mut bytes = Vec::with_capacity(LONGEST);
        bytes.extend(self.header);
        for number in [self.wanted, self.at, self.pixel] {
            put_number(&mut bytes, number);
        }
        bytes.extend(self.current);
        bytes.extend(self.slots.concat());
        put_number(&mut bytes, self.number);
        bytes
    }

    /// From left to right, the first fault on the way; then those of the state, then bytes after it; then another number than the one expected.
    pub fn read(bytes: &[u8], expected: u64) -> Result<Self, Answer> {
        let answer = oracle::header(bytes);
        if !answer.is_accepted() {
            return Err(answer);
        }
        let mut reader = Reader { bytes, place: 0 };
        let header = reader.array()?;
        let wanted = reader.number()?;
        if wanted != 3 && wanted != 4 {
            return Err(Answer::refused(2, [wanted.min(255), 0, 0, 0]));
        }
        let at_start = reader.place;
        let at = reader.number()?;
        let pixel_start = reader.place;
        let pixel = reader.number()?;
        let current_start = reader.place;
        let current: [u8; 4] = reader.array()?;
        let all_slots: [u8; 256] = reader.array()?;
        let number = reader.number()?;
        let [width, height, _, _] = answer.figures;
        for (is_fault, start) in [
            (at < 14, at_start),
            (pixel > width * height, pixel_start),
            (wanted == 3 && current[3] != 255, current_start),
            (reader.place < bytes.len(), reader.place),
        ] {
            if is_fault {
                return Err(bad_at(start));
            }
        }
        if number != expected {
            return Err(of_another(number));
        }
        Ok(Self {
            header,
            wanted,
            at,
            pixel,
            current,
            slots: slots_of(&all_slots),
            number,
        })
    }
}

/// Four bytes each.
fn slots_of(bytes: &[u8; 256]) -> [[u8; 4]; 64] {
    let mut slots = [[0; 4]; 64];
    for (slot, four) in slots.iter_mut().zip(bytes.chunks_exact(4)) {
        slot.copy_from_slice(four);
    }
    slots
}

/// A record, and how much of it is read.
struct Reader<'a> {
    bytes: &'a [u8],
    place: usize,
}

impl Reader<'_> {
    /// A field of N bytes.
    fn array<const N: usize>(&mut self) -> Result<[u8; N], Answer> {
        let start = self.place;
        let field = self.bytes.get(start..start + N).ok_or(cut_at(start))?;
        self.place += N;
        Ok(field.try_into().expect("as many as were asked for"))
    }

    /// A field that is a number. The last byte of the shortest form is 00 for the number 0 alone, and a tenth byte 01 always.
    fn number(&mut self) -> Result<u64, Answer> {
        let start = self.place;
        let mut number = 0;
        for group in 0..10 {
            let byte = *self.bytes.get(self.place).ok_or(cut_at(start))?;
            self.place += 1;
            if group == 9 && byte != 1 {
                return Err(bad_at(start));
            }
            number |= u64::from(byte % 128) << (7 * group);
            if byte < 128 {
                if byte == 0 && group > 0 {
                    return Err(bad_at(start));
                }
                break;
            }
        }
        Ok(number)
    }
}
