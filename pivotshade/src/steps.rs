// The decode in steps: records of how far it is, with which another worker goes on.
use crate::error::{accepted, Result};
use crate::ffi::{self, MORE, RECORD_MAX};
use crate::header::{decode_header, Header};
use crate::types::Channels;
use std::fmt;

/// Bytes of a record before its first three numbers: the message's header.
const HEADER: usize = 14;

/// Bytes between those and its last number: the current pixel and the slots.
const PIXELS: usize = 260;

/// How far a decode is: what a worker saves, so that another one can go on from there.
///
/// A record comes from [`start`], from [`run`] or, out of a store, from [`Record::from_bytes`], which tests it. So a run refuses a record for its
/// message's number alone.
#[derive(Clone, PartialEq, Eq, Hash)]
pub struct Record {
    /// Zeros from `length` on.
    bytes: [u8; RECORD_MAX],
    length: usize,
    /// The pixels left. The bytes do not hold them: with the pixels done they are those of the header.
    left: usize,
}

impl Record {
    /// The most bytes that a record has.
    pub const MAX_LEN: usize = RECORD_MAX;

    /// The bytes to save.
    pub fn as_bytes(&self) -> &[u8] {
        &self.bytes[..self.length]
    }

    /// The record of saved bytes, for the message that came under `number`: tested by the proved reader; one byte more or less than were saved is
    /// refused too.
    ///
    /// Refused: a refusal of its header as [`decode_header`] has it, [`Error::CutRecord`](crate::Error::CutRecord) where it is cut short after that,
    /// [`Error::InvalidChannels`](crate::Error::InvalidChannels) of what it decodes to, [`Error::BadRecord`](crate::Error::BadRecord), or last of all
    /// [`Error::OtherMessage`](crate::Error::OtherMessage), a whole record of a message with another number. A damage that leaves another record of the
    /// same message cannot be told: a store that may damage its bytes needs a sum of its own over them.
    ///
    /// The fields of a record: its header, 14 bytes; the channels that it decodes to, the byte position and the pixel position, numbers of one to ten
    /// bytes each; the current pixel, 4 bytes; the slots, 256; the message's number, as the others. `CutRecord` and `BadRecord` say where the field
    /// starts that is cut or faulty.
    ///
    /// ```
    /// use pivotshade::{encode_to_vec, start, Channels, Error, Record};
    ///
    /// let record = start(encode_to_vec([10, 20, 30], 1, 1)?, 17, Channels::Rgb)?;
    /// let saved = record.as_bytes();
    /// assert_eq!(Record::from_bytes(saved, 17), Ok(record.clone()));
    /// assert_eq!(Record::from_bytes(saved, 18), Err(Error::OtherMessage { number: 17 }));
    /// assert_eq!(Record::from_bytes(&saved[1..], 17), Err(Error::InvalidChannels { channels: 0 }));
    ///
    /// // the slots are cut, which start at byte 21 here
    /// let refused = Record::from_bytes(&saved[..200], 17).unwrap_err();
    /// assert_eq!(refused.to_string(), "record is bad at byte 21 (unexpected end)");
    /// // a byte too many
    /// let refused = Record::from_bytes(&[saved, &[0]].concat(), 17).unwrap_err();
    /// assert_eq!(refused, Error::BadRecord { at: saved.len() });
    /// # Ok::<(), pivotshade::Error>(())
    /// ```
    pub fn from_bytes(bytes: &[u8], number: u64) -> Result<Self> {
        // a run of no steps looks at the record alone
        match taken_up(&[], number, bytes, &mut [], 0, Self::read)? {
            Ran::More(record) => Ok(record),
            Ran::Done { .. } => unreachable!("no steps end no decode"),
        }
    }

    /// The record in these bytes, before the pixels left are known.
    fn with_none_left(bytes: [u8; RECORD_MAX], length: u64) -> Self {
        Self {
            bytes,
            length: length as usize,
            left: 0,
        }
    }

    /// The record in these bytes: every pixel that is not done is left.
    fn read(bytes: [u8; RECORD_MAX], length: u64) -> Self {
        let mut record = Self::with_none_left(bytes, length);
        record.left = record.header().n_pixels() - record.pixels_done();
        record
    }

    /// The record in these bytes, to which a run from this one led.
    fn next(&self, bytes: [u8; RECORD_MAX], length: u64) -> Self {
        let mut next = Self::with_none_left(bytes, length);
        next.left = self.left - (next.pixels_done() - self.pixels_done());
        next
    }

    /// The number of the message that it was started on.
    pub fn number(&self) -> u64 {
        let [.., number] = self.numbers();
        number
    }

    /// The header of the message that it was started on.
    pub fn header(&self) -> Header {
        decode_header(self.as_bytes()).expect("a record's header passes its test")
    }

    /// The channels that it decodes to.
    pub fn channels(&self) -> Channels {
        let [wanted, ..] = self.numbers();
        Channels::try_from(wanted as u8).expect("a record's channels are 3 or 4")
    }

    /// How many pixels are done.
    pub fn pixels_done(&self) -> usize {
        let [_, _, pixel, _] = self.numbers();
        pixel as usize
    }

    /// How many pixels are left. With one step more than these a run ends.
    pub fn pixels_left(&self) -> usize {
        self.left
    }

    /// How many bytes of the output are done: a run from here writes only after them.
    pub fn bytes_done(&self) -> usize {
        self.pixels_done() * usize::from(self.channels().as_u8())
    }

    /// How many bytes the whole output has.
    pub fn required_buf_len(&self) -> usize {
        (self.pixels_done() + self.left) * usize::from(self.channels().as_u8())
    }

    /// Wanted channels, byte position in the message, pixel, the message's number.
    fn numbers(&self) -> [u64; 4] {
        let mut bytes = self.bytes[HEADER..].iter();
        let [wanted, position, pixel] = [(); 3].map(|()| read_number(&mut bytes));
        [wanted, position, pixel, read_number(bytes.skip(PIXELS))]
    }
}

/// A number of a record: seven bits a byte, the lowest first, the top bit set on all but the last byte.
fn read_number<'a>(bytes: impl Iterator<Item = &'a u8>) -> u64 {
    let (mut number, mut place) = (0, 0);
    for byte in bytes {
        number |= u64::from(byte & 0x7f) << place;
        place += 7;
        if byte & 0x80 == 0 {
            break;
        }
    }
    number
}

impl fmt::Debug for Record {
    fn fmt(&self, f: &mut fmt::Formatter) -> fmt::Result {
        f.debug_struct("Record")
            .field("number", &self.number())
            .field("header", &self.header())
            .field("channels", &self.channels())
            .field("pixels_done", &self.pixels_done())
            .finish_non_exhaustive()
    }
}

/// Where a run stands.
// a record stands in it as it is, since a box would take memory at every run
#[allow(clippy::large_enum_variant)]
#[derive(Clone, Debug, PartialEq, Eq)]
#[must_use]
pub enum Ran {
    /// There is more to do, from this record on.
    More(Record),
    /// The decode ended, as one in a single call ends.
    Done {
        /// Bytes of the output.
        size: usize,
        /// Bytes of the message, to the end of its marker; see [`rest`](crate::rest).
        used: usize,
    },
}

/// Starts a decode in steps of the message that came under `number`, to these channels: its first record. Nothing is decoded yet.
///
/// The number is the one that the broker gave the message, any number; every record of the decode names it. Refused as [`decode_header`].
pub fn start(message: impl AsRef<[u8]>, number: u64, channels: Channels) -> Result<Record> {
    let mut bytes = [0; RECORD_MAX];
    let wanted = channels.as_u8().into();
    let [length, ..] = accepted(ffi::start(message.as_ref(), number, wanted, &mut bytes))?;
    Ok(Record::read(bytes, length))
}

/// Goes on from a record of the message that came under `number`, for at most `steps` steps, a chunk each.
///
/// However the decode was cut into runs, and whichever of its records the last worker took up, its end is that of one undisturbed decode: the same
/// answer, and the same bytes in `out`. That is proved. With as many steps as [`Record::pixels_left`] and one more, which tests the marker, it ends;
/// `u64::MAX` is allowed.
///
/// # What the caller owes
///
/// The call cannot see these, and what it promises rests on them:
///
/// - `number` is the one that `message` came under. Under one number come always the same bytes: that is for the broker to keep, and is taken for
///   granted. Other bytes under the record's number are not refused, and the pixels are wrong; [`Record::header`] tells at least those of another
///   header.
/// - `out` holds, in its first [`Record::bytes_done`] bytes, what it held when the record came. From there on it may hold anything.
///
/// Neither is about memory: with the wrong bytes the call is as safe, and answers nonsense.
///
/// A caller that keeps its output in a file writes there only from [`Record::bytes_done`] of the record that it took up on; and it flushes
/// that before it saves the next record.
///
/// # What it leaves
///
/// No byte of `out` before [`Record::bytes_done`] is written, and none after [`Record::required_buf_len`]. Refused:
/// [`Error::OtherMessage`](crate::Error::OtherMessage) where the record is of a message with another number, and
/// [`Error::OutputBufferTooSmall`](crate::Error::OutputBufferTooSmall), with `out` as it was;
/// [`Error::UnexpectedBufferEnd`](crate::Error::UnexpectedBufferEnd) and [`Error::InvalidPadding`](crate::Error::InvalidPadding) of the message, with
/// `out` as one undisturbed decode leaves it. After any of them the same record may be handed in again.
///
/// ```
/// use pivotshade::{encode_to_vec, run, start, Channels, Ran, Record};
///
/// let pixels: Vec<u8> = (0..=255).collect();
/// let message = encode_to_vec(&pixels, 8, 8)?;
///
/// // message 17's first worker does ten steps, saves its record, goes on and is cut off
/// let mut out = vec![0; pixels.len()];
/// let record = start(&message, 17, Channels::Rgba)?;
/// let saved = match run(&message, 17, &record, &mut out, 10)? {
///     Ran::More(next) => next.as_bytes().to_vec(),
///     Ran::Done { .. } => unreachable!(),
/// };
/// out[40..].fill(0xee);
///
/// // the second one goes on from the record
/// let mut record = Record::from_bytes(&saved, 17)?;
/// assert_eq!(record.bytes_done(), 40);
/// let size = loop {
///     match run(&message, 17, &record, &mut out, 10)? {
///         Ran::More(next) => record = next,
///         Ran::Done { size, .. } => break size,
///     }
/// };
/// assert_eq!(&out[..size], pixels);
/// # Ok::<(), pivotshade::Error>(())
/// ```
pub fn run(
    message: impl AsRef<[u8]>,
    number: u64,
    record: &Record,
    out: &mut [u8],
    steps: u64,
) -> Result<Ran> {
    let next = |bytes, length| record.next(bytes, length);
    taken_up(
        message.as_ref(),
        number,
        record.as_bytes(),
        out,
        steps,
        next,
    )
}

/// A run from any bytes, which may be no record; `next` makes one of the bytes that it leaves.
fn taken_up(
    message: &[u8],
    number: u64,
    record: &[u8],
    out: &mut [u8],
    steps: u64,
    next: impl FnOnce([u8; RECORD_MAX], u64) -> Record,
) -> Result<Ran> {
    let mut bytes = [0; RECORD_MAX];
    let answer = ffi::run(message, number, record, out, steps, &mut bytes);
    if let (MORE, [length, ..]) = answer {
        return Ok(Ran::More(next(bytes, length)));
    }
    let [size, used, ..] = accepted(answer)?;
    Ok(Ran::Done {
        size: size as usize,
        used: used as usize,
    })
}
