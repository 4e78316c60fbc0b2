//! What one undisturbed decode in memory answers and leaves, and whether a record and an output may be what a cut-off one left.
use crate::pictures::{as_delivered, message, Family, FAMILIES};
use crate::random::Random;
use pivotshade::{decode_header, Channels, Decoder, Error, Header, Record};
use worker::saved::{self, NoRecord};

/// A message with its number, the channels to decode it to, and what its undisturbed decode does.
pub struct Undisturbed {
    pub message: Vec<u8>,
    pub number: u64,
    pub channels: Channels,
    /// 0, or the number of the refusal.
    pub status: u8,
    /// What it writes, from the output's first byte on; less than `needed` where the message is cut short.
    pub written: Vec<u8>,
    /// Bytes of the output.
    pub needed: usize,
    sum: u64,
}

impl Undisturbed {
    pub fn new(message: Vec<u8>, number: u64, channels: Channels) -> Self {
        let (status, mut written) = decoded(&message, channels, 0);
        // a byte that is the same on whatever the output held before was written
        let (_, on_other) = decoded(&message, channels, 0xff);
        let same = written.iter().zip(&on_other).take_while(|(a, b)| a == b);
        let (needed, length) = (written.len(), same.count());
        written.truncate(length);
        Self {
            sum: saved::sum(&message),
            message,
            number,
            channels,
            status,
            written,
            needed,
        }
    }

    /// The output where it held these bytes before, or was not there: cut or lengthened by zeros, and then decoded to.
    pub fn left_on(&self, before: Option<&[u8]>) -> Vec<u8> {
        let mut out = before.unwrap_or_default().to_vec();
        out.resize(self.needed, 0);
        let decoder = Decoder::new(&self.message).expect("its header is good");
        let answer = decoder.with_channels(self.channels).decode_to_buf(&mut out);
        assert_eq!(
            answer.map_or_else(|error| error.number(), |_| 0),
            u64::from(self.status)
        );
        out
    }

    /// Some steps between two records: mostly for one to `saves` of them in all, about, and else more steps than there are.
    pub fn some_every(&self, random: &mut Random, saves: usize) -> usize {
        // a chunk has some three bytes
        let steps = self.message.len() / 3;
        match random.below(6) {
            0 => 2 * self.needed,
            _ => steps / random.between(1, saves),
        }
    }

    /// How many pixels are done where it stops.
    pub fn pixels_at_end(&self) -> usize {
        self.written.len() / usize::from(self.channels.as_u8())
    }

    fn header(&self) -> Header {
        decode_header(&self.message).expect("its header is good")
    }

    /// Whether this is the decode that a record of this message sum is of.
    fn is_of(&self, record: &Record, sum: u64) -> bool {
        (sum, record.channels(), record.header()) == (self.sum, self.channels, self.header())
    }
}

/// The decode of some picture of this family and size, as it may be delivered, at channels of any kind.
pub fn some_decode(
    random: &mut Random,
    family: Family,
    width: usize,
    height: usize,
) -> Undisturbed {
    let channels = [Channels::Rgb, Channels::Rgba];
    let own = *random.pick(&channels);
    let whole = message(random, family, own, width, height);
    let number = some_number(random);
    Undisturbed::new(as_delivered(random, whole), number, *random.pick(&channels))
}

/// The decode of another message, to the same channels, whose header is the same: the next hour's, or the previous one's.
pub fn another_hour(random: &mut Random, of: &Undisturbed) -> Undisturbed {
    let header = of.header();
    let (width, height) = (header.width as usize, header.height as usize);
    let family = *random.pick(&FAMILIES);
    let whole = message(random, family, header.channels, width, height);
    let number = another_number(random, of.number);
    Undisturbed::new(as_delivered(random, whole), number, of.channels)
}

/// A number that the broker may give a message, of any length.
fn some_number(random: &mut Random) -> u64 {
    random.next() >> random.below(64)
}

/// A number that the broker may give another message: often the next one, or one that differs in a bit.
pub fn another_number(random: &mut Random, than: u64) -> u64 {
    let another = match random.below(3) {
        0 => than.wrapping_add(1),
        1 => than ^ (1 << random.below(64)),
        _ => some_number(random),
    };
    match another == than {
        true => !than,
        false => another,
    }
}

/// Number of the refusal and the whole output, which held only this byte before.
fn decoded(message: &[u8], channels: Channels, before: u8) -> (u8, Vec<u8>) {
    let decoder = Decoder::new(message).expect("its header is good");
    let mut decoder = decoder.with_channels(channels);
    let mut out = vec![before; decoder.required_buf_len()];
    let answer = decoder.decode_to_buf(&mut out);
    (answer.map_or_else(|error| error.number() as u8, |_| 0), out)
}

/// The decode that a saved record is of, by its place among those that it may be of, and the record.
pub type Found = Option<(usize, Record)>;

/// Finds what a saved record is of, and looks whether the output holds the bytes that it speaks of. No record at all is as good as a right one.
pub fn checked_pair(
    decodes: &[&Undisturbed],
    saved: Option<&[u8]>,
    output: Option<&[u8]>,
) -> Result<Found, String> {
    let saved = match saved {
        None => return Ok(None),
        Some(saved) => saved,
    };
    let (place, record) = found_of(decodes, saved)?;
    let done = record.bytes_done();
    let written = decodes[place].written.get(..done);
    let written = written.ok_or("the record stands where the message does not come to")?;
    if done > 0 {
        let output = output.ok_or("the record speaks of an output that is not there")?;
        let (length, needed) = (output.len(), decodes[place].needed);
        if length != needed {
            return Err(format!(
                "the record is of {needed} bytes, and the output has {length}"
            ));
        }
        if let Some(at) = first_difference(output, written) {
            return Err(format!(
                "the record says that {done} bytes are done, and byte {at} is wrong"
            ));
        }
    }
    Ok(Some((place, record)))
}

/// The decode that a saved record is of, by its number, its message and its channels.
fn found_of(decodes: &[&Undisturbed], saved: &[u8]) -> Result<(usize, Record), String> {
    for (place, decode) in decodes.iter().enumerate() {
        match saved::from_bytes(saved, decode.number) {
            Ok((record, sum)) if decode.is_of(&record, sum) => return Ok((place, record)),
            Ok(_) | Err(NoRecord::Refused(Error::OtherMessage { .. })) => {}
            Err(_) => {
                let length = saved.len();
                return Err(format!("the record of {length} bytes is no whole one"));
            }
        }
    }
    Err("the record is of a decode that nobody did".into())
}

/// Looks whether an output is as it must be at the end.
pub fn checked_output(output: Option<&[u8]>, right: &[u8]) -> Result<(), String> {
    let output = output.ok_or("the output is not there at the end")?;
    if output.len() != right.len() {
        return Err(format!(
            "the output has {} bytes and not {}",
            output.len(),
            right.len()
        ));
    }
    match first_difference(output, right) {
        Some(at) => Err(format!("byte {at} of {} is wrong at the end", right.len())),
        None => Ok(()),
    }
}

/// Where two outputs first differ, as far as both go.
pub fn first_difference(a: &[u8], b: &[u8]) -> Option<usize> {
    let length = a.len().min(b.len());
    if a[..length] == b[..length] {
        return None;
    }
    a.iter().zip(b).position(|(a, b)| a != b)
}
