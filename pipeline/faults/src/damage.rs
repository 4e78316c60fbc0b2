//! Records and outputs that are not what a worker left, or left of another message: the worker refuses to go on, touches neither, and does it all with
//! --restart.
use crate::bench::{wait, Bench, Order, Pair};
use crate::pictures::FAMILIES;
use crate::random::Random;
use crate::undisturbed::{another_hour, another_number, checked_output, some_decode, Undisturbed};
use pivotshade::{start, Channels};
use std::thread::sleep;
use std::time::Duration;
use worker::saved;

/// The numbers of the refusals of a record.
const BAD_RECORD: i32 = 9;
const OTHER_MESSAGE: i32 = 12;

/// What is not as a worker left it.
#[derive(Clone, Copy, Debug)]
enum Damage {
    RecordFlipped,
    RecordCut,
    RecordLonger,
    /// One of the record's numbers is not in its shortest form; the file's sum fits, or not.
    NumberSpoilt,
    /// The record, with its output, is the previous hour's, whose message has the same header: the number tells it, before the sum does.
    PreviousHour,
    /// The record is of another message, of any size.
    OtherMessage,
    /// The record is of other bytes under the same number.
    OtherBytes,
    /// The same, of such that differ in a bit after the header: the sum alone tells it.
    OtherBit,
    OutputCut,
    OutputGone,
    /// The worker is told to decode to other channels.
    OtherChannels,
}

const DAMAGES: [Damage; 11] = [
    Damage::RecordFlipped,
    Damage::RecordCut,
    Damage::RecordLonger,
    Damage::NumberSpoilt,
    Damage::PreviousHour,
    Damage::OtherMessage,
    Damage::OtherBytes,
    Damage::OtherBit,
    Damage::OutputCut,
    Damage::OutputGone,
    Damage::OtherChannels,
];

/// What was refused.
#[derive(Default)]
pub struct Refused {
    pub all: usize,
    /// Those that are of another message, and whole.
    pub other_messages: usize,
    /// Those of which it must be told at which byte they are bad.
    pub placed: usize,
}

/// Does each damage `times` times.
pub fn damage(bench: &Bench, random: &mut Random, times: usize) -> Result<Refused, String> {
    let mut counts = Refused::default();
    for damage in DAMAGES.iter().cycle().take(DAMAGES.len() * times) {
        let mut decode = begun_decode(random);
        let mut pair = begun(bench, random, &decode)?;
        let refusal = damage.done(random, &mut decode, &mut pair);
        refused(bench, &decode, &pair, &refusal).map_err(|words| format!("{damage:?}: {words}"))?;
        counts.all += 1;
        counts.other_messages += usize::from(refusal.status == OTHER_MESSAGE);
        counts.placed += usize::from(refusal.words.contains(AT_BYTE));
    }
    Ok(counts)
}

/// How a worker must end, and what its words must have in them.
struct Refusal {
    status: i32,
    words: String,
}

impl Refusal {
    fn bad(words: &str) -> Self {
        Self {
            status: BAD_RECORD,
            words: words.to_owned(),
        }
    }

    /// Of a record that is bad in the field, or after the fields, at this byte, as the reader ends its words.
    fn bad_at(start: usize, end: &str) -> Self {
        Self::bad(&format!("{DAMAGED}: {AT_BYTE} {start}{end};"))
    }

    /// Of the record of the message with this number.
    fn other_message(number: u64) -> Self {
        Self {
            status: OTHER_MESSAGE,
            words: format!("the record is of another message, number {number};"),
        }
    }
}

const DAMAGED: &str = "the record is damaged, or names no message";
const AT_BYTE: &str = "record is bad at byte";
const OTHER_BYTES: &str = "the record is of other bytes under the same number";

impl Damage {
    /// Does it to the pair, or to the decode that is asked for.
    fn done(self, random: &mut Random, decode: &mut Undisturbed, pair: &mut Pair) -> Refusal {
        let record = pair.record.as_mut().expect("a worker left it");
        let output = pair.output.as_mut().expect("a worker left it");
        match self {
            Self::RecordFlipped => {
                let place = random.below(record.len());
                record[place] ^= 1 << random.below(8);
                Refusal::bad(DAMAGED)
            }
            Self::RecordCut => {
                let starts = field_starts(record);
                record.truncate(random.below(record.len()));
                // the last bytes stand where the sums do
                let left = record.len().saturating_sub(2 * saved::SUM);
                let cut = starts.into_iter().rev().find(|&start| start <= left);
                Refusal::bad_at(cut.unwrap_or(0), " (unexpected end)")
            }
            Self::RecordLonger => {
                let end = record.len() - 2 * saved::SUM;
                record.push(random.next() as u8);
                Refusal::bad_at(end, "")
            }
            Self::NumberSpoilt => {
                let [wanted, position, pixel, .., number] = field_starts(record);
                let start = *random.pick(&[wanted, position, pixel, number]);
                record.splice(start..=last_byte(record, start), [0x80, 0]);
                if random.one_in(2) {
                    record.truncate(record.len() - saved::SUM);
                    saved::add_sum(record);
                }
                Refusal::bad_at(start, "")
            }
            Self::PreviousHour => {
                let previous = decode.number;
                *decode = another_hour(random, decode);
                Refusal::other_message(previous)
            }
            Self::OtherMessage => {
                let another = begun_decode(random);
                let number = another_number(random, decode.number);
                *record = first_record(&another.message, number, decode.channels);
                Refusal::other_message(number)
            }
            Self::OtherBytes => {
                let another = begun_decode(random);
                *record = first_record(&another.message, decode.number, decode.channels);
                Refusal::bad(OTHER_BYTES)
            }
            Self::OtherBit => {
                let mut another = decode.message.clone();
                *another.last_mut().expect("it has chunks") ^= 1 << random.below(8);
                *record = first_record(&another, decode.number, decode.channels);
                Refusal::bad(OTHER_BYTES)
            }
            Self::OutputCut => {
                output.truncate(random.below(output.len()));
                Refusal::bad("the output has another length")
            }
            Self::OutputGone => {
                pair.output = None;
                Refusal::bad("the output is not there")
            }
            Self::OtherChannels => {
                let channels = other(decode.channels);
                *decode = Undisturbed::new(decode.message.clone(), decode.number, channels);
                Refusal::bad("the record is of a decode to other channels")
            }
        }
    }
}

/// Where the fields of a record start that follow its header: three numbers, the current pixel, the slots, a number.
fn field_starts(record: &[u8]) -> [usize; 6] {
    let wanted = 14;
    let position = last_byte(record, wanted) + 1;
    let pixel = last_byte(record, position) + 1;
    let current = last_byte(record, pixel) + 1;
    let slots = current + 4;
    [wanted, position, pixel, current, slots, slots + 256]
}

/// Where the last byte of a number stands, which alone has not its top bit set.
fn last_byte(record: &[u8], start: usize) -> usize {
    let more = record[start..].iter().take_while(|&&byte| byte >= 0x80);
    start + more.count()
}

fn other(channels: Channels) -> Channels {
    match channels {
        Channels::Rgb => Channels::Rgba,
        Channels::Rgba => Channels::Rgb,
    }
}

/// A decode that does some pixels: a record of 0 pixels asks nothing of the output.
fn begun_decode(random: &mut Random) -> Undisturbed {
    loop {
        let family = *random.pick(&FAMILIES);
        let (width, height) = (random.between(100, 200), random.between(100, 200));
        let decode = some_decode(random, family, width, height);
        if !decode.written.is_empty() {
            return decode;
        }
    }
}

/// What a worker left that was killed once it had done some pixels, or that has ended.
fn begun(bench: &Bench, random: &mut Random, decode: &Undisturbed) -> Result<Pair, String> {
    let order = Order {
        number: decode.number,
        every: random.between(100, 3000),
        channels: decode.channels,
        restart: false,
    };
    bench.put(decode, None)?;
    let mut worker = bench.start(order)?;
    sleep(Duration::from_micros(random.below(12_000) as u64));
    // it may have ended
    let _ = worker.kill();
    wait(worker)?;
    let pair = bench.pair()?;
    let record = pair.record.as_deref();
    match record.map(|bytes| saved::from_bytes(bytes, decode.number)) {
        Some(Ok((record, _))) if record.pixels_done() > 0 => Ok(pair),
        _ => {
            bench.work(order)?;
            bench.pair()
        }
    }
}

/// What a worker saves first.
fn first_record(message: &[u8], number: u64, channels: Channels) -> Vec<u8> {
    let first = start(message, number, channels).expect("its header is good");
    saved::to_bytes(&first, saved::sum(message))
}

/// Puts the message and the pair there, and looks at what workers do, without --restart and with it.
fn refused(
    bench: &Bench,
    decode: &Undisturbed,
    pair: &Pair,
    refusal: &Refusal,
) -> Result<(), String> {
    bench.put(decode, None)?;
    bench.put_pair(pair)?;
    let order = Order {
        number: decode.number,
        every: 1000,
        channels: decode.channels,
        restart: false,
    };
    let ended = bench.work(order)?;
    if ended.status != Some(refusal.status) || !ended.words.contains(&refusal.words) {
        return Err(format!(
            "status {:?}, words {:?}",
            ended.status, ended.words
        ));
    }
    if bench.pair()? != *pair {
        return Err("a worker that refuses has changed something".into());
    }
    let ended = bench.work(Order {
        restart: true,
        ..order
    })?;
    if ended.status != Some(decode.status.into()) {
        return Err(format!(
            "with --restart status {:?} and not {}",
            ended.status, decode.status
        ));
    }
    let right = decode.left_on(pair.output.as_deref());
    checked_output(bench.pair()?.output.as_deref(), &right)
}
