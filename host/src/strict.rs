// The strict check, which the Rust lacks, judged twice: by a walk of the chunks from document 01's rules, and by the Rust's decode.
use crate::answer::Answer;
use crate::check::MARKER;
use crate::output::is_same;
use crate::trace::Trace;
use crate::{oracle, port};

/// No longer picture is decoded: of one that takes more bytes the rules alone judge.
const MOST: u64 = 1 << 22;

/// Cut short.
const CUT: Answer = Answer::refused(1, [0; 4]);
/// No marker after the last pixel, or none to come.
const NO_MARKER: Answer = Answer::refused(8, [0; 4]);
/// A run longer than the pixels left.
const PAST: Answer = Answer::refused(10, [0; 4]);
/// Bytes after the marker.
const AFTER: Answer = Answer::refused(11, [0; 4]);

/// A chunk's bytes and pixels, by its first byte: document 01's table, apart from the one in trace.rs, so that a slip in one of them is seen.
fn sizes(first: u8) -> (usize, u64) {
    match first {
        0x00..=0x7f => (1, 1),
        0x80..=0xbf => (2, 1),
        0xc0..=0xfd => (1, u64::from(first) - 0xbf),
        0xfe => (4, 1),
        0xff => (5, 1),
    }
}

/// The end, with no pixel left: 1, 8, 11, or the chunks and the bytes.
fn closed(rest: &[u8], chunks: u64, bytes: usize) -> Answer {
    match rest.len() {
        0..=7 => CUT,
        _ if !rest.starts_with(&MARKER) => NO_MARKER,
        8 => Answer::accepted([chunks, bytes as u64, 0, 0]),
        _ => AFTER,
    }
}

/// The header's refusals; at each chunk 1, 8, 10; then the end.
pub fn by_rules(message: &[u8]) -> Answer {
    let header = oracle::header(message);
    if !header.is_accepted() {
        return header;
    }
    let [width, height, channels, _] = header.figures;
    let (mut rest, mut left, mut chunks) = (&message[14..], width * height, 0);
    while left > 0 {
        let (size, pixels) = match rest.first() {
            None => return CUT,
            // never consumed: the marker cannot follow
            Some(0xff) if channels == 3 && rest.len() >= 8 => return NO_MARKER,
            Some(0xff) if channels == 3 => return CUT,
            Some(&first) => sizes(first),
        };
        if size > rest.len() {
            return CUT;
        }
        if pixels > left {
            return PAST;
        }
        rest = &rest[size..];
        left -= pixels;
        chunks += 1;
    }
    closed(rest, chunks, message.len())
}

/// What the Rust's decode to the header's own channels tells: its refusal and, where it accepts, that nothing follows what it used. A run too long
/// brings the last pixels, so that it comes before any refusal of the end. None where the picture takes too many bytes.
fn by_rust(message: &[u8]) -> Option<Answer> {
    let [_, _, channels, _] = oracle::header(message).figures;
    let trace = match Trace::new(message, channels, MOST) {
        Err(refusal) => return Some(refusal),
        Ok(trace) => trace,
    };
    let [_, used, ..] = trace.answer.figures;
    let bytes = message.len() as u64;
    match trace.answer.number {
        7 => None,
        _ if trace.is_past => Some(PAST),
        0 if used == bytes => Some(Answer::accepted([trace.steps() as u64, bytes, 0, 0])),
        0 => Some(AFTER),
        _ => Some(trace.answer),
    }
}

/// What strict accepts, the port decodes to three channels and to four, and uses every byte.
fn is_decoded(message: &[u8]) -> Result<(), String> {
    for wanted in [3, 4] {
        let needed = oracle::needed(message, wanted).expect("a good header");
        if needed > MOST {
            continue;
        }
        let decoded = port::decode(message, wanted, &mut vec![0; needed as usize]);
        let expected = Answer::accepted([needed, message.len() as u64, 0, 0]);
        is_same(decoded, expected)
            .map_err(|text| format!("accepted, but decoded to {wanted} channels: {text}"))?;
    }
    Ok(())
}

/// What must be answered, and whether the port does.
pub fn judge(message: &[u8]) -> (Answer, Result<(), String>) {
    let (ours, rules) = (port::strict(message), by_rules(message));
    let rusts = by_rust(message).unwrap_or(rules);
    let result = if ours != rules || rusts != rules {
        Err(format!(
            "port {ours}, by the rules {rules}, by the Rust's decode {rusts}"
        ))
    } else if rules.is_accepted() {
        is_decoded(message)
    } else {
        Ok(())
    };
    (rules, result)
}
