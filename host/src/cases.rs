// The kinds of cases, and of decode which messages, wanted channels and outputs the port and the Rust are called with.
use crate::budgets::budgets;
use crate::check::Check;
use crate::encodes;
use crate::families;
use crate::histories::histories;
use crate::messages::{self, accepted_message, any_header, good_message, mostly_accepted};
use crate::oracle;
use crate::random::Random;
use crate::records;
use crate::stricts;
use crate::texts;

pub enum Cases {
    /// Every one of n, by its number.
    All(u64, fn(&mut Check, u64)),
    /// Made at random, one or a few at a time, until there are enough.
    Some(fn(&mut Check, &mut Random)),
    /// The same, n times fewer, each being that much longer.
    Fewer(u64, fn(&mut Check, &mut Random)),
}

pub const KINDS: [(&str, Cases); 67] = [
    (
        "headers, each byte at each place",
        Cases::All(families::HEADER_BYTES, each_header_byte),
    ),
    ("headers, every truncation", Cases::Some(cut_headers)),
    (
        "messages of 0 to 2 chunk bytes",
        Cases::All(2 * families::SHORT, short_messages),
    ),
    (
        "messages of 3 chunk bytes",
        Cases::All(2 * families::THREE_BYTES, three_bytes),
    ),
    (
        "messages of 0 to 4 of 18 chunks",
        Cases::All(2 * families::CHUNK_SEQUENCES, chunk_sequences),
    ),
    ("random messages", Cases::Some(random_messages)),
    ("good messages, every truncation", Cases::Some(truncations)),
    ("good messages, damaged", Cases::Some(damaged)),
    ("runs past the picture", Cases::Some(runs_past)),
    ("INDEX of slots never filled", Cases::Some(empty_slots)),
    ("ff in three-channel sources", Cases::Some(stuck)),
    ("bytes after the marker", Cases::Some(bytes_after)),
    ("markers damaged", Cases::Some(markers)),
    ("outputs exactly full", Cases::Some(exact_outputs)),
    ("outputs too short", Cases::Some(short_outputs)),
    ("outputs longer than needed", Cases::Some(longer_outputs)),
    ("wanted other than 3 and 4", Cases::Some(other_wanted)),
    ("histories", Cases::Fewer(10, histories)),
    ("budgets of steps", Cases::Fewer(5, budgets)),
    ("starts", Cases::Fewer(4, records::starts)),
    ("runs on too little", Cases::Fewer(10, records::short_runs)),
    (
        "records, each byte at each place",
        Cases::All(records::EACH_BYTE, records::each_byte),
    ),
    (
        "records, every truncation",
        Cases::Fewer(4, records::truncations),
    ),
    ("records, damaged", Cases::Some(records::damaged)),
    ("records, numbers in them", Cases::Some(records::numbers)),
    (
        "records, faults combined",
        Cases::All(records::FAULTS, records::faults),
    ),
    (
        "records, each number near theirs",
        Cases::All(records::EVERY_NUMBER, records::every_number),
    ),
    (
        "records of other messages",
        Cases::Fewer(4, records::other_messages),
    ),
    (
        "encode: 1x1, three channels",
        Cases::All(encodes::EVERY_RGB, encodes::one_rgb),
    ),
    (
        "encode: 1x1, four channels",
        Cases::All(encodes::EDGES_RGBA, encodes::one_rgba),
    ),
    (
        "encode: 2x1, near each range's end",
        Cases::All(encodes::NEAR_PAIRS, encodes::near_pairs),
    ),
    (
        "encode: 2 to 4 pixels, range ends",
        Cases::Some(encodes::edge_rows),
    ),
    (
        "encode: 1 to 5 of 12 pixels",
        Cases::All(encodes::FEW_ROWS, encodes::few_rows),
    ),
    ("encode: runs", Cases::All(encodes::RUNS, encodes::runs)),
    ("encode: alpha changes", Cases::Some(encodes::alphas)),
    ("encode: slot collisions", Cases::Some(encodes::collisions)),
    ("encode: textured", Cases::Some(encodes::textured)),
    ("encode: rain fields", Cases::Fewer(4, encodes::rain)),
    ("encode: longest chunks", Cases::Some(encodes::longest)),
    (
        "encode: outputs too short",
        Cases::Some(encodes::short_outputs),
    ),
    (
        "encode: outputs longer than needed",
        Cases::Some(encodes::longer_outputs),
    ),
    ("encode: wrong lengths", Cases::Some(encodes::wrong_lengths)),
    (
        "encode: faults combined",
        Cases::All(encodes::FAULTS, encodes::faults),
    ),
    ("encode: random faults", Cases::Some(encodes::random_faults)),
    (
        "strict: headers, each byte",
        Cases::All(families::HEADER_BYTES, stricts::header_bytes),
    ),
    (
        "strict: headers, every truncation",
        Cases::Fewer(4, stricts::cut_headers),
    ),
    (
        "strict: 0 to 2 chunk bytes",
        Cases::All(families::SHORT, stricts::short),
    ),
    (
        "strict: 3 chunk bytes",
        Cases::All(families::THREE_BYTES, stricts::three_bytes),
    ),
    (
        "strict: 0 to 4 of 18 chunks",
        Cases::All(families::CHUNK_SEQUENCES, stricts::chunk_sequences),
    ),
    (
        "strict: random messages",
        Cases::Fewer(4, stricts::random_chunks),
    ),
    (
        "strict: good, every truncation",
        Cases::Some(stricts::truncations),
    ),
    ("strict: good, damaged", Cases::Fewer(4, stricts::damaged)),
    (
        "strict: runs and pixels left",
        Cases::All(stricts::RUNS, stricts::runs),
    ),
    (
        "strict: runs past the picture",
        Cases::Fewer(4, stricts::runs_past),
    ),
    (
        "strict: INDEX of slots never filled",
        Cases::Fewer(20, stricts::empty_slots),
    ),
    (
        "strict: ff in three-channel sources",
        Cases::Some(stricts::stuck),
    ),
    (
        "strict: bytes after the marker",
        Cases::Fewer(4, stricts::bytes_after),
    ),
    ("strict: markers damaged", Cases::Some(stricts::markers)),
    (
        "strict: accepted messages",
        Cases::Fewer(20, stricts::accepted),
    ),
    (
        "strict: many pixels",
        Cases::All(stricts::LARGE, stricts::large),
    ),
    (
        "strict: messages of every kind",
        Cases::Fewer(10, stricts::any),
    ),
    (
        "strict: what encode writes",
        Cases::Fewer(6, stricts::encoded),
    ),
    (
        "text: figures at range ends",
        Cases::All(texts::EDGES, texts::edges),
    ),
    (
        "text: offsets in a record",
        Cases::All(texts::OFFSETS, texts::offsets),
    ),
    (
        "text: the magic's bytes",
        Cases::All(texts::MAGICS, texts::magics),
    ),
    ("text: any figures", Cases::Some(texts::any_figures)),
    (
        "text: numbers that are no refusal",
        Cases::Some(texts::no_refusals),
    ),
];

/// No output of a decode is longer, but those of the images.
const MOST: u64 = 65_536;

/// The room that the message asks for; little where that is too much, or the header bad.
pub fn room(message: &[u8], wanted: u64) -> usize {
    match oracle::needed(message, wanted) {
        Some(needed) if needed <= MOST => needed as usize,
        _ => 16,
    }
}

fn decode_exact(check: &mut Check, message: &[u8], wanted: u64) {
    check.decode(message, wanted, room(message, wanted));
}

fn decode_to_both(check: &mut Check, message: &[u8]) {
    decode_exact(check, message, 3);
    decode_exact(check, message, 4);
}

/// Takes a number apart: its last digit, of `n` digits; the others are left.
pub fn digit(number: &mut u64, n: u64) -> u64 {
    let digit = *number % n;
    *number /= n;
    digit
}

/// The one that a number's last digit picks; the other digits are left.
pub fn one_of<T: Copy>(number: &mut u64, from: &[T]) -> T {
    from[digit(number, from.len() as u64) as usize]
}

/// The sequences over n letters by number, the shorter ones first: 0 is the empty one.
pub fn sequence(mut number: u64, letters: u64) -> Vec<u8> {
    let mut sequence = Vec::new();
    while number > 0 {
        number -= 1;
        sequence.push(digit(&mut number, letters) as u8);
    }
    sequence
}

// Families of messages

fn each_header_byte(check: &mut Check, number: u64) {
    let message = families::header_byte(number);
    check.header(&message[..14]);
    decode_to_both(check, &message);
}

fn cut_headers(check: &mut Check, random: &mut Random) {
    for message in families::cuts(&families::headed(random)) {
        check.header(message);
        decode_to_both(check, message);
    }
}

/// To three channels or to four, by the number's last digit.
fn decode_to_one(check: &mut Check, mut number: u64, family: fn(u64) -> Vec<u8>) {
    let wanted = 3 + digit(&mut number, 2);
    decode_exact(check, &family(number), wanted);
}

fn short_messages(check: &mut Check, number: u64) {
    decode_to_one(check, number, families::short);
}

fn three_bytes(check: &mut Check, number: u64) {
    decode_to_one(check, number, families::three_bytes);
}

fn chunk_sequences(check: &mut Check, number: u64) {
    decode_to_one(check, number, families::chunk_sequence);
}

fn random_messages(check: &mut Check, random: &mut Random) {
    let message = families::random_chunks(random);
    decode_exact(check, &message, 3 + random.below(2) as u64);
}

fn truncations(check: &mut Check, random: &mut Random) {
    for message in families::cuts(&good_message(random, 60)) {
        decode_to_both(check, message);
    }
}

fn damaged(check: &mut Check, random: &mut Random) {
    for message in families::damaged(random) {
        decode_exact(check, &message, 3 + random.below(2) as u64);
    }
}

fn runs_past(check: &mut Check, random: &mut Random) {
    decode_to_both(check, &messages::run_past(random));
}

fn empty_slots(check: &mut Check, random: &mut Random) {
    decode_to_both(check, &messages::empty_slots(random));
}

fn stuck(check: &mut Check, random: &mut Random) {
    for message in families::stuck(random) {
        decode_to_both(check, &message);
    }
}

fn bytes_after(check: &mut Check, random: &mut Random) {
    decode_to_both(check, &messages::bytes_after(random));
}

fn markers(check: &mut Check, random: &mut Random) {
    for message in families::markers(random) {
        decode_to_both(check, &message);
    }
}

// Outputs and wanted

fn exact_outputs(check: &mut Check, random: &mut Random) {
    let most = if random.one_in(16) { 4000 } else { 400 };
    decode_to_both(check, &accepted_message(random, most));
}

fn short_outputs(check: &mut Check, random: &mut Random) {
    let message = mostly_accepted(random);
    for wanted in [3, 4] {
        let needed = room(&message, wanted);
        for room in [
            needed - 1,
            needed - wanted as usize,
            random.below(needed),
            0,
        ] {
            check.decode(&message, wanted, room);
        }
    }
}

fn longer_outputs(check: &mut Check, random: &mut Random) {
    let message = mostly_accepted(random);
    for wanted in [3, 4] {
        let needed = room(&message, wanted);
        for more in [1, 3, 4, 12, random.between(1, 100), 1000] {
            check.decode(&message, wanted, needed + more);
        }
    }
}

/// Small numbers, and large ones of which a part is 3 or 4.
fn other_wanted(check: &mut Check, random: &mut Random) {
    let mut message = mostly_accepted(random);
    if random.one_in(2) {
        message[..14].copy_from_slice(&any_header(random));
    }
    if random.one_in(8) {
        message.truncate(random.below(15));
    }
    let parts = [8, 16, 32, 63].map(|bit| 1 << bit);
    let large = parts.iter().flat_map(|part| [*part, part | 3, part | 4]);
    let small = [0, 1, 2, 5, 6, 254, 255, u64::MAX];
    for wanted in large.chain(small).chain([5 + random.next() % 1000]) {
        check.decode(&message, wanted, room(&message, 4) + random.below(3));
    }
}
