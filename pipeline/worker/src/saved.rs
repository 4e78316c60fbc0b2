//! What stands in the record's file: the record's bytes, a sum over the message, and a sum over both, eight bytes each, the lowest first. So a
//! record that was damaged, or saved for other bytes under the same number, is told from a good one, which the record alone cannot do.
use pivotshade::{Error, Record};

/// Bytes of a sum.
pub const SUM: usize = 8;

/// The file's bytes, for a record and the sum of its message.
pub fn to_bytes(record: &Record, message_sum: u64) -> Vec<u8> {
    let mut bytes = record.as_bytes().to_vec();
    bytes.extend(message_sum.to_le_bytes());
    add_sum(&mut bytes);
    bytes
}

/// Why a file gives no record.
#[derive(Clone, Copy, Debug, PartialEq, Eq)]
pub enum NoRecord {
    /// The file is what was written, and the reader refuses the record in it.
    Refused(Error),
    /// A byte of the file is not what was written: a sum does not fit.
    Damaged {
        /// What the reader says of the bytes where the record stands, if it tells at which of them they are bad.
        bad_at: Option<Error>,
    },
}

/// The record of the message that came under `number`, and the sum of that message. Refused as [`Record::from_bytes`], or as damaged.
pub fn from_bytes(bytes: &[u8], number: u64) -> Result<(Record, u64), NoRecord> {
    let (record, message_sum) = before_sum(bytes)
        .and_then(split_sum)
        .ok_or_else(|| as_damaged(bytes, number))?;
    let record = Record::from_bytes(record, number).map_err(NoRecord::Refused)?;
    Ok((record, message_sum))
}

/// What is said of a file whose sum does not fit.
fn as_damaged(bytes: &[u8], number: u64) -> NoRecord {
    let record = &bytes[..bytes.len().saturating_sub(2 * SUM)];
    let tells_where = |error: &Error| matches!(error.number(), 1 | 9);
    let refused = Record::from_bytes(record, number).err();
    NoRecord::Damaged {
        bad_at: refused.filter(tells_where),
    }
}

/// Adds a sum at the end, over all that stands before it.
pub fn add_sum(bytes: &mut Vec<u8>) {
    bytes.extend(sum(bytes).to_le_bytes());
}

/// What stands before such a sum; none where a byte is not what it was when the sum was added.
pub fn before_sum(bytes: &[u8]) -> Option<&[u8]> {
    let (before, of_them) = split_sum(bytes)?;
    (sum(before) == of_them).then_some(before)
}

/// What stands before a sum at the end, and that sum.
fn split_sum(bytes: &[u8]) -> Option<(&[u8], u64)> {
    let (before, sum) = bytes.split_at(bytes.len().checked_sub(SUM)?);
    Some((before, u64::from_le_bytes(sum.try_into().ok()?)))
}

/// A sum of 64 bits. Bytes of one length that differ within one word of eight have different sums; others have the same one by chance alone.
pub fn sum(bytes: &[u8]) -> u64 {
    // four lanes, so that one multiplication need not wait for another
    let mut lanes = [1, 2, 3, 4];
    let mut blocks = bytes.chunks_exact(SUM * lanes.len());
    for block in &mut blocks {
        for (lane, word) in lanes.iter_mut().zip(block.chunks_exact(SUM)) {
            *lane = mixed(
                *lane,
                u64::from_le_bytes(word.try_into().expect("eight bytes")),
            );
        }
    }
    let mut all = lanes.into_iter().fold(bytes.len() as u64, mixed);
    for word in blocks.remainder().chunks(SUM) {
        let mut padded = [0; SUM];
        padded[..word.len()].copy_from_slice(word);
        all = mixed(all, u64::from_le_bytes(padded));
    }
    all
}

/// Each step is undone by another one, so another word, or another sum so far, gives another sum.
fn mixed(so_far: u64, word: u64) -> u64 {
    let product = (so_far ^ word).wrapping_mul(0x9e37_79b9_7f4a_7c15);
    product ^ (product >> 32)
}

#[cfg(test)]
pub(crate) mod tests {
    use super::*;
    use pivotshade::{encode_to_vec, start, Channels};

    /// These bytes with each bit changed, cut off at each length, and a byte longer; in words, too.
    pub fn damaged(good: &[u8]) -> impl Iterator<Item = (String, Vec<u8>)> + '_ {
        let changed = (0..8 * good.len()).map(move |bit| {
            let mut bad = good.to_vec();
            bad[bit / 8] ^= 1 << (bit % 8);
            (format!("bit {bit}"), bad)
        });
        let cut =
            (0..good.len()).map(move |length| (format!("{length} bytes"), good[..length].to_vec()));
        let longer = [good, &[0]].concat();
        changed
            .chain(cut)
            .chain([("a byte more".to_owned(), longer)])
    }

    #[test]
    fn one_changed_bit_is_seen() {
        let message = encode_to_vec([1, 2, 3, 4], 1, 1).unwrap();
        let record = start(&message, 17, Channels::Rgba).unwrap();
        let good = to_bytes(&record, sum(&message));
        assert_eq!(from_bytes(&good, 17), Ok((record, sum(&message))));
        let other = Error::OtherMessage { number: 17 };
        assert_eq!(from_bytes(&good, 16), Err(NoRecord::Refused(other)));
        for (what, bad) in damaged(&good) {
            // the damage comes before the number, whichever is expected
            for number in [16, 17] {
                let refused = from_bytes(&bad, number);
                let is_damage = matches!(refused, Err(NoRecord::Damaged { .. }));
                assert!(is_damage, "{what}: {refused:?}");
            }
        }
    }

    /// A file of a record whose numbers are a byte each, with these bytes in the place of the one at `at`; and whether its sums fit again.
    fn spoilt(at: usize, bytes: &[u8], fits: bool) -> Vec<u8> {
        let message = encode_to_vec([1, 2, 3, 4], 1, 1).unwrap();
        let record = start(&message, 17, Channels::Rgba).unwrap();
        let mut file = to_bytes(&record, sum(&message));
        file.splice(at..at + 1, bytes.iter().copied());
        if fits {
            file.truncate(file.len() - SUM);
            add_sum(&mut file);
        }
        file
    }

    #[test]
    fn the_spoilt_number_is_told_whether_the_sums_fit_or_not() {
        for at in [14, 15, 16, 277] {
            let error = Error::BadRecord { at };
            let not_shortest = [0x80, 0];
            let refused = from_bytes(&spoilt(at, &not_shortest, true), 17);
            assert_eq!(refused, Err(NoRecord::Refused(error)));
            let refused = from_bytes(&spoilt(at, &not_shortest, false), 17);
            let bad_at = Some(error);
            assert_eq!(refused, Err(NoRecord::Damaged { bad_at }));
        }
    }

    /// In the slots a damage leaves a record; of a header's, and of another number, no byte is told.
    #[test]
    fn a_damage_that_the_reader_does_not_place() {
        for (at, byte) in [(0, b'p'), (12, 5), (14, 5), (100, 9), (277, 16)] {
            let refused = from_bytes(&spoilt(at, &[byte], false), 17);
            assert_eq!(refused, Err(NoRecord::Damaged { bad_at: None }), "{at}");
        }
    }

    #[test]
    fn a_cut_header_is_told() {
        let short = [0; 2 * SUM + 13];
        let bad_at = Some(Error::UnexpectedBufferEnd);
        for length in 0..=short.len() {
            let refused = from_bytes(&short[..length], 17);
            assert_eq!(refused, Err(NoRecord::Damaged { bad_at }));
        }
    }

    #[test]
    fn a_record_without_a_number_is_cut_short() {
        let message = encode_to_vec([1, 2, 3, 4], 1, 1).unwrap();
        let record = start(&message, 17, Channels::Rgba).unwrap();
        let (_, without) = record.as_bytes().split_last().unwrap();
        let mut bytes = [without, &sum(&message).to_le_bytes()].concat();
        add_sum(&mut bytes);
        let at = without.len().try_into().unwrap();
        let refused = NoRecord::Refused(Error::CutRecord { at });
        assert_eq!(from_bytes(&bytes, 17), Err(refused));
    }

    #[test]
    fn sums_differ_for_each_bit_and_length() {
        let bytes = [0; 100];
        let mut sums: Vec<u64> = (0..=bytes.len())
            .map(|length| sum(&bytes[..length]))
            .collect();
        for bit in 0..8 * bytes.len() {
            let mut other = bytes;
            other[bit / 8] = 1 << (bit % 8);
            sums.push(sum(&other));
        }
        let all = sums.len();
        sums.sort_unstable();
        sums.dedup();
        assert_eq!(sums.len(), all);
    }
}
